#!/bin/sh
# The archives of the library, one for each product: every static library of crates.txt. libhost.a is that of host_c, which hands host's entries to C.
# Without arguments it prints their names. `tests/archives.sh build` proves each and writes target/staticlib/libNAME.a, and the program calltrace
# to target/bin; `tests/archives.sh build NAME ..` builds those named alone.
set -e
root=$(cd "$(dirname "$0")/.." && pwd)
names=$(sed -n 's/^\(host[a-z_]*\) staticlib *:.*/\1/p' "$root/crates.txt" | sed 's/^host_c$/host/')

# What rt says is told only where it fails.
quietly() { # command ..
    said=$(mktemp)
    if "$@" >"$said" 2>&1 </dev/null; then
        rm -f "$said"
    else
        cat "$said" >&2
        rm -f "$said"
        exit 1
    fi
}

build() { # NAME
    crate=$1
    [ "$crate" != host ] || crate=host_c
    if [ ! -d "$root/crates/$crate" ]; then
        echo "tests/archives.sh: no archive and no program $1" >&2
        exit 2
    fi
    cd "$root/crates/$crate"
    if [ "$crate" = calltrace ]; then
        quietly rt run
        mkdir -p "$root/target/bin"
        cp -f out/calltrace "$root/target/bin/"
    else
        quietly rt lib
        mkdir -p "$root/target/staticlib"
        cp -f "out/lib$crate.a" "$root/target/staticlib/lib$1.a"
    fi
}

if [ "$1" != build ]; then
    echo "$names"
    exit 0
fi
shift
[ $# -gt 0 ] || set -- $names calltrace
for name; do
    build "$name"
done
