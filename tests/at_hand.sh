#!/bin/sh
# Builds the library for the machine at hand, each archive into target/at-hand/libNAME.a, and runs a command that uses it: for tests and the
# benchmark only. The library that is shipped is the one in target/staticlib.
#
# The code is that of the proved library: while rt proves and builds an archive, the module that it hands to its compiler is kept; the same
# compiler then compiles that module with the same options, but for this machine.
# Use: tests/at_hand.sh [COMMAND ..], as in
#   tests/at_hand.sh cargo run --release --offline --manifest-path tests/Cargo.toml --bin bench
# CALLCONTROL_MACHINE names another machine, of which tests/size.sh can then tell the sizes:
#   CALLCONTROL_MACHINE=aarch64 tests/at_hand.sh tests/size.sh
set -e
root=$(cd "$(dirname "$0")/.." && pwd)
target=${CALLCONTROL_MACHINE:-$(uname -m)}
kit=$(dirname "$(dirname "$(readlink -f "$(command -v rt)")")")
made=$root/target/at-hand
rm -rf "$made"

# A kit that differs in its compiler alone. The command finds the kit that it is in, so that it stands there itself.
mkdir -p "$made/kit/bin" "$made/kit/toolchain/bin"
as_it_is() { # folder, folder of links to what is in it, what is left out ..
    from=$1
    to=$2
    shift 2
    for part in "$from"/*; do
        case " $* " in
        *" ${part##*/} "*) ;;
        *) ln -s "$part" "$to/" ;;
        esac
    done
}
as_it_is "$kit" "$made/kit" bin toolchain
as_it_is "$kit/bin" "$made/kit/bin" rt rtlib.py
as_it_is "$kit/toolchain" "$made/kit/toolchain" bin
as_it_is "$kit/toolchain/bin" "$made/kit/toolchain/bin" clang
cp "$kit/bin/rt" "$kit/bin/rtlib.py" "$made/kit/bin/"
cat >"$made/kit/toolchain/bin/clang" <<CLANG
#!/bin/sh
[ ! -f module.bc ] || cp module.bc "$made/"
printf '%s\n' "\$@" >"$made/options"
exec "$kit/toolchain/bin/clang" "\$@"
CLANG
chmod +x "$made/kit/toolchain/bin/clang"
for name in $("$root/tests/archives.sh"); do
    crate=$name
    [ "$crate" != host ] || crate=host_c
    cd "$root/crates/$crate"
    # An archive that stands already would not be compiled again.
    rm -f "out/lib$crate.a"
    "$made/kit/bin/rt" lib >"$made/log" 2>&1 || {
        cat "$made/log" >&2
        exit 1
    }

    cd "$made"
    while IFS= read -r option; do
        case $option in
        --target=*) option=--target=$target-unknown-linux-gnu ;;
        -march=*) [ "$target" = x86_64 ] || continue ;;
        esac
        printf '%s\n' "$option"
    done <options >options.here
    # The module names the machine that it was made for.
    echo -Wno-override-module >>options.here
    xargs -d '\n' "$kit/toolchain/bin/clang" <options.here
    "$kit/toolchain/bin/llvm-ar" rcs "lib$name.a" module.o
    rm -f module.o
    # For tests/size.sh, which takes the module apart.
    mv module.bc "$name.bc"
    mv options "$name.shipped"
    mv options.here "$name.here"
done
rm -rf kit rattle-kept

cd "$root"
[ $# -eq 0 ] || CALLCONTROL_LIB_DIR=$made exec "$@"
