#!/bin/sh
# Installs what the tests need on a machine that is not x86-64: a compiler for x86-64 and an
# emulator. Says nothing and does nothing where all of it is there.
set -e
[ "$(uname -m)" = x86_64 ] && exit 0

packages=
need() { # command, package
    command -v "$1" >/dev/null 2>&1 || packages="$packages $2"
}
need x86_64-linux-gnu-gcc gcc-x86-64-linux-gnu
need x86_64-linux-gnu-g++ g++-x86-64-linux-gnu
need qemu-x86_64 qemu-user
# The C library for x86-64 is only recommended by its compiler.
[ -f "$(x86_64-linux-gnu-gcc -print-file-name=libc.a 2>/dev/null)" ] ||
    packages="$packages libc6-dev-amd64-cross"
[ -z "$packages" ] && exit 0

as_root=
[ "$(id -u)" = 0 ] || as_root=sudo
install() {
    $as_root env DEBIAN_FRONTEND=noninteractive \
        apt-get install -qq -y --no-install-recommends $packages </dev/null
}
log=$(mktemp)
trap 'rm -f "$log"' EXIT
if ! install >"$log" 2>&1; then
    # The lists of packages may be old or missing.
    if ! { $as_root apt-get update -qq && install; } >"$log" 2>&1; then
        cat "$log" >&2
        echo "tests/needs.sh: could not install$packages" >&2
        exit 1
    fi
fi
