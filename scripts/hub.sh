#!/bin/sh
# Builds hub, the program that opens one sealed record from its standard input, for the processor of this machine or for the one that PROCESSOR names
# (x86_64, aarch64). For this machine it is build/hub, for another one build/PROCESSOR/hub.
#
# rt links programs for x86-64 alone, and that is the one that it proves, runs and holds to crates/hub/stdout. For aarch64 it compiles the same crate,
# and a C compiler for aarch64 links that with the system's C library.
set -eu
cd "$(dirname "$0")/.."
me=hub
. scripts/kit.sh

if [ "$PROCESSOR" = x86_64 ]; then
    # rt builds a program to run it: here on the sample record.
    # shellcheck disable=SC2086
    rt_in hub run $target <examples/record.bin || fail 'the program was not built; build/hub.txt has all that was said'
    cp crates/hub/out/hub "$work/hub"
else
    if [ "$machine" = aarch64 ]; then linker=${CC:-cc}; else linker=${CC:-aarch64-linux-gnu-gcc}; fi
    command -v "$linker" >/dev/null ||
        fail "$linker is not on the path: a C compiler for aarch64 links the program (on aarch64 Debian's package gcc, elsewhere gcc-aarch64-linux-gnu and libc6-dev-arm64-cross; CC names another)"
    # What rt compiles before it fails to link it is what is linked here: it is there only if the program is proved and compiled.
    rm -f crates/hub/out/hub.o
    # shellcheck disable=SC2086
    rt_in hub run $target </dev/null || :
    [ -f crates/hub/out/hub.o ] || fail "the program was not compiled for $PROCESSOR; build/hub.txt has all that was said"
    check_processor crates/hub/out/hub.o
    "$linker" -O2 crates/hub/out/hub.o -o "$work/hub" || fail "$linker did not link the program for $PROCESSOR"
fi
check_processor "$work/hub"
mv "$work/hub" "$out/hub"
echo "${out#"$PWD"/}/hub"
