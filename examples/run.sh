#!/bin/sh
# Builds the examples in C and Rust over build/libwodzerim.a into build/examples and runs them, and the tests of the Rust crate.
set -eu
top=$(cd "$(dirname "$0")/.." && pwd)
out=$top/build/examples
cc=${CC:-cc}

# A compiler that is missing: an error under CI, a note elsewhere.
have() { # COMMAND LANGUAGE
    command -v "$1" >/dev/null && return 0
    echo "examples: $1 is not on the path" >&2
    [ "${CI:-}" != true ] || { echo 'examples: under CI that is an error' >&2; exit 1; }
    echo "examples: $2 is skipped" >&2
    return 1
}

fail() {
    echo "examples: $*" >&2
    exit 1
}

[ -f "$top/build/libwodzerim.a" ] || fail 'build/libwodzerim.a is not there: make lib builds it'
mkdir -p "$out"

if have "$cc" C; then
    for source in "$top"/examples/c/*.c; do
        program=$out/$(basename "$source" .c)
        rm -f "$program"
        "$cc" -std=c11 -Wall -Wextra -Wpedantic -Werror -O2 -I "$top/include" "$source" "$top/build/libwodzerim.a" -o "$program" ||
            fail "$source does not build"
        echo "examples/c/${source##*/}:"
        "$program" || fail "$source failed"
    done
fi

if have cargo Rust; then
    export WODZERIM_LIB_DIR="$top/build"
    echo 'rust: its tests'
    sh "$top/rust/test.sh"
    echo 'examples/rust:'
    CARGO_TARGET_DIR="$out/cargo" cargo run --manifest-path "$top/examples/rust/Cargo.toml" --release --offline || fail 'the Rust example failed'
fi
