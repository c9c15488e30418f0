#!/bin/sh
# Tests the Rust crate over build/libwodzerim.a, or over the one in WODZERIM_LIB_DIR: its unit tests and the examples in its documentation; then,
# without the standard library, that it builds and its unit tests.
set -eu
cd "$(dirname "$0")"
export CARGO_TARGET_DIR="${CARGO_TARGET_DIR:-$PWD/../build/cargo-rust}"

failed() {
    echo "rust: $1" >&2
    exit 1
}

# Without cargo: an error under CI, a note elsewhere.
if ! command -v cargo >/dev/null; then
    [ "${CI:-}" != true ] || failed 'cargo is not on the path; under CI that is an error'
    echo 'rust: not tested: cargo is not on the path' >&2
    exit 0
fi

cargo test --offline --quiet || failed 'a test failed'
cargo build --offline --quiet --no-default-features || failed 'it does not build without the standard library'
cargo test --offline --quiet --no-default-features --lib || failed 'a test without the standard library failed'
