#!/bin/sh
# Builds the comparison offline and runs it: compare/run.sh COMMAND .. (without one, it prints the commands).
# The Rust is read from WODZERIM_RUST_SRC, docs/src or ../shared/docs/src, and copied into build/oracle, which like all of build/ is never committed.
set -eu
top=$(cd "$(dirname "$0")/.." && pwd)

# The driver's own list of commands, from its text: a word that is not there is refused before anything is built.
driver=$top/compare/driver/src/main.rs
usage=$(sed -n '/^const USAGE/,/";$/{s/^const USAGE.*"//;s/";$//;p;}' "$driver")
if ! printf '%s\n' "$usage" | grep -q "^  ${1:-none} "; then
    [ $# -eq 0 ] || echo "compare: there is no command '$1'" >&2
    printf '%s\n' "$usage" >&2
    exit 2
fi

# Something is missing: an error under CI, a note elsewhere.
missing() {
    echo "compare: $1" >&2
    if [ "${CI:-}" = true ]; then
        echo "compare: under CI that is an error" >&2
        exit 1
    fi
    echo "compare: skipped" >&2
    exit 0
}

find_rust() {
    for folder in "${WODZERIM_RUST_SRC:-}" "$top/docs/src" "$top/../shared/docs/src"; do
        if [ -f "$folder/src/pure_rust/aegis128l.rs" ]; then
            (cd "$folder" && pwd)
            return
        fi
    done
}

command -v cargo >/dev/null || missing 'cargo is not on the path: the comparison with the Rust needs Rust 1.95 or later'
rust=$(find_rust)
[ -n "$rust" ] || missing 'the Rust is neither in docs/src nor in ../shared/docs/src; WODZERIM_RUST_SRC may name its folder'
[ -f "$top/build/libwodzerim.a" ] || { echo 'compare: build/libwodzerim.a is not there: make lib builds it' >&2; exit 1; }

# The crate's files, and an empty file for each module that it names, that is not at hand and that AEGIS-128L doesn't use. They are copies, and a link
# of an earlier build goes: rt ci refuses a link anywhere in the checkout.
oracle=$top/build/oracle
mkdir -p "$oracle/src/pure_rust"
(cd "$rust/src" && find . -name '*.rs') | while read -r file; do
    [ ! -h "$oracle/src/$file" ] || rm "$oracle/src/$file"
    cmp -s "$rust/src/$file" "$oracle/src/$file" || cp "$rust/src/$file" "$oracle/src/$file"
done
for module in compat pure_rust/aegis128x2 pure_rust/aegis128x4 pure_rust/aegis256 pure_rust/aegis256x2 pure_rust/aegis256x4; do
    [ -e "$oracle/src/$module.rs" ] || : >"$oracle/src/$module.rs"
done
[ -e "$oracle/README.md" ] || : >"$oracle/README.md"

# No flags from outside: with a processor's own AES the crate would take another round.
export WODZERIM_LIB_DIR="$top/build" CARGO_TARGET_DIR="$top/build/cargo"
echo 'compare: builds the Rust and the comparison'
env -u RUSTFLAGS -u CARGO_ENCODED_RUSTFLAGS cargo build --manifest-path "$top/compare/Cargo.toml" --release --offline
compare=$top/build/cargo/release/compare
[ "$1" = instructions ] || exec "$compare" "$@"

# Instructions do not depend on the load: those of sealing 64 KiB less those of sealing nothing, for a byte.
command -v valgrind >/dev/null || missing "valgrind is not on the path (Debian's package valgrind has it)"
count() { # SIDE BYTES
    valgrind --tool=callgrind --callgrind-out-file=/dev/null "$compare" seal "$1" "$2" 2>&1 | sed -n 's/.*Collected : //p'
}
for side in ours plain table; do
    long=$(count "$side" 65536) none=$(count "$side" 0)
    [ -n "$long" ] && [ -n "$none" ] || { echo "compare: valgrind counted nothing for $side" >&2; exit 1; }
    awk -v side="$side" -v long="$long" -v none="$none" 'BEGIN { printf "%-6s %6.1f instructions a byte\n", side, (long - none) / 65536 }'
done
