#!/bin/sh
# All that CI runs. After the documents comes rt ci, plain and at the top: it holds every file to the layout, proves every crate, tries the must-fail
# edits and runs the programs, each as two compilers build it. What it proved is then built into the archive and the hub program, which the examples, the
# installation and the comparison with the Rust use. The last line is rt ci's own. Any failure ends it with a line that says what failed.
set -u
cd "$(dirname "$0")/.."
RT=${RT:-rt}
unset PROCESSOR
verdict=build/rt-ci.txt
mkdir -p build || exit 1

failed() {
    echo "test: FAILED: $1" >&2
    exit 1
}

step() { # NAME COMMAND..
    name=$1
    shift
    echo "== $name"
    "$@" || failed "$name"
}

step 'the names in the documents' sh scripts/docs.sh
step 'the version' sh scripts/version.sh
step 'the headers as C and as C++' sh include/check.sh

echo '== the layout, the proofs, the must-fail edits and the programs'
crates=$(grep -cE '^[a-z]' crates.txt)
edits=$(find crates -path '*/must-fail/*.edit' | wc -l)
echo "  $crates crates and $edits edits; $verdict has all that is said"
echo unknown >build/rt-ci.status
{ "$RT" ci 2>&1; echo $? >build/rt-ci.status; } | sh scripts/progress.sh "$verdict" "$crates"
[ "$(cat build/rt-ci.status)" = 0 ] || failed 'rt ci'
grep -q '^rt: ok; ' "$verdict" || failed "rt ci has no line 'rt: ok'"
! grep -qE '^rt: ok; .*, [0-9]+ bad' "$verdict" || failed 'rt ci could not try a must-fail edit: it is bad'
tail -n 1 "$verdict" | grep -Eqx '[0-9]+ passed, 0 failed' || failed "rt ci did not end with 'N passed, 0 failed'"

step 'why the edits are refused' sh scripts/refusals.sh "$verdict"
step 'the archive for C and Rust' sh scripts/lib.sh
step 'the archive for the other processor' sh scripts/archives.sh
step 'the contracts of the exported functions' sh scripts/contracts.sh
step 'the hub program' sh scripts/hub.sh
step 'the examples in C and Rust, and the Rust crate' examples/run.sh
step 'installing and building over it' sh scripts/install-test.sh
step 'the comparison with the Rust' compare/run.sh all build/hub crates/vectors/stdin

tail -n 1 "$verdict"
