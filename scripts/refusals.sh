#!/bin/sh
# Looks at why each must-fail edit was refused, in what rt ci said of it: a fact must fail. rt ci gives one error, the first that is no missing name in
# a proof. Where every error is a missing name, or the prover only met a limit, it says so, and such an edit shows nothing. Nor does one whose edited
# definition or code is wrong in itself.
#   refusals.sh FILE    (what rt ci said)
set -eu
cd "$(dirname "$0")/.."
said=${1:-build/rt-ci.txt}
[ -f "$said" ] || { echo "refusals: $said is not there: make test writes what rt ci says to it" >&2; exit 1; }
count=0 wrong=0

shows_nothing() { # WHY
    echo "refusals: $edit $1: $(echo "$line" | cut -c1-400)" >&2
    wrong=1
}

for file in crates/*/must-fail/*.edit; do
    edit=${file#crates/}
    edit=${edit%%/*}/${edit##*/}
    count=$((count + 1))
    line=$(grep -F "rt: must-fail $edit: " "$said" || :)
    why=${line#"rt: must-fail $edit: refused, as it must be"}
    case $why in
    "$line") shows_nothing 'was not refused' ;;
    ' (only by a limit '* | *'gave up at one of its limits'*) shows_nothing 'was refused only by a limit of the prover' ;;
    ' ('* | *'that can be named from here'* | *'has no field'* | *'is not in scope'* | *'was not admitted'*) shows_nothing 'was refused for its shape' ;;
    ': '*) ;;
    *) shows_nothing 'was refused, and no reason is given' ;;
    esac
    for changed in $(sed -n 's/^file: \(specs\|src\)/\1/p' "$file"); do
        ! echo "$why" | grep -qE "^: (\./)?$changed:[0-9]+:[0-9]+: error" || shows_nothing 'is wrong in itself'
    done
done
[ "$count" -gt 0 ] || { echo 'refusals: there is no must-fail edit' >&2; exit 1; }
[ "$wrong" -eq 0 ] || exit 1
echo "each of $count wrong programs is refused because a fact fails"
