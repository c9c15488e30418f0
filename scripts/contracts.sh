#!/bin/sh
# Holds the contracts of the exported functions to crates/guarantees. Each exported function states its contract in the words of the library's function
# of the same name, which it calls, and that one stands in specs/CallContracts.antt there. And a contract that is made weaker is refused there: in a
# copy of the crates aegis128l_open_piece is said to leave some plaintext buffer, whatever that holds. crates/thin is still proved; crates/guarantees must
# not be.
set -eu
cd "$(dirname "$0")/.."
me=contracts
. scripts/kit.sh

# The signature and the clauses of each public function, one to a line, and each name that the clauses import.
stated() { # CRATE
    cat "crates/$1"/src/*.rt | awk '
        /^pub (extern "C" )?fn / { within = 1; text = "" }
        within && /^\{/ { within = 0; gsub(/[ ,]+/, " ", text); gsub(/\( /, "(", text); gsub(/ \)/, ")", text); print text }
        within { sub(/^pub (extern "C" )?/, ""); text = text " " $0 }
        /^ghost use .*[{].*[}];$/ {
            path = $3; sub(/[{].*/, "", path)
            names = $0; sub(/^[^{]*[{]/, "", names); sub(/[}];$/, "", names)
            count = split(names, name, /, */)
            for (i = 1; i <= count; i++) print " import " path name[i]
        }' | sort -u
}

exporting=$(exporting_crate)
stated "$exporting" >"$work/exported"
stated thin >"$work/library"
grep -q '^ fn ' "$work/exported" || fail "crates/$exporting states no function"
other=$(grep -vxFf "$work/library" "$work/exported" || :)
[ -z "$other" ] || fail "crates/$exporting states otherwise than crates/thin: $other"
missing=$(sed -n 's/^ fn \([a-z0-9_]*\).*/\1/p' "$work/exported" | while read -r name; do
    grep -qE "Every \(linked code\.(once\.)?$name\.Symbol\.name\) thin\.(once\.)?$name\.ended " crates/guarantees/specs/CallContracts.antt || echo "$name"
done)
[ -z "$missing" ] || fail "not in crates/guarantees/specs/CallContracts.antt: $missing"

copy=$(mktemp -d)
trap 'rm -rf "$work" "$copy"' EXIT
tar cf - --exclude='crates/*/out' crates crates.txt | (cd "$copy" && tar xf -)
sed -i \
    -e '1,/^ghost use / s/^ghost use /ghost use Rattle.std.specs.Prelude.{List, ℕ};\n&/' \
    -e '/fn aegis128l_open_piece(/,/^{/ { s/OpenPieceMet/(held : List ℕ) × &/; s/plain\.new }/held }/; }' "$copy/crates/thin/src/lib.rt"
! cmp -s crates/thin/src/lib.rt "$copy/crates/thin/src/lib.rt" || fail 'the edit above finds nothing to change'
cd "$copy/crates/thin"
"$rt_file" check >"$copy/said" 2>&1 || { cat "$copy/said"; fail 'thin with the weaker contract was not proved, so nothing was shown'; }
cd "$copy/crates/guarantees"
! "$rt_file" check >"$copy/said" 2>&1 || fail 'guarantees was proved of the weaker contract'
grep -q 'proofs/Contracts\.antt.*error: `contracts`.*aegis128l_open_piece' "$copy/said" || { cat "$copy/said"; fail 'guarantees was refused for another reason'; }
echo "each of $(grep -c '^ fn ' "$work/exported") exported functions has its contract in crates/guarantees, and a weaker one is refused there"
