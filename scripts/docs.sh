#!/bin/sh
# Holds the documents to what is there: each theorem that docs/THEOREMS.md names is a public name of the file that it links, each edit that
# docs/PROMISES.md names is there and each edit is named, the definitions have as many lines as docs/THEOREMS.md says, the functions that ask something of
# their callers are those of the table in docs/DECISIONS.md, and each link leads to a file.
# And the other way round: no law, definition, function or import is there that nothing uses and docs/THEOREMS.md does not name (uses.awk).
set -eu
cd "$(dirname "$0")/.."

wrong=$(
    # theorems: in a cell of a table a name in backquotes belongs to the link before it
    awk '
    FILENAME == "docs/THEOREMS.md" {
        if (/^\[[A-Za-z0-9]+\]: /) {
            link = substr($1, 2, length($1) - 3)
            path[link] = substr($2, 4)
        } else if (/^[|]/)
            text[++lines] = $0
        next
    }
    {
        for (i = 1; i < NF; i++)
            if ($i == "pub") {
                name = $(i + 1)
                if (name == "record" || name == "data")
                    name = $(i + 2)
                public[FILENAME, name] = 1
                seen[FILENAME] = 1
            }
    }
    END {
        for (n = 1; n <= lines; n++) {
            cells = split(text[n], cell, "|")
            for (c = 1; c <= cells; c++) {
                rest = cell[c]
                file = ""
                while (match(rest, /\[[A-Z][A-Za-z0-9]*\]|`[^`]*`/)) {
                    word = substr(rest, RSTART + 1, RLENGTH - 2)
                    if (substr(rest, RSTART, 1) == "[") {
                        file = path[word]
                        if (file == "") print "docs/THEOREMS.md: [" word "] leads nowhere"
                        else if (!(file in seen)) print "docs/THEOREMS.md: " file " has no public name, or is not there"
                    } else if (file != "" && !((file, word) in public))
                        print "docs/THEOREMS.md: " word " is no public name of " file
                    rest = substr(rest, RSTART + RLENGTH)
                }
            }
        }
    }' docs/THEOREMS.md crates/*/specs/*.antt crates/*/proofs/*.antt

    # edits
    for edit in crates/*/must-fail/*.edit; do
        name=$(basename "$edit" .edit)
        grep -qw "$name" docs/PROMISES.md || echo "docs/PROMISES.md does not name $edit"
    done
    grep -oE '\b[a-z0-9_]+/[a-z0-9_]+' docs/PROMISES.md | sort -u | while IFS=/ read -r crate name; do
        [ -d "crates/$crate/must-fail" ] || continue
        case $name in src | specs | proofs | must) continue ;; esac
        [ -f "crates/$crate/must-fail/$name.edit" ] || echo "docs/PROMISES.md: $crate/$name is no edit"
    done

    # lines of definitions, without and with comments, imports and blank lines
    grep -oE '^\| crates/[^ ]+\.antt \| [0-9]+ \| [0-9]+ \|' docs/THEOREMS.md | while read -r _ files _ bare _ all _; do
        # shellcheck disable=SC2086
        text=$(ls $files | grep -v '/Lib\.antt$' | xargs cat)
        there=$(echo "$text" | wc -l)
        [ "$there" -eq "$all" ] || echo "docs/THEOREMS.md: $files has $there lines, not $all"
        there=$(echo "$text" | grep -cv '^ *--\|^ *use \|^ *$')
        [ "$there" -eq "$bare" ] || echo "docs/THEOREMS.md: $files has $there lines without comments, not $bare"
    done

    # functions with a `requires`: in the table the names in backquotes of a row's second cell belong to the crate of the first
    find crates -name out -prune -o -path '*/src/*.rt' -print | LC_ALL=C sort | LC_ALL=C xargs awk '
    FILENAME == "docs/DECISIONS.md" {
        if (/^## /)
            within = /`requires`/
        if (within && /^[|] [a-z]/ && split($0, cell, "|") > 3) {
            crate = cell[2]
            gsub(/ /, "", crate)
            while (match(cell[3], /`[^`]*`/)) {
                name = substr(cell[3], RSTART + 1, RLENGTH - 2)
                sub(/.*::/, "", name)
                listed[crate " " name] = 1
                cell[3] = substr(cell[3], RSTART + RLENGTH)
            }
        }
        next
    }
    /^ *\/\// { next }
    match($0, /(^| )fn [a-z0-9_]+/) {
        name = substr($0, RSTART, RLENGTH)
        sub(/.*fn /, "", name)
    }
    /^ *requires / {
        split(FILENAME, folder, "/")
        asks[folder[2] " " name] = 1
    }
    END {
        for (f in asks)
            if (!(f in listed)) print "docs/DECISIONS.md does not list a function with a requires: " f
        for (f in listed)
            if (!(f in asks)) print "docs/DECISIONS.md: no function with a requires: " f
    }' docs/DECISIONS.md

    # what nothing uses
    find crates -name out -prune -o \( -name '*.antt' -o -name '*.rt' \) -print | LC_ALL=C sort | LC_ALL=C xargs awk -f scripts/uses.awk docs/THEOREMS.md

    # links
    for page in README.md docs/*.md compare/*.md examples/*.md; do
        grep -oE '\]\([^)#: ]+' "$page" | sed 's/^](//' | sort -u | while read -r link; do
            [ -e "$(dirname "$page")/$link" ] || echo "$page: $link is not there"
        done
    done
)
[ -z "$wrong" ] || { echo "$wrong" >&2; exit 1; }
echo 'every theorem, edit and file that the documents name is there, and all that is there is used'
