# What nothing uses. Given docs/THEOREMS.md and then all .antt and .rt files of the crates, it prints a line for each
#   - public name of specs/ and proofs/ that no other file uses, that docs/THEOREMS.md does not have in backquotes, and that no public statement of
#     its own file speaks of, nor the body of an abbreviation, which is read wherever that is used,
#   - other name there that its own file never uses,
#   - name that a file imports, or takes from a record that it opens, and never uses,
#   - public function that nothing calls and that is not exported.
# The fields of a record go with the record, and a function's own proof (Answers.antt, Invariants.antt, Proof.antt) is for the checker. What a comment
# says is no use, and that an edit is refused by a law is none either (docs/PROMISES.md). A word ends at white space, at ( ) { } , ; and . so -, ', «, ◌
# and ₂ are letters of it.

# Rattle.aes.specs.Round is crates/aes/specs/Round.antt
function file_of(path) {
    if (!sub(/^Rattle[.]/, "", path)) return ""
    gsub(/[.]/, "/", path)
    return "crates/" path ".antt"
}

# `name as alias` becomes these two; without an alias both are the name
function halves(text) {
    gsub(/^ +| +$/, "", text)
    if (split(text, pair, / +as +/) < 2) { pair[1] = text; pair[2] = text }
    return text != ""
}

function import(line, reexported, path, n, i) {
    reexported = line ~ /^ *pub /
    sub(/^ *((pub|ghost) )*use +/, "", line)
    sub(/ *;? *$/, "", line)
    gsub(/::/, ".", line)
    if (match(line, /[.][{]/)) {
        path = file_of(substr(line, 1, RSTART - 1))
        line = substr(line, RSTART + 2)
        sub(/[}].*/, "", line)
        n = split(line, names, ",")
        for (i = 1; i <= n; i++) {
            if (!halves(names[i])) continue
            cited[path, pair[1]] = 1
            if (reexported) public[++publics] = FILENAME SUBSEP pair[2]
            else imported[++imports] = FILENAME SUBSEP pair[2]
        }
    } else {
        halves(line)
        sub(/.*[.]/, "", pair[2])
        module[FILENAME, pair[2]] = file_of(pair[1])
        imported[++imports] = FILENAME SUBSEP pair[2]
    }
}

# ---- the document: in a table a name behind a link is one of the file that it leads to; any other may be of any file

FILENAME ~ /[.]md$/ {
    if (/^\[[A-Za-z0-9]+\]: /) {
        leads[substr($1, 2, length($1) - 3)] = substr($2, 4)
        next
    }
    cells = split($0, cell, "|")
    for (c = 1; c <= cells; c++) {
        rest = cell[c]
        link = ""
        while (match(rest, /\[[A-Z][A-Za-z0-9]*\]|`[^`]*`/)) {
            text = substr(rest, RSTART + 1, RLENGTH - 2)
            if (substr(rest, RSTART, 1) == "[") link = text
            else {
                n = split(text, words, /[ \t(){},;.]+/)
                for (i = 1; i <= n; i++) named[link, words[i]] = 1
            }
            rest = substr(rest, RSTART + RLENGTH)
        }
    }
    next
}

# ---- the code: comments go, and an import over several lines becomes one

FNR == 1 { pending = ""; fields = public_head = spelt_out = -1 }
{
    if (FILENAME ~ /[.]rt$/) { sub(/[/][/].*/, ""); gsub(/[!&]/, " ") }
    else if (match($0, /(^|[ \t])--([ \t-]|$)/)) $0 = substr($0, 1, RSTART - 1)
    if (pending != "" || /^ *((pub|ghost) )*use .*[{][^}]*$/) {
        pending = pending $0
        if (!/[}]/) next
        $0 = pending
        pending = ""
    }
}
/^ *((pub|ghost) )*use / { import($0); next }
/^ *(pub )?mod / || /^ *$/ { next }
/^ *open .* use [{]/ {
    n = split(substr($0, index($0, " use {") + 6), names, /[,} ]+/)
    for (i = 1; i <= n; i++) if (names[i] != "") imported[++imports] = FILENAME SUBSEP names[i]
    $0 = substr($0, 1, index($0, " use {"))
}

{
    match($0, /^ */)
    indent = RLENGTH
    count = split($0, words, /[ \t(){},;]+/)
    at = words[1] == "" ? 2 : 1
    start = words[at]
    while (words[at] ~ /^(pub|abbrev|unfoldable|record|data|ruleset|fn)$/ && at < count) at++
    name = words[at]

    if (indent <= public_head) public_head = -1
    if (indent <= spelt_out) spelt_out = -1
    if (/^ *abbrev pub /) abbreviation[FILENAME, name, indent] = 1
    if ((FILENAME, name, indent) in abbreviation) spelt_out = indent
    if (indent <= fields) fields = -1
    if (FILENAME ~ /[.]antt$/ && fields < 0) {
        type = /^ *(pub )?(record|data) [^{]/
        clause = FILENAME ~ /Invariants[.]antt$/ && indent > 0  # of an invariant that names its clauses
        if (/^ *((abbrev|unfoldable) )?pub /) {
            public[++publics] = FILENAME SUBSEP name
            defines[FILENAME, name, indent] = 1
            public_head = indent
        } else if (type || (/^ *((abbrev|unfoldable) )?[^ (){}]+ : / && start !~ /^(let|module)$/ && !clause)) {
            private[++privates] = FILENAME SUBSEP name
            defines[FILENAME, name, indent] = 1
        }
        if (type) fields = indent
    }
    if (/^ *pub fn /) {
        sub(/<.*/, "", name)
        called[++functions] = FILENAME SUBSEP name
        defines[FILENAME, name, indent] = 1
    }
    stated_here = public_head >= 0 || spelt_out >= 0 || start == "module"
    for (i = 1; i <= count; i++) {
        n = split(words[i], parts, /[.]|::/)
        for (p = 1; p <= n; p++) {
            has[FILENAME, parts[p]] = 1
            # a clause begins with the name that it defines, which is no use of it
            if (i == at && p == 1 && ((FILENAME, name, indent) in defines)) continue
            within[FILENAME, parts[p]] = 1
            if (FILENAME ~ /[.]rt$/) calls[parts[p]] = 1
            if (stated_here) stated[FILENAME, parts[p]] = 1
        }
        if (n > 1 && ((FILENAME, parts[1]) in module)) cited[module[FILENAME, parts[1]], parts[2]] = 1
        # in code a name may stand in Option<..>, in [..; ..] or behind a ? too
        if (FILENAME ~ /[.]rt$/) {
            defined = i == at && ((FILENAME, name, indent) in defines)
            n = split(words[i], parts, /[][.<>|?*]|::/)
            for (p = 1; p <= n; p++) {
                has[FILENAME, parts[p]] = 1
                if (!defined) calls[parts[p]] = 1
            }
        }
    }
}

END {
    for (key in named) {
        split(key, pair, SUBSEP)
        if (pair[1] == "") document[pair[2]] = 1
        else document[leads[pair[1]], pair[2]] = 1
    }
    for (n = 1; n <= publics; n++) {
        split(public[n], pair, SUBSEP)
        if (pair[1] ~ /\/(Answers|Invariants|Proof)[.]antt$/ || (public[n] in cited) || (pair[2] in document) || (public[n] in document) || (public[n] in stated)) continue
        print pair[1] ": " pair[2] " is public, but no other file uses it, and docs/THEOREMS.md does not name it"
    }
    for (n = 1; n <= privates; n++) {
        split(private[n], pair, SUBSEP)
        if (!(private[n] in within)) print pair[1] ": nothing uses " pair[2]
    }
    for (n = 1; n <= imports; n++) {
        split(imported[n], pair, SUBSEP)
        sign = pair[2]
        gsub(/◌/, "", sign)
        if (!(imported[n] in has) && !((pair[1], sign) in has)) print pair[1] ": imports " pair[2] ", and does not use it"
    }
    for (n = 1; n <= functions; n++) {
        split(called[n], pair, SUBSEP)
        if (!(pair[2] in calls)) print pair[1] ": nothing calls " pair[2]
    }
}
