#!/usr/bin/env python3
"""Respells the repository's own definitions, lemmas, fields and bound names of specs/ and proofs/ as today's Rattle spells names: words in
snake case, a dash only where it joins the names of two definitions. It was run once, after port.py (docs/PORT.md).

    python3 tools/respell.py [FOLDER]            writes
    python3 tools/respell.py [FOLDER] --dry      prints each old name with its new one, and the names that would fall together

Changed are crates/*/specs, crates/*/proofs, the ghost lines of crates/*/src, the edits in crates/*/must-fail, and names in backquotes in README.md and docs/.
Names of functions, of exported C functions, strings, inputs and outputs stay.
"""
import collections
import glob
import os
import re
import sys

# Where the rule gives a name that something else has, or no word.
CHOSEN = {
    "getD-zeros": "get_or-zeros",
    "aegis128lMac": "mac_of_aegis128l",
    "tag-size": "tag_size_ok",
    "if-opening": "where_opening",
    "seal-tag-length": "seal_out_tag_length",
    "stream-xor-zeros": "stream_xor_call_zeros",
    "stream-xor-twice": "stream_xor_call_twice",
    "seal-finish": "seal_finished",
    "open-finish": "open_finished",
    "mac-finish": "mac_finished",
}
# Definitions of the library that a lemma's name joins by a dash.
LIBRARY = set("length append drop take set replicate zeros xors map reverse".split())

WORD = re.compile(r"[A-Za-z_\u0370-\u03ff\u2080-\u209cℕ][A-Za-z0-9_'\u2080-\u209c\u0370-\u03ffℕ-]*")
CAMEL = re.compile(r"(?<=[a-z0-9])([A-Z])")


def snake(name):
    if not re.match(r"[a-z]", name) or not re.search(r"[a-z0-9][A-Z]", name):
        return name
    return CAMEL.sub(lambda m: "_" + m.group(1).lower(), name)


def uncommented(path):
    for line in open(path, encoding="utf-8"):
        yield re.split(r"(?:^|\s)--(?:\s|-|$)", line.rstrip("\n"), 1)[0]


HEAD = re.compile(r"^( *)((?:abbrev |unfoldable |pub )*)(record |data |ruleset )?([^\s(){}:;,]+)(?= |$)(.*)$")


def read(folder):
    """The names that are defined: words are those of specs/, parts are fields and constructors, lemmas are all others."""
    words, parts, lemmas = set(), set(), set()
    for path in sorted(glob.glob(folder + "/crates/*/specs/*.antt") + glob.glob(folder + "/crates/*/proofs/*.antt")):
        inside = None
        for line in uncommented(path):
            m = HEAD.match(line)
            if not m or not line.strip():
                continue
            indent, marks, kind, name, rest = len(m[1]), m[2], m[3], m[4], m[5]
            if name in ("use", "mod", "module", "open", "where", "unfolding", "infix", "infixl", "infixr", "mutual"):
                inside = None if inside is not None and indent <= inside else inside
                continue
            if inside is not None and indent <= inside:
                inside = None
            if kind in ("record ", "data "):
                words.add(name)
                inside = indent
                continue
            # constructors may share a line: `enc dec : Mode`
            if inside is not None:
                before = re.match(r"^ *(?:pub )?([^:(){}]+?) : ", line)
                if before and indent == inside + 2:
                    parts.update(before[1].split())
                continue
            if marks or re.match(r"^ : ", rest):
                if "/specs/" in path:
                    words.add(name)
                elif "abbrev" in marks or "unfoldable" in marks:
                    words.add(name)
                else:
                    lemmas.add(name)
    return words, parts, lemmas


def renamed(folder):
    words, parts, lemmas = read(folder)
    new = dict(CHOSEN)
    known = {snake(w) for w in words} | LIBRARY
    for name in words | parts:
        if name not in new:
            new[name] = snake(name).replace("-", "_") if name in parts or "-" in name else snake(name)
    for name in lemmas:
        if name in new:
            continue
        parted = name.split("-")
        text = "_".join(snake(a) for a in parted)
        for i in range(1, len(parted)):
            left, right = ("_".join(snake(a) for a in half) for half in (parted[:i], parted[i:]))
            if left in known and right in known:
                text = left + "-" + right
        new[name] = text
    return {old: to for old, to in new.items() if old != to}, words, parts, lemmas


def main():
    args = [a for a in sys.argv[1:] if a != "--dry"]
    folder, dry = (args[0] if args else "."), "--dry" in sys.argv
    new, words, parts, lemmas = renamed(folder)
    defined = words | parts | lemmas

    def turn(token):
        if token in new:
            return new[token]
        if token in defined:
            return token
        return snake(token)

    def turn_text(text):
        return WORD.sub(lambda m: turn(m.group(0)), text)

    files = {}
    for path in sorted(glob.glob(folder + "/crates/**/*.antt", recursive=True) + glob.glob(folder + "/crates/*/must-fail/*.edit")):
        if "/out/" in path:
            continue
        files[path] = lambda t: "\n".join(l if re.match(r"^file: ", l) else turn_text(l) for l in t.split("\n"))
    for path in sorted(glob.glob(folder + "/crates/*/src/**/*.rt", recursive=True)):
        files[path] = turn_rt(turn_text)
    for path in [folder + "/README.md"] + sorted(glob.glob(folder + "/docs/*.md")):
        files[path] = lambda t: re.sub(r"`[^`\n]*`", lambda m: turn_text(m.group(0)), t)

    together = collections.defaultdict(set)
    for path, change in files.items():
        text = open(path, encoding="utf-8").read()
        seen = collections.defaultdict(set)
        if path.endswith(".antt"):
            for m in WORD.finditer(text):
                seen[turn(m.group(0))].add(m.group(0))
            for to, olds in seen.items():
                if len(olds) > 1:
                    together[(to, tuple(sorted(olds)))].add(os.path.relpath(path, folder))
        if not dry:
            after = change(text)
            if after != text:
                open(path, "w", encoding="utf-8").write(after)
    if dry:
        for old in sorted(new):
            print(old, "->", new[old])
        for (to, olds), paths in sorted(together.items()):
            print("together:", to, olds, sorted(paths)[:4])


def turn_rt(turn_text):
    def change(text):
        out, depth = [], 0
        for line in text.split("\n"):
            code = line.split("//")[0] if not re.search(r"b?\"", line) else line
            starts = re.match(r"^\s*(ghost |requires|ensures)", line)
            if depth > 0 or starts:
                out.append(turn_text(line))
                depth += code.count("{") - code.count("}")
                if starts and line.lstrip().startswith("ghost use"):
                    depth = 0 if line.rstrip().endswith(";") else max(depth, 1)
            elif "//" in line and '"' not in line:
                at = line.index("//")
                out.append(line[:at] + re.sub(r"`[^`]*`", lambda m: turn_text(m.group(0)), line[at:]))
            else:
                out.append(line)
        return "\n".join(out)

    return change


if __name__ == "__main__":
    main()
