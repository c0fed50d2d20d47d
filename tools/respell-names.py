#!/usr/bin/env python3
"""Brings the names of this repository's own definitions and lemmas to one spelling: words in snake case, types and facts in camel case.

usage: respell-names.py [FOLDER]

It reads every signature of specs/ and proofs/ below FOLDER/crates (the current folder by default) and every alias of an import, and renames those that have a dash or a capital inside:
`first-move` and `firstMove` become `first_move`, `Rules-sound` becomes `RulesSound`. Names of goals, and names that a file imports from the toolchain, stay. Code, strings and comments of src/ have none of these names.
Where two names of one file would fall together it says so and changes nothing.
"""

import collections
import os
import re
import sys

WORD = r"[^\s(){}\[\];,.:λ→=\"`]+"
SIGNATURE = re.compile(r"^\s*(?:abbrev |unfoldable )?(?:pub )?(?:abbrev |unfoldable )?(?:data |record )?(" + WORD + r"(?: " + WORD + r")*) : (.*)$")
HEAD = re.compile(r"^\s*(?:pub )?(?:data|record) (" + WORD + r")")
IMPORT = re.compile(r"^\s*(?:pub )?(?:ghost )?use ([\w.·'-]+?)\.\{(.*)\};?\s*$")
TOOLCHAIN = ("Rattle.std.", "borrow.", "Prim.", "mathlib.", "native.", "lib.", "denote.", "core.")
# Definitions whose name would be that of a function of the code beside them, or of another lemma.
APART = {
    "blankLine": "line_of_blanks",
    "byRule": "found_by_rule",
    "causeOf": "cause_of_layout",
    "endOfLine": "found_line_end",
    "endsCrlf": "ends_with_crlf",
    "faultLine": "line_of_fault",
    "firstBad": "first_bad_offset",
    "lineLength": "first_line_length",
    "lineOver": "is_line_over",
    "reportLine": "line_of_report",
    "stringToken": "found_string",
    "token-line": "line_of_token",
    "tooShort": "too_short_answer",
    "with-token": "tokens_with",
}
TOKEN = re.compile(r"(?<![\w'-])[A-Za-z][\w'-]*(?![\w'-])")


def files(top):
    for folder, dirs, names in os.walk(os.path.join(top, "crates")):
        dirs[:] = sorted(d for d in dirs if d != "out")
        for name in sorted(names):
            if name.endswith((".antt", ".rt")):
                yield os.path.join(folder, name)


def spelled(name):
    if name in APART:
        return APART[name]
    parts = re.split(r"-(?=[A-Za-z0-9])", name)
    if name[0].isupper():
        return "".join(p[0].upper() + p[1:] for p in parts)
    flat = "_".join(parts)
    return re.sub(r"(?<=[a-z0-9])([A-Z])", lambda m: "_" + m.group(1).lower(), flat)


def imports(text):
    for line in text.split("\n"):
        m = IMPORT.match(line)
        if m:
            for item in m.group(2).split(","):
                words = item.split()
                if words:
                    yield m.group(1), words[0], words[2] if len(words) == 3 and words[1] == "as" else None


def own_names(paths):
    names = set()
    for path, text in paths.items():
        if path.endswith(".antt"):
            answers = os.path.basename(path) in ("Answers.antt", "Invariants.antt", "Choices.antt")
            for line in text.split("\n"):
                m = SIGNATURE.match(line)
                if m and not line.lstrip().startswith(("let ", "use ", "pub use ")):
                    if not (answers and m.group(2).startswith(("goal.", "given."))):
                        names.update(m.group(1).split())
                m = HEAD.match(line)
                if m:
                    names.add(m.group(1))
        for module, _, alias in imports(text):
            if alias:
                names.add(alias)
    return names


def code_lines(path, text):
    """Each line with whether it may be respelled: in src/ no comment line."""
    for line in text.split("\n"):
        yield line, not (path.endswith(".rt") and line.lstrip().startswith("//"))


def main():
    top = sys.argv[1] if len(sys.argv) > 1 else "."
    paths = {}
    for p in files(top):
        with open(p, encoding="utf-8") as f:
            paths[p] = f.read()
    table = {}
    for name in own_names(paths):
        if re.fullmatch(r"[A-Za-z][\w'-]*", name):
            new = spelled(name)
            if new != name:
                table[name] = new
    clashes = []
    out = {}
    for p, text in paths.items():
        kept = {alias or name for module, name, alias in imports(text) if module.startswith(TOOLCHAIN) and not alias}
        became = collections.defaultdict(set)
        lines = []
        for line, may in code_lines(p, text):
            if may:
                def turn(m):
                    old = m.group(0)
                    new = old if old in kept or old not in table or re.search(r"(goal|given|w|c|l)\.$", line[: m.start()]) else table[old]
                    became[new].add(old)
                    return new
                line = TOKEN.sub(turn, line)
            lines.append(line)
        for new, olds in became.items():
            if len(olds) > 1:
                clashes.append(f"{p}: {' and '.join(sorted(olds))} would both be {new}")
        out[p] = "\n".join(lines)
    if "--list" in sys.argv:
        for old in sorted(table):
            print(old, table[old])
    for c in clashes:
        print(c)
    if clashes:
        return 1
    n = 0
    for p, text in out.items():
        if text != paths[p]:
            with open(p, "w", encoding="utf-8") as f:
                f.write(text)
            n += 1
    print(f"{len(table)} names, {n} files")
    return 0


if __name__ == "__main__":
    raise SystemExit(main())
