#!/usr/bin/env python3
"""Lists the places in crates/*/src that may be written in an older form than today's.

usage: tools/places.py [FOLDER] [POINT]

FOLDER is a checkout (default: this one), POINT one of 1 to 8 (default: all).
Each line is a place to look at; a reader decides which of them are old forms."""
import collections
import pathlib
import re
import sys

KEYWORDS = set("""as break const continue else enum false fn for if impl in let loop match mut pub ref return self
Self static struct trait true type use where while crate matches Some None Ok Err""".split())


def sources(root):
    for path in sorted(root.glob("crates/*/src/*.rt")):
        yield path.relative_to(root), path.read_text()


def functions(text):
    """Each function: its line, its name, its signature, its clauses and its body."""
    for m in re.finditer(r"^( *)(?:pub(?:\(crate\))? )?fn (\w+)", text, re.M):
        start = m.start()
        body = re.search(r"^%s\{\n(.*?)^%s\}\n|;$" % (m.group(1), m.group(1)), text[start:], re.M | re.S)
        inline = re.search(r"\) (?:-> [^{\n]+ )?\{\n(.*?)^%s\}\n" % m.group(1), text[start:], re.M | re.S)
        if inline and (not body or inline.start() < body.start()):
            body = inline
        if not body or body.group(0) == ";":
            continue
        head = text[start:start + body.start()]
        cut = re.search(r"\n +(?:requires|ensures)", head)
        signature = head[:cut.start()] if cut else head
        clauses = head[cut.start():] if cut else ""
        yield text[:start].count("\n") + 1, m.group(2), signature, clauses, body.group(1) or ""


def skeleton(signature, body):
    text = re.sub(r"//.*", "", signature + "{" + body + "}")
    words = re.findall(r"b?'(?:\\.|[^'\\])'|b?\"(?:\\.|[^\"\\])*\"|'\w+|\w+|[^\s\w]", text)
    out = []
    for w in words:
        if w in KEYWORDS or not re.match(r"[\w'\"]", w):
            out.append(w)
        else:
            out.append("x")
    text = " ".join(out)
    return re.sub(r"x(?: : : x)+", "x", text)


def say(path, line, text):
    print(f"  {path}:{line}: {' '.join(text.split())[:110]}")


def grep(root, title, pattern, flags=0):
    print(title)
    n = 0
    for path, text in sources(root):
        for m in re.finditer(pattern, text, re.M | flags):
            say(path, text[:m.start()].count("\n") + 1, m.group(0))
            n += 1
    print(f"  = {n}")


# What a search alone finds: for each point, a title, a pattern and its flags.
SEARCHES = {
    "1": (
        ("1a own enums", r"^(?:pub )?enum \w+.*?^\}", re.S),
        ("1b a method that changes something and answers a flag", r"fn \w+\(&mut self[^)]*\) -> bool"),
        ("1c a number that tells that there is none", r"^ *// .*\b0 (?:where|tells|if)\b.*"),
        ("1d numbers for kinds", r"^.*\) -> u8$|^.* as u8 == .*|^ +\*?self as u\d+$"),
        ("1e errors handed on by hand", r"^.*Err\((?:\w+)\) => (?:return )?Err\(.*|^ *None => (?:return )?Err\(.*|^ *(?:None => Ok\(None\)|Ok\(None\) => \{\}|Ok\(\w+\) => \w+),"),
        ("1f flags in records", r"^    pub(?:\(crate\))? \w+: bool,"),
    ),
    "3": (
        ("3 loops that are no `for`", r"^ *(?:while|loop)\b.*"),
    ),
    "4": (
        ("4a traits written by hand", r"^impl(?:<[^>]*>)? (?:PartialEq|Eq|PartialOrd|Ord|Clone|Copy|Default|From|TryFrom|Display|fmt::Display|Debug)\b.*"),
        ("4c the first place and other defaults written out", r"^ *offset: 0,$"),
        ("4d faults written out", r"^ *Fault \{$"),
        ("4e format strings", r"^ *format!\(in.*"),
    ),
    "6": (
        ("6a a table or a row with a number beside it in a record", r"^(?:pub )?struct \w+[^{]*\{[^}]*(?:\[\w+\]|Stack<)[^}]*(?:usize|u32),[^}]*\}", re.S),
        ("6b arrays and buffers of a fixed length", r"^.*(?:; [A-Z_]+\]|vec!\[in).*"),
    ),
}


def point2(root):
    print("2a functions of one shape")
    groups = collections.defaultdict(list)
    for path, text in sources(root):
        for line, name, signature, _, body in functions(text):
            groups[skeleton(signature, body)].append((path, line, name))
    n = 0
    for shape, places in sorted(groups.items()):
        if len(places) > 1:
            n += len(places)
            print("  shape of %d words:" % len(shape.split()))
            for path, line, name in places:
                print(f"    {path}:{line}: {name}")
    print(f"  = {n}")
    print("2b functions of one name in two files")
    names = collections.defaultdict(list)
    for path, text in sources(root):
        for line, name, *_ in functions(text):
            names[name].append(f"{path}:{line}")
    n = 0
    for name, places in sorted(names.items()):
        if len(places) > 1:
            n += len(places)
            print(f"  {name}: {', '.join(places)}")
    print(f"  = {n}")


def point4(root):
    print("4b conversions, tests and printing under another name: a function that is one match or one chain of tests with a value in each arm")
    n = 0
    for path, text in sources(root):
        for line, name, signature, _, body in functions(text):
            arms = re.findall(r"=> ([^,{]+),?$", body, re.M)
            plain = [a for a in arms if re.fullmatch(r'[\w:]+|".*"|Some\([\w:]+\)', a.strip())]
            if len(arms) > 1 and len(plain) == len(arms):
                say(path, line, signature)
                n += 1
    print(f"  = {n}")


def point5(root):
    print("5a a fact in the contracts of three or more functions of a crate")
    facts = collections.defaultdict(set)
    pairs = collections.defaultdict(set)
    for path, text in sources(root):
        crate = path.parts[1]
        for line, name, signature, clauses, _ in functions(text):
            for clause in re.findall(r"requires (?:\w+ )?\{ (.*?) \}\n", clauses + "\n"):
                facts[(crate, re.sub(r"\.(?:now|old|entry)\b", "", clause))].add(f"{path}:{line} {name}")
            params = re.findall(r"(\w+): ([^,()]+(?:<[^>]*>)?)", signature.split("->")[0])
            params = [(a, " ".join(re.sub(r"'\w+ ?", "", b).split())) for a, b in params]
            for i, a in enumerate(params):
                for b in params[i + 1:]:
                    pairs[(crate, f"{a[0]}: {a[1]}", f"{b[0]}: {b[1]}")].add(name)
    n = 0
    for (crate, fact), where in sorted(facts.items()):
        if len(where) > 2:
            n += 1
            print(f"  {crate}: {fact}: {', '.join(sorted(where))}")
    print(f"  = {n}")
    print("5b parameters that stand together in three or more functions of a crate")
    n = 0
    for (crate, a, b), where in sorted(pairs.items()):
        if len(where) > 2:
            n += 1
            print(f"  {crate}: ({a}, {b}): {', '.join(sorted(where))}")
    print(f"  = {n}")


def point7(root):
    print("7 a match over an enum of the repository, with a call in an arm")
    n = 0
    for path, text in sources(root):
        for line, name, signature, _, body in functions(text):
            if re.search(r"^ *(?:Rule|Effect|Change|Start|Found|Move|Reach|Entry|State)::\w+.*=> .*\(", body, re.M):
                say(path, line, signature)
                n += 1
    print(f"  = {n}")


def point8(root):
    files = sorted(root.glob("crates/*/proofs/**/*.antt"))
    answers = [f for f in files if f.name in ("Answers.antt", "Invariants.antt")]
    lemmas = [f for f in files if f.name not in ("Answers.antt", "Invariants.antt", "Lib.antt")]
    for title, group in (("8a files of answers and invariants", answers), ("8b files of lemmas", lemmas)):
        print(title)
        count = collections.Counter()
        size = collections.Counter()
        for f in group:
            crate = f.relative_to(root).parts[1]
            count[crate] += 1
            size[crate] += f.read_text().count("\n")
        for crate in sorted(count):
            print(f"  {crate}: {count[crate]} files, {size[crate]} lines")
        print(f"  = {sum(count.values())} files, {sum(size.values())} lines")


def main():
    root = pathlib.Path(__file__).resolve().parent.parent
    points = "12345678"
    for word in sys.argv[1:]:
        if word in points:
            points = word
        else:
            root = pathlib.Path(word).resolve()
    for p in points:
        for search in SEARCHES.get(p, ()):
            grep(root, *search)
        if "point" + p in globals():
            globals()["point" + p](root)


if __name__ == "__main__":
    main()
