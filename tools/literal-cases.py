#!/usr/bin/env python3
"""Write the cases of crates/literal_cases: its stdin, a literal in hexadecimal for each line, and its stdout, the answers of the original.

usage: literal-cases.py ORACLE

ORACLE is a program that runs the original's unindentation and unescaping: with the words `batch lexeme` it reads cases, each its
decimal length, a line feed and its bytes, and prints for each the line `line:column length hex` or `fault N line:column offset length`,
and then a line `--`. The literals are made here: by hand, every short one over a telling alphabet, and random ones, sound and damaged.
"""
import itertools, os, random, subprocess, sys

here = os.path.join(os.path.dirname(os.path.abspath(__file__)), '..', 'crates', 'literal_cases')
dice = random.Random(1858)
cases = []

def add(s):
    b = s if isinstance(s, bytes) else s.encode()
    if b not in seen:
        seen.add(b)
        cases.append(b)

seen = set()
quotes = ['"', "'", '`', '"""', "'''", '```']
# by hand
for q in quotes:
    for inner in ['', 'a', '\\', '\\n', '\\r', '\\t', '\\\\', '\\"', "\\'", '\\u', '\\u{', '\\u{}', '\\u{e9}', '\\u{E9}', '\\u{10FFFF}', '\\u{110000}', '\\u{D800}', '\\u{DFFF}', '\\u{d7ff}',
                  '\\u{e000}', '\\u{000041}', '\\u{0000041}', '\\u{12g}', '\\u{1', '\\ux', '\\x', '\\\n', '\\\r\n', '\\\r', '\\\rx', 'é', '\\é', '\\u{é}', '\\ué', '日本\\n語',
                  '\n', '\n a\n b\n', '\n  a\n \tb\n', '  \n\n\ta\n\t\tb\n\t', '\r\n  a\r\n  \r\n  b\r\n', '\n\n', ' \n \n ', '  a\n    b\n  c', '\n  \\n x\n  y\n', 'a\n\\\n  b', '\n\t\ta\n\t\\\n\tb',
                  '\n  é\n  ü\n', '   ', '\n  a\r\n  b', '\n a\n\n\n b\n ', '\n\t a\n\t b\n\t\n', '\x00', '\x7f']:
        add(q + inner + q)
        if dice.random() < 0.1:
            add(q + inner)
for s in ['', '"', '""', '"""', '""""', '"""""', '""""""', "'''''", "''", "'\"", '"\'', 'a', '"a', 'a"', '"a"b', '`a`', 'f"a"']:
    add(s)
# every short one over a telling alphabet
for n in (1, 2, 3):
    for t in itertools.product('\\nu{}1\n ', repeat=n):
        if dice.random() < (1 if n < 3 else 0.3):
            add('"' + ''.join(t) + '"')
# random ones
parts = ['a', 'b c', ' ', '  ', '\t', '\n', '\n', '\r\n', '\r', '\\n', '\\t', '\\\\', '\\"', '\\u{41}', '\\u{20AC}', '\\\n', '\\\r\n', 'é', '日', '🎵', "'", '"']
for _ in range(420):
    q = dice.choice(quotes + ['"', '"""', '"""', "'''"])
    inner = ''.join(dice.choice(parts) for _ in range(dice.randrange(0, 24)))
    s = (q + inner + q).encode()
    if dice.random() < 0.25 and len(s) > 2:
        k = dice.randrange(len(s))
        s = s[:k] + bytes([dice.choice(b'\\u{}0fx\n "')]) + s[k + dice.randrange(0, 3):]
    add(s)
for n in (100, 1000):
    add('"' + 'x\\u{1F3B5}' * n + '"')
    add("'''\n" + '    line\n\n' * n + "'''")
data = b''.join(b'%d\n%s' % (len(c), c) for c in cases)
out = subprocess.run([sys.argv[1], 'batch', 'lexeme'], input=data, stdout=subprocess.PIPE, check=True).stdout.decode()
answers = out.split('--\n')[:-1]
assert len(answers) == len(cases)
with open(os.path.join(here, 'stdin'), 'w') as f:
    f.writelines(' '.join(f'{b:02x}' for b in c) + '\n' for c in cases)
with open(os.path.join(here, 'stdout'), 'w') as f:
    f.writelines(answers)
print(len(cases), 'cases')
