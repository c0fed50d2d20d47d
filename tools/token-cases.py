#!/usr/bin/env python3
"""Write the cases of crates/token_cases: its stdin, a text for each line, and its stdout, the original's listing of each.

usage: token-cases.py ORACLE

ORACLE is a program that runs the original's lexer, with tables of 359 levels and 1,024 openers: with the words `batch tokens` it reads texts,
each its decimal length, a line feed and its bytes, and prints for each a line for each token, or for the fault that ends them, and then a
line `--`. The texts are made here: by hand, pairs of tokens, and random ones, sound and damaged. The script ends with how many listings end
in which fault, and which kinds of token occur.
"""
import collections, itertools, os, random, subprocess, sys

here = os.path.join(os.path.dirname(os.path.abspath(__file__)), '..', 'crates', 'token_cases')
dice = random.Random(1858)
cases, seen = [], set()

def add(*texts):
    for s in texts:
        b = s if isinstance(s, bytes) else s.encode()
        if b not in seen:
            seen.add(b)
            cases.append(b)

# nothing, line ends, white space
add('', '\n', '\r\n', '\r', ' ', '\t', '\n\n', '\r\n\r\n', ' \n', '\t\n', ' \r\n', ' \r', '\r\r\n', '\n\r', 'a', 'a\n', 'a\r\n', 'a\r', 'a\rb', 'a \n b', '\x0b', '\x0c', '\x00', 'a\x00', '\x7f', '\x1b')
# every token by itself, and some twice
singles = ['&&', '*', '@', '!', '!=', '!~', '||', '{', '}', '[', ']', ':', '::', ':=', ',', '#', '# c', '$', '=', '==', '=~', '(', ')', '+', '++', '?', '/', "'s'", '"s"', '`s`', "'''s'''", '"""s"""', '```s```',
           "f's'", 'f"s"', "f'''s'''", "f's{{a}}t'", '&', '|', '~', '<', '>', '-', '%', '^', ';', '.', '\\', '{{', '}}', '{}', '[]', '()', '}{', ')(', '][', '[)', '(]', '{)', '[}', '({[]})', '({[)]}', 'a-b', '_a', 'a1', '1a',
           '-a', 'é', 'aé', '\u2028', '\ufeff', '\U0001F3B5']
for s in singles:
    add(s)
    if dice.random() < 0.3:
        add(s + s)
    if dice.random() < 0.15:
        add('a' + s, s + 'a\n')
for c in '&|!':
    add(c, c + 'a', c + 'é', 'a\n' + c + '\n', 'a:\n {{ ' + c)
# escapes of line ends in general text
for s in ['\\\n', '\\\r\n', '\\\r', '\\', '\\ \n', '\\a', 'a \\\n b', 'a \\\r\n b', 'a \\', '(\\\n)', 'a:\n b\\\n c', 'a:\n b\\\nc', '\\\n\n', 'a\\\n\\\nb', '\\é', 'é\\']:
    add(s)
# strings, whole, open and damaged
for q in ["'", '"', '`', "'''", '"""', '```']:
    for inner in ['', 'a', 'é', '\n', '\r\n', '\\', '\\\\', '\\' + q, '\\é', '{{', '}}', '{{a}}', q[0], 'a' + q[0], ' a\n  b\n']:
        add(q + inner + q)
        if dice.random() < 0.3:
            add(q + inner)
    for p in ['f', 'ff', 'a f', 'f ', '_f', 'f1']:
        add(p + q + 'a' + q)
    if q[0] != '`':
        for inner in ['', '{{', '{{a', '{{a}', '{{a}}', '{{{{', '{{{{}}', '{{{{{a}}', '}}', '{{}}', '{{a}}{{b}}', '{{ a + "b" }}', "{{ f'x{{y}}z' }}", '{{a\n}}', '\n{{a}}\n', '{{ (a }}', '{{ a) }}', '{{ } }}', '{{ { }}', '{{ {} }}',
                      '\\', 'é{{é}}', '{{"}}"}}', '{{ [ }}', '{{ # c }}', '{{a}} b {{c}} d']:
            if dice.random() < (1 if q == "'" else 0.3):
                add('f' + q + inner + q)
            if dice.random() < 0.15:
                add('f' + q + inner)
# lines and Indents
for s in [' a', '\ta', 'a\n b', 'a:\n b', 'a:\n\tb', 'a:\n b\n', 'a:\n b\nc', 'a:\n b\n c', 'a:\n b\n  c', 'a:\n  b\n c', 'a:\n b\n\n', 'a:\n b\n\n\n', 'a:\n b\n\n c', 'a:\n b\n \n c', 'a:\n b\n  \n c', 'a:\n  b\n \n  c',
          'a:\n b\n \n', 'a:\n b\n ', 'a:\n b\n  ', 'a:\n b\n\t', 'a:\n b\n\tc', 'a:\n\tb\n c', 'a:\n \tb', 'a:\n\t b', 'a:\n b\n \tc', 'a:\n\tb\n\t c', 'a:\n  b\n\t\tc', 'a:\n b\nc:\n d', 'a:\n b\n\nc:\n\td\n', 'a:\n b\r\n c\r\n',
          'a:\r\n b\r\n\r\n c\r\nd', 'a:\r\n b\r', 'a:\n b\r c', 'a:\n b\n\r\n c', 'a:\n b\n\r', 'a:\n \n b', 'a:\n\n b', 'a:\n\n\n b\nc', 'a:\n# c\n b', 'a:\n b # c', 'a: # c\n b', 'a: b c\n d', 'a:\n b:\n  c', 'a:\n b\n  c\n   d\ne',
          'a:\n b\n  c\n d\ne', 'a\n b\n  c\n d\ne', 'a\n b\n\tc', 'a\n b\n  c\n d', 'a\n  b\n c', ' a\n b', ' a\nb', '  a\n b', ' a:\n  b\n c', 'a: (\n b\n)', 'a: [\n\tb\n c\n]', '(\n a\n', 'x := (\n  a\n   b\n)\ny', 'a: {\n}\n b',
          'if a {\n  b\n} else {\n\tc\n}', 'a:\n b\n   \n\n  \n', 'a:\n  b\n \n\n', 'a:\n b\n  \nc', 'a:\n b\n  \r\n c', 'é:\n é', 'a:\n é\n é\nb', 'a:\n b\n   c\n b\n', '\n\na:\n\n\n b\n\n\n\nc', 'a:\n b\n\x0bc', 'a:\n b\n c\x00']:
    add(s)
# bodies and interpolations
for s in ['{{', '{{a', '{{a}', '{{a}}', '{{a}}b', 'b{{a}}', '{{a}}{{b}}', '{{{{', '{{{{a}}', '{{{', '{{{a}}', '{{ { }}', '{{ {} }}', '{{ (}} ', '{{ ) }}', '{{ ( ) }}', '{{ [ ) }}', "{{ 'a", "{{ 'a' }}", '{{ `a` }}', '{{ `a }}',
          "{{ f'{{a}}' }}", "{{ f'{{a }}", '{{ a\n }}', '{{ a\n  }}', '{{ # c }}', '{{ & }}', '{{ a }} # d', 'a }} b', 'a } b', "'a", '"', '`', '\\', '\\\n', 'a\\', '{', '{ {', '#', '#!x', '@a', '-a', 'é{{é}}é', '{{\u2028}}', '{{ a := b }}',
          '{{ a:b }}', '{{ a: }}\n  b', '{{}}', '{{\n', '{{\n }}', '{{ "\\é" }}', '{{ ("""\n a """) }}', "{{ '''\n", 'a\rb', '{{\r}}', '{{a}}\r\n']:
    add('a:\n ' + s + '\n')
    if dice.random() < 0.3:
        add('a:\n ' + s, 'a:\n\tb\n\t' + s + '\n\tc\nd')
# delimiters, nested
for n in (1, 2, 3):
    for t in itertools.product('([{)]}', repeat=n):
        if dice.random() < (1, 0.5, 0.06)[n - 1]:
            add(''.join(t))
# a file, whole, cut short and damaged
whole = """# a comment
set shell := ['bash', '-c']
v := f'{{ x + "y" }}' / `date`

[private]
b t *fs='-q': (c t) && d
    @echo "{{ v }} {{{{ é" \\
      more

    last
c:
\tx
"""
add(whole, whole.replace('\n', '\r\n'))
for i in range(0, len(whole), 19):
    add(whole[:i])
bits = ['(', ')', '{', '}', '{{', '}}', "'", '"', '`', '\n', '\r', '\r\n', ' ', '\t', '\\', ':', '#', 'f', 'é', '&', '!', '\n ', '\n\t', "'''"]
for _ in range(24):
    i = dice.randrange(len(whole))
    add(whole[:i] + dice.choice(bits) + whole[i + dice.randrange(0, 3):])
# random ones
parts = ['a', 'f', 'é', ' ', '  ', '\t', '\n', '\n', '\n ', '\n  ', '\n\t', ':', '\r\n', '(', ')', '[', ']', '{', '}', '{{', '}}', "'", '"', '`', "'''", '\\', '#', '=', '+', ',', "f'", 'a:\n b\n', '!=', ':=', '&&', '||']
for _ in range(70):
    add(''.join(dice.choice(parts) for _ in range(dice.randrange(2, 14))))
# texts that are not admitted
add(b'\xff', b'a\n\x80', b'a:\n b\xc3', b'\xed\xa0\x80', b'a' * 65537, b'a' * 65536, b'a' * 65535 + 'é'.encode())
# the tables' limits: openers, and as many Indents as a text can have
add('(' * 1025, '[' * 1024 + "){f'")
add(''.join(' ' * n + 'a\n' for n in range(360)))

def worded(bs):
    """The bytes in hexadecimal, a long row of one byte as `61*65536`."""
    words = []
    for b, row in itertools.groupby(bs):
        n = len(list(row))
        words += [f'{b:02x}*{n}'] if n > 3 else [f'{b:02x}'] * n
    return ' '.join(words)

data = b''.join(b'%d\n%s' % (len(c), c) for c in cases)
out = subprocess.run([sys.argv[1], 'batch', 'tokens'], input=data, stdout=subprocess.PIPE, check=True).stdout.decode()
answers = out.split('--\n')[:-1]
assert len(answers) == len(cases)
with open(os.path.join(here, 'stdin'), 'w') as f:
    f.writelines(worded(c) + '\n' for c in cases)
with open(os.path.join(here, 'stdout'), 'w') as f:
    f.write(out)
lines = [line.split(' ') for a in answers for line in a.splitlines()]
faults = collections.Counter(w[1] for w in lines if w[0] == 'fault')
kinds = {w[3] for w in lines if w[0] != 'fault' and len(w) > 4}
print(len(cases), 'cases, faults', dict(sorted(faults.items(), key=lambda p: int(p[0]))), len(kinds), 'kinds')
