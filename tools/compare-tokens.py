#!/usr/bin/env python3
"""Compare the listings of crates/token_cases' program with the original's, on many texts.

usage: compare-tokens.py ORACLE PROGRAM [--length N] [--grown N] [--start N]

ORACLE is a program that runs the original's lexer, with tables of 359 levels and 1,024 openers: with the words `batch tokens` it reads texts,
each its decimal length, a line feed and its bytes, and prints a listing and a line `--` for each. PROGRAM is the built program of
crates/token_cases, which takes a text for each line, its bytes in hexadecimal.

The texts: every one up to length N (5) over each of three alphabets, as many grown and damaged justfiles as --grown says (40,000), and texts
about the limits of size. Every difference is printed, and at the end how many texts were compared; the status is 1 where any differ.
"""
import argparse, itertools, random, subprocess, sys, threading

options = argparse.ArgumentParser()
options.add_argument('oracle')
options.add_argument('program')
options.add_argument('--length', type=int, default=5)
options.add_argument('--grown', type=int, default=40000)
options.add_argument('--start', type=int, default=1858)
options = options.parse_args()
dice = random.Random(options.start)

def exhaustive():
    for letters, front in [("a:\n\r \t{}'", ''), ("af'\"{}\\\n", ''), ('a(){[\n}] ', ''), (' \t\na\r#', 'a:\n b\n'), ('{}a\n \'(', 'a:\n ')]:
        for n in range(options.length + 1):
            for t in itertools.product(letters, repeat=n):
                yield (front + ''.join(t)).encode()

names = ['a', 'b-c', '_d', 'f', 'e1', 'build', 'test']
def pick(*xs):
    return dice.choice(xs)
def expression(d):
    if d == 0 or dice.random() < 0.3:
        return pick(dice.choice(names), string(d), '`x`', '```\n x\n```')
    e = lambda: expression(d - 1)
    return pick(lambda: e() + ' + ' + e(), lambda: e() + '/' + e(), lambda: '(' + e() + ')', lambda: dice.choice(names) + '(' + e() + ', ' + e() + ')', lambda: 'if ' + e() + pick('==', '!=', '=~', '!~') + e() + ' { ' + e() + ' } else { ' + e() + ' }',
                lambda: e() + ' && ' + e(), lambda: e() + '||' + e(), lambda: '(\n  ' + e() + '\n)', lambda: e() + ' \\\n ' + e(), lambda: format_string(d))()
def string(d):
    q = pick("'", '"', "'''", '"""')
    return q + pick('', 'x', 'é', 'a b', '\\n' if q[0] == '"' else '\\', '\n  x\n', '{{', '}}', '#') + q
def format_string(d):
    q = pick("'", '"', "'''", '"""')
    return 'f' + q + pick('', 'x', '{{{{', 'é') + ''.join('{{' + pick('', ' ') + expression(max(d - 1, 0)) + pick('', ' ') + '}}' + pick('', 'y', '{{{{', '\n') for _ in range(dice.randrange(3))) + q
def line(d):
    return ''.join(pick('echo ', '@', '-x', '{{ ' + expression(d) + ' }}', '{{' + expression(d) + '}}', '{{{{', 'é', "'", '"', '#', '\\', '}', ' ', '`') for _ in range(dice.randrange(1, 5)))
def recipe(d):
    dent = pick(' ', '  ', '    ', '\t', '\t\t')
    head = pick('', '@') + dice.choice(names) + ''.join(' ' + pick('', '*', '+', '$') + dice.choice(names) + pick('', "='x'", '=(' + expression(1) + ')') for _ in range(dice.randrange(3))) + ':' + pick('', ' ' + dice.choice(names), ' (a ' + expression(1) + ')', ' && b')
    body = ''.join(dent + pick('', '', '', ' ', '  ', '\t') + line(d) + '\n' + pick('', '', '', '\n', ' \n', dent + '\n', dent + ' \n', '\t\n') for _ in range(dice.randrange(4)))
    return head + '\n' + body + pick('', '\n', '\n\n')
def grown():
    text = ''.join(pick(lambda: dice.choice(names) + ' := ' + expression(3) + '\n', lambda: 'alias a := b\n', lambda: "set shell := ['a', \"b\"]\n", lambda: '# é\n', lambda: '[private]\n', lambda: 'import? ' + string(0) + '\n', lambda: '\n', lambda: 'mod a::b\n',
                        lambda: recipe(2), lambda: recipe(2), lambda: recipe(3))() for _ in range(dice.randrange(1, 6)))
    if dice.random() < 0.15:
        text = text.replace('\n', '\r\n')
    if dice.random() < 0.03:
        text = '\ufeff' + text
    return text
bits = ['(', ')', '[', ']', '{', '}', '{{', '}}', "'", '"', '`', '\n', '\r', '\r\n', ' ', '\t', '\\', ':', '#', 'f', 'é', '&', '!', '|', '=', '\n ', '\n\t', "'''", '"""', 'f"', '\ufeff', '\0', '~']
def damaged():
    text = grown()
    for _ in range(dice.randrange(1, 4)):
        i = dice.randrange(len(text) + 1)
        text = text[:i] + pick('', dice.choice(bits), dice.choice(bits)) + text[i + dice.randrange(0, 4):]
    return text
def broken():
    b = bytearray(damaged().encode())
    for _ in range(dice.randrange(1, 3)):
        b[dice.randrange(len(b) + 1):0] = bytes([dice.randrange(128, 256)])
    return bytes(b)

def large():
    for n in (65534, 65535, 65536, 65537):
        for s in ('a', ' ', '(', ')', '\t', "'", '"', '`', 'é', '\r\n', 'a\n', 'a:\n b\n', 'a:\n {{', "f'", "f'{{a}}'", '#', 'x := y\n'):
            b = (s * n).encode()[:n]
            yield b
        yield ('a:\n ' + 'x' * n).encode()[:n]
        yield ("'" + '\t' * n).encode()[:n - 1] + b"'"
        yield ('a:\n' + ' b\n' * n).encode()[:n]
    for n in (1023, 1024, 1025, 1026):
        for s in ('(', '[', '{', "f'{{"):
            yield (s * n).encode()
            yield (s * n + ')').encode()
            yield (s * (n - 1) + '&').encode()
            yield (s * n + '\n').encode()
        yield ('a:\n {{' + '(' * n).encode()
        yield ('(' * n + ')' * n + '[' * n).encode()
    for n in (357, 358, 359, 360):
        for c in ' \t':
            for close in ('', '\n', '\n\n', '\nb'):
                yield (''.join(c * i + 'a\n' for i in range(n)) + close).encode()
        yield ''.join(' ' * i + 'a:\n' for i in range(n)).encode()

def texts():
    yield from exhaustive()
    for i in range(options.grown):
        yield (grown, damaged, damaged, broken)[i % 4]().encode() if i % 4 < 3 else broken()
    yield from large()

def run(command, data, out):
    out.append(subprocess.run(command, input=data, stdout=subprocess.PIPE, check=True).stdout.split(b'--\n')[:-1])

compared = differences = 0
stream = texts()
while True:
    size = 0
    chunk = []
    for t in stream:
        chunk.append(t)
        size += len(t)
        if len(chunk) == 50000 or size > 4_000_000:
            break
    if not chunk:
        break
    theirs, ours = [], []
    other = threading.Thread(target=run, args=([options.oracle, 'batch', 'tokens'], b''.join(b'%d\n%s' % (len(c), c) for c in chunk), theirs))
    other.start()
    run([options.program], b''.join(c.hex(' ').encode() + b'\n' for c in chunk), ours)
    other.join()
    if len(ours[0]) != len(chunk) or len(theirs[0]) != len(chunk):
        sys.exit(f'{len(chunk)} texts, {len(ours[0])} listings of the program and {len(theirs[0])} of the original')
    for c, a, b in zip(chunk, ours[0], theirs[0]):
        if a != b:
            differences += 1
            x, y = next((p for p in itertools.zip_longest(a.splitlines(), b.splitlines()) if p[0] != p[1]), (None, None))
            print('text', c if len(c) < 400 else c[:400] + b'..', 'program', x, 'original', y)
    compared += len(chunk)
    print(compared, 'compared,', differences, 'differ', file=sys.stderr, flush=True)
print(compared, 'texts compared,', differences, 'differences')
sys.exit(differences > 0)
