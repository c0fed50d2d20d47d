#!/usr/bin/env python3
"""Write the cases of crates/admission_cases: its stdin, a text for each line, and its stdout, what must be told of each.

The answers come from Python's own UTF-8 decoder and from splitting the bytes at line feeds, not from this repository's code.
"""
import os

here = os.path.join(os.path.dirname(os.path.abspath(__file__)), '..', 'crates', 'admission_cases')

def hexed(bs):
    return ' '.join(f'{b:02X}' for b in bs)

rows = []  # (as written, bytes)

def add(bs):
    rows.append((hexed(bs), bytes(bs)))

def many(byte, count, more=b''):
    rows.append((f'{byte:02X}*{count}' + (' ' + hexed(more) if more else ''), bytes([byte]) * count + more))

# the examples of RFC 3629, section 7
for text in ['A\u2262\u0391.', '\ud55c\uad6d\uc5b4', '\u65e5\u672c\u8a9e', '\ufeff\U000233b4']:
    add(text.encode())
# limits of the length
add(b'')
for n in (65535, 65536, 65537):
    many(0x61, n)
many(0x61, 65535, 'é'.encode())       # too long by its second byte
many(0x61, 65534, 'é'.encode())
many(0xFF, 65536)
many(0xFF, 65537)                     # the length is looked at first
many(0x0A, 65536)
# not UTF-8
add(b'\x61\xff')
for bad in ['80', 'BF', 'C0 80', 'C0 AF', 'C1 BF', 'E0 80 80', 'E0 9F BF', 'ED A0 80', 'ED BF BF', 'ED A0 80 ED B0 80', 'F0 80 80 80', 'F0 8F BF BF', 'F4 90 80 80',
            'F5 80 80 80', 'F8 88 80 80 80', 'FE', 'FF', 'C3', 'E2 89', 'E2', 'F0 90 8D', 'F0 90', 'F0', 'C3 28', 'E2 28 A1', 'E2 82 28', 'F0 28 8C BC', 'F0 90 28 BC',
            'F0 28 8C 28', 'F4', 'F4 8F', 'F4 8F BF', 'EF BB']:
    b = bytes.fromhex(bad)
    for front in (b'', b'ab\n', 'é\n€'.encode()):
        for back in (b'', b'z', b'\n'):
            add(front + b + back)
# the ends of each range
for good in ['00', '7F', 'C2 80', 'DF BF', 'E0 A0 80', 'E0 BF BF', 'E1 80 80', 'EC BF BF', 'ED 80 80', 'ED 9F BF', 'EE 80 80', 'EF BF BF', 'EF BB BF', 'F0 90 80 80', 'F0 BF BF BF',
             'F1 80 80 80', 'F3 BF BF BF', 'F4 80 80 80', 'F4 8F BF BF']:
    b = bytes.fromhex(good)
    for back in (b'', b'\n', b'\n\n', b'\r\n', b'\ra\n', b, b'\n' + b, b'\xff'):
        add(b + back)
# lines
for text in ['\n', '\n\n', 'a\n', 'a\nb', 'a\r\nb\r\n', '\r', '\r\n', '\n\r', 'é\né', '\n\n\né', 'ab\n cd\n\n']:
    add(text.encode())

def answer(bs):
    if len(bs) > 65536:
        return 'fault 1 0:0 0 0'
    try:
        bs.decode('utf-8')
    except UnicodeDecodeError as e:
        return f'fault 2 0:0 {e.start} 0'
    body = bs[:-1] if bs.endswith(b'\n') else bs
    lines = body.split(b'\n')
    column = len(lines[-1]) + (1 if bs.endswith(b'\n') else 0)
    count = 0 if not bs else len(lines)
    return f'bytes {len(bs)} lines {count} end {len(lines) - 1}:{column}'

with open(os.path.join(here, 'stdin'), 'w') as f:
    f.writelines(r[0] + '\n' for r in rows)
with open(os.path.join(here, 'stdout'), 'w') as f:
    f.writelines(answer(r[1]) + '\n' for r in rows)
print(len(rows), 'cases')
