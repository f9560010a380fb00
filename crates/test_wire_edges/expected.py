#!/usr/bin/env python3
"""Writes the text that the program wire_edges must write, from Python's own integers and bytes."""

BIG = 2 ** 64

def read(s, at, k):
    return int.from_bytes(s[at:at + k], 'little')

def signed(n):
    return n - BIG if n >= BIG // 2 else n

def write(s, at, k, v):
    out = bytearray(s)
    for j, b in enumerate((v % 256 ** k).to_bytes(k, 'little')):
        if at + j < len(out):
            out[at + j] = b
    return bytes(out)

def line(*words):
    print(*words)

s = bytes([1, 2, 3, 4, 5, 6, 7, 128] + [255] * 8 + [254, 127])
for t, at in [(s, a) for a in (0, 1, 7, 8, 10, 11, 14, 15, 16, 17, 18, 19, BIG // 2 - 1, BIG - 8, BIG - 1)] + [(b'', 0)]:
    line('read', at, read(t, at, 1), read(t, at, 2), read(t, at, 4), read(t, at, 8), signed(read(t, at, 8)))

fresh = bytes([0xee] * 10)
v = 0x1122334455667788
for at, n in [(a, v) for a in (0, 1, 2, 3, 6, 7, 8, 9, 10, 11, BIG - 8, BIG - 1)] + [(0, BIG - 1), (0, 65536)]:
    line('write', at, write(fresh, at, 1, 0x11).hex(), *(write(fresh, at, k, n).hex() for k in (2, 4, 8)))

for at, z in [(0, 0), (0, -1), (1, -2), (2, BIG // 2 - 1), (2, -BIG // 2), (2, 1 - BIG // 2), (2, 255), (2, -256), (3, -1), (10, -1), (BIG - 1, -1)]:
    t = write(fresh, at, 8, z % BIG)
    line('value', at, z, t.hex(), signed(read(t, at, 8)))

def held(name, start, i, new):
    cells = dict(enumerate(start))
    if i in cells:
        cells[i] = new
    line(name, i, *(cells.get(j, 0) for j in (0, 2, 3, i)), 0, 0)

for i in (0, 2, 3, BIG - 1):
    held('word', [7, 8, 9], i, BIG - 1)
for i in (0, 2, 3, BIG - 1):
    held('held', [-7, 8, -9], i, -BIG // 2)
line('clear', bytes(10).hex())

for i in (0, 1, 63, 64, 127, 128, 191, 192, 255, 256, BIG - 1):
    row = {1, 254} | ({i} if i < 256 else set())
    line('bit', i, *(int(j in row) for j in (i, i // 2, 1, 255)), *sorted(row))

row = {0, 63, 64, 255}
line('union', *sorted(row), *sorted(row))
full = set(range(256))
for r, b in [(row, b) for b in (0, 1, 63, 64, 65, 128, 255, 256, 257, BIG - 1)] + [(full, b) for b in (1, 127, 191, 255, 256)] + [(set(), 256)]:
    line('count', b, sum(j < b for j in r))
