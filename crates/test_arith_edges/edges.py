# Writes what the program is to write, from Python's own integers: python3 edges.py > stdout
LEAST, LARGEST = -2**63, 2**63 - 1
EDGES = [LEAST, LEAST + 1, -2**32, -3037000500, -7, -2, -1, 0, 1, 2, 7, 2**31, 3037000499, 3037000500, 2**62, LARGEST - 1, LARGEST]
WORDS = [0, 1, 2**63 - 1, 2**63, 2**63 + 1, 2**64 - 1]
HALVES = [0, 1, 2**31 - 1, 2**31, 2**32 - 1]


def value(z):
    return str(z) if LEAST <= z <= LARGEST else 'overflow'


def answer(test):
    return 'yes' if test else 'no'


def signed(bits, n):
    return int.from_bytes(n.to_bytes(bits // 8, 'little'), 'little', signed=True)


for a in EDGES:
    for b in EDGES:
        quotient = value(a // b) if b else 'zero'
        print('pair', a, b, value(a + b), value(a - b), value(a * b), quotient, answer(a < b), answer(a == b))
for n in WORDS:
    print('word', signed(64, n), n)
for n in HALVES:
    print('half', signed(32, n))
