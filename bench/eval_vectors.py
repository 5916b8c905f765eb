#!/usr/bin/env python3
"""Writes the vectors of the test of `eval`: operands, and the results that Python's own integers give.

Run at the top of the repository:
    python3 bench/eval_vectors.py narrow > crates/leaf_tests/src/narrow_vectors.rt
    python3 bench/eval_vectors.py wide > crates/leaf_tests/src/wide_vectors.rt

The narrow ones are those of i8, i16 and i32, the wide ones those of i64 and i128. With `--orders` in place of either
word it prints the opcodes of three kinds, in the order in which a line has their results.

A line has a kind, its operands, and one result for each opcode of the kind, in the order of the lists below, which the
test has too. A value is a letter for its type (B i8, H i16, W i32, D i64, Q i128) and its bits in hexadecimal digits. A
result is a value, two values joined by a comma, `!z` for the trap int_divz, `!o` for int_ovf, or `-` where the opcode
has no row for these types."""

import random

LETTER = {8: "B", 16: "H", 32: "W", 64: "D", 128: "Q"}
WIDTHS = [8, 16, 32, 64, 128]


def mask(w):
    """The greatest number of so many bits."""
    return (1 << w) - 1


def signed(w, n):
    """What these bits are as a signed number."""
    return n - (1 << w) if n >> (w - 1) else n


def toward_zero(a, b):
    """The quotient, rounded toward zero."""
    q = abs(a) // abs(b)
    return -q if (a < 0) != (b < 0) else q


def bits_of(w, n):
    """The number as so many binary digits."""
    return format(n, "0%db" % w)


def number(bits):
    """The number that these binary digits are."""
    return int(bits, 2)


# ---- one operand

UNARY = {
    "Ineg": lambda w, x: (w, -x),
    "Bnot": lambda w, x: (w, ~x),
    "Iabs": lambda w, x: (w, abs(signed(w, x))),
    "Clz": lambda w, x: (w, w - len(bits_of(w, x).lstrip("0"))),
    "Ctz": lambda w, x: (w, w - len(bits_of(w, x).rstrip("0"))),
    "Popcnt": lambda w, x: (w, bits_of(w, x).count("1")),
    "Bitrev": lambda w, x: (w, number(bits_of(w, x)[::-1])),
    "Bswap": lambda w, x: (w, int.from_bytes(x.to_bytes(w // 8, "little"), "big")) if w >= 16 else None,
    "Isplit": lambda w, x: ((w // 2, x), (w // 2, x >> (w // 2))) if w >= 16 else None,
}
for target in [16, 32, 64, 128]:
    UNARY["Uextend(Width::W%d)" % target] = lambda w, x, t=target: (t, x) if w < t else None
for target in [16, 32, 64, 128]:
    UNARY["Sextend(Width::W%d)" % target] = lambda w, x, t=target: (t, signed(w, x)) if w < t else None
for target in [8, 16, 32, 64]:
    UNARY["Ireduce(Width::W%d)" % target] = lambda w, x, t=target: (t, x) if w > t else None


# ---- two operands of one type


def narrow(f):
    """The operation, without a row for i128."""
    return lambda w, x, y: f(w, x, y) if w <= 64 else None


def divided(f):
    """The same, with a trap where the second operand is 0."""
    return narrow(lambda w, x, y: f(w, x, y) if y else "!z")


def sdiv(w, x, y):
    """The signed quotient, or a trap where it has no number of its type."""
    a, b = signed(w, x), signed(w, y)
    q = toward_zero(a, b)
    return "!o" if q > mask(w - 1) else (w, q)


def srem(w, x, y):
    """The signed remainder."""
    a, b = signed(w, x), signed(w, y)
    return (w, a - b * toward_zero(a, b))


def overflow(w, wrapped, exact, low, high):
    """The wrapped number, and whether the exact one is outside these ends."""
    return ((w, wrapped), (8, 0 if low <= exact <= high else 1))


def u_overflow(op):
    """A sum or difference of unsigned numbers, and whether it is wrapped."""
    return lambda w, x, y: overflow(w, op(x, y), op(x, y), 0, mask(w))


def s_overflow(op):
    """The same of signed numbers."""
    return lambda w, x, y: overflow(
        w, op(x, y), op(signed(w, x), signed(w, y)), -(1 << (w - 1)), mask(w - 1)
    )


def add(a, b):
    """The sum."""
    return a + b


def sub(a, b):
    """The difference."""
    return a - b


BINARY = {
    "Iadd": lambda w, x, y: (w, x + y),
    "Isub": lambda w, x, y: (w, x - y),
    "Imul": lambda w, x, y: (w, x * y),
    "Band": lambda w, x, y: (w, x & y),
    "Bor": lambda w, x, y: (w, x | y),
    "Bxor": lambda w, x, y: (w, x ^ y),
    "Smin": lambda w, x, y: (w, min(signed(w, x), signed(w, y))),
    "Smax": lambda w, x, y: (w, max(signed(w, x), signed(w, y))),
    "Umin": lambda w, x, y: (w, min(x, y)),
    "Umax": lambda w, x, y: (w, max(x, y)),
    "Umulhi": narrow(lambda w, x, y: (w, (x * y) >> w)),
    "Smulhi": narrow(lambda w, x, y: (w, (signed(w, x) * signed(w, y)) >> w)),
    "Udiv": divided(lambda w, x, y: (w, x // y)),
    "Urem": divided(lambda w, x, y: (w, x % y)),
    "Sdiv": divided(sdiv),
    "Srem": divided(srem),
    "UaddOverflow": u_overflow(add),
    "SaddOverflow": s_overflow(add),
    "UsubOverflow": u_overflow(sub),
    "SsubOverflow": s_overflow(sub),
    "Iconcat": narrow(lambda w, x, y: (2 * w, x | (y << w))),
}
RELATIONS = {
    "Eq": lambda a, b, x, y: x == y,
    "Ne": lambda a, b, x, y: x != y,
    "Slt": lambda a, b, x, y: a < b,
    "Sge": lambda a, b, x, y: a >= b,
    "Sgt": lambda a, b, x, y: a > b,
    "Sle": lambda a, b, x, y: a <= b,
    "Ult": lambda a, b, x, y: x < y,
    "Uge": lambda a, b, x, y: x >= y,
    "Ugt": lambda a, b, x, y: x > y,
    "Ule": lambda a, b, x, y: x <= y,
}
for name, relation in RELATIONS.items():
    BINARY["Icmp(Cc::%s)" % name] = lambda w, x, y, r=relation: (8, int(r(signed(w, x), signed(w, y), x, y)))

# ---- a value and an amount of any type


def rotated(w, x, left):
    """The bits moved to the left, those that fall out coming in on the right."""
    text = bits_of(w, x)
    return number(text[left:] + text[:left])


SHIFTS = {
    "Ishl": lambda w, x, k: (w, x << (k % w)),
    "Ushr": lambda w, x, k: (w, x >> (k % w)),
    "Sshr": lambda w, x, k: (w, signed(w, x) >> (k % w)),
    "Rotl": lambda w, x, k: (w, rotated(w, x, k % w)),
    "Rotr": lambda w, x, k: (w, rotated(w, x, -k % w)),
}

# ---- the lines


def value(w, n):
    """A value as a line has it."""
    return LETTER[w] + format(n & mask(w), "x")


def result(r):
    """A result as a line has it."""
    if r is None:
        return "-"
    if isinstance(r, str):
        return r
    if isinstance(r[0], tuple):
        return ",".join(value(w, n) for w, n in r)
    return value(*r)


def line(kind, operands, results):
    """A line of the vectors."""
    return " ".join([kind] + [value(w, n) for w, n in operands] + [result(r) for r in results])


def lines():
    """Each line with the width that it is about."""
    draw = random.Random(1)
    for w in WIDTHS:
        least, most, minus = 1 << (w - 1), mask(w - 1), mask(w)
        a, b = draw.getrandbits(w), draw.getrandbits(w - 1)
        for x in [0, 1, minus, least, most, a, b]:
            yield w, line("u", [(w, x)], [f(w, x) for f in UNARY.values()])
        pairs = [(0, 0), (0, minus), (1, minus), (minus, minus), (minus, 1), (least, minus), (least, 1), (least, least)]
        pairs += [(most, 1), (most, most), (least, most), (most, least), (a, b), (b, a), (a, 0), (a, 3), (a, minus - 1)]
        for x, y in pairs:
            yield w, line("b", [(w, x), (w, y)], [f(w, x, y) for f in BINARY.values()])
        amounts = [(w, 0), (w, 1), (w, w - 1), (w, w), (w, w + 1)]
        amounts += [(8, 255), (128, (1 << 127) + 5)]
        for x in [1, minus, least, a]:
            for v, k in amounts:
                yield w, line("s", [(w, x), (v, k)], [f(w, x, k) for f in SHIFTS.values()])
        for v, c in [(w, 0), (w, least), (8, 1), (128, 0)]:
            yield w, line("t", [(v, c), (w, a), (w, b)], [(w, a if c else b)])
    for x, y in [(8, 16), (64, 8)]:
        yield x, line("b", [(x, 1), (y, 1)], [None] * len(BINARY))


def main(name):
    """Prints the constant of this name."""
    text = [l for w, l in lines() if (w > 32) == (name == "wide")]
    cases = sum(len(l.split()) - 1 - {"u": 1, "b": 2, "s": 2, "t": 3}[l[0]] for l in text)
    print("// Written by bench/eval_vectors.py, which says what a line means: %d cases." % cases)
    print("pub const %s: &str = \"\\" % name.upper())
    for l in text:
        for part in broken(l + "\\n\\"):
            print(part)
    print("\";")


def broken(l):
    """The line in parts of at most 120 columns, each but the last ended by a backslash that goes on with the string."""
    while len(l) > 120:
        k = l.rfind(" ", 0, 118)
        yield l[:k] + " \\"
        l = "    " + l[k + 1:]
    yield l


def orders():
    """The opcodes of each kind, in order, as the test has them."""
    for kind, table in [("UNARY", UNARY), ("BINARY", BINARY), ("SHIFTS", SHIFTS)]:
        print(kind, ", ".join("Op::" + name for name in table))


if __name__ == "__main__":
    import sys

    if sys.argv[1:] == ["--orders"]:
        orders()
    elif sys.argv[1:] in (["narrow"], ["wide"]):
        main(sys.argv[1])
    else:
        sys.exit("eval_vectors.py: narrow, wide or --orders")
