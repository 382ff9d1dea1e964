#!/usr/bin/env python3
"""Works out what `levels` has to write, from scratch: a second opinion on its answers.

    python3 tools/levels_expected.py < crates/levels/stdin | cmp - crates/levels/stdout

Sums and products modulo p are counted out one by one; a binary field multiplies
polynomials term by term and divides by its reduction polynomial with pencil-and-paper
long division. Negatives and inverses are looked up in the finished tables.
"""
import sys

PRIMES = [2, 3, 5, 7, 11, 13, 17, 19, 23, 29, 31]
REDUCTIONS = {2: [1, 1, 1], 3: [1, 1, 0, 1], 4: [1, 1, 0, 0, 1]}  # the coefficients of 1, t, t^2, ..


def modulo(p):
    """The tables of sums and products modulo p."""

    def next_code(a):
        return 0 if a == p - 1 else a + 1

    def add(a, b):
        for _ in range(b):
            a = next_code(a)
        return a

    def times(a, b):
        total = 0
        for _ in range(b):
            total = add(total, a)
        return total

    return [[add(a, b) for b in range(p)] for a in range(p)], [[times(a, b) for b in range(p)] for a in range(p)]


def binary(k):
    """The tables of sums and products of polynomials over the bits, modulo the reduction polynomial."""
    reduction = REDUCTIONS[k]
    order = 2**k

    def coefficients(code):
        return [int(bit) for bit in reversed(format(code, "b").zfill(k))]

    def code(polynomial):
        return int("".join(str(bit) for bit in reversed(polynomial)), 2)

    def add(p, q):
        return [0 if x == y else 1 for x, y in zip(p, q)]

    def times(p, q):
        product = [0] * (2 * k - 1)
        for i in range(k):
            for j in range(k):
                if p[i] == 1 and q[j] == 1:
                    product[i + j] = 1 - product[i + j]
        for degree in range(2 * k - 2, k - 1, -1):
            if product[degree] == 1:
                for i, coefficient in enumerate(reduction):
                    if coefficient == 1:
                        product[degree - k + i] = 1 - product[degree - k + i]
        return product[:k]

    elements = [coefficients(a) for a in range(order)]
    return [[code(add(p, q)) for q in elements] for p in elements], [[code(times(p, q)) for q in elements] for p in elements]


def cell(code):
    return "   -" if code is None else f"{code:4d}"


def line(label, codes):
    return label + "".join(cell(code) for code in codes) + "\n"


def page(sums, products):
    codes = range(len(sums))
    text = "order" + cell(len(sums)) + "\n"
    for label, table in (("   +", sums), ("   *", products)):
        text += line(label, codes)
        for a in codes:
            text += line(cell(a), table[a])
    text += line(" neg", [sums[a].index(0) for a in codes])
    text += line(" inv", [products[a].index(1) if 1 in products[a] else None for a in codes])
    return text


def answer(number, asked):
    kind, space, digits = asked.partition(" ")
    if kind == "" or space == "" or digits == "" or any(d not in "0123456789" for d in digits):
        return f"line {number}: expected a field kind and its number, as in `prime 5`\n"
    if kind == "prime" and int(digits) in PRIMES:
        return page(*modulo(int(digits)))
    if kind == "binary" and int(digits) in REDUCTIONS:
        return page(*binary(int(digits)))
    return "refused 17: no such field\n"


def main():
    lines = sys.stdin.buffer.read().decode("latin-1").split("\n")
    if lines[-1] == "":
        lines.pop()
    for number, asked in enumerate(lines, 1):
        text = asked + "\n" + answer(number, asked) + "\n"
        sys.stdout.buffer.write(text.encode("latin-1"))


if __name__ == "__main__":
    main()
