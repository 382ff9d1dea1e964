#!/usr/bin/env python3
"""How long `reporter` takes for full sheets, and what a question costs. A measurement, not a test.

Run `rt run` in crates/reporter first: it builds out/reporter there. Each load is a sheet of nearly 65,535 bytes over the field of order 31
with 32 terms, filled up with one kind of question; the program is timed whole, from its start to its end, as the best of several runs.
"""
import pathlib
import subprocess
import sys
import time

LIMIT = 65535
WIDTH, HEIGHT = 8, 4


def number(value):
    out = bytearray()
    while value > 127:
        out.append(128 | value & 127)
        value >>= 7
    return bytes(out + bytes([value]))


def record(kind, numbers):
    body = b"".join(number(x) for x in numbers)
    return number(kind) + number(len(body)) + body


def book():
    """x1^8 = 3 and x2^4 = 5, so that walks leave dense traces but rows stay short to write."""
    terms = [(a, b) for b in range(HEIGHT) for a in range(WIDTH)]
    out = bytes([0x42, 0x42, 0x31, 0, 31, 2]) + b"".join(record(1, t) for t in terms) + record(2, [])
    border = []
    for a, b in terms:
        border += [t for t in ((a + 1, b), (a, b + 1)) if t not in terms and t not in border]
    for a, b in border:
        code, at = (3, (a - WIDTH, b)) if a >= WIDTH else (5, (a, b - HEIGHT))
        out += record(3, [a, b, 1] + [code if t == at else 0 for t in terms])
    return out + record(4, [])


def filled(question):
    start = book()
    count = (LIMIT - len(start)) // len(question)
    return start + question * count, count


LOADS = {
    "no pairs": record(5, [0]),
    "one pair of degree 24": record(5, [1, 7, 12, 12]),
    "five pairs of degree 24": record(5, [5] + [7, 12, 12] * 5),
    "64 pairs of degree 2": record(5, [64] + [7, 1, 1] * 64),
}


def main():
    program = pathlib.Path(__file__).resolve().parent.parent / "crates" / "reporter" / "out" / "reporter"
    if not program.exists():
        sys.exit("there is no crates/reporter/out/reporter: run `rt run` in crates/reporter first")
    print(f"{'load':26} {'bytes':>7} {'questions':>9} {'seconds':>8} {'µs each':>8}")
    for name, question in LOADS.items():
        sheet, count = filled(question)
        best = None
        for _ in range(5):
            begin = time.perf_counter()
            out = subprocess.run([program], input=sheet, stdout=subprocess.PIPE, check=True).stdout
            took = time.perf_counter() - begin
            best = took if best is None else min(best, took)
        if out.count(b"\n") != count + 1 or b"fault" in out:
            sys.exit(f"{name}: not the lines that were expected")
        print(f"{name:26} {len(sheet):7} {count:9} {best:8.3f} {best / count * 1e6:8.1f}")


main()
