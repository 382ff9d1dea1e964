#!/usr/bin/env python3
"""Works out what `reporter` prints for a sheet, apart from it.

    python3 tools/report_expected.py FILE
    python3 tools/report_expected.py --files FOLDER NAME...

With --files it prints each name and then the report of that file of the folder, as `report_files` does.

A polynomial is a dictionary from terms (tuples of exponents) to codes other than 0.
The variables are matrices: clashes are found by multiplying them, and normal forms by
multiplying a row with them. The entries come from walks over dictionaries, and each
form and each clash is added up again from its entries.
"""
import itertools
import pathlib
import sys

PRIMES = [2, 3, 5, 7, 11, 13, 17, 19, 23, 29, 31]
BINARY = [2, 3, 4]
TERM, CLOSE, RULE, CHECK, QUESTION, STRIKE = range(1, 7)
ANY = 65535
LENT = 4096


class Fault(Exception):
    """Its arguments are the layer, the number, the byte and the record."""


class Refused(Exception):
    """Its argument is the number."""


def refuse(number, when):
    if when:
        raise Refused(number)


# Fields


class Field:
    def __init__(self, order, add, multiply):
        codes = range(order)
        self.order = order
        self.plus = [[add(a, b) for b in codes] for a in codes]
        self.times = [[multiply(a, b) for b in codes] for a in codes]
        self.minus = [row.index(0) for row in self.plus]
        self.inverse = [None] + [self.times[a].index(1) for a in codes if a]


def prime(p):
    return Field(p, lambda a, b: (a + b) % p, lambda a, b: a * b % p)


def binary(k):
    def multiply(a, b):
        bits = [0] * (2 * k)
        for i, j in itertools.product(range(k), repeat=2):
            bits[i + j] ^= (a >> i) & (b >> j) & 1
        for e in reversed(range(k, 2 * k)):  # t^e = t^(e-k+1) + t^(e-k)
            bits[e - k + 1] ^= bits[e]
            bits[e - k] ^= bits[e]
        return sum(bits[i] << i for i in range(k))

    return Field(2**k, lambda a, b: a ^ b, multiply)


# Polynomials


def term_product(s, t):
    return tuple(a + b for a, b in zip(s, t))


def add_to(field, polynomial, code, term):
    code = field.plus[polynomial.pop(term, 0)][code]
    if code:
        polynomial[term] = code


def gather(field, pairs):
    polynomial = {}
    for code, term in pairs:
        add_to(field, polynomial, code, term)
    return polynomial


def times_matrix(field, row, matrix):
    answer = [0] * len(row)
    for code, image in zip(row, matrix):
        if code:
            answer = [field.plus[a][field.times[code][b]] for a, b in zip(answer, image)]
    return answer


# Books


class Book:
    def __init__(self, field, n):
        self.field, self.n = field, n
        self.variables = [tuple(int(i == j) for j in range(n)) for i in range(n)]
        self.phase, self.terms, self.border, self.rules = "open", [], [], {}

    def term(self, t):
        one = (0,) * self.n
        refuse(2, self.phase != "open")
        refuse(4, t in self.terms)
        refuse(5, t not in ([term_product(x, s) for s in self.terms for x in self.variables] or [one]))
        refuse(6, len(self.terms) == 32)
        self.terms.append(t)

    def close(self):
        refuse(2, self.phase != "open")
        refuse(7, not self.terms)
        products = [term_product(x, t) for t in self.terms for x in self.variables]
        self.border = [e for e in dict.fromkeys(products) if e not in self.terms]
        self.phase = "closed"

    def rule(self, e, leading, row):
        refuse(2, self.phase == "open")
        refuse(8, e not in self.border)
        refuse(9, len(row) != len(self.terms))
        refuse(10, max([leading] + row) >= self.field.order)
        refuse(11, leading == 0)
        self.rules[e] = [self.field.times[self.field.inverse[leading]][code] for code in row]
        self.phase = "closed"

    def strike(self, e):
        refuse(2, self.phase == "open")
        refuse(8, e not in self.border)
        refuse(12, e not in self.rules)
        del self.rules[e]
        self.phase = "closed"

    def check(self):
        """None, or the clash: the places of its term and variables from 1, its row and its entries."""
        refuse(2, self.phase == "open")
        refuse(12, set(self.border) != set(self.rules))
        matrices = self.matrices()
        differences = {}
        for a, b in itertools.combinations(range(self.n), 2):
            b_then_a = [times_matrix(self.field, row, matrices[a]) for row in matrices[b]]
            a_then_b = [times_matrix(self.field, row, matrices[b]) for row in matrices[a]]
            for place, (left, right) in enumerate(zip(b_then_a, a_then_b)):
                if left != right:
                    differences[place, a, b] = [self.field.plus[x][self.field.minus[y]] for x, y in zip(left, right)]
        self.phase = "clash" if differences else "sound"
        if not differences:
            return None
        place, a, b = min(differences)
        row = differences[place, a, b]
        entries = self.walk(1, self.terms[place], [a, b])[1]
        entries += [(self.field.minus[c], m, e) for c, m, e in self.walk(1, self.terms[place], [b, a])[1]]
        assert self.combination(row) == self.sum_of(entries) != {}
        return place + 1, a + 1, b + 1, row, entries

    def question(self, pairs):
        """The normal form and the entries."""
        degrees = [sum(t) for _, t in pairs]
        refuse(2, self.phase != "sound")
        refuse(10, any(code >= self.field.order for code, _ in pairs))
        refuse(13, len(pairs) > 64)
        refuse(14, any(degree > 24 for degree in degrees))
        refuse(15, len(self.terms) * sum(degrees) > LENT)
        matrices = self.matrices()
        form, left_over, entries = [0] * len(self.terms), {}, []
        for code, t in pairs:
            word = [i for i in range(self.n) for _ in range(t[i])]
            row = [code] + [0] * (len(self.terms) - 1)
            for i in word:
                row = times_matrix(self.field, row, matrices[i])
            form = [self.field.plus[a][b] for a, b in zip(form, row)]
            last, put_away = self.walk(code, self.terms[0], word)
            for term, c in last.items():
                add_to(self.field, left_over, c, term)
            entries += put_away
        assert self.combination(form) == left_over
        total = self.sum_of(entries)
        for term, c in left_over.items():
            add_to(self.field, total, c, term)
        assert gather(self.field, pairs) == total
        return form, entries

    def matrices(self):
        """For each variable the rows of its products with the terms of S."""

        def row(t):
            return [int(t == s) for s in self.terms] if t in self.terms else self.rules[t]

        return [[row(term_product(x, t)) for t in self.terms] for x in self.variables]

    def walk(self, code, term, word):
        """The polynomial at the end of the walk from code · term, and its entries: code, multiplier, border place."""
        now, entries = gather(self.field, [(code, term)]), []
        for step, i in enumerate(word):
            before, now = now, {}
            multiplier = tuple(word[step + 1 :].count(j) for j in range(self.n))
            for t, c in before.items():
                product = term_product(self.variables[i], t)
                if product in self.terms:
                    add_to(self.field, now, c, product)
                else:
                    entries.append((c, multiplier, self.border.index(product) + 1))
                    for s, d in self.combination(self.rules[product]).items():
                        add_to(self.field, now, self.field.times[c][d], s)
        return now, entries

    def combination(self, row):
        return gather(self.field, zip(row, self.terms))

    def sum_of(self, entries):
        """The sum of code · multiplier · (border term − its row)."""
        total = {}
        for c, multiplier, place in entries:
            e = self.border[place - 1]
            add_to(self.field, total, c, term_product(multiplier, e))
            for t, d in self.combination(self.rules[e]).items():
                add_to(self.field, total, self.field.minus[self.field.times[c][d]], term_product(multiplier, t))
        return total


# Sheets


class Cursor:
    """Takes numbers one after the other, from a byte up to an end."""

    def __init__(self, sheet, at, end, record):
        self.sheet, self.at, self.end, self.record = sheet, at, end, record

    def take(self, limit):
        digits = []
        for byte in self.sheet[self.at : min(self.at + 3, self.end)]:
            digits.append(byte % 128)
            if byte < 128:
                break
        else:
            self.fail(20 if len(digits) == 3 else 18)
        if len(digits) > 1 and digits[-1] == 0:
            self.fail(19)
        value = sum(digit * 128**i for i, digit in enumerate(digits))
        if value > limit:
            self.fail(20)
        self.at += len(digits)
        return value

    def fail(self, number):
        raise Fault("number", number, self.at, self.record)


def read_heading(sheet):
    """The new book and the byte after the heading."""
    if len(sheet) > 65535:
        raise Fault("record", 25, 0, 0)
    if sheet[:3] != b"BB1":
        raise Fault("record", 21, 0, 0)
    cursor = Cursor(sheet, 3, len(sheet), 0)

    def judged(number, allowed):
        at = cursor.at
        value = cursor.take(ANY)
        if value not in allowed:
            raise Fault("book", number, at, 0)
        return value

    if judged(17, [0, 1]) == 0:
        field = prime(judged(17, PRIMES))
    else:
        field = binary(judged(17, BINARY))
    return Book(field, judged(1, range(1, 9))), cursor.at


def read_record(sheet, start, record, n):
    """The kind, what the body holds, and the byte after the record."""
    front = Cursor(sheet, start, len(sheet), record)
    kind = front.take(ANY)
    if not TERM <= kind <= STRIKE:
        raise Fault("record", 22, start, record)
    length = front.take(65520)
    end = front.at + length
    if end > len(sheet):
        raise Fault("record", 23, start, record)
    body = Cursor(sheet, front.at, end, record)

    def exponents():
        return tuple(body.take(255) for _ in range(n))

    holds = ()
    if kind in (TERM, STRIKE):
        holds = (exponents(),)
    elif kind == RULE:
        e, leading, row = exponents(), body.take(ANY), []
        while body.at < end:
            row.append(body.take(ANY))
        holds = e, leading, row
    elif kind == QUESTION:
        holds = ([(body.take(ANY), exponents()) for _ in range(body.take(ANY))],)
    if body.at < end:
        raise Fault("record", 23, start, record)
    return kind, holds, end


def answer(book, kind, holds):
    """The lines that the record prints."""
    if kind == CHECK:
        clash = book.check()
        return ["check clash {} {} {}".format(*clash[:3]) if clash else "check sound"]
    if kind == QUESTION:
        form, entries = book.question(*holds)
        return [" ".join(map(str, ["form", *form, "other" if any(form) else "member", len(entries)]))]
    {TERM: book.term, CLOSE: book.close, RULE: book.rule, STRIKE: book.strike}[kind](*holds)
    return []


def lines(sheet):
    try:
        book, at = read_heading(sheet)
        for record in itertools.count(1):
            if at == len(sheet):
                return
            kind, holds, after = read_record(sheet, at, record, book.n)
            try:
                yield from answer(book, kind, holds)
            except Refused as refused:
                raise Fault("book", refused.args[0], at, record)
            at = after
    except Fault as fault:
        yield " ".join(map(str, ["fault", *fault.args]))


def report(sheet):
    return "".join(line + "\n" for line in lines(sheet))


def reports(folder, names):
    return "".join(name + "\n" + report((pathlib.Path(folder) / name).read_bytes()) for name in names)


if __name__ == "__main__":
    arguments = sys.argv[1:]
    if arguments[:1] == ["--files"] and len(arguments) > 1:
        sys.stdout.write(reports(arguments[1], arguments[2:]))
    elif len(arguments) == 1 and not arguments[0].startswith("--"):
        sys.stdout.write(report(pathlib.Path(arguments[0]).read_bytes()))
    else:
        sys.exit("usage: report_expected.py FILE | --files FOLDER NAME...")
