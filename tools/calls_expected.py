"""Works out what the program `calls` prints, apart from it: polynomials are
dictionaries, and a walk replaces each border term by its rule."""

LETTERS = 8


class Modulo:
    def __init__(self, p):
        self.order = p

    def sum(self, a, b):
        return (a + b) % self.order

    def product(self, a, b):
        return a * b % self.order


class Nine:
    """a + 3b stands for a + b·i with i² = −1, modulo 3."""

    order = 9

    def sum(self, a, b):
        return (a + b) % 3 + 3 * ((a // 3 + b // 3) % 3)

    def product(self, a, b):
        x, y, u, v = a % 3, a // 3, b % 3, b // 3
        return (x * u - y * v) % 3 + 3 * ((x * v + y * u) % 3)


def negative(f, a):
    return next(b for b in range(f.order) if f.sum(a, b) == 0)


def inverse(f, a):
    return next(b for b in range(f.order) if f.product(a, b) == 1)


def xy(a, b):
    return (a, b) + (0,) * 6


def raised(t, i):
    return t[:i] + (t[i] + 1,) + t[i + 1 :]


class Refused(Exception):
    pass


def refuse(when, number, beside=0):
    if when:
        raise Refused(number, beside)


class Book:
    def __init__(self, field):
        self.f = field
        self.n, self.terms, self.phase, self.border, self.rules = 1, [], "open", [], {}

    def over(self, terms):
        for place, t in enumerate(terms, 1):
            refuse(any(t[self.n :]), 3, place)

    def codes(self, codes):
        for place, c in enumerate(codes, 1):
            refuse(c >= self.f.order, 10, place)

    def lay(self, n):
        refuse(not 1 <= n <= 8, 1)
        self.n, self.terms, self.phase, self.border, self.rules = n, [], "open", [], {}
        return "0"

    def term(self, t):
        refuse(self.phase != "open", 2)
        self.over([t])
        refuse(t in self.terms, 4)
        joined = any(raised(s, i) == t for s in self.terms for i in range(self.n))
        refuse(not (joined if self.terms else not any(t)), 5)
        refuse(len(self.terms) == 32, 6)
        self.terms.append(t)
        return "0"

    def close(self):
        refuse(self.phase != "open", 2)
        refuse(not self.terms, 7)
        for t in self.terms:
            for i in range(self.n):
                e = raised(t, i)
                if e not in self.terms and e not in self.border:
                    self.border.append(e)
        self.phase = "closed"
        return str(len(self.border))

    def rule(self, e, k, row):
        refuse(self.phase == "open", 2)
        self.over([e])
        refuse(e not in self.border, 8)
        refuse(len(row) != len(self.terms), 9)
        self.codes([k] + row)
        refuse(k == 0, 11)
        self.rules[e] = [self.f.product(c, inverse(self.f, k)) for c in row]
        self.phase = "closed"
        return "0"

    def strike(self, e):
        refuse(self.phase == "open", 2)
        self.over([e])
        refuse(e not in self.border, 8)
        refuse(e not in self.rules, 12, self.border.index(e) + 1)
        del self.rules[e]
        self.phase = "closed"
        return "0"

    def step(self, row, i, rest):
        """The row times variable i, and a multiple of a rule for each product that left S."""
        out, entries = [0] * len(self.terms), []
        for c, t in zip(row, self.terms):
            if c == 0:
                continue
            e = raised(t, i)
            if e in self.terms:
                j = self.terms.index(e)
                out[j] = self.f.sum(out[j], c)
            else:
                entries.append((c, rest, self.border.index(e) + 1))
                for j, r in enumerate(self.rules[e]):
                    out[j] = self.f.sum(out[j], self.f.product(c, r))
        return out, entries

    def walk(self, row, word):
        entries = []
        for k, i in enumerate(word):
            rest = xy(0, 0)
            for j in word[k + 1 :]:
                rest = raised(rest, j)
            row, more = self.step(row, i, rest)
            entries += more
        return row, entries

    def unit(self, t):
        return [1 if s == t else 0 for s in self.terms]

    def check(self, row, slots):
        refuse(self.phase == "open", 2)
        refuse(len(row) != len(self.terms), 9)
        for place, e in enumerate(self.border, 1):
            refuse(e not in self.rules, 12, place)
        refuse(len(slots) < 2 * len(self.terms) + 2, 15)
        for place, t in enumerate(self.terms, 1):
            for a in range(self.n):
                for b in range(a + 1, self.n):
                    ab, first = self.walk(self.unit(t), [a, b])
                    ba, second = self.walk(self.unit(t), [b, a])
                    w = [self.f.sum(x, negative(self.f, y)) for x, y in zip(ba, ab)]
                    if any(w):
                        entries = first + [(negative(self.f, c), m, p) for c, m, p in second]
                        row[:] = w
                        slots[: len(entries)] = entries
                        self.phase = "clash"
                        return f"clash {place} {a + 1} {b + 1} {len(entries)}"
        row[:] = [0] * len(row)
        self.phase = "sound"
        return "sound"

    def judge_pairs(self, p, row):
        refuse(self.phase != "sound", 2)
        self.over([t for _, t in p])
        refuse(len(row) != len(self.terms), 9)
        self.codes([c for c, _ in p])
        refuse(len(p) > 64, 13)
        for place, (_, t) in enumerate(p, 1):
            refuse(sum(t) > 24, 14, place)

    def walks(self, p):
        total, entries = [0] * len(self.terms), []
        for c, t in p:
            word = [i for i in range(LETTERS) for _ in range(t[i])]
            row, more = self.walk([c] + [0] * (len(self.terms) - 1), word)
            total = [self.f.sum(x, y) for x, y in zip(total, row)]
            entries += more
        return total, entries

    def form(self, p, row):
        self.judge_pairs(p, row)
        row[:] = self.walks(p)[0]
        return "no" if any(row) else "yes"

    def cofactors(self, p, row, slots):
        self.judge_pairs(p, row)
        refuse(len(slots) < len(self.terms) * sum(sum(t) for _, t in p), 15)
        row[:], entries = self.walks(p)
        slots[: len(entries)] = entries
        return f"{len(entries)} {0 if any(row) else 1}"

    def table(self, i, rows):
        refuse(self.phase != "sound", 2)
        refuse(len(rows) != len(self.terms) ** 2, 9)
        refuse(not 1 <= i <= self.n, 16)
        rows[:] = [c for t in self.terms for c in self.step(self.unit(t), i - 1, xy(0, 0))[0]]
        return "0"


def lent(length):
    return [7] * length


def slots(length):
    return [(7, xy(7, 7), 7)] * length


def check(terms, room):
    return ("check", lent(terms), slots(room))


def form(p, terms):
    return ("form", p, lent(terms))


def cofactors(p, terms, room):
    return ("cofactors", p, lent(terms), slots(room))


def square():
    sparse = [(1, xy(2, 1)), (2, xy(1, 2))]
    return (
        [("lay", 2)]
        + [("term", t) for t in (xy(0, 0), xy(1, 0), xy(0, 1), xy(1, 1))]
        + [
            ("close",),
            ("rule", xy(2, 0), 1, [1, 0, 0, 0]),
            ("rule", xy(0, 2), 1, [0, 0, 1, 0]),
            ("rule", xy(2, 1), 1, [0, 0, 1, 0]),
            check(4, 10),
            ("rule", xy(1, 2), 1, [0, 0, 1, 0]),
            form([(1, xy(3, 3))], 4),
            check(4, 9),
            check(3, 10),
            check(4, 10),
            ("rule", xy(1, 2), 1, [0, 0, 0, 1]),
            check(4, 11),
            form([(1, xy(3, 3)), (2, xy(1, 1))], 4),
            form([(2, xy(3, 3)), (1, xy(0, 2)), (2, xy(0, 0))], 4),
            form([], 4),
            cofactors([], 4, 1),
            cofactors(sparse, 4, 24),
            cofactors(sparse, 4, 23),
            ("table", 2, lent(16)),
            ("table", 3, lent(16)),
            ("table", 1, lent(15)),
            ("rule", xy(1, 2), 0, [0, 0, 0, 1]),
            form([(1, xy(0, 2))], 4),
            ("strike", xy(0, 2)),
            form([(1, xy(0, 2))], 4),
            check(4, 10),
            ("strike", xy(0, 2)),
            ("rule", xy(0, 2), 1, [0, 0, 1, 0]),
            form([(1, xy(0, 2))], 4),
            ("lay", 9),
            check(4, 10),
            form([(1, xy(0, 2))], 4),
        ]
    )


def scaled():
    return [
        ("lay", 1),
        ("term", xy(0, 0)),
        ("term", xy(1, 0)),
        ("close",),
        ("rule", xy(2, 0), 4, [5, 9]),
        ("rule", xy(2, 0), 4, [5, 8]),
        check(2, 6),
        ("table", 1, lent(4)),
        cofactors([(3, xy(5, 0)), (7, xy(2, 0))], 2, 14),
    ]


def chain():
    return [
        ("lay", 2),
        ("term", xy(1, 0)),
        ("term", xy(0, 0)),
        ("term", xy(1, 0)),
        ("term", xy(1, 1)),
        ("term", xy(1, 0)),
        ("close",),
        ("rule", xy(0, 1), 1, [0, 0, 1]),
        ("rule", xy(2, 0), 1, [0, 1, 0]),
        ("rule", xy(2, 1), 1, [0, 0, 1]),
        ("rule", xy(1, 1), 1, [0, 0, 1]),
        ("rule", xy(1, 2), 1, [0, 0, 1]),
        check(3, 8),
        cofactors([(1, xy(0, 2))], 3, 6),
        form([(1, xy(0, 24))], 3),
        form([(1, xy(0, 1)), (1, xy(1, 24))], 3),
    ]


def short():
    return [
        ("lay", 2),
        ("term", xy(0, 0)),
        ("term", xy(1, 0)),
        ("close",),
        ("rule", xy(0, 1), 1, [1, 0]),
        ("rule", xy(2, 0), 1, [0, 0]),
        ("rule", xy(1, 1), 1, [0, 0]),
        check(2, 6),
    ]


def limits():
    return (
        [("lay", 1), ("close",)]
        + [("term", xy(k, 0)) for k in range(33)]
        + [
            ("term", xy(5, 0)),
            ("term", xy(0, 1)),
            ("close",),
            ("rule", xy(32, 0), 1, [1] + [0] * 31),
            check(32, 66),
            form([(1, xy(1, 0))] * 64, 32),
            form([(1, xy(1, 0))] * 65, 32),
            form([(2, xy(24, 0))], 32),
            form([(2, xy(24, 0)), (1, xy(25, 0))], 32),
        ]
    )


def line(book, name, *arguments):
    try:
        said = getattr(book, name)(*arguments)
    except Refused as r:
        said = f"refused {r.args[0]} {r.args[1]}"
    text = f"{name}: {said}"
    lends = {"check": 0, "form": 1, "cofactors": 1, "table": 1}
    if name in lends:
        text += ", row" + "".join(f" {c}" for c in arguments[lends[name]])
    if name in ("check", "cofactors"):
        text += ", entries"
        for code, multiplier, place in arguments[-1]:
            text += f" {code}*" + "".join(map(str, multiplier)) + f"@{place}"
    return text


def report(title, field, calls):
    print(title)
    book = Book(field)
    for call in calls:
        print(line(book, *call))


report("the square, order 3", Modulo(3), square())
report("the square, order 9", Nine(), square())
report("scaled rules, order 9", Nine(), scaled())
report("the chain, order 3", Modulo(3), chain())
report("one border product, order 3", Modulo(3), short())
report("limits, order 3", Modulo(3), limits())
