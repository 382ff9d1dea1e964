#!/usr/bin/env python3
"""Counts places in crates/*/src whose form may be an older one, by point. `count_forms.py` prints the counts, `count_forms.py N` the places of point N.

The counts find candidates, not faults: docs/DESIGN-PASS.md says what each of them is.
Tests (crates field_tests, sheet_tests) count like all other source.
"""
import collections
import pathlib
import re
import sys

ROOT = pathlib.Path(__file__).resolve().parent.parent

LINES = {
    "1": r"0 where (it|there|each|none)|\bor 0\.|given: \[bool|\(usize, u8\)|-> u8$|\bkind: u16|fn number\(self\)|fn (of|new)\(.*-> (Option|Result|Request)|^    (UnknownKind|NoPair),|if \w+ [!=]= 0 \{$",
    "3": r"for \(?[a-z_]+(, \(?[a-z_*, ]+\)?)?\)? in .*(\.\.|enumerate)|\bwhile\b",
    "4": r"fn (same|is_product|number|of|digit|digits|layer_name|call_name|member_word|put_decimal|put_spaced|put_three|put_codes|put_sound|put_clash|put_form|put_fault|push_(cell|number|power|term|row|entry|entries|record|rule|question|line|refused|no_pair|label)|[a-z]+_text|fault_line|heading_line)\b",
    "6": r"\[[^\]]*; (8|32|256|N|LINE)\]|\b(size|count|at|number): (&mut )?usize\b",
    "7": r"^pub trait |^impl.* (Test|Expected)(<.*>)? for |\bdyn\b|\bfn\(",
}


def sources():
    for path in sorted(ROOT.glob("crates/*/src/**/*.rt")):
        yield path.relative_to(ROOT), path.read_text().splitlines()


def functions():
    """Each function: path, line, name, header (with clauses), body."""
    for path, lines in sources():
        k = 0
        while k < len(lines):
            m = re.match(r"( *)(pub(?:\(crate\))? )?(?:const )?fn (\w+)", lines[k])
            if not m:
                k += 1
                continue
            indent, start = m.group(1), k
            while k < len(lines) and lines[k] != indent + "}" and not (k > start and lines[k].rstrip() in (indent + "{}",)) and not lines[k].endswith(";"):
                k += 1
            block = lines[start:k + 1]
            split = next((i for i, l in enumerate(block) if l == indent + "{" or l.rstrip().endswith("{") and not l.lstrip().startswith(("requires", "ensures"))), len(block))
            yield path, start + 1, m.group(3), block[:split + 1], block[split + 1:]
            k += 1


def by_line(point):
    found = []
    for path, lines in sources():
        for k, line in enumerate(lines):
            if re.search(LINES[point], line) and not line.lstrip().startswith("ghost"):
                found.append(f"{path}:{k + 1}: {line.strip()}")
    return found


def twins():
    """Functions whose bodies of three lines or more have one shape once names, numbers and strings are taken out."""
    shapes = collections.defaultdict(list)
    for path, line, name, header, body in functions():
        text = " ".join(x.strip() for x in body if not x.strip().startswith("//"))
        if len(body) < 4:
            continue
        shape = re.sub(r'b?"[^"]*"', "S", text)
        shape = re.sub(r"\b(?!if|else|match|for|in|while|return|let|mut|Ok|Err|Some|None|self|as)\w+\b", "w", shape)
        shapes[shape].append(f"{path}:{line}: {name}")
    return [" = ".join(names) for names in shapes.values() if len(names) > 1]


def facts():
    """Facts of contracts that stand in three functions or more, and pairs of parameters that do."""
    clauses, pairs = collections.Counter(), collections.Counter()
    for path, line, name, header, body in functions():
        crate = str(path).split("/")[1]
        text = " ".join(header)
        mine = set()
        for clause in re.findall(r"requires(?: \w+)? \{(.*?)\}(?= +(?:requires|ensures)| *$| *\{)", text):
            mine.update((crate, part.strip(" ()")) for part in re.split("×", clause))
        clauses.update(mine)
        args = re.findall(r"(\w+): (&?(?:'\w+ )?(?:mut )?[\w\[\]; ()<>',]+?)(?=, \w+:|,? *\))", re.sub(r"^.*?\(", "", text.split("->")[0], count=1) + ")")
        named = sorted({f"{a}: {t}" for a, t in args})
        pairs.update({(crate, named[i], named[j]) for i in range(len(named)) for j in range(i + 1, len(named))})
    return [f"{n} times in {k[0]}: {' , '.join(k[1:])}" for c in (clauses, pairs) for k, n in c.most_common() if n > 2]


def lemmas():
    """Lemmas in proofs/ that stand under one name in two files, and answers that only call one tactic."""
    names, found = collections.defaultdict(set), []
    for path in sorted(ROOT.glob("crates/*/proofs/**/*.antt")):
        text = path.read_text()
        if path.name not in ("Answers.antt", "Invariants.antt"):
            for m in re.finditer(r"^(?:abbrev )?(?:pub )?([a-z][\w-]*) :", text, re.M):
                names[m.group(1)].add(str(path.relative_to(ROOT)))
        elif path.name == "Answers.antt":
            for m in re.finditer(r"^(\S+) [^=\n]*= (search rules|omega arith|grind arith)$", text, re.M):
                found.append(f"{path.relative_to(ROOT)}: {m.group(1)} = {m.group(2)}")
    return [f"{n}: {', '.join(sorted(p))}" for n, p in sorted(names.items()) if len(p) > 1] + found


POINTS = {**{n: (lambda n=n: by_line(n)) for n in LINES}, "2": twins, "5": facts, "8": lemmas}

if __name__ == "__main__":
    if len(sys.argv) > 1:
        print("\n".join(POINTS[sys.argv[1]]()))
    else:
        for n in sorted(POINTS):
            print(n, len(POINTS[n]()))
