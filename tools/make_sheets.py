#!/usr/bin/env python3
"""Writes each examples/sheets/NAME.sheet from NAME.sheet.txt, and all that is made from the sheets.

A line of a text is bytes in hexadecimal, or `N times` and bytes that are repeated, up to a '#'.
From the sheets are made: their copies in crates/report_files/data, the list of their names in
crates/report_files/args, the input of the program `reporter`, and what `report_files` and
`reporter` have to print, worked out by report_expected.py.

With --check it writes nothing, and fails where a file is not what it should be.
"""
import pathlib
import re
import sys

sys.dont_write_bytecode = True
import report_expected

ROOT = pathlib.Path(__file__).resolve().parent.parent
SHEETS = ROOT / "examples" / "sheets"
FILES = ROOT / "crates" / "report_files"
REPORTER = ROOT / "crates" / "reporter"


def sheet_bytes(text):
    made = b""
    for line in text.splitlines():
        times, written = re.fullmatch(r"(?:(\d+) times )?(.*)", line.split("#")[0].strip()).groups()
        made += int(times or 1) * bytes.fromhex(written)
    return made


def made_files():
    """From each path to the bytes that it should hold."""
    sheets = {text.stem: sheet_bytes(text.read_text()) for text in sorted(SHEETS.glob("*.sheet.txt"))}
    made = {}
    for name, sheet in sheets.items():
        made[SHEETS / name] = made[FILES / "data" / name] = sheet
    reports = {name: report_expected.report(sheet) for name, sheet in sheets.items()}
    made[FILES / "args"] = "".join(f"{name}\n" for name in sheets).encode()
    made[FILES / "stdout"] = "".join(f"{name}\n{text}" for name, text in reports.items()).encode()
    made[REPORTER / "stdin"] = sheets["readings.sheet"]
    made[REPORTER / "stdout"] = reports["readings.sheet"].encode()
    return made


def main():
    check = sys.argv[1:] == ["--check"]
    if sys.argv[1:] and not check:
        sys.exit("usage: make_sheets.py [--check]")
    made = made_files()
    for path in [*SHEETS.glob("*.sheet"), *FILES.glob("data/*")]:
        if path not in made:
            sys.exit(f"{path.relative_to(ROOT)} has no text in examples/sheets")
    for path, content in made.items():
        if not check:
            path.parent.mkdir(parents=True, exist_ok=True)
            path.write_bytes(content)
        elif not path.exists() or path.read_bytes() != content:
            sys.exit(f"{path.relative_to(ROOT)} is not what make_sheets.py makes")


if __name__ == "__main__":
    main()
