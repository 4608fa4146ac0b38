#!/usr/bin/env python3
"""Brings the names of this repository's definitions and lemmas to the spelling of today's Rattle.

    tools/respell.py TOP [--anyway]

Run once, behind the kit's own port.py. A name that a file of specs/ or proofs/ declares with dashes becomes
UpperCamel if it begins with a capital (types, facts) and snake_case otherwise; every use of it follows. Names of the
kit, names that the check makes (goals, steps) and names of the code keep their spelling. It names the places where two
names would fall together, and stops there; with --anyway, once they were looked at, it goes on. (Those of today are
definitions that get the name of the function that computes them, which stands in another module, and fields of two
records.)
"""
import re
import sys
from pathlib import Path

TOP = Path(sys.argv[1] if len(sys.argv) > 1 else ".")
# bound names, which no declaration shows
BOUND = "return-price taker-side giver-side round-of blocked-own blocked-customer in-month in-year no-nominal no-money no-leg".split()
# a fact whose name the kit's script spelled as a word
OTHERS = {"Goes_on": "GoesOn"}
WORD = r"[A-Za-z_][\w'«»]*(?:-[\w'«»]+)*"
DECLARED = re.compile(rf"^\s*(?:(?:pub|abbrev|unfoldable|pattern)\s+)*(?:(?:record|data)\s+)?({WORD})\s*(?::|\(|\{{)")
GOAL = re.compile(r":\s*(?:goal|given)\.")
TOKEN = re.compile(rf"(?<![\w'\-])({WORD})(?![\w'])")


def antt_files():
    return sorted(p for p in TOP.glob("crates/*/**/*.antt") if "/out/" not in str(p))


def declared(path):
    for line in path.read_text().split("\n"):
        found = DECLARED.match(line)
        if found and "-" in found.group(1) and not GOAL.search(line) and not line.lstrip().startswith("--"):
            # a case or an application is no declaration: that has its type behind a colon, or is a record
            if ":" in line or "record" in line or "data" in line:
                yield found.group(1)


def respelled(name):
    if name[0].isupper():
        return "".join(part[0].upper() + part[1:] for part in name.split("-"))
    return name.replace("-", "_")


def main():
    names = sorted(({name for path in antt_files() for name in declared(path)} | set(BOUND)) - {"All-append"})
    table = {name: respelled(name) for name in names} | OTHERS
    spelled = {}
    for path in antt_files():
        for token in TOKEN.findall(path.read_text()):
            spelled.setdefault(token, path)
    clashes = [f"{old} -> {new}: stands in {spelled[new]}" for old, new in table.items() if new in spelled]
    seen = {}
    for old, new in table.items():
        if new in seen:
            clashes.append(f"{old} and {seen[new]} -> {new}")
        seen[new] = old
    for line in clashes:
        print("clash:", line)
    if clashes and "--anyway" not in sys.argv[1:]:
        sys.exit(1)
    # the kit's script keeps the word All for AllByRecursion, and the gate wants that name for the library's own
    for path in antt_files():
        text = path.read_text()
        if "AllByRecursion as All}" in text:
            text = text.replace("AllByRecursion as All}", "AllByRecursion}")
            path.write_text(re.sub(r"(?<![\w'.-])All(?![\w'-])", "AllByRecursion", text))
    files = antt_files() + sorted(TOP.glob("crates/*/src/**/*.rt")) + sorted(TOP.glob("crates/*/must-fail/*.edit"))
    for path in files:
        text = path.read_text()
        lines = []
        for line in text.split("\n"):
            comment = "--" if path.suffix == ".antt" else "//"
            if line.lstrip().startswith(comment):
                lines.append(line)
            else:
                lines.append(TOKEN.sub(lambda m: table.get(m.group(1), m.group(1)), line))
        if "\n".join(lines) != text:
            path.write_text("\n".join(lines))
    for old, new in table.items():
        print(old, new)


main()
