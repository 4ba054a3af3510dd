#!/usr/bin/env python3
"""Counts the places of an older form in the crates' src/: one line for each rule of docs/DESIGN-PASS.md, and with --list each place.

usage: tools/design_places.py [--list] [FOLDER]"""
import argparse
import glob
import os
import re
import sys


def functions(text):
    """The functions of a file: (line, name, parameters, clauses, body)."""
    found = []
    for m in re.finditer(r"^ *(?:pub )?(?:extern \"C\" )?fn (\w+)(?:<[^>(]*>)?\(", text, re.M):
        depth, at = 1, m.end()
        while depth:
            depth += {"(": 1, ")": -1}.get(text[at], 0)
            at += 1
        parameters = [p.strip() for p in re.split(r",(?![^<(\[]*[>)\]])", text[m.end() : at - 1]) if p.strip()]
        body = re.search(r"^ *\{$|\{$", text[at:], re.M)
        end = at + body.start() if body else len(text)
        close = re.search(r"^%s\}$" % re.match(r" *", m.group(0)).group(0), text[end:], re.M)
        found.append((text.count("\n", 0, m.start()) + 1, m.group(1), parameters, text[at:end], text[end : end + close.end()] if close else ""))
    return found


def lines(pattern, within=lambda path: True):
    def rule(path, text):
        if not within(path):
            return []
        return [
            (n, line.strip())
            for n, line in enumerate(text.split("\n"), 1)
            if not line.lstrip().startswith("//") and re.search(pattern, line)
        ]

    return rule


def in_crates(*names):
    return lambda path: path.split("crates/")[1].split("/")[0] in names


def by_function(test):
    def rule(path, text):
        return [(line, name) for line, name, parameters, clauses, body in functions(text) if test(name, parameters, clauses, body)]

    return rule


def asks(fact):
    return by_function(lambda name, parameters, clauses, body: any(fact in c for c in re.findall(r"requires(?:(?!\bensures\b)[\s\S])*", clauses)))


RULES = [
    ("1 own enums of the shape of Result or Option", lines(r"^\s*(Refused\(u32\)|Missing),")),
    ("1 refusals by number", lines(r"Refused\([0-9]+\)|return (3|5|7|8|9|10);")),
    ("1 answers that are 0 or a refusal's number", by_function(lambda n, p, c, b: n in ("rules_number", "rules_number_over", "judge", "name_number") and "u32" in c.split("requires")[0].split("ensures")[0])),
    ("1 kinds by number", lines(r"\b(kind|k): (usize|u32)\b|\b(place|entry_of|value_of|write_section|word_of|section)\(.*\b(form|Certificate|p|ws|to|n|count|end)?,? ?\b([0-9]|1[05])\b[,)]", in_crates("sheet", "certificate", "reading"))),
    ("1 a number that stands for nowhere", lines(r"\bNO\b.*=|== 255|, 255\)|\bnone: usize", in_crates("sheet", "certificate", "reading"))),
    ("2 functions with a size in their name", lines(r"^\s*(pub )?fn [a-z_]+[0-9]{2,}\(")),
    ("2 the same function in two crates", lines(r"^(pub )?fn (word|clear|widen|copy|put|reverse|least|most|over|wide|plus_multiple|print|blank)\(")),
    ("3 loops by while", lines(r"^\s*while ")),
    ("4 casts that cannot fail", lines(r" as (u16|u32|u64|usize)\b")),
    ("4 conversions by hand", lines(r"^(pub )?fn (wide|narrow|size|byte|word_at|load|verdict_number|written_number|refusal|number|point_of)\(")),
    ("5 functions that ask Prepared", asks("Prepared ")),
    ("5 functions that ask Ready", asks("Ready ")),
    ("5 functions that ask Over", asks("Over ")),
    ("5 functions that ask Reduced", asks("Reduced ")),
    ("5 functions of seven parameters or more", by_function(lambda n, p, c, b: len(p) >= 7)),
    ("6 a length or a place beside a slice", by_function(lambda n, p, c, b: any("[" in q for q in p) and any(re.match(r"(len|hl|dl|from|to|known|at): usize", q) for q in p))),
    ("6 a buffer that is filled, and how much of it", by_function(lambda n, p, c, b: any(re.match(r"(out|kept|words|answer): &mut", q) for q in p) and re.match(r"\s*-> usize", c))),
    ("6 arrays side by side", by_function(lambda n, p, c, b: any(q.startswith("primes:") for q in p) and any(q.startswith("inverses:") for q in p))),
    ("7 a choice of room by size", lines(r"^\s*return [a-z_]+[0-9]{2,}\(|^\s*[a-z_]+264\(|^\s*return small\(")),
]


def main():
    options = argparse.ArgumentParser(description=__doc__)
    options.add_argument("--list", action="store_true", help="each place")
    options.add_argument("folder", nargs="?", default=".")
    given = options.parse_args()
    os.chdir(given.folder)
    files = sorted(glob.glob("crates/*/src/**/*.rt", recursive=True))
    texts = {path: open(path, encoding="utf-8").read() for path in files}
    for name, rule in RULES:
        places = [(path, n, what) for path in files for n, what in rule(path, texts[path])]
        print(f"{len(places):4}  {name}")
        if given.list:
            for path, n, what in places:
                print(f"      {path}:{n}: {what}")


if __name__ == "__main__":
    sys.exit(main())
