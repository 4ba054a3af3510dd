#!/usr/bin/env python3
"""Brings the names of this repository's definitions and lemmas to snake case: a dash in a name of ours becomes an underscore, and so does what
stands before a capital in a name as valuesOf.

usage: python3 tools/port_names.py      in the repository, once, after the kit's own script for older repositories

A name is ours if it stands in a file of specs/, of lemmas, or in a clause, and the kit's library has no such name; OURS lists the names that both
have, where the one here is ours. Names from a proof of one function, which the check makes, are left. Names that fall together are
printed: those of a Rattle function and of a word or lemma in another scope may.
"""

import collections
import glob
import os
import re
import subprocess

WORD = re.compile(r"[A-Za-z_\u0370-\u03ff\u2070-\u209c\u2115\u2124\u1d00-\u1dbf][\w\u2070-\u209c'\-]*")
OURS = set(
    "at-end at-word at-z b-is count-is count-zero decimal-digits decimal-read first-at first-is first-meets from-product i-end i-is last-is"
    " long-r lower-is n-is next-is not-one place-from power-next read-last rest-is rows-below s-is short-known turn-fits v-is value-is"
    " zero-product mul-fits".split()
)
CAMEL = re.compile(r"^[a-z]{3,}[A-Z]")
# Another name, where the snake case of ours stands in the same files already.
OTHER = {
    "candidate-sum": "candidate_sum_lem",
    "first-logarithmic-part": "first_logarithmic_part_of",
    "second-logarithmic-part": "second_logarithmic_part_of",
    "linear-part": "linear_part_of",
    "power-sums": "power_sums_of",
    "rational-abscissas": "rational_abscissas_of",
    "kind-of": "kind_is",
    "word-at": "word_is",
    "value-at": "value_at_is",
    "without-sum": "without_sum_table",
    "question-form": "question_form_lem",
    "certificate-words": "certificate_words_lem",
}
MADE = re.compile(r"^(Need|After|In|At|If|Else)-|^(invariant|decreases)-loop|^returns-\d|-requires(-\d+)?$")


def read(path):
    with open(path, encoding="utf-8") as f:
        return f.read()


def files(pattern):
    return sorted(p for p in glob.glob(pattern, recursive=True) if "/out/" not in p)


def kit_words():
    page = subprocess.run(["rt", "doc"], capture_output=True, text=True).stdout.strip()
    words = set()
    for p in glob.glob(os.path.join(os.path.dirname(page), "rattle", "*", "**", "*.antt"), recursive=True):
        with open(p, encoding="utf-8", errors="replace") as f:
            words.update(w for w in WORD.findall(re.sub(r"--.*", "", f.read())) if "-" in w)
    return words


def main():
    functions = files("crates/*/proofs/*/Proof.antt")
    antt = [p for p in files("crates/*/**/*.antt") if p not in functions]
    code = files("crates/*/src/**/*.rt")
    edits = files("crates/*/must-fail/*.edit")
    kit = kit_words()

    seen = collections.Counter()
    for p in antt:
        seen.update(WORD.findall(re.sub(r"--.*", "", read(p))))
    for p in code:
        seen.update(WORD.findall(re.sub(r"//.*", "", read(p))))
    ours = {w for w in seen if "-" in w and (w not in kit or w in OURS) and not MADE.search(w)}
    ours |= {w for w in seen if CAMEL.match(w) and w != "getD"}
    to = {w: OTHER.get(w) or re.sub(r"(?<=[a-z])(?=[A-Z])", "_", w).replace("-", "_") for w in ours}
    to |= {w: re.sub(r"[A-Z]", lambda m: m.group(0).lower(), n) for w, n in to.items() if CAMEL.match(w)}

    every = set(seen)
    by = collections.defaultdict(set)
    for w, n in to.items():
        by[n].add(w)
    clash = sorted((n, sorted(ws)) for n, ws in by.items() if len(ws) > 1 or n in every)
    for n, ws in clash:
        print(f"falls together: {n} from {', '.join(ws)}{' and itself' if n in every else ''}")
    turned = 0

    def turn(text):
        return WORD.sub(lambda m: to.get(m.group(0), m.group(0)), text)

    for p in antt + functions + code + edits:
        old = read(p)
        new = turn(old)
        if new != old:
            turned += 1
            with open(p, "w", encoding="utf-8") as f:
                f.write(new)
    pages = ["README.md", "CHANGELOG.md", *files("docs/**/*.md"), *files("tests/*.md"), *files("bench/*.md")]
    for p in pages:
        if p.endswith("docs/PORT.md"):
            continue
        old = read(p)
        new = re.sub(r"`[^`\n]+`", lambda m: turn(m.group(0)), old)
        if new != old:
            turned += 1
            with open(p, "w", encoding="utf-8") as f:
                f.write(new)
    print(f"{len(to)} names, {turned} files")
    return 0


if __name__ == "__main__":
    raise SystemExit(main())
