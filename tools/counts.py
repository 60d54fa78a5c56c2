#!/usr/bin/env python3
"""The figures of the table "Sizes" in docs/ARCHITECTURE.md: crates, lines of text and functions, as they are. Every line counts, blank or
not. A function is a line with `fn NAME`; laws and the methods of traits count, closures don't."""
import os
import re

CRATES = os.path.join(os.path.dirname(os.path.dirname(os.path.abspath(__file__))), "crates")
LINES, FUNCTIONS = 2000, 120


def lines(*folders):
    """The lines of all files of these folders."""
    for folder in folders:
        for at, _, files in os.walk(folder):
            for name in files:
                if name.endswith((".rt", ".antt")):
                    with open(os.path.join(at, name), encoding="utf-8") as file:
                        yield from file


def is_code(line):
    """Whether a line is neither blank nor the beginning of a comment, an import or a clause."""
    return not re.match(r"\s*($|//|(pub |ghost )*use |ensures|requires|invariant|×)", line)


def most(sizes):
    crate = max(sorted(sizes), key=sizes.get)
    return f"{crate}: {sizes[crate]:,}"


crates = sorted(it for it in os.listdir(CRATES) if it.startswith("txs"))
code = [it for it in crates if not it.startswith("txs_test_")]
tests = [it for it in crates if it not in code]
text = {it: list(lines(f"{CRATES}/{it}/src")) for it in crates}
size = {it: len(text[it]) for it in crates}
functions = {it: sum(bool(re.match(r"\s*(pub(\(\w+\))? )?fn \w+", line)) for line in text[it]) for it in crates}
rows = [
    ("crates", f"{len(crates)}, of which {len(tests)} hold tests"),
    ("lines of `src/`, without tests", f"{sum(size[it] for it in code):,}"),
    ("of these code: no clauses, comments, imports and blank lines", f"{sum(map(is_code, (line for it in code for line in text[it]))):,}"),
    ("lines of `src/` in the crates of tests", f"{sum(size[it] for it in tests):,}"),
    ("lines of `specs/`", f"{sum(1 for it in crates for _ in lines(f'{CRATES}/{it}/specs')):,}"),
    ("lines of `proofs/`", f"{sum(1 for it in crates for _ in lines(f'{CRATES}/{it}/proofs')):,}"),
    ("the most lines of `src/`", most({it: size[it] for it in code})),
    ("the most functions", most({it: functions[it] for it in code})),
    (f"over {LINES:,} lines", ", ".join(f"{it} {size[it]:,}" for it in code if size[it] > LINES) or "none"),
    (f"over {FUNCTIONS} functions", ", ".join(f"{it} {functions[it]}" for it in code if functions[it] > FUNCTIONS) or "none"),
]
print("| what | how much |", "|---|---|", *(f"| {what} | {much} |" for what, much in rows), sep="\n")
