#!/usr/bin/env python3
"""Whether docs/PROVED.md has each public call and law in a row of its crate, each named clause of a call with a table of its own, and
nothing that isn't there. Names alone are compared: whether a row says what the contract says is for you to read."""
import os
import re

ROOT = os.path.dirname(os.path.dirname(os.path.abspath(__file__)))


def read(path):
    with open(path, encoding="utf-8") as file:
        return file.read()


def calls_of(src):
    """The public calls of a crate, as `name` or `Type::name`, each with the names of its clauses."""
    texts = {os.path.relpath(f"{at}/{it}", src)[:-3]: read(f"{at}/{it}") for at, _, files in os.walk(src) for it in files}
    lib = re.sub("//.*", "", texts.get("lib", ""))
    whole = {"lib", *re.findall(r"(?m)^pub mod (\w+);", lib)}
    parts = {(module, name) for module, names in re.findall(r"(?ms)^pub use (\w+)::(.*?);", lib) for name in re.findall(r"\w+", names)}
    types = [(at, name) for at in texts for name in re.findall(r"(?m)^pub (?:struct|enum) (\w+)", texts[at])]
    shown, calls = {name for at, name in types if at in whole or (at, name) in parts}, {}
    for at, text in texts.items():
        owner, clauses = None, set()
        for line in text.splitlines():
            if line.startswith(("impl", "}")):
                owner = (re.match(r"impl(?:<[^>]*>)? (\w+)(?:<[^>]*>)? \{", line) or [None, None])[1]
            elif it := re.match(r"( {4})?(pub )?fn (\w+)", line):
                is_call = it[2] and (owner in shown if it[1] else at in whole or (at, it[3]) in parts)
                clauses = calls.setdefault(f"{owner}::{it[3]}" if it[1] else it[3], set()) if is_call else set()
            elif it := re.match(r" {4,8}ensures (\w+) ", line):
                clauses.add(it[1])
    return calls


def amiss(page):
    left = {crate: calls_of(f"{ROOT}/crates/{crate}/src") for crate in os.listdir(f"{ROOT}/crates") if crate.startswith("txs")}
    parts = re.split(r"(?m)^##+ (.*)\n", page)
    for title, text in zip(parts[1::2], parts[2::2]):
        calls = {name: it for crate in re.findall(r"\btxs\w*", title) for name, it in left.pop(crate, {}).items()}
        missing = set(calls)
        for table in re.findall(r"(?m)(?:^\|.*\n)+", text):
            of, _, *rows = [re.findall(r"`(\w+(?:::\w+)?)`", line.split(" | ")[0]) for line in table.splitlines()]
            if of:
                clauses, missing, rows = set().union(*(calls.get(it, ()) for it in of)), missing - set(of), [sum(rows, [])]
                yield from (f"{title}: clause {it} of {of[0]}, there or here alone" for it in sorted(clauses ^ set(rows.pop())))
            for owners, name in [({it.split("::")[0] for it in row if it[0].isupper()}, name) for row in rows for name in row]:
                ends = [it for it in calls if it.split("::")[-1] == name.split("::")[-1]]
                named = {it for it in ends if it == name or name[0].islower() and (not owners or it.split("::")[0] in owners | {it})}
                missing -= named
                if not named and ("::" in name or name.islower()):
                    yield f"{title}: {name} isn't there"
        yield from (f"{title}: no row for {it}" for it in sorted(missing))
    yield from (f"{crate}: no row for {it}" for crate in sorted(left) for it in sorted(left[crate]) if f"`{it}`" not in page)


wrong = list(amiss(read(f"{ROOT}/docs/PROVED.md")))
print(*wrong, f"{0 if wrong else 1} passed, {len(wrong)} failed", sep="\n")
raise SystemExit(1 if wrong else 0)
