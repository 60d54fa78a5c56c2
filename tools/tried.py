#!/usr/bin/env python3
"""Whether the wrong bodies of each crate were tried on the code that stands. So the gate needn't try them, and none is forgotten.

usage: tried.py                    says what is amiss; the status is 1 if anything is (`.ci/run` calls it so)
       tried.py [--jobs N] NAME ..  tries the wrong bodies of these crates as tools/wrong_bodies.py does, and stamps each crate of which
                                   every one is refused

A stamp is the file crates/NAME/wrong-bodies/TRIED. It has a sum of the crate's src/, specs/ and wrong bodies. So it is stale once one of
them changes, and not by a change of proofs alone. A change of a crate below makes it stale neither: try those above by hand where a
contract has changed. Those of wrong-bodies/gate/ are tried by the gate itself, each time.

tools/untried.txt names the crates that have no stamp yet. It may only shrink: no name is added to it, a stamped crate is taken out of
it, and whoever changes a crate that it names tries that crate."""
import argparse
import hashlib
import os
import subprocess
import sys
from concurrent.futures import ThreadPoolExecutor

import kit
import wrong_bodies

ROOT = kit.ROOT
LIST = "tools/untried.txt"


def sum_of(crate):
    """The sum of what a stamp stands for."""
    found = list(wrong_bodies.edits_of(crate).values())
    for part, end in (("src", ".rt"), ("specs", ".antt")):
        for at, _, files in os.walk(f"{ROOT}/crates/{crate}/{part}"):
            found += [f"{at}/{it}" for it in files if it.endswith(end)]
    whole = hashlib.sha256()
    for path in sorted(found):
        with open(path, "rb") as file:
            whole.update(repr((os.path.relpath(path, ROOT), file.read())).encode())
    return whole.hexdigest()


def stamp_at(crate):
    return f"{ROOT}/crates/{crate}/wrong-bodies/TRIED"


def stamp_of(crate):
    """The sum in a crate's stamp, or nothing where it has none."""
    try:
        with open(stamp_at(crate), encoding="utf-8") as file:
            return file.read().strip()
    except OSError:
        return ""


def names_in(text):
    return {line.strip() for line in text.splitlines() if line.strip() and not line.startswith("#")}


def untried():
    with open(f"{ROOT}/{LIST}", encoding="utf-8") as file:
        return names_in(file.read())


def added(names):
    """The names that an earlier text of the list lacks, as git has them; none where there is no git."""
    def git(*words):
        ran = subprocess.run(["git", "-C", ROOT, *words], capture_output=True, encoding="utf-8")
        return ran.stdout if ran.returncode == 0 else ""

    found = set()
    for commit in git("log", "--format=%h", "--", LIST).split():
        earlier = git("show", f"{commit}:{LIST}")
        # (where the list was taken away there is no text)
        found |= names - names_in(earlier) if earlier else set()
    return found


def amiss(crates):
    """What is wrong with the stamps and the list, a line each."""
    listed = untried()
    for crate in crates:
        stamp = stamp_of(crate)
        if not stamp and crate not in listed:
            yield f"{crate}: its wrong bodies were never tried"
        elif stamp and crate in listed:
            yield f"{crate}: it has a stamp, so take it out of {LIST}"
        elif stamp and stamp != sum_of(crate):
            yield f"{crate}: its code, its definitions or its wrong bodies have changed since they were tried"
    for name in sorted(listed - set(crates)):
        yield f"{name}: {LIST} names it, and it has no wrong bodies"
    for name in sorted(added(listed)):
        yield f"{name}: it was added to {LIST}, which may only shrink"


def try_crate(crate):
    """Tries a crate's wrong bodies, and stamps it if each was refused. Whether it did."""
    before = sum_of(crate.name)
    refused, proved, unfit = wrong_bodies.try_edits(crate, list(wrong_bodies.edits_of(crate.name).values()))
    if proved or unfit:
        return False
    if sum_of(crate.name) != before:
        wrong_bodies.say(f"{crate.name}: it changed meanwhile, so it isn't stamped")
        return False
    with open(stamp_at(crate.name), "w", encoding="utf-8") as file:
        file.write(before + "\n")
    wrong_bodies.say(f"{crate.name}: stamped, {len(refused)} refused")
    return True


def main():
    words = argparse.ArgumentParser(description=__doc__, formatter_class=argparse.RawDescriptionHelpFormatter)
    words.add_argument("crates", metavar="NAME", nargs="*")
    words.add_argument("--jobs", metavar="N", type=int)
    asked = words.parse_args()
    every = {it.name: it for it in kit.crates_of(ROOT)}
    crates = [it for it in every if wrong_bodies.edits_of(it)]
    if not asked.crates:
        found = list(amiss(crates))
        print(*found, sep="\n", end="\n" if found else "")
        print(f"{len(crates)} crates have wrong bodies: {sum(bool(stamp_of(it)) for it in crates)} stamped, {len(untried())} untried")
        return 1 if found else 0
    for name in asked.crates:
        if name not in crates:
            sys.exit(f"tried.py: {name} has no wrong bodies")
    with ThreadPoolExecutor(wrong_bodies.side_by_side(asked.jobs)) as pool:
        return 0 if all(list(pool.map(try_crate, wrong_bodies.largest_first(asked.crates, every)))) else 1


if __name__ == "__main__":
    sys.exit(main())
