#!/usr/bin/env python3
"""Tries wrong bodies, crates/NAME/wrong-bodies/*.edit: the prover must refuse each.

usage: wrong_bodies.py [--gate] [--jobs N] [--only NAME] [--why] [CRATE ..]     with no crate all that have any

With --gate it tries those of wrong-bodies/gate/, which `.ci/run` tries each time. What was refused is kept on this machine, by the checksums
of all that the check read, and isn't tried again while these stay the same.

An edit is made in a copy of the crate, and the repository stays as it is. Edits of different functions are made in one copy, and one check
proves just these functions from nothing, over the libraries that `rt ci` or `rt lib` left in out/ (or tools/kept_libraries.py took). So the
crate needs no second proof. An edit counts as refused there where a goal of its own function isn't proved. What isn't refused so, or only
by a proof file that names what the edit took away, is tried once more alone, and then with the whole crate.

A line for each edit tells that it was refused, that the crate is STILL PROVED with it, so that a contract is too weak, or why it cannot be
applied, which shows nothing. The last line is 'N passed, M failed'; the status is 0 where each was refused, else 1.

An edit has a line 'file: src/x.rt', then pairs of lines 'old: TEXT' and 'new: TEXT'. Each old TEXT stands once in the file, as the pairs
before it have left it."""
import argparse
import hashlib
import os
import re
import shutil
import subprocess
import sys
import tempfile
import threading
import time
from concurrent.futures import ThreadPoolExecutor

import kit

ROOT = kit.ROOT
KEPT = os.path.join(os.environ.get("XDG_CACHE_HOME") or os.path.expanduser("~/.cache"), "txs-wrong-bodies")
# What a check takes of the memory, in bytes, at most as a rule; and how long it may take, in seconds.
NEED, SECONDS = 4_500_000_000, 3600
# What an error says of a name that cannot be read. Other errors at a name are the prover's, about a statement that is false.
UNREAD = re.compile(r"is not in scope|has no field|is no name|operand is missing|expected the end|cannot continue")
# What a proof file says of a name that the edit took away.
LOST = re.compile(r"(\./)?proofs/.*(has no field|is not in scope|has no `|was not admitted)")
SAYING = threading.Lock()


class Unfit(Exception):
    """An edit that tries no contract, and why."""


def say(text):
    with SAYING:
        print(text, flush=True)


def edits_of(crate, of_gate=False):
    """The edits of a crate by their names."""
    folder = f"{ROOT}/crates/{crate}/wrong-bodies" + "/gate" * of_gate
    names = sorted(os.listdir(folder)) if os.path.isdir(folder) else []
    return {it[: -len(".edit")]: f"{folder}/{it}" for it in names if it.endswith(".edit")}


def edited(edit, folder, texts=None):
    """The texts of the files that the edit changes, as they are and as it makes them, by their paths in the crate. Where texts
    are given, these stand in place of the files."""
    path, old, was, made = None, None, {}, {}
    with open(edit, encoding="utf-8") as file:
        lines = file.read().split("\n")
    for line in lines:
        word, _, text = line.partition(":")
        text = text[1:] if text.startswith(" ") else text
        if word == "file":
            path = text.strip()
            if not path.startswith("src/") or os.path.normpath(path) != path:
                raise Unfit(f"it edits {path}, and a body stands below src/")
        elif word == "old":
            old = text
        elif word == "new":
            if not path or not old:
                raise Unfit("a 'new:' line stands before any 'file:' or 'old:' line")
            if path not in made and texts and path in texts:
                was[path] = made[path] = texts[path]
            if path not in made:
                try:
                    with open(f"{folder}/{path}", encoding="utf-8") as file:
                        was[path] = made[path] = file.read()
                except OSError:
                    raise Unfit(f"there is no file {path}")
            count = made[path].count(old)
            if count != 1:
                raise Unfit(f"an 'old:' text stands in {path} {count} times, and not once")
            made[path], old = made[path].replace(old, text), None
    if not made:
        raise Unfit("it has no pair of 'old:' and 'new:' lines")
    return was, made


def function_at(text, path, place):
    """The end of the path of the function whose body has this place, as `rattle check --only` takes it, or nothing where it is in no
    function of a module or of a type's own. A type's own functions may stand in another module than the type, whose path they have."""
    inside = list(re.finditer(r"(?m)^( *)(?:pub(?:\([a-z]+\))? )?(?:const )?fn (\w+)", text[:place]))
    if not inside:
        return None
    found = inside[-1]
    if not found[1]:
        module = [it for it in path[len("src/") : -len(".rt")].split("/") if it not in ("lib", "main", "mod")]
        return "::".join([*module, found[2]])
    blocks = re.findall(r"(?m)^impl(?:<[^>]*>)? (\w+)(?:<[^>]*>)?( for)?", text[: found.start()])
    return f"{blocks[-1][0]}::{found[2]}" if blocks and not blocks[-1][1] else None


def function_of(was, made):
    """The function that an edit changes, if it changes one alone."""
    if len(made) != 1:
        return None
    path = next(iter(made))
    place = next((i for i, (one, other) in enumerate(zip(was[path], made[path])) if one != other), 0)
    return function_at(was[path], path, place)


def grouped(edits, folder):
    """Edits of different functions in groups: of each group the texts that they make together, and its edits with their functions.
    What is of no function's body alone, or can't be applied, is in no group."""
    groups = []
    for edit in edits:
        try:
            was, made = edited(edit, folder)
        except Unfit:
            continue
        function = function_of(was, made)
        if function is None:
            continue
        for texts, names in groups:
            if function in names.values():
                continue
            try:
                _, together = edited(edit, folder, texts)
            except Unfit:
                continue
            texts.update(together)
            names[edit] = function
            break
        else:
            groups.append((made, {edit: function}))
    return groups


def is_unread(line, changed):
    """Whether a text of src/ or specs/, or one that the edit changed, could not be read."""
    at = re.match(r"(?:\./)?(\S+?):\d+:\d+: error: (?:(`[^`]*`): )?(.*)", line)
    if not at or at[1] not in changed and not at[1].startswith(("src/", "specs/")):
        return False
    return not at[2] or bool(UNREAD.search(re.sub(r"`[^`]*`", "", at[3])))


def judged(status, lines, changed):
    """Whether the prover refused the crate, and what it said first. These are the tests by which the kit tells a refusal of a
    must-fail edit from one that doesn't compile, that cannot be read, or that never reached the prover."""
    unread = [line for line in lines if is_unread(line, changed)]
    if unread:
        raise Unfit(f"the edited text cannot be read: {unread[0][:200]}")
    if any("Run the lower steps again" in line for line in lines):
        raise Unfit("the library of a crate below doesn't fit: run rt ci, or rt lib there")
    if status == 0:
        return False, ""
    if status != 1 or not any(line.startswith(("logic=not-proved", "only=")) for line in lines):
        told = [line for line in lines if "error" in line] or lines
        raise Unfit(f"it did not reach the prover: {told[0][:200]}")
    told = [line for line in lines if re.match(r"(note: )?\S+:\d+:\d+:", line)]
    told = [line for line in told if ": error" in line or line.startswith("note: ")] or told
    if told and all(LOST.match(line) for line in told):
        return True, "only because a proof file names what the edit took away, which says little of the contract"
    return True, next((line for line in told if not LOST.match(line)), "")


class Copy:
    """A copy of a crate in which edits are made and checked, one set after another."""

    def __init__(self, crate, room):
        self.crate, self.room = crate, room
        for part in kit.RT.rtlib.PARTS:
            if os.path.isdir(f"{crate.folder}/{part}"):
                shutil.copytree(f"{crate.folder}/{part}", f"{room}/{part}")

    def write(self, texts):
        for path, text in texts.items():
            with open(f"{self.room}/{path}", "w", encoding="utf-8") as file:
                file.write(text)

    def check(self, texts, functions, keeps):
        """Checks the crate with these texts, or just these functions of it: the status, and the lines that it printed. It begins
        with what the checks before it kept, where it is asked to."""
        was = {}
        for path in texts:
            with open(f"{self.room}/{path}", encoding="utf-8") as file:
                was[path] = file.read()
        self.write(texts)
        words = [kit.RT.rtlib.RATTLE, "check", *self.crate.words(["--jobs", "1"], keeps=False)]
        words += ["--incremental", f"{self.room}/kept"] * keeps + [word for it in functions for word in ("--only", it)]
        how = {"stdin": subprocess.DEVNULL, "stdout": subprocess.PIPE, "stderr": subprocess.STDOUT, "encoding": "utf-8", "errors": "replace"}
        try:
            ran = subprocess.run(words, cwd=self.room, timeout=SECONDS, **how)
        except subprocess.TimeoutExpired:
            raise Unfit(f"its check took more than {SECONDS} seconds")
        finally:
            self.write(was)
        return ran.returncode, ran.stdout.split("\n")

    def refused_together(self, texts, names, keeps):
        """The edits of a group that one check refuses, each by a goal of its own function, with what it said of it."""
        try:
            status, lines = self.check(texts, names.values(), keeps)
            if not judged(status, lines, texts)[0]:
                return {}
        except Unfit:
            return {}
        found = {}
        changed = [next(iter(edited(it, self.crate.folder)[1])) for it in names]
        for (edit, name), file in zip(names.items(), changed):
            verdicts = [it for it in (re.match(rf"fn {self.crate.name}::((?:\w+::)*{name}): ", line) for line in lines) if it]
            if len(verdicts) != 1:
                continue
            answers = f"./proofs/{verdicts[0][1].replace('::', '/')}/"
            errors = [it for it in lines if it.startswith(answers) and ": error" in it and not LOST.match(it)]
            # (a goal that has no proof file is told of at its place in the code, which is this edit's where no other changes the file)
            if not errors and changed.count(file) == 1:
                errors = [it for it in lines if re.match(rf"note: {re.escape(file)}:\d+:\d+: it is not proved", it)]
            verdict = verdicts[0].string
            if not verdict.endswith(": proved") and ("did not prove" in verdict or errors):
                found[edit] = errors[0] if errors else verdict
        return found

    def refused_alone(self, edit):
        """Whether the edit alone is refused, at its own function or anywhere, and what was said."""
        was, made = edited(edit, self.crate.folder)
        function = function_of(was, made)
        if function:
            try:
                is_refused, said = judged(*self.check(made, [function], True), made)
                if is_refused and not said.startswith("only"):
                    return is_refused, said
            except Unfit:
                pass
        return judged(*self.check(made, [], True), made)


class Results:
    """What the gate's edits came to, on this machine, by the sums of all that their checks read."""

    def __init__(self):
        self.sums = {}

    def place(self, crate, edit):
        if crate.name not in self.sums:
            self.sums[crate.name] = kit.sum_below(crate)
        with open(edit, "rb") as file:
            whole = repr((self.sums[crate.name], os.path.basename(edit), file.read()))
        return f"{KEPT}/{hashlib.sha256(whole.encode()).hexdigest()}"

    def is_refused(self, crate, edit):
        return os.path.exists(self.place(crate, edit))

    def keep(self, crate, edit, said):
        os.makedirs(KEPT, exist_ok=True)
        with open(self.place(crate, edit), "w", encoding="utf-8") as file:
            file.write(f"{crate.name}/{os.path.basename(edit)}\n{said}\n")


def try_edits(crate, edits, tells_why=False):
    """Tries edits of a crate, by their paths, in a copy. It gives the refused ones with what was said, and counts those that are still
    proved, and those that cannot be applied."""
    lacking = [it.name for it in crate.below() if not kit.is_there(it)]
    if lacking:
        say(f"cannot be tried {crate.name}: the library of {lacking[0]} isn't built: run rt ci, or tools/kept_libraries.py behind it")
        return {}, 0, len(edits)
    refused, proved, unfit = {}, 0, 0
    name_of = lambda edit: f"{crate.name}/{os.path.basename(edit)[: -len('.edit')]}"
    with tempfile.TemporaryDirectory(prefix="wrong-bodies-") as room:
        copy, groups = Copy(crate, room), grouped(edits, crate.folder)
        for texts, names in groups:
            for edit, said in copy.refused_together(texts, names, len(groups) > 1).items():
                refused[edit] = said
                say(f"refused {name_of(edit)} (together){': ' + said[:200] if tells_why else ''}")
        for edit in [it for it in edits if it not in refused]:
            begun = time.monotonic()
            try:
                is_refused, said = copy.refused_alone(edit)
            except Unfit as why:
                say(f"cannot be applied {name_of(edit)}: {why}")
                unfit += 1
                continue
            if is_refused:
                refused[edit] = said
                shown = f": {said[:200]}" if said and (tells_why or said.startswith("only")) else ""
                say(f"refused {name_of(edit)} ({time.monotonic() - begun:.0f} s){shown}")
            else:
                say(f"STILL PROVED {name_of(edit)}")
                proved += 1
    return refused, proved, unfit


def side_by_side(jobs):
    """How many checks may run at once: as many as are asked for, else as processors and memory allow."""
    return jobs or max(1, min(kit.RT.processors(), kit.RT.free() // NEED))


def largest_first(names, crates):
    """The crates of these names, those with the most code first."""
    return sorted((crates[it] for it in names), key=lambda it: -it.count(rb"\n"))


def main():
    words = argparse.ArgumentParser(description=__doc__, formatter_class=argparse.RawDescriptionHelpFormatter)
    words.add_argument("crates", metavar="CRATE", nargs="*")
    words.add_argument("--gate", action="store_true", help="try the gate's own edits")
    words.add_argument("--jobs", metavar="N", type=int, help="how many crates to try side by side; else as many as fit")
    words.add_argument("--only", metavar="NAME", action="append", help="try only the edits of this name; may be given again")
    words.add_argument("--why", action="store_true", help="show what the prover said first of each that it refused")
    asked = words.parse_args()
    every = kit.crates_of(ROOT)
    crates = {it.name: it for it in every}
    unknown = [it for it in asked.crates if it not in crates]
    if unknown:
        sys.exit(f"crates.txt names no crate {unknown[0]}\n0 passed, 1 failed")
    results, edits, kept = Results() if asked.gate else None, {}, 0
    for name in asked.crates or crates:
        found = [path for it, path in edits_of(name, asked.gate).items() if not asked.only or it in asked.only]
        known = [it for it in found if results and all(map(kit.is_there, crates[name].below())) and results.is_refused(crates[name], it)]
        kept += len(known)
        left = [it for it in found if it not in known]
        if left:
            edits[name] = left

    def each(crate):
        refused, proved, unfit = try_edits(crate, edits[crate.name], asked.why)
        for edit, said in refused.items() if results else ():
            results.keep(crate, edit, said)
        return len(refused), proved + unfit

    with ThreadPoolExecutor(side_by_side(asked.jobs)) as pool:
        counts = list(pool.map(each, largest_first(edits, crates)))
    if kept:
        say(f"{kept} were refused before, and nothing that their checks read has changed")
    passed, failed = kept + sum(it for it, _ in counts), sum(it for _, it in counts)
    say(f"{passed} passed, {failed} failed")
    return 1 if failed or not passed else 0


if __name__ == "__main__":
    sys.exit(main())
