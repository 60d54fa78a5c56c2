#!/usr/bin/env python3
"""Runs the gate, and sums what it costs, by crate and by kind of check.

usage: gate_cost.py LOG [COMMAND ..]       runs the command (else .ci/run), writes a line for each check to LOG, and prints the table
       gate_cost.py --table LOG [--crates]  the table of an earlier run; with --crates a line for each crate

Twice a second it reads /proc for checks of `rattle`, and touches nothing. Seconds are of a processor. The kinds:
  proof      of a library or a program, from nothing
  tests      the proof of a crate's tests
  build      the programs, by either compiler
  wrong      the gate's wrong bodies, all of a crate in one check
  layout     `rattle fmt`
  rest       all else that the command took: the tests' and the programs' runs, the scripts in tests/, what was missed"""
import collections
import os
import resource
import subprocess
import sys
import threading
import time

TICKS = os.sysconf("SC_CLK_TCK")
KINDS = ("proof", "tests", "build", "wrong", "layout", "rest")
# what tells checks apart in their words
MARKS = ("--test", "--crate-checked")


def state_of(pid):
    """The parent of a process, its time with that of its ended children in seconds, and when it began."""
    with open(f"/proc/{pid}/stat", encoding="utf-8", errors="replace") as file:
        text = file.read()
    parts = text[text.rindex(")") + 2 :].split()
    return int(parts[1]), sum(map(int, parts[11:15])) / TICKS, int(parts[19])


class Watch:
    """The checks that run, and those that have ended, each as a row of the log."""

    def __init__(self, log):
        self.log, self.running, self.begun = log, {}, time.time()

    def look(self):
        """Reads which checks run, and writes those that have ended."""
        there = set()
        for pid in filter(str.isdigit, os.listdir("/proc")):
            try:
                with open(f"/proc/{pid}/comm", encoding="utf-8") as file:
                    if file.read() != "rattle\n":
                        continue
                parent, spent, start = state_of(pid)
                check = self.running.get((pid, start)) or self.begin(pid)
            except (OSError, ValueError, IndexError):
                continue
            self.running[pid, start] = {**check, "spent": spent, "parent": parent, "last": time.time()}
            there.add((pid, start))
        for key in [it for it in self.running if it not in there]:
            self.end(self.running.pop(key))

    def begin(self, pid):
        with open(f"/proc/{pid}/cmdline", encoding="utf-8", errors="replace") as file:
            words = file.read().split("\0")
        if len(words) < 3:
            raise ValueError(words)
        return {"words": words, "folder": os.readlink(f"/proc/{pid}/cwd"), "at": time.time()}

    def end(self, check):
        if check["parent"] in {int(pid) for pid, _ in self.running}:
            # (a fork, whose time its parent has)
            return
        words = check["words"]
        behind = lambda flag: words[words.index(flag) + 1] if flag in words[:-1] else ""
        marks = ",".join(it for it in MARKS if it in words)
        row = (round(check["at"] - self.begun, 1), round(check["last"] - check["at"], 1), round(check["spent"], 2), behind("--crate-name"), words[1], marks, check["folder"])
        self.log.write("\t".join(map(str, row)) + "\n")


def run(path, command):
    """Runs the command with a look twice a second, and writes its whole time as the last row."""
    with open(path, "w", encoding="utf-8", buffering=1) as log:
        watch, is_over = Watch(log), threading.Event()

        def look():
            while not is_over.wait(0.5):
                watch.look()

        thread = threading.Thread(target=look)
        thread.start()
        status = subprocess.run(command, stdin=subprocess.DEVNULL).returncode
        is_over.set()
        thread.join()
        watch.look()
        took = resource.getrusage(resource.RUSAGE_CHILDREN)
        log.write(f"whole\t{time.time() - watch.begun:.0f}\t{took.ru_utime + took.ru_stime:.0f}\n")
    return status


def kinds_of(rows):
    """The crate, the kind and the seconds of each row."""
    for _, _, spent, crate, verb, marks, folder in rows:
        if verb == "fmt":
            kind = "layout"
        elif "--crate-checked" in marks:
            kind = "build"
        elif "--test" in marks:
            kind = "tests"
        elif os.path.basename(folder).startswith("wrong-bodies-"):
            kind = "wrong"
        else:
            kind = "proof"
        yield crate, kind, float(spent)


def table(path, by_crate):
    with open(path, encoding="utf-8") as file:
        rows = [line.rstrip("\n").split("\t") for line in file]
    whole = [row for row in rows if row[0] == "whole"]
    spent, count = collections.defaultdict(collections.Counter), collections.defaultdict(collections.Counter)
    for crate, kind, seconds in kinds_of([row for row in rows if len(row) == 7]):
        for name in ("all", crate) if by_crate else ("all",):
            spent[name][kind] += seconds
            count[name][kind] += 1
    if whole:
        spent["all"]["rest"] = float(whole[-1][2]) - sum(spent["all"].values())
    print("crate".ljust(26), *[it.rjust(11) for it in (*KINDS, "sum")])
    for name in sorted(spent, key=lambda it: -sum(spent[it].values())):
        cells = [f"{spent[name][it]:.0f} ({count[name][it]})" if count[name][it] else f"{spent[name][it]:.0f}" if spent[name][it] else "" for it in KINDS]
        print(name.ljust(26), *[it.rjust(11) for it in (*cells, f"{sum(spent[name].values()):.0f}")])
    if whole:
        print(f"the whole: {float(whole[-1][2]):.0f} s of a processor in {float(whole[-1][1]) / 60:.0f} minutes")


def main(*words):
    if words[:1] == ("--table",) and len(words) > 1:
        return table(words[1], "--crates" in words)
    if not words or words[0].startswith("-"):
        sys.exit(__doc__)
    status = run(words[0], words[1:] or [".ci/run"])
    table(words[0], False)
    return status


if __name__ == "__main__":
    sys.exit(main(*sys.argv[1:]))
