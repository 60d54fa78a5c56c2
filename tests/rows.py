#!/usr/bin/env python3
"""rows.py [--only WORD]
Runs the examples (examples/) and the rows (tests/rows/*.rows) by the built program, and compares what it writes, and its status, with what
stands beside or below each script. Of each script it is also looked whether `build` refuses it as `check` does, or gives its byte form, which
is read as code with the same listing. Both builds of the gate are tried, that of LLVM and that of Rattle's own compiler. --only tries the rows
whose file or title has this word. TXS names one other program in their place. --quick is for a slow program, as ./txs --test has: it leaves out the
rows that are long, and the look at `build`. Its last line is 'N passed, M failed'."""
import argparse
import glob
import os
import re
import subprocess
import sys
import tempfile
import trial

TOP = os.path.join(trial.HERE, "..")
BUILDS = [trial.PROGRAM] if "TXS" in os.environ else [trial.PROGRAM, trial.PROGRAM + ".by-rattle"]
# words of the titles of rows that a program of `rt try` runs for 10 seconds and more
LONG = ("65,535 items and one more", "a journal that reads have filled", "goes on in a full journal", "10,000 tries", "9,999 tries",
        "an action that runs again too often", "each of 2,200 vectors")
# what a line of a row is, by its mark
MARKS = {"$": "arguments", ">": "output", "!": "errors", "%": "bytecode", "=": "status"}


class Program:
    """A built program, in a folder where the scripts of the examples are, and whether it is tried quickly."""

    def __init__(self, path, folder, is_quick=False):
        self.path, self.folder, self.is_quick = path, folder, is_quick

    def put(self, name, script):
        """Writes a script to a file of this name."""
        path = os.path.join(self.folder, name)
        os.makedirs(os.path.dirname(path), exist_ok=True)
        with open(path, "wb") as file:
            file.write(script)

    def run(self, words, given=b""):
        """The status, the output and the errors of a run on this standard input."""
        ran = subprocess.run([self.path, *words], input=given, capture_output=True, cwd=self.folder, timeout=trial.SECONDS)
        return ran.returncode, ran.stdout, ran.stderr

    def build(self, script):
        """The same of a script's `build`, where the output is what it writes to its file."""
        with tempfile.TemporaryDirectory(dir=self.folder) as room:
            file = os.path.join(room, "form")
            status, _, errors = self.run(["build", "--out", file], script)
            if not os.path.exists(file):
                return status, b"", errors
            with open(file, "rb") as form:
                return status, form.read(), errors

    def builds(self, script):
        """Whether the byte form of a script is built where the script is sound, and says the same; what is wrong, or nothing."""
        if self.is_quick:
            return ""
        status, form, errors = self.build(script)
        checked = self.run(["check"], script)
        if (status, errors, form == b"") != (checked[0], checked[2], checked[1] == b""):
            return "build gives %d %r, and check %r" % (status, errors, checked)
        if status == 0 and self.run(["dis"], script) != self.run(["dis", "--code"], form):
            return "the byte form isn't read as it was built"
        return ""


def difference(got, wanted):
    """What differs of a status, an output and errors, or nothing."""
    for name, one, other in zip(("status", "output", "errors"), got, wanted):
        if one != other:
            return "%s %r, and not %r" % (name, one, other)
    return ""


def marked(text):
    """The lines of a row by their mark, and its script."""
    found, script = {it: [] for it in MARKS}, []
    for line in text.split("\n"):
        if line[:1] in MARKS and line[1:2] in ("", " "):
            found[line[0]].append(line[2:])
        elif line:
            script.append(line + "\n")
    return found, "".join(script).encode()


def row(program, head, text):
    """What is wrong with a row, or nothing. What it doesn't say is as the head of its file says."""
    own, script = marked(text)
    of_all, _ = marked(head)
    words = (own["$"] or of_all["$"] or ["run"])[0].split()
    wanted = int((own["="] or of_all["="] or ["0"])[0]), *("".join(it + "\n" for it in own[mark]).encode() for mark in ">!")
    if own["%"]:
        # (a part that isn't hexadecimal is a comment)
        script = b"".join(bytes.fromhex(it) for it in own["%"] if re.fullmatch("(?:[0-9a-fA-F]{2})*", it))
    if words == ["check-code"]:
        got = program.run(["dis", "--code"], script)
        got = (0, b"ok\n", got[2]) if got[0] == 0 else got
    elif words == ["build", "--out", "F"]:
        got = program.build(script)
    else:
        # (a script that is named is in a file of that name)
        if words[-1].endswith(".clj"):
            program.put(words[-1], script)
        got = program.run(words, script)
    if words[0] == "explore":
        # (how far a search is, is said only where it takes longer than a second)
        got = got[0], got[1], re.sub(rb"(?m)^requests: \d+, outcomes so far: \d+\n", b"", got[2])
    return difference(got, wanted) or program.builds(script)


def read(path, otherwise=b""):
    """The bytes of a file, or others where it isn't there."""
    if not os.path.exists(path):
        return otherwise
    with open(path, "rb") as file:
        return file.read()


def example(program, name):
    """What is wrong with an example, or nothing. Its status needs no look: each but 0 comes with a line of errors."""
    at = os.path.join(TOP, "examples", name)
    words = read(at + ".args", b"run").decode().split()
    got = program.run([*words, name + ".clj"])
    return difference(got, (got[0], read(at + ".out"), read(at + ".err"))) or program.builds(read(at + ".clj"))


def tests(program, word):
    """Each test of a program, with its name."""
    for path in sorted(glob.glob(os.path.join(TOP, "examples", "*.clj"))):
        name = os.path.basename(path)[: -len(".clj")]
        program.put(name + ".clj", read(path))
        yield "example " + name, lambda name=name: example(program, name)
    for path in sorted(glob.glob(os.path.join(TOP, "tests", "rows", "*.rows"))):
        head, *rows = read(path).decode().split("\n# ")
        for text in rows:
            title, _, text = text.partition("\n")
            yield os.path.basename(path) + ": " + title, lambda head=head, text=text: row(program, head, text)


def main():
    words = argparse.ArgumentParser(description=__doc__, formatter_class=argparse.RawDescriptionHelpFormatter)
    words.add_argument("--only", default="")
    words.add_argument("--quick", action="store_true")
    asked = words.parse_args()
    count = trial.Count()
    for path in BUILDS:
        if not os.access(path, os.X_OK):
            sys.exit("no program at %s\n0 passed, 1 failed" % path)
        with tempfile.TemporaryDirectory() as folder:
            found = [it for it in tests(Program(path, folder, asked.quick), asked.only) if asked.only in it[0]]
            if asked.quick:
                found = [it for it in found if not any(word in it[0] for word in LONG)]
            for (name, _), wrong in zip(found, trial.each(lambda it: it[1](), found)):
                count.take("%s (%s)" % (name, os.path.basename(path)), not wrong, wrong)
    count.end()


if __name__ == "__main__":
    main()
