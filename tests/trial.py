"""What the scripts beside it share: the built program, run on given input with a time limit, also where tests/disturb.c refuses
it something; and the count of what passed."""
import argparse
import concurrent.futures
import os
import struct
import subprocess
import sys
import tempfile
import threading

HERE = os.path.dirname(os.path.abspath(__file__))
PROGRAM = os.path.abspath(os.environ.get("TXS", os.path.join(HERE, "..", "crates", "txs", "out", "txs")))
# no run here takes as long by far, on a machine with nothing else to do
SECONDS = 120
HUNG = "no end after %d seconds" % SECONDS
# what disturb.c counts, in its order
COUNTS = ("growths", "threads", "reads", "writes", "renames", "bytes read", "largest growth", "")


class Ran:
    """What a run wrote to its two streams, and its status: 128 and more where a signal ended it."""

    def __init__(self, out, err, status, counts):
        self.out, self.err, self.status, self.counts = out, err, status, counts

    def is_like(self, other):
        return (self.out, self.err, self.status) == (other.out, other.err, other.status)

    def __str__(self):
        return "%r %r, status %s" % (self.out[-300:], self.err[-300:], self.status)


class Count:
    """How many tests passed and failed; the first failures are printed."""

    def __init__(self):
        self.passed, self.failed = 0, 0

    def take(self, what, is_well, came=""):
        if is_well:
            self.passed += 1
            return
        self.failed += 1
        if self.failed <= 20:
            print("FAILED %s\n  came: %s" % (what, came), flush=True)

    def end(self):
        print("%d passed, %d failed" % (self.passed, self.failed))
        sys.exit(1 if self.failed or not self.passed else 0)


class Trial:
    """A folder for the files of runs, and the library that disturbs them, if there is one."""

    def __init__(self, folder, library=None):
        self.folder, self.library, self.own = folder, library, threading.local()

    def files(self):
        """The files of one thread: what is given, what comes on either stream, and the counts."""
        if not hasattr(self.own, "files"):
            here = tempfile.mkdtemp(dir=self.folder)
            self.own.files = {name: os.path.join(here, name) for name in ("given", "out", "err", "counts")}
        return self.own.files

    def run(self, words, given=b"", disturb="", by_file=False):
        """A run of the program by these words on this input, which is standard input or else a file that the words end with."""
        files = self.files()
        env = {"PATH": "/usr/bin:/bin"}
        with open(files["given"], "wb") as h:
            h.write(given)
        if self.library:
            with open(files["counts"], "wb") as h:
                h.write(b"\0" * 8 * len(COUNTS))
            env.update(LD_PRELOAD=self.library, DISTURB=disturb, COUNTS=files["counts"])
        command = [PROGRAM, *words, *[files["given"]] * by_file]
        with open(files["given"], "rb") as i, open(files["out"], "wb") as o, open(files["err"], "wb") as e:
            child = subprocess.Popen(command, stdin=i, stdout=o, stderr=e, env=env, close_fds=False)
            try:
                status = child.wait(timeout=SECONDS)
            except subprocess.TimeoutExpired:
                child.kill()
                child.wait()
                status = HUNG
        if isinstance(status, int) and status < 0:
            status = 128 - status
        return Ran(self.read("out"), self.read("err"), status, self.counts())

    def read(self, name):
        with open(self.own.files[name], "rb") as h:
            return h.read()

    def counts(self):
        if not self.library:
            return {}
        return dict(zip(COUNTS, struct.unpack("<%dQ" % len(COUNTS), self.read("counts"))))


def disturbing(folder):
    """Builds disturb.c, by the clang of the kit or another compiler."""
    library = os.path.join(folder, "disturb.so")
    words = ["-shared", "-fPIC", "-O1", "-fno-builtin", "-nostdlib", os.path.join(HERE, "disturb.c"), "-o", library]
    kit = os.path.dirname(os.path.dirname(os.path.realpath(found("rt") or "/")))
    bins = os.path.join(kit, "toolchain", "bin")
    for command in ([os.path.join(bins, "clang"), "--ld-path=" + os.path.join(bins, "ld.lld")], ["cc"], ["clang"], ["gcc"]):
        try:
            if subprocess.run([*command, *words], capture_output=True).returncode == 0:
                return library
        except OSError:
            continue
    sys.exit("no C compiler builds tests/disturb.c\n0 passed, 1 failed")


def found(name):
    """The file of a command."""
    for folder in os.environ.get("PATH", "").split(os.pathsep):
        if os.access(os.path.join(folder, name), os.X_OK):
            return os.path.join(folder, name)
    return None


def each(call, items, jobs=None):
    """The results of a call on each item, several at a time, in order."""
    with concurrent.futures.ThreadPoolExecutor(jobs or max(2, os.cpu_count() or 2)) as pool:
        return list(pool.map(call, items))


def need_the_program():
    if not os.access(PROGRAM, os.X_OK):
        sys.exit("no program at %s\n0 passed, 1 failed" % PROGRAM)


def main(doc, parts, disturbing=None):
    """The main function of a script: it tries its parts, or those named by --only, with what builds the library that disturbs
    runs, if one is wanted."""
    parser = argparse.ArgumentParser(description=doc, formatter_class=argparse.RawDescriptionHelpFormatter)
    parser.add_argument("--long", action="store_true")
    parser.add_argument("--only", default=",".join(parts))
    a = parser.parse_args()
    need_the_program()
    count = Count()
    with tempfile.TemporaryDirectory() as folder:
        t = Trial(folder, disturbing(folder) if disturbing else None)
        for part in a.only.split(","):
            parts[part](t, count, a.long)
    count.end()
