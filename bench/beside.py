"""What the programs that time scripts share: a script in txs and in real Clojure, turn and turn about in one run, with
what both printed. They need Debian's package `clojure`, and the built program (./txs --build makes it)."""
import os, re, subprocess, sys, tempfile, time
HERE = os.path.dirname(os.path.abspath(__file__))
JARS = ["clojure.jar", "spec.alpha.jar", "core.specs.alpha.jar"]
JAVA = ["java", "-Xmx2g", "-cp", ":".join(os.path.join(os.sep, "usr", "share", "java", j) for j in JARS), "clojure.main"]
TXS = os.environ.get("TXS", os.path.join(HERE, "..", "crates", "txs", "out", "txs"))
STEPS = "1000000000000"


def timed(command):
    """Seconds, peak memory in KB and what was printed."""
    start = time.perf_counter()
    with tempfile.TemporaryFile() as out, tempfile.TemporaryFile() as err:
        child = subprocess.Popen(command, stdout=out, stderr=err)
        _, status, usage = os.wait4(child.pid, 0)
        child.returncode = os.waitstatus_to_exitcode(status)
        seconds = time.perf_counter() - start
        out.seek(0)
        err.seek(0)
        return seconds, usage.ru_maxrss, out.read().decode(), err.read().decode().strip()


def filled(folder, name, size, ending=".clj", accounts=1000):
    """The script with its size, and with so many accounts where it names them, as a file."""
    with open(os.path.join(HERE, "scripts", name + ending), encoding="utf-8") as h:
        text = h.read().replace("@N@", str(size))
    names = ["account-%d" % i for i in range(accounts)]
    text = text.replace("@ACCOUNTS@", "\n".join("(def %s (ref 100))" % it for it in names)).replace("@NAMES@", " ".join(names))
    path = os.path.join(folder, name + ending)
    with open(path, "w", encoding="utf-8") as h:
        h.write(text)
    return path


def whole_clojure(path):
    """A fresh JVM, from its start to its end."""
    return timed(JAVA + [os.path.join(HERE, "whole.clj"), path])


def warm_clojure(path, warm, runs):
    """Seconds of the best run inside one JVM, after so many runs of the same compiled code."""
    done = subprocess.run(JAVA + [os.path.join(HERE, "warm.clj"), path, str(warm), str(runs)],
                          capture_output=True, text=True, check=True)
    return int(done.stdout) / 1e9


def txs(path, workers=4):
    """The whole command, by so many workers."""
    return timed([TXS, "run", "--steps", STEPS, "--workers", str(workers), path])


def rounds(path):
    """The whole command, where threads and agents take their turns."""
    return timed([TXS, "schedule", "--steps", STEPS, path])


def counted(path):
    """Machine instructions of the whole command, by callgrind (Debian's package `valgrind`)."""
    done = subprocess.run(["valgrind", "--tool=callgrind", "--callgrind-out-file=/dev/null", TXS, "run", "--steps", STEPS, path],
                          capture_output=True, text=True, check=True)
    return int(re.search(r"Collected : (\d+)", done.stderr)[1])


def need_the_program():
    if not os.path.exists(TXS):
        sys.exit("build it first: ./txs --build")
