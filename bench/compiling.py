#!/usr/bin/env python3
"""compiling.py [--runs R]
Times `txs check` on scripts of functions, beside Clojure loading the same file, in one run: best wall time of whole
commands. Clojure's start is told apart: it is that of an empty file. Needs Debian's package `clojure`, and the built
program (./txs --build makes it)."""
import argparse, os, subprocess, sys, tempfile, time
HERE = os.path.dirname(os.path.abspath(__file__))
JARS = ["clojure.jar", "spec.alpha.jar", "core.specs.alpha.jar"]
JAVA = ["java", "-Xmx2g", "-cp", ":".join(os.path.join(os.sep, "usr", "share", "java", j) for j in JARS), "clojure.main"]
TXS = os.path.join(HERE, "..", "crates", "txs", "out", "txs")
BODY = """(defn f%d [a b c]
  (let [x (+ a (* b 31)) y [x c]]
    (if (< x 100)
      (cond (= a b) (nth y 0) (= b c) (conj y a) :else "none of these")
      (loop [i 0 s x] (if (< i 10) (recur (inc i) (+ s i c)) s)))))
"""
# a script has at most 1,000 functions: past that each has a longer body
MOST = 900


def script(size):
    one = len(BODY % 0)
    count = max(1, min(MOST, size // one))
    lines = max(0, size // count - one) // 110
    filler = "  (let [sum-of-both-numbers (+ a b)] (if (< sum-of-both-numbers c) [sum-of-both-numbers a b] (nth [a b c] 1)))\n"
    parts = []
    for k in range(count):
        head, rest = (BODY % k).split("\n", 1)
        parts.append(head + "\n" + filler * lines + rest)
    return "".join(parts)


def best(command, runs):
    times = []
    for _ in range(runs):
        start = time.perf_counter()
        done = subprocess.run(command, capture_output=True, text=True)
        times.append(time.perf_counter() - start)
    return min(times), done


def main():
    parser = argparse.ArgumentParser(description=__doc__, formatter_class=argparse.RawDescriptionHelpFormatter)
    parser.add_argument("--runs", type=int, default=3)
    a = parser.parse_args()
    if not os.path.exists(TXS):
        sys.exit("build it first: ./txs --build")
    print("%9s %9s %10s %11s %12s %8s" % ("bytes", "txs s", "clj load s", "clj empty s", "load by txs", "answer"))
    with tempfile.TemporaryDirectory() as folder:
        empty = os.path.join(folder, "empty.clj")
        open(empty, "w").close()
        start, _ = best(JAVA + [empty], a.runs)
        for size in (1024, 65536, 1048576):
            text = script(size)
            path = os.path.join(folder, "f.clj")
            with open(path, "w", encoding="utf-8") as h:
                h.write(text)
            ours, done = best([TXS, "check", path], a.runs)
            theirs, loaded = best(JAVA + [path], a.runs)
            answer = (done.stdout + done.stderr).strip() + ("" if loaded.returncode == 0 else " (clj failed)")
            print("%9d %9.4f %10.2f %11.2f %12.1f %8s" % (len(text), ours, theirs, start, (theirs - start) / ours, answer), flush=True)


if __name__ == "__main__":
    main()
