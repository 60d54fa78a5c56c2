#!/usr/bin/env python3
"""running.py [--only loop,calls,commits,nested,primes,bank] [--scale X] [--runs R] [--warm W] [--counts]
Runs scripts of bench/scripts in txs and in real Clojure, turn and turn about in one run, and compares what they print.
`@N@` in a script is its size.
  clj whole  best wall time of a fresh JVM, from its start to its end
  clj warm   best time inside one JVM, after W runs of the same compiled code
  txs        best wall time of `txs run`
Loop and calls are also run in Lua 5.4, CPython, SBCL and node, where these are installed.
With --counts nothing is timed: it prints the machine instructions of a round, which is the difference of two sizes by
callgrind (Debian's package `valgrind`)."""
import argparse, shutil, tempfile
import beside
SIZES = {"loop": 2000000, "calls": 1000000, "commits": 200000, "nested": 10000, "primes": 50000, "bank": 200000}
OTHERS = {("lua5.4",): ".lua", ("python3",): ".py", ("sbcl", "--script"): ".lisp", ("node",): ".js"}


def counts(folder, name):
    """Machine instructions a round."""
    few, many = SIZES[name] // 200, SIZES[name] // 100
    return (beside.counted(beside.filled(folder, name, many)) - beside.counted(beside.filled(folder, name, few))) / (many - few)


def others(folder, name, size, runs):
    """Best seconds in other languages that have this script, with what they printed."""
    told, lines = [], set()
    for command, ending in OTHERS.items():
        if name in ("loop", "calls") and shutil.which(command[0]):
            path = beside.filled(folder, name, size, ending)
            tried = [beside.timed([*command, path]) for _ in range(runs)]
            told.append("%s %.3f s" % (command[0], min(it[0] for it in tried)))
            lines.update(it[2] for it in tried)
    return told, lines


def main():
    parser = argparse.ArgumentParser(description=__doc__, formatter_class=argparse.RawDescriptionHelpFormatter)
    parser.add_argument("--only", default="")
    parser.add_argument("--scale", type=float, default=1.0)
    parser.add_argument("--runs", type=int, default=5)
    parser.add_argument("--warm", type=int, default=5)
    parser.add_argument("--counts", action="store_true")
    a = parser.parse_args()
    beside.need_the_program()
    names = [it for it in SIZES if not a.only or it in a.only.split(",")]
    with tempfile.TemporaryDirectory() as folder:
        if a.counts:
            for name in names:
                print("%-9s %9.0f machine instructions a round" % (name, counts(folder, name)), flush=True)
            return
        print("%-9s %9s %11s %10s %8s %9s %13s %13s  %s" % ("script", "size", "clj whole s", "clj warm s", "txs s", "ns a turn",
                                                           "whole by txs", "txs by warm", "printed"))
        for name in names:
            size = int(SIZES[name] * a.scale)
            path = beside.filled(folder, name, size)
            whole, ours, lines, fault = [], [], set(), ""
            for _ in range(a.runs):
                seconds, _, printed, _ = beside.whole_clojure(path)
                whole.append(seconds)
                lines.add(printed)
                seconds, _, printed, told = beside.txs(path)
                ours.append(seconds)
                lines.add(printed)
                fault = fault or told
            warm = beside.warm_clojure(path, a.warm, a.runs)
            beside_it, more = others(folder, name, size, a.runs)
            lines |= more
            best = min(ours)
            print("%-9s %9d %11.2f %10.4f %8.4f %9.1f %13.1f %13.1f  %s %s" % (
                name, size, min(whole), warm, best, best * 1e9 / size, min(whole) / best, best / warm,
                "same" if len(lines) == 1 else "DIFFER", ", ".join(beside_it + [fault] * bool(fault))), flush=True)


if __name__ == "__main__":
    main()
