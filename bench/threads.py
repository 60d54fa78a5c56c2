#!/usr/bin/env python3
"""threads.py [--only contended,transfers,readers,swaps,sends,disjoint] [--runs R] [--warm W] [--growth]
Runs scripts of eight threads in txs, by four workers and by one, and in real Clojure with as many threads, and compares what they print.
`@N@` in a script is how many transactions, swaps, sends or rounds each of them makes.
  clj warm   best time inside one JVM, after W runs of the same compiled code
  txs        best wall time of `txs run`, from its start to its end
With --growth the nanoseconds of a commit by one thread are told instead, as commits and refs beside it grow, and those of a send
with its action, also where agents stand beside that have nothing to do, by workers and in rounds."""
import argparse, tempfile
import beside
SIZES = {"contended": 1200, "transfers": 25000, "readers": 25000, "swaps": 25000, "sends": 12000, "disjoint": 2000000}


def compared(folder, name, runs, warm):
    path = beside.filled(folder, name, SIZES[name], accounts=900)
    ours = [beside.txs(path) for _ in range(runs)]
    alone = [beside.txs(path, 1) for _ in range(runs)]
    _, _, printed, _ = beside.whole_clojure(path)
    best, one, theirs = min(it[0] for it in ours), min(it[0] for it in alone), beside.warm_clojure(path, warm, runs)
    # Clojure writes a line and its end apart, so that lines of threads that print at once may run into one another.
    told = {(it[2], it[3]) for it in ours + alone}
    same = len(told) == 1 and [(sorted(out), errors) for out, errors in told] == [(sorted(printed), "")]
    memory = max(it[1] for it in ours) // 1024
    print("%-10s %9d %11.4f %8.4f %12.2f %10.4f %8.2f %6d  %s" % (
        name, 8 * SIZES[name], theirs, best, best / theirs, one, best / one, memory, "same" if same else "DIFFER " + ours[0][3]), flush=True)


def growth(folder, runs):
    def seconds(commits, refs):
        path = beside.filled(folder, "commits", commits)
        with open(path, encoding="utf-8") as h:
            text = h.read()
        with open(path, "w", encoding="utf-8") as h:
            h.write("".join("(def beside-%d (ref 0))\n" % i for i in range(refs)) + text)
        return min(beside.txs(path)[0] for _ in range(runs))
    for commits, refs in [(20000, 0), (80000, 0), (320000, 0), (980000, 0), (80000, 100), (80000, 900)]:
        took = seconds(commits, refs) - seconds(1, refs)
        print("%7d commits, %3d refs beside: %5.0f ns a commit" % (commits, refs, took * 1e9 / commits), flush=True)
    for sends in (20000, 80000, 320000):
        path = beside.filled(folder, "queue", sends)
        seconds_of, memory, printed, _ = min(beside.txs(path) for _ in range(runs))
        print("%7d sends by one thread: %5.0f ns a send with its action, %d MB, %s" % (
            sends, seconds_of * 1e9 / sends, memory // 1024, "right" if printed.strip() == str(sends) else "WRONG " + printed), flush=True)
    for agents in (0, 100, 900):
        path = beside.filled(folder, "queue", 80000)
        with open(path, encoding="utf-8") as h:
            text = h.read()
        with open(path, "w", encoding="utf-8") as h:
            h.write("".join("(def beside-%d (agent 0))\n" % i for i in range(agents)) + text)
        by_workers = min(beside.txs(path)[0] for _ in range(runs))
        in_rounds = min(beside.rounds(path)[0] for _ in range(runs))
        print("%7d agents beside: %5.0f ns a send with its action by workers, %5.0f in rounds" % (
            agents, by_workers * 1e9 / 80000, in_rounds * 1e9 / 80000), flush=True)


def main():
    parser = argparse.ArgumentParser(description=__doc__, formatter_class=argparse.RawDescriptionHelpFormatter)
    parser.add_argument("--only", default="")
    parser.add_argument("--runs", type=int, default=5)
    parser.add_argument("--warm", type=int, default=5)
    parser.add_argument("--growth", action="store_true")
    a = parser.parse_args()
    beside.need_the_program()
    with tempfile.TemporaryDirectory() as folder:
        if a.growth:
            growth(folder, a.runs)
            return
        print("%-10s %9s %11s %8s %12s %10s %8s %6s  %s" % ("script", "done", "clj warm s", "txs s", "txs by warm", "one wkr s", "4 by 1", "txs MB", "printed"))
        for name in SIZES:
            if not a.only or name in a.only.split(","):
                compared(folder, name, a.runs, a.warm)


if __name__ == "__main__":
    main()
