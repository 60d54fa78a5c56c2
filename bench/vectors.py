#!/usr/bin/env python3
"""vectors.py [--only build,assoc,pop,registry,counters,reads] [--scale X] [--runs R] [--warm W]
Times scripts over long vectors in txs and in real Clojure, turn and turn about in one run, with the most memory that
each had, and compares what they print. With --scale 0.5 and 1 one sees how time grows with the size.
  clj warm   best time inside one JVM, after W runs of the same compiled code
  txs        best wall time of `txs run`
  MB         the most memory of a whole command"""
import argparse, tempfile
import beside
SIZES = {"build": 60000, "assoc": 60000, "pop": 60000, "registry": 16000, "counters": 50000, "reads": 1000000}


def main():
    parser = argparse.ArgumentParser(description=__doc__, formatter_class=argparse.RawDescriptionHelpFormatter)
    parser.add_argument("--only", default="")
    parser.add_argument("--scale", type=float, default=1.0)
    parser.add_argument("--runs", type=int, default=5)
    parser.add_argument("--warm", type=int, default=20)
    a = parser.parse_args()
    beside.need_the_program()
    print("%-9s %9s %10s %8s %9s %12s %7s %7s  %s" % ("script", "size", "clj warm s", "txs s", "ns each", "txs by warm",
                                                     "clj MB", "txs MB", "printed"))
    with tempfile.TemporaryDirectory() as folder:
        for name, size in SIZES.items():
            if a.only and name not in a.only.split(","):
                continue
            size = int(size * a.scale)
            path = beside.filled(folder, name, size)
            _, most, printed, _ = beside.whole_clojure(path)
            ours, our_most, lines, fault = [], [], {printed}, ""
            for _ in range(a.runs):
                seconds, memory, printed, told = beside.txs(path)
                ours.append(seconds)
                our_most.append(memory)
                lines.add(printed)
                fault = fault or told
            warm = beside.warm_clojure(path, a.warm, a.runs)
            best = min(ours)
            print("%-9s %9d %10.4f %8.4f %9.1f %12.2f %7.0f %7.0f  %s %s" % (
                name, size, warm, best, best * 1e9 / size, best / warm, most / 1024, max(our_most) / 1024,
                "same" if len(lines) == 1 else "DIFFER", fault), flush=True)


if __name__ == "__main__":
    main()
