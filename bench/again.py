#!/usr/bin/env python3
"""again.py [--times N] [--cpus K] [--load]
Runs each row of tests/rows/workers.rows N times (else 200) by the built program, whose workers run threads at once,
and wants what the row says each time. The gate runs each once by each build.
--cpus K lets the runs have K processors, --load keeps all processors of the machine busy meanwhile."""
import argparse, os, subprocess, sys, tempfile
import beside
ROWS = os.path.join(beside.HERE, "..", "tests", "rows", "workers.rows")


def rows():
    """Each row: its title, words, script and what is wanted: output, errors, status. What stands before the first is for rows that don't say it."""
    head, row = {"words": "run", "status": 0}, None
    for line in open(ROWS, encoding="utf-8").read().split("\n"):
        mark, rest = line[:2].strip(), line[2:]
        if line.startswith("# "):
            if row:
                yield row
            row = {"title": rest, "words": head["words"], "script": b"", "out": "", "err": "", "status": head["status"]}
            continue
        here = row if row else head
        if mark == "$" and len(line) > 1 and line[1] == " ":
            here["words"] = rest
        elif mark == "=" and line[1:2] == " ":
            here["status"] = int(rest)
        elif row and line[:1] == ">" and line[1:2] in ("", " "):
            row["out"] += rest + "\n"
        elif row and line[:1] == "!" and line[1:2] in ("", " "):
            row["err"] += rest + "\n"
        elif row and line.startswith("% "):
            row["script"] += bytes.fromhex(rest)
        elif row and line:
            row["script"] += line.encode() + b"\n"
    if row:
        yield row


def main():
    parser = argparse.ArgumentParser(description=__doc__, formatter_class=argparse.RawDescriptionHelpFormatter)
    parser.add_argument("--times", type=int, default=200)
    parser.add_argument("--cpus", type=int, default=0)
    parser.add_argument("--load", action="store_true")
    a = parser.parse_args()
    beside.need_the_program()
    busy = [subprocess.Popen([sys.executable, "-c", "while True: pass"]) for _ in range(os.cpu_count() * a.load)]
    wrong = 0
    try:
        if a.cpus:
            os.sched_setaffinity(0, sorted(os.sched_getaffinity(0))[: a.cpus])
        with tempfile.TemporaryDirectory() as folder:
            for row in rows():
                path = os.path.join(folder, "script")
                with open(path, "wb") as h:
                    h.write(row["script"])
                wanted = (row["out"], row["err"], row["status"])
                for _ in range(a.times):
                    ran = subprocess.run([beside.TXS, *row["words"].split(), path], capture_output=True, text=True, timeout=60)
                    if (ran.stdout, ran.stderr, ran.returncode) != wanted:
                        wrong += 1
                        print("WRONG %s: %r" % (row["title"], (ran.stdout, ran.stderr, ran.returncode)), flush=True)
                        break
                else:
                    print("%d times alike: %s" % (a.times, row["title"]), flush=True)
    finally:
        for it in busy:
            it.kill()
    sys.exit(1 if wrong else 0)


if __name__ == "__main__":
    main()
