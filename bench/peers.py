#!/usr/bin/env python3
"""peers.py [--only commits,bank,contended,transfers,readers,swaps,sends] [--runs R]
Scripts of transactions in txs and in GHC's STM (bench/scripts/stm.hs; Debian's packages `ghc`, `libghc-stm-dev` and `valgrind`).
Of each it prints the machine instructions for a transaction, swap or send, which are the difference of two sizes by callgrind: those of GHC
on one processor, of txs by turns (`schedule`) and by one worker. Of four workers they aren't told: callgrind runs one thread at a time. Then
the best seconds of a processor, also of four workers, and what was printed."""
import argparse, os, re, shutil, subprocess, sys, tempfile
import beside
# How often each thread does it, by callgrind and by the clock, and how many threads do.
SIZES = {"commits": (1000, 200000, 1), "bank": (1000, 100000, 1), "contended": (500, 1200, 8), "transfers": (250, 25000, 8),
         "readers": (250, 25000, 8), "swaps": (500, 25000, 8), "sends": (240, 12000, 8)}
WAYS = {"turns": ["schedule"], "1 worker": ["run", "--workers", "1"], "4 workers": ["run", "--workers", "4"]}


def built(folder):
    """The program of GHC, or none where there is no GHC."""
    if not shutil.which("ghc"):
        return None
    source = shutil.copy(os.path.join(beside.HERE, "scripts", "stm.hs"), folder)
    program = os.path.join(folder, "stm")
    subprocess.run(["ghc", "-O2", "-threaded", "-rtsopts", "-o", program, source], check=True, capture_output=True)
    return program


def counted(command):
    done = subprocess.run(["valgrind", "--tool=callgrind", "--callgrind-out-file=/dev/null", *command], capture_output=True, text=True, check=True)
    return int(re.search(r"Collected : (\d+)", done.stderr)[1])


def processor(command):
    """Seconds of a processor, and what was printed."""
    with tempfile.TemporaryFile() as out:
        child = subprocess.Popen(command, stdout=out, stderr=subprocess.DEVNULL)
        _, _, usage = os.wait4(child.pid, 0)
        child.returncode = 0
        out.seek(0)
        return usage.ru_utime + usage.ru_stime, out.read().decode().strip()


def main():
    parser = argparse.ArgumentParser(description=__doc__, formatter_class=argparse.RawDescriptionHelpFormatter)
    parser.add_argument("--only", default="")
    parser.add_argument("--runs", type=int, default=5)
    a = parser.parse_args()
    beside.need_the_program()
    with tempfile.TemporaryDirectory() as folder:
        ghc = built(folder)
        print("%-10s %-10s %12s %12s  %s" % ("script", "by", "instructions", "processor s", "printed"))
        for name in [it for it in SIZES if not a.only or it in a.only.split(",")]:
            few, many, threads = SIZES[name]

            def ours(way, size):
                return [beside.TXS, *WAYS[way], "--steps", beside.STEPS, beside.filled(folder, name, size, accounts=900 if name == "transfers" else 1000)]

            commands = {way: lambda size, way=way: ours(way, size) for way in WAYS}
            if ghc and name != "sends":
                commands["GHC"] = lambda size: [ghc, name, str(size)]
            for way, command in commands.items():
                each = "-" if way == "4 workers" else "%.0f" % ((counted(command(2 * few)) - counted(command(few))) / few / threads)
                told = [processor(command(many)) for _ in range(a.runs)]
                print("%-10s %-10s %12s %12.3f  %s" % (name, way, each, min(it[0] for it in told), told[0][1]), flush=True)


if __name__ == "__main__":
    sys.exit(main())
