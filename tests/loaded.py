#!/usr/bin/env python3
"""loaded.py [--long] [--only PART,..]
Runs the built program until its journal is full, and many times with threads that contend: what is left obeys the laws of each script,
and memory grows with the journal alone. --long makes 10,000 runs; else some hundreds are made.
TXS names another program than crates/txs/out/txs. Its last line is 'N passed, M failed'."""
import collections
import os
import re
import subprocess
import time
import trial

READS = "(def r (ref 0)) (future (loop [] @r (recur))) (future (dosync (ref-set r 1)))"
FULL = "thread 0 stopped: JournalFull\n"
BOTH = FULL + "thread 1 stopped: JournalFull\n"
MOST = 1000000
TEN = ",".join(["0x100000"] * 10)


def events_of(ran):
    """How many events of each kind are listed."""
    return collections.Counter(re.findall(rb"^\d+ \d+ ([a-z-]+)$", ran.out, re.M))


def journals(t, count, is_long):
    """A full journal: who would add an event is stopped, who adds none goes on, and what is in it stays."""
    schedule = ["schedule", "--cells", "--events", "--turns"]
    ran = t.run([*schedule, TEN + ",1x2"], READS.encode())
    count.take("a full journal by turns", (ran.err.decode(), ran.status) == (BOTH, 4) and ran.out.startswith(b"r 0\n0 0 read\n") and events_of(ran) == {b"read": MOST}, ran)
    # begun before, and stopped at its commit: no event ends it
    ran = t.run([*schedule, "1," + TEN + ",1"], READS.encode())
    count.take("stopped in a transaction", (ran.err.decode(), ran.status) == (BOTH, 4) and ran.out.startswith(b"r 0\n") and events_of(ran) == {b"read": MOST}, ran)
    # a look of a transaction adds no event, and the fault behind it would
    faults = "(def r (ref 0)) (future (loop [] @r (recur))) (future (dosync (quot @r 0)))"
    ran = t.run([*schedule, "1," + TEN + ",1x2"], faults.encode())
    count.take("a transaction that faults", (ran.err.decode(), ran.status) == (BOTH, 4) and events_of(ran) == {b"read": MOST}, ran)
    # what begins behind it, reads in a transaction, prints and changes an atom goes on; the last commit doesn't
    goes = "(def r (ref 7)) (def a (atom 0)) (future (loop [] @r (recur))) (future (swap! a inc) (println :on @a) (loop [i 0] (when (< i 3) (swap! a + 10) (recur (inc i)))) (dosync (ref-set r (inc @r))) (println :never))"
    ran = t.run(["schedule", "--cells", "--turns", TEN], goes.encode())
    count.take("what adds no event goes on", (ran.out.decode(), ran.err.decode(), ran.status) == (":on 1\nr 7\na 31\n", BOTH, 4), ran)
    # an agent with nothing to do ends as ever, one with an action is stopped before it or at its end
    idle = "(def r (ref 0)) (def g (agent 5)) (future (loop [] @r (recur)))"
    ran = t.run(["schedule", "--cells", "--turns", TEN], idle.encode())
    count.take("an idle agent", (ran.out.decode(), ran.err.decode(), ran.status) == ("r 0\ng 5\n", FULL, 4), ran)
    busy = idle + " (future (send g inc) (send g inc))"
    ran = t.run([*schedule, "1x2," + TEN], busy.encode())
    wanted = FULL + "agent g stopped: JournalFull\n"
    count.take("an agent with actions", (ran.err.decode(), ran.status) == (wanted, 4) and ran.out.startswith(b"r 0\ng 5\n") and events_of(ran) == {b"read": MOST - 2, b"send": 2}, ran)
    # an action that fills it is stopped where it is handed in; what it committed stays
    fills = "(def r (ref 0)) (def g (agent 5)) (defn fill [s] (loop [i 0] (when (< i 999999) (dosync (alter r inc)) (recur (inc i)))) (inc s)) (future (send g fill))"
    ran = t.run(["schedule", "--cells", "--events"], fills.encode())
    is_well = (ran.err.decode(), ran.status) == ("agent g stopped: JournalFull\n", 4) and ran.out.startswith(b"r 999999\ng 5\n0 0 send\n")
    count.take("an action that fills it", is_well and events_of(ran) == {b"send": 1, b"commit": MOST - 1}, ran)
    # an audit finds that each needs an event of the full journal, or is to hand its action in to it
    for who, script, words in (("a thread", goes, ["--turns", TEN]), ("an agent", busy, ["--turns", "1x2," + TEN]), ("an action", fills, [])):
        ran = t.run(["schedule", "--audit", *words], script.encode())
        count.take(f"a full journal audited: {who}", ran.status == 4 and ran.out.endswith(b"audit agrees serial\n"), ran)
    for _ in range(20 if is_long else 2):
        ran = t.run(["run", "--cells", "--events", "--workers", "2"], READS.encode())
        events, left = events_of(ran), ran.out[:4]
        is_well = ran.status == 4 and sum(events.values()) == MOST and (
            (ran.err.decode(), left, events[b"commit"]) in ((FULL, b"r 1\n", 1), (BOTH, b"r 0\n", 0))) and set(events) <= {b"read", b"commit"}
        count.take("a full journal by workers", is_well, ran)
        ran = t.run(["run", "--cells", "--events", "--workers", "3"], busy.encode())
        events, left = events_of(ran), int(re.search(rb"^g (\d+)$", ran.out, re.M)[1])
        is_well = ran.status == 4 and sum(events.values()) == MOST and left == 5 + events[b"act"] and events[b"act"] <= events[b"send"] <= 2
        is_well = is_well and set(ran.err.decode().splitlines()) <= set((BOTH + wanted).splitlines()) and ran.err.startswith(FULL.encode())
        count.take("sends into a full journal by workers", is_well, ran)


# Three threads move what two refs hold, and note at each commit what is left; they count by an atom, too, and one of them speaks up.
CONTENDED = """(def from (ref 100)) (def to (ref 0)) (def seen (ref 0)) (def n (atom 0)) (def log (agent [])) (def sum (agent 0 :error-mode :continue))
(defn noted [lines who left] (conj lines [who left]))
(defn bad [s] (quot s 0))
(defn move [who k] (dosync (alter from - k) (alter to + k) (commute seen inc) (send log noted who @from) (send sum + k)))
(future (move 1 1) (swap! n inc) (move 1 2) (send sum bad))
(future (move 2 3) (swap! n + 10) (send log noted 2 :end))
(future (dosync (when (not= 100 (+ (ensure from) (ensure to))) (ref-set seen -1000))) (move 3 4) (swap! n + 100) (println (dosync (+ @from @to))))
"""
MOVES = {1: [1, 2], 2: [3], 3: [4]}


def is_lawful(ran):
    """Whether what a run of it has left obeys its laws."""
    cells = re.fullmatch(r"100\nfrom 90\nto 10\nseen 4\nn 111\nlog \[(.*)\]\nsum 10\n((?:\d+ \d+ [a-z-]+\n)*)audit agrees\n", ran.out.decode())
    if not cells or ran.err or ran.status:
        return False
    lines = [tuple(it.split()) for it in re.findall(r"\[([^]]*)\]", cells[1])]
    left, moves, ended = 100, {who: list(ks) for who, ks in MOVES.items()}, False
    for who, what in lines:
        if what == ":end":
            # of one thread in the order in which it sent them
            if ended or moves[2]:
                return False
            ended = True
        elif moves[int(who)]:
            left -= moves[int(who)].pop(0)
            # in the order of the commits
            if left != int(what):
                return False
        else:
            return False
    kinds = collections.Counter(it.split()[2] for it in cells[2].splitlines())
    # four moves, the first transaction and the last of the third thread; 10 actions that end, and two sends outside
    return left == 90 and ended and kinds["commit"] == 6 and kinds["act"] == 10 and kinds["send"] == 2 and set(kinds) <= {"commit", "act", "send", "retry"}


def runs(t, count, is_long):
    """Short runs by workers: each ends, with what the script's laws want, and its audit agrees."""
    retried, many = 0, 10000 if is_long else 400
    workers = [2, 3, 4, 8]
    for k, ran in enumerate(trial.each(lambda it: t.run(["run", "--cells", "--events", "--audit", "--workers", str(workers[it % 4])], CONTENDED.encode()), range(many), 4)):
        count.take("run %d" % k, is_lawful(ran), ran)
        retried += b" retry\n" in ran.out
    print("runs: %d, of which %d had to run a transaction again" % (many, retried))
    retried = 0
    for k, ran in enumerate(trial.each(lambda it: t.run(["run", "--cells", "--events", "--audit", "--workers", str(workers[it % 4])], ORDERS.encode()), range(many // 2), 4)):
        count.take("run %d of actions" % k, is_sold(ran), ran)
        retried += b" retry\n" in ran.out
    print("runs of actions: %d, of which %d had to run a transaction again" % (many // 2, retried))


# The actions of two agents take from a stock; each tells a third agent what was left, once it is over.
ORDERS = """(def stock (ref 20)) (def sold (ref 0)) (def log (agent [])) (def n (atom 0)) (def anna (agent 0)) (def bert (agent 0))
(defn noted [lines who left] (conj lines [who left]))
(defn order [done who k]
  (dosync (alter stock - k) (alter sold + k) (send log noted who @stock))
  (swap! n + k)
  (println who k)
  (inc done))
(future (send anna order 1 1) (send anna order 1 2) (send anna order 1 3))
(future (send bert order 2 1) (send bert order 2 2) (send bert order 2 3))
"""


def is_sold(ran):
    """Whether what a run of it has left obeys its laws: each agent's actions come in order, and each took from what the one before left."""
    lines = "".join("%d %d\n" % (who, k) for who in (1, 2) for k in (1, 2, 3))
    cells = re.fullmatch(lines + r"stock 8\nsold 12\nlog \[(.*)\]\nn 12\nanna 3\nbert 3\n((?:\d+ \d+ [a-z-]+\n)*)audit agrees serial\n", ran.out.decode())
    if not cells or ran.err or ran.status:
        return False
    noted = [(int(who), int(left)) for who, left in (it.split() for it in re.findall(r"\[([^]]*)\]", cells[1]))]
    left, came = 20, {1: [], 2: []}
    for who, now in sorted(noted, key=lambda it: -it[1]):
        came[who].append(left - now)
        left = now
    kinds = collections.Counter(it.split()[2] for it in cells[2].splitlines())
    in_order = all([it[1] for it in noted if it[0] == who] == sorted((it[1] for it in noted if it[0] == who), reverse=True) for who in came)
    return came == {1: [1, 2, 3], 2: [1, 2, 3]} and in_order and (kinds["commit"], kinds["send"], kinds["act"]) == (6, 6, 12) and set(kinds) <= {"commit", "send", "act", "retry"}


# Two threads want of an atom what it has but once, and then move between two refs; two more may follow them, but not both.
REFUSED = """(defn covered [x] (loop [i 0] (if (< i 5) (recur (inc i)) (>= x 0))))
(def a (ref 3 :validator covered)) (def b (ref 3 :validator covered)) (def n (atom 3 :validator covered)) (def log (agent 3 :validator covered))
(defn move [from to k] (dosync (alter from - k) (alter to + k)))
(future (swap! n - 2) (move a b 2) (println :zero))
(future (swap! n - 2) (move a b 2) (println :one))
(future (move b a 4) (send log - 2) (println :two))
(future (move b a 4) (send log - 2) (println :three))
"""
WHO = [":zero", ":one", ":two", ":three"]


def is_covered(ran):
    """Whether what a run of it has left obeys its laws: no balance is negative, and each that would make it so failed."""
    said = re.fullmatch(r"((?::\w+\n)*)a (\d+)\nb (\d+)\nn (\d+)\nlog (\d+)\n((?:\d+ \d+ [a-z-]+\n)*)audit agrees serial\n", ran.out.decode())
    failed = re.findall(r"^thread (\d) failed: InvalidState at \d+\.\.\d+$", ran.err.decode(), re.M)
    if not said or ran.status != 3 or len(failed) != ran.err.count(b"\n"):
        return False
    went = said[1].split()
    others = [it for it in went if it in WHO[2:]]
    kinds = collections.Counter(it.split()[2] for it in said[6].splitlines())
    return (
        went == [it for k, it in enumerate(WHO) if str(k) not in failed] and len(went) == 1 + len(others) and len(others) <= 1
        and tuple(int(said[k]) for k in range(2, 6)) == ((5, 1, 1, 1) if others else (1, 5, 1, 3))
        and (kinds["commit"], kinds["fail"], kinds["send"], kinds["act"]) == (1 + len(others), 2 - len(others), len(others), len(others))
        and set(kinds) <= {"commit", "fail", "send", "act", "retry"}
    )


def refusals(t, count, is_long):
    """Short runs by workers in which validators refuse values: which depends on who comes first."""
    many, workers, followed = 5000 if is_long else 200, [2, 3, 4, 8], 0
    for k, ran in enumerate(trial.each(lambda it: t.run(["run", "--cells", "--events", "--audit", "--workers", str(workers[it % 4])], REFUSED.encode()), range(many), 4)):
        count.take("refusals %d" % k, is_covered(ran), ran)
        followed += b"a 5\n" in ran.out
    print("refusals: %d runs, in %d of which one could follow" % (many, followed))


def memory_of(child, what):
    """The memory that a process has (VmRSS), or the most that it had (VmHWM), in KB."""
    try:
        with open("/proc/%d/status" % child.pid, encoding="utf-8") as h:
            return int(re.search(what + r":\s+(\d+)", h.read())[1])
    except (OSError, TypeError):
        return 0


def looked_at(command, what, env=None):
    """The status of a command, and its memory again and again until it ended."""
    child = subprocess.Popen(command, stdin=subprocess.DEVNULL, stdout=subprocess.DEVNULL, stderr=subprocess.DEVNULL, env=env)
    looks, begun = [], time.monotonic()
    while child.poll() is None and time.monotonic() - begun < 60 * trial.SECONDS:
        looks.append(memory_of(child, what))
        time.sleep(0.005)
    child.kill()
    return child.wait(), [it for it in looks if it] or [0]


# Four threads that contend for a ref and an atom and send to an agent, so many times each.
GROWS = "(def r (ref 0)) (def a (atom 0)) (def g (agent 0)) " + 4 * "(future (loop [i 0] (when (< i %d) (dosync (alter r inc) (send g inc)) (swap! a inc) (recur (inc i)))))"


def memory(t, count, is_long):
    """Memory grows as the journal does: for four times as long a run by four times as much, and not more."""
    rounds = [8000, 32000]
    file = os.path.join(t.folder, "script")
    for words in (["schedule"], ["run", "--workers", "1"], ["run", "--workers", "4"]):
        took = []
        for many in rounds:
            with open(file, "w", encoding="utf-8") as h:
                h.write(GROWS % ((many,) * 4))
            status, looks = looked_at([trial.PROGRAM, *words, file], "VmHWM")
            took.append(max(looks))
            # (threads in rounds lose to each other, and may fault as RetryLimit)
            count.take("%d rounds, %s" % (many, " ".join(words)), status in (0, 3), "status %d" % status)
        count.take("memory, %s" % " ".join(words), took[1] <= 5 * took[0], "%s KB" % took)
        print("memory: %s: %s KB for %s rounds of four threads" % (" ".join(words), took, rounds), flush=True)


def sizes(t, count, is_long):
    """What docs/LANGUAGE.md says takes much: a long constant is in the byte form once for each use; shared parts cost nothing where nothing walks them."""
    constant = 3 + 65535 * 9
    for uses in (1, 2, 20 if is_long else 3):
        script = "(def v [%s]) (future %s)" % ("1 " * 65535, "(println v)" * uses)
        file = os.path.join(t.folder, "form")
        ran = t.run(["build", "--out", file], script.encode())
        size = os.path.getsize(file) if ran.status == 0 else 0
        count.take("%d uses of a long constant" % uses, uses * constant < size < uses * constant + 1000, "%d bytes, %s" % (size, ran))
    wide = "(def r (ref nil)) (defn wide [n] (loop [i 0 v [1]] (if (< i n) (recur (inc i) [v v v v v v v v]) v)))"
    for words, behind in (["schedule"], "(future 1)"), (["run"], ""):
        ran = t.run(words, (wide + "(future (dosync (ref-set r (wide 30))) (println (count @r)))" + behind).encode())
        count.take("shared parts, %s" % words[0], (ran.out, ran.err, ran.status) == (b"8\n", b"", 0), ran)


# the tests of txs_test_program, of which one makes 250 runs so many times
TESTS = os.path.join(trial.HERE, "..", "crates", "txs_test_program", "out", "txs_test_program_tests")
NAME = "runs::keeps_refs_atoms_and_agents_together"


def again(t, count, is_long):
    """Short runs of one process, 250 in each round: its memory doesn't grow from the first of them on."""
    rounds = 40 if is_long else 4
    env = {"PATH": "/usr/bin:/bin", "ROUNDS": str(rounds)}
    status, looks = looked_at([TESTS, NAME], "VmRSS", env)
    count.take("%d runs in one process" % (250 * rounds), status == 0, "status %d" % status)
    tenth = len(looks) // 10 + 1
    first, last = max(looks[:tenth]), max(looks[-tenth:])
    count.take("memory of %d runs in one process" % (250 * rounds), last <= first + 1000, "%d KB, and %d KB at the end" % (first, last))
    print("again: %d runs in one process: %d KB in the first tenth of them, %d KB in the last" % (250 * rounds, first, last))


PARTS = {"journals": journals, "runs": runs, "refusals": refusals, "memory": memory, "sizes": sizes, "again": again}


if __name__ == "__main__":
    trial.main(__doc__, PARTS)
