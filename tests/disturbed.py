#!/usr/bin/env python3
"""disturbed.py [--long] [--only PART,..]
Runs the built program while the system refuses it something: growths of memory, threads, reads, writes. Each run has to end, by no
signal, with one of the answers that the part allows. --long tries each growth of each script; else every few of them are tried.
TXS names another program than crates/txs/out/txs. Its last line is 'N passed, M failed'."""
import os
import re
import tempfile
import trial

# Scripts with the words that they are run by. What each writes depends on no order in which threads run.
CELLS = "(def r (ref 1)) (def a (atom 2)) (def g (agent 0)) "
SUMS = "(defn add [x y] (+ x y)) (defn twice [x] (add x (add x 1))) (future (println (twice 3) (if (= 1 1) [1 [2 3]] nil) (and 1 2)))"
SHARED = CELLS + (
    "(defn up [n] (dosync (alter r + n) (commute r * 1) (send g + n)))"
    "(future (up 1) (swap! a + 1) (println :one))"
    "(future (up 2) (send g + 10) (println :two \"text\"))"
    "(future (swap! a + 2) (loop [i 0 v []] (if (< i 40) (recur (inc i) (conj v i)) (println (count v)))))"
)
# the same cells with validators, in the end with the same values: what two more threads and one more action want is refused in any order
CHECKED = SHARED.replace(CELLS, "(defn ok [x] (loop [i 0] (if (< i 2) (recur (inc i)) (>= x 0)))) (def r (ref 1 :validator ok)) (def a (atom 2 :validator pos?)) "
                         "(def g (agent 0 :validator ok :error-mode :continue)) ").replace("(println :one)", "(send g - 100) (println :one)")
CHECKED += "(future (dosync (alter r - 50) (send g inc)) (println :three)) (future (swap! a - 50) (println :four))"
# actions that print, commit and send: what they leave is the same in any order
ACTING = "(def r (ref 1)) (def g (agent 0)) (def h (agent 0)) (defn done [s n] (println :done n) (+ s n)) "
ACTING += "(defn work [s n] (println :work n) (dosync (alter r + n) (send h done n)) (send h done 10) (+ s n)) (future (send g work 1) (dosync (send g work 2)))"
GROWING = "(def r (ref [])) (future (dosync (ref-set r (loop [i 0 v []] (if (< i 70) (recur (inc i) (conj v [i])) v)))) (println (nth @r 69)))"
CASES = [
    ("check", "(future (println (loop [a 1 b 2] (if (= a 2) b (recur b a)))))"),
    ("check", "(future (loop [a 1] (+ 1 (recur a))))"),
    ("check", "(def r (ref 1)) (future (dosync (alter r + 10) (commute r * 2)))"),
    ("check", "(def g (agent 10)) (future (send g quot 0) (send g inc))"),
    ("check --explain", "(future\n (println [1 \"a\" :b nil)\n)"),
    ("dis", SUMS),
    ("dis", SHARED),
    ("schedule --cells --events --turns 0,1,0,1,0,0,1,1", "(def c (ref 0)) (future (dosync (commute c inc))) (future (dosync (commute c inc)))"),
    ("schedule --cells --events", "(def r (ref 1)) (future (dosync (commute r inc) (alter r inc)))"),
    ("schedule --cells --events --turns 0x2", "(def g (agent 10)) (future (send g quot 0) (send g inc))"),
    ("schedule --cells", "(def a (atom 1)) (future (println (swap! a + 1 2)) (println @a))"),
    ("schedule --cells --events", SHARED),
    ("schedule --cells", GROWING),
    ("run", "(future (println (+ 1 2)))"),
    ("run --cells --workers 2", "(def a (atom 0)) (future (println (reset! a 7) a)) (future 1)"),
    ("run --cells --workers 2", SHARED),
    ("run --cells --workers 4", SHARED),
    ("run --cells --workers 2", GROWING + "(future nil)"),
    ("dis", CHECKED),
    ("schedule --cells --events", CHECKED),
    ("run --cells --workers 2", CHECKED),
    ("schedule --cells --audit", CHECKED),
    ("schedule --cells --audit", SHARED),
    ("run --cells --audit --workers 2", SHARED),
    ("dis", ACTING),
    ("schedule --cells --events", ACTING),
    ("run --cells --workers 2", ACTING),
    ("schedule --cells --audit", ACTING),
]
SHARED_CELLS = b"r 4\na 5\ng 13\n"
REFUSED = ("", "out of memory\n", 4)
NO_THREAD = ("", "run failed: NoThread\n", 4)
AUDITED = re.compile(rb"^audit agrees(?: serial)?\n\Z", re.M)
UNAUDITED = re.compile(rb"^(?:out of memory|run failed: NoThread)\n\Z", re.M)
STOPPED = re.compile(r"(thread \d+|agent \S+) stopped: Memory")


def answer(ran):
    return ran.out.decode(), ran.err.decode(), ran.status


def is_stopped(ran, whole):
    """Whether it is the answer of a run in which an actor was stopped for want of memory, beside what the whole run says."""
    told, wanted = ran.err.decode().splitlines(), whole.err.decode().splitlines()
    stops = [it for it in told if STOPPED.fullmatch(it)]
    # what has a fault in the whole run has the same, another, or none where someone else was stopped
    others = [it for it in told if it not in stops and it not in wanted and not re.match(r"(thread \d+|agent \S+) failed: ", it)]
    return bool(stops) and not others and ran.status == 4


def keeps_sums(ran):
    """Whether the cells of SHARED, or of CHECKED, are as some of its transactions and actions leave them, each whole or not at all."""
    cells = dict(re.findall(r"^([rag]) (-?\d+)$", ran.out.decode(), re.M))
    r, a, g = (int(cells[it]) for it in "rag")
    sent = {r - 1, r + 9} if b"agent g stopped" not in ran.err else {0, 1, 2, 3, 10, 11, 12, 13}
    return r in range(1, 5) and a in range(2, 6) and g in sent


def kind_of(ran, whole):
    """What became of a run to which growths were refused, or nothing where it is none of what may."""
    if ran.is_like(whole):
        return "whole"
    if answer(ran) == REFUSED:
        return "refused"
    if answer(ran) == NO_THREAD:
        return "no thread"
    if is_stopped(ran, whole) and (SHARED_CELLS not in whole.out or keeps_sums(ran)):
        return "stopped"
    return None


def kind_of_audited(ran, whole):
    """The same of a run that is audited: what became of the run; its audit agrees, or has no answer and says why."""
    if not AUDITED.search(whole.out):
        return kind_of(ran, whole)
    whole = trial.Ran(AUDITED.sub(b"", whole.out), whole.err, whole.status, None)
    if AUDITED.search(ran.out):
        return kind_of(trial.Ran(AUDITED.sub(b"", ran.out), ran.err, ran.status, None), whole)
    if ran.out and UNAUDITED.search(ran.err) and ran.status == 4:
        rest = trial.Ran(ran.out, UNAUDITED.sub(b"", ran.err), ran.status, None)
        is_well = (rest.out, rest.err) == (whole.out, whole.err) or kind_of(rest, whole) == "stopped"
        return "unaudited" if is_well else None
    return kind_of(ran, whole)


def growths(t, count, is_long):
    """Each growth refused in turn: this one alone, and this one with all behind it."""
    kinds, growths = {}, 0
    for words, script in CASES:
        whole = t.run(words.split(), script.encode())
        count.take("undisturbed %s" % words, isinstance(whole.status, int) and whole.status < 128, whole)
        # by workers the number differs from run to run
        most = whole.counts["growths"] + (20 if words.startswith("run") else 1)
        growths += most
        step = 1 if is_long else 1 + most // 40
        tries = [letter + str(n) for n in range(1, most + 1, step) for letter in "aA"]

        def tried(how):
            ran = t.run(words.split(), script.encode(), how)
            return how, ran, kind_of_audited(ran, whole)
        for how, ran, kind in trial.each(tried, tries):
            count.take("%s of %s, where %s" % (words, script, how), kind, ran)
            kinds[kind] = kinds.get(kind, 0) + 1
    print("growths: %d in %d runs; answers: %s" % (growths, sum(kinds.values()), ", ".join("%d %s" % (kinds[it], it) for it in sorted(kinds, key=str))))


# what is shown of a run, with the words of the plain one; nothing for lines of JSON, which stand in its place
SHOWN = [("schedule --cells --events=full", "schedule --cells"), ("schedule --cells --timeline /dev/null", "schedule --cells"), ("schedule --json", None)]


def kind_of_shown(ran, whole, plain):
    """The same of a run of which more is shown behind its plain output: all of that, or why nothing is."""
    if answer(ran) == REFUSED:
        return "refused"
    for more, said in ((whole.out[len(plain.out):], b""), (b"", b"out of memory\n"), (b"", b"show failed\n")):
        if ran.out.endswith(more) and ran.err.endswith(said) and (ran.status == 4 or not said):
            rest = trial.Ran(ran.out[:len(ran.out) - len(more)], ran.err[:len(ran.err) - len(said)], ran.status, None)
            if (rest.out, rest.err) == (plain.out, plain.err) or kind_of(rest, plain) == "stopped":
                return "unshown" if said else "shown"
    return None


def kind_of_json(ran, whole):
    """The same of lines of JSON: the whole ones, with the status of the plain run; or that of a problem."""
    if ran.is_like(whole) or answer(ran) == REFUSED:
        return "whole" if ran.is_like(whole) else "refused"
    *lines, last = ran.out.decode().splitlines() or [""]
    if ran.err or ran.status != 4 or last != '{"status":4,"type":"end"}':
        return None
    is_problem = len(lines) == 1 and lines[0] == '{"message":"show failed","type":"problem"}'
    return "unshown" if is_problem else "shown" if lines == whole.out.decode().splitlines()[:-1] else None


def shown(t, count, is_long):
    """Each growth refused of runs of which more is shown, or in another form."""
    for script in (SHARED, CHECKED, ACTING):
        for words, plain_words in SHOWN:
            whole = t.run(words.split(), script.encode())
            plain = plain_words and t.run(plain_words.split(), script.encode())
            most = whole.counts["growths"] + 1
            tries = [letter + str(n) for n in range(1, most + 1, 1 if is_long else 1 + most // 60) for letter in "aA"]
            for how, ran in zip(tries, trial.each(lambda how: t.run(words.split(), script.encode(), how), tries)):
                kind = kind_of_shown(ran, whole, plain) if plain else kind_of_json(ran, whole)
                count.take("%s of %s, where %s" % (words, script, how), kind, ran)


def threads(t, count, is_long):
    """Each thread that isn't started, with those behind it or alone: the run says so and ends."""
    for workers in (2, 3, 8) + ((64,) if is_long else ()):
        words = ["run", "--cells", "--workers", str(workers)]
        whole = t.run(words, SHARED.encode())
        started = whole.counts["threads"]
        count.take("so many threads by %d workers" % workers, 0 < started <= workers, "%d threads" % started)
        for how in [letter + str(n) for n in range(1, started + 1) for letter in "tT"]:
            ran = t.run(words, SHARED.encode(), how)
            count.take("%d workers, where %s" % (workers, how), answer(ran) == NO_THREAD, ran)
    for script, wanted in (("(future 1)", 0), ("(def g (agent 0)) (future (send g inc))", None), (CELLS + "(future (println @r))", None)):
        ran = t.run(["run", "--workers", "4"], script.encode())
        is_well = ran.counts["threads"] == 0 if wanted == 0 else ran.counts["threads"] > 0
        count.take("workers of %s" % script, is_well and ran.status == 0, "%d threads, %s" % (ran.counts["threads"], ran))


FAILED = (b"", b"read failed\n", 2)


def reads(t, count, is_long):
    """Reads that fail, give one byte, or give none; and how much is read."""
    scripts = [b"(future (println (+ 1 2)))", b"; " + b"x" * 20000 + b"\n(future (println 1))"]
    for script in scripts:
        for by_file in (False, True):
            whole = t.run(["run"], script, by_file=by_file)
            for n in range(1, whole.counts["reads"] + 1):
                ran = t.run(["run"], script, "r%d" % n, by_file)
                count.take("read %d fails" % n, (ran.out, ran.err, ran.status) == FAILED and ran.counts["reads"] == n, ran)
                for how in ("s%d" % n, "i%d" % n):
                    ran = t.run(["run"], script, how, by_file)
                    count.take("read %s" % how, ran.is_like(whole), ran)
    whole = t.run(["run"], scripts[0], "S1")
    count.take("one byte a read", whole.out == b"3\n" and whole.counts["reads"] == len(scripts[0]) + 1, whole)
    for n in range(1, len(scripts[0]) + 2):
        ran = t.run(["run"], scripts[0], "S1,r%d" % n)
        count.take("one byte a read, and read %d fails" % n, (ran.out, ran.err, ran.status) == FAILED and ran.counts["reads"] == n, ran)
    for words in (["check"], ["dis", "--code"]):
        ran = t.run(words, scripts[0], "I1")
        count.take("each read is interrupted, %s" % " ".join(words), (ran.out, ran.err, ran.status) == FAILED and ran.counts["reads"] == 100000000, "%s after %d reads" % (ran, ran.counts["reads"]))
    most = 1048576
    for given, wanted in ((b"(" * most, "refused 7 TooDeep at 100..101\n"), (b"(" * (most + 1), "refused 8 TooLarge at 1048576..1048577\n"),
                          (b"(" * (2 * most), "refused 8 TooLarge at 1048576..1048577\n")):
        ran = t.run(["check"], given)
        count.take("a script of %d bytes" % len(given), answer(ran) == ("", wanted, 1) and ran.counts["bytes read"] == min(len(given), most + 1),
                   "%s, %d bytes read" % (ran, ran.counts["bytes read"]))


def writes(t, count, is_long):
    """Writes that fail, take one byte, or take none: what was written is a beginning of what is to be."""
    script = "(future (println 1234567890)) (future (println (quot 1 0)))"
    for words, given in (("schedule", script), ("dis", script), ("check", "(")):
        plain = t.run(words.split(), given.encode())
        whole = t.run(words.split(), given.encode(), "O1")
        count.take("%s by one byte a write" % words, whole.is_like(plain), whole)
        tries = [(n, how) for n in range(1, whole.counts["writes"] + 1) for how in ("w%d" % n, "n%d" % n, "W%d" % n, "u%d" % n)]
        for (n, how), ran in zip(tries, trial.each(lambda it: t.run(words.split(), given.encode(), "O1," + it[1]), tries)):
            out, err, status = whole.out[: n - 1], whole.err[: max(0, n - 1 - len(whole.out))], max(2, whole.status)
            if n <= len(whole.out) and how[0] != "W":
                err = whole.err + b"write failed\n"
            if how[0] == "u":
                out, err, status = whole.out, whole.err, whole.status
            count.take("%s by one byte a write, where %s" % (words, how), (ran.out, ran.err, ran.status) == (out, err, status), ran)
    ran = t.run(["check"], b"(future 1)", "U1")
    count.take("each write is interrupted", ran.out == b"" and ran.status == 2 and ran.counts["writes"] == 200000000, "%s after %d writes" % (ran, ran.counts["writes"]))


def files(t, count, is_long):
    """The file of --out where a growth, a write or the rename is refused: it is the code, or as it was, and nothing is left beside it."""
    script = b"(future (println 7))"
    here = tempfile.mkdtemp(dir=t.folder)
    out = os.path.join(here, "code")
    words = ["build", "--out", out]
    whole = t.run(words, script)
    with open(out, "rb") as h:
        code = h.read()
    count.take("code is written", whole.status == 0 and len(code) == 62, whole)
    tries = [letter + str(n) for n in range(1, whole.counts["growths"] + 1, 1 if is_long else 3) for letter in "aA"]
    tries += ["w1", "n1", "m1", "O1,w30", "O1,n62", "O1", "o1", "u1"]
    for how in tries:
        with open(out, "wb") as h:
            h.write(b"old")
        ran = t.run(words, script, how)
        with open(out, "rb") as h:
            left = h.read()
        wanted = code if ran.status == 0 else b"old"
        said = {0: b"", 2: b"write failed\n", 4: b"out of memory\n"}.get(ran.status)
        is_well = left == wanted and ran.err == said and os.listdir(here) == ["code"]
        count.take("build, where %s" % how, is_well, "%s, the file is %r beside %s" % (ran, left, os.listdir(here)))


PARTS = {"growths": growths, "shown": shown, "threads": threads, "reads": reads, "writes": writes, "files": files}


if __name__ == "__main__":
    trial.main(__doc__, PARTS, trial.disturbing)
