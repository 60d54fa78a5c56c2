#!/usr/bin/env python3
"""damaged.py [--long] [--only PART,..]
Gives the built program scripts that are cut off, byte forms with a byte changed or the end cut off, forms that promise more than they
have, and texts of no sense. Each has to be taken, or refused by a line of docs/REFUSALS.md with a position in the input.
--long tries each beginning of each row's script, each index of each form, and each of 256 values in the form of docs/FORMATS.md; else some
of them are tried.
TXS names another program than crates/txs/out/txs. Its last line is 'N passed, M failed'."""
import glob
import os
import random
import re
import disturbed
import trial

ROWS = os.path.join(trial.HERE, "rows")
EXAMPLES = os.path.join(trial.HERE, "..", "examples")
OF_SCRIPTS = re.compile(r"refused (\d+) (\w+) at (\d+)\.\.(\d+)\n")
OF_BYTES = re.compile(r"refused (3[1-6]) (\w+) at (\d+)\n")
OF_CODE = re.compile(r"refused (4[1-8]) (\w+) in (fn|thread|cell) (\d+) at (\d+)\n")
# the code of (future (println 7))
SEVEN = bytes.fromhex("545853310000000000010300000000000000070000000100000000000300000000000000001100000012"
                      "0a0001000000080000001318000000000000" "0014")
LARGER = [
    disturbed.SHARED,
    disturbed.SUMS + disturbed.GROWING,
    "(def a (atom [1 \"text\" :key nil true])) (def g (agent -1 :error-mode :continue)) (def c (ref 0))"
    "(defn step [s x] (if (> x 2) (quot s 0) (+ s x)))"
    "(future (swap! a conj 2) (send g step 3) (println (ensured c)))".replace("(ensured c)", "(dosync (ensure c) (commute c + 1) @c)")
    + "(future (loop [i 0] (when (not= i 3) (send g step i) (recur (inc i)))) (reset! a [@a @c]))",
    # the form of cells with validators
    "(defn ok [x] (>= x 0)) (def r (ref 1 :validator ok)) (def a (atom nil)) (def g (agent 2 :error-mode :continue :validator pos?)) (def b (atom 3 :validator ok))"
    "(future (dosync (alter r + 1) (commute r - 1) (send g - 2)) (reset! a (swap! b - 4)))",
]


def scripts():
    """The script of each row that has one, and of each example."""
    found = []
    for file in sorted(glob.glob(os.path.join(ROWS, "*.rows"))):
        script, begun = b"", False
        for line in open(file, "rb").read().split(b"\n"):
            mark = line[:2].strip()
            if line.startswith(b"# "):
                found.append(script)
                script, begun = b"", True
            elif begun and line and mark not in (b">", b"!", b"$", b"%", b"="):
                script += line + b"\n"
        found.append(script)
    for file in sorted(glob.glob(os.path.join(EXAMPLES, "*.clj"))):
        found.append(open(file, "rb").read())
    return [it for it in dict.fromkeys(found) if it]


def refusal_of(ran, given):
    """The refusal of a script: its number, and where it begins and ends; or None for a script that is taken, or False for another answer."""
    if (ran.out, ran.err, ran.status) == (b"ok\n", b"", 0):
        return None
    line = OF_SCRIPTS.fullmatch(ran.err.decode(errors="replace"))
    if ran.out or ran.status != 1 or not line:
        return False
    number, begin, end = int(line[1]), int(line[3]), int(line[4])
    # the end of the script may be what is refused
    return (number, begin, end) if begin <= end <= len(given) and number <= 28 else False


def beginnings(t, count, is_long):
    """Beginnings of scripts. What the reader refuses before the end of a beginning, it refuses of each longer one."""
    found, cuts = scripts(), []
    for k, script in enumerate(found):
        step = 1 if is_long else 41
        cuts += [(k, n) for n in range(k % step, len(script) + 1, step)]

    def checked(cut):
        k, n = cut
        given = found[k][:n]
        ran = t.run(["check"], given)
        return cut, ran, refusal_of(ran, given)
    settled = {}
    for (k, n), ran, refusal in trial.each(checked, cuts):
        is_well = refusal is not False and settled.get(k, refusal) == refusal
        count.take("the first %d bytes of %r" % (n, found[k][:300]), is_well, ran)
        # (2 is Unclosed, which more of the script may mend; 1 is NotUtf8, and a character has at most four bytes)
        if refusal and refusal[0] in (1, 3, 4, 5, 6, 7, 9) and refusal[2] < n and (refusal[0] != 1 or refusal[1] + 4 <= n):
            settled.setdefault(k, refusal)
    print("beginnings: %d of %d scripts" % (len(cuts), len(found)))


def form_of(t, script):
    """The byte form of the code of a script."""
    file = os.path.join(t.folder, "form")
    ran = t.run(["build", "--out", file], script.encode())
    with open(file, "rb") as h:
        return h.read() if ran.status == 0 else b""


def is_refused(ran, given):
    """Whether bytes are refused as such or as code that isn't well typed."""
    line = ran.err.decode(errors="replace")
    of_bytes = OF_BYTES.fullmatch(line)
    return ran.out == b"" and ran.status == 1 and (int(of_bytes[3]) <= len(given) if of_bytes else OF_CODE.fullmatch(line) is not None)


def ends_well(ran):
    """Whether a run of code ended as one may."""
    lines = ran.err.decode(errors="replace").splitlines()
    return ran.status in (0, 3, 4) and all(re.fullmatch(r"(thread \d+|agent \S+) (failed: \w+ at \d+\.\.\d+|stopped: StepsSpent)", it) for it in lines)


def forms(t, count, is_long):
    """Cuts and changes of byte forms: refused, or the form of other code, which has another listing and can be run."""
    tried = 0
    for script in ["(future (println 7))"] + LARGER:
        form = form_of(t, script)
        if script == "(future (println 7))":
            count.take("the form of %s" % script, form == SEVEN, form.hex())
        count.take("a form of %s" % script, form)
        whole = t.run(["dis", "--code"], form)
        count.take("its listing", whole.status == 0 and whole.out, whole)
        step = 1 if is_long or form == SEVEN else 11
        cuts = [form[:n] for n in range(0, len(form), step)] + [form + b"\0"]
        for given, ran in zip(cuts, trial.each(lambda it: t.run(["dis", "--code"], it), cuts)):
            wanted = "refused 35 Trailing at %d\n" % len(form) if len(given) > len(form) else "refused 32 Truncated at %d\n" % len(given)
            count.take("%d bytes of %d of a form" % (len(given), len(form)), (ran.out, ran.err.decode(), ran.status) == (b"", wanted, 1), ran)
        changes = []
        for n in range(0, len(form), step):
            # (changed.rt of txs_test_program has each of 256 values at each index of longer forms, too)
            others = range(256) if is_long and form == SEVEN else {0, 255, form[n] ^ 1, form[n] ^ 128, (form[n] + 1) % 256}
            changes += [form[:n] + bytes([it]) + form[n + 1:] for it in others if it != form[n]]

        def looked_at(given):
            ran = t.run(["dis", "--code"], given)
            return given, ran, t.run(["schedule", "--code", "--steps", "2000", "--cells"], given) if ran.status == 0 else None
        listings = {whole.out: form}
        for given, ran, done in trial.each(looked_at, changes):
            if done is None:
                count.take("a changed form, %s" % given.hex(), is_refused(ran, given), ran)
                continue
            is_new = listings.setdefault(ran.out, given) == given
            count.take("a changed form that is taken, %s" % given.hex(), is_new and ran.err == b"" and ends_well(done), "%s; %s" % (ran, done))
        tried += len(cuts) + len(changes)
        print("forms: %d bytes, %d cuts, %d changes, of which %d are forms" % (len(form), len(cuts), len(changes), len(listings) - 1), flush=True)


# Forms that promise more than they have, up to a count, and what is said of them.
HEAD, VALIDATED = b"TXS1", b"TXS2"
PROMISES = [
    ("1,000 cells", HEAD + b"\x03\xe8", "refused 32 Truncated at 6\n"),
    ("1,001 cells", HEAD + b"\x03\xe9", "refused 36 TooLarge at 4\n"),
    ("1,000 cells, of which one has a validator", VALIDATED + b"\x03\xe8", "refused 32 Truncated at 6\n"),
    ("1,001 cells, of which one has a validator", VALIDATED + b"\x03\xe9", "refused 36 TooLarge at 4\n"),
    ("a validator, and has no cell", VALIDATED + b"\0\0\x00\x0f\x42\x41", "refused 34 BadOperand at 3\n"),
    ("a validator of its cell", VALIDATED + b"\0\1\0\0\1r\0", "refused 32 Truncated at 11\n"),
    ("1,000,000 constants", HEAD + b"\0\0\x00\x0f\x42\x40", "refused 32 Truncated at 10\n"),
    ("1,000,001 constants", HEAD + b"\0\0\x00\x0f\x42\x41", "refused 36 TooLarge at 6\n"),
    ("4,294,967,295 constants", HEAD + b"\0\0\xff\xff\xff\xff", "refused 36 TooLarge at 6\n"),
    ("a text of 65,535 bytes", HEAD + b"\0\0\0\0\0\1\x05\xff\xff", "refused 32 Truncated at 13\n"),
    ("vectors of 65,535 items in 32 levels", HEAD + b"\0\0\0\0\0\1" + b"\x06\xff\xff" * 32, "refused 32 Truncated at 106\n"),
    ("1,000 functions", HEAD + b"\0\0\0\0\0\0\x03\xe8", "refused 32 Truncated at 12\n"),
    ("1,000,000 instructions", SEVEN[:25] + b"\x00\x0f\x42\x40" + SEVEN[29:], "refused 32 Truncated at 62\n"),
    ("1,000,001 instructions", SEVEN[:25] + b"\x00\x0f\x42\x41" + SEVEN[29:], "refused 36 TooLarge at 25\n"),
    ("64 threads", HEAD + b"\0\0\0\0\0\0\0\0\0\x40", "refused 32 Truncated at 14\n"),
    ("65 threads", HEAD + b"\0\0\0\0\0\0\0\0\0\x41", "refused 36 TooLarge at 12\n"),
]


def promises(t, count, is_long):
    """Counts in the input reserve nothing before the bytes are there: no growth is larger than what a form without them takes."""
    most = t.run(["dis", "--code"], HEAD).counts["largest growth"]
    for what, given, wanted in PROMISES:
        ran = t.run(["dis", "--code"], given)
        is_well = (ran.out, ran.err.decode(), ran.status) == (b"", wanted, 1) and ran.counts["largest growth"] <= max(most, 10000)
        count.take("a form that promises %s" % what, is_well, "%s, a growth of %d bytes" % (ran, ran.counts["largest growth"]))


TOKENS = ("( ) [ ] @ ( ) ( ) def defn future dosync ref atom agent :validator pos? :error-mode alter commute ensure ref-set swap! reset! send loop recur let if when cond and or do "
          "println f g x y r a + - * = < inc conj nth 0 1 -1 9223372036854775807 9223372036854775808 nil true false :k \"s\" \"\\u00 ; , "
          "{ # ' \\a 1/2 1.5 ns x.y \x00 \xff \xc3\xa9 \xef\xbb\xbf").split(" ")


def texts(t, count, is_long):
    """Texts of tokens in any order, and bytes in any order, as scripts, as code and as lists of plays."""
    chance = random.Random(70)
    given = []
    for _ in range(5000 if is_long else 300):
        words = [chance.choice(TOKENS) for _ in range(chance.randrange(1, 40))]
        given.append(" ".join(words).encode("latin-1"))
    for _ in range(2000 if is_long else 100):
        given.append(bytes(chance.randrange(256) for _ in range(chance.randrange(60))))
    for text, ran in zip(given, trial.each(lambda it: t.run(["check"], it), given)):
        count.take("a text, %r" % text, refusal_of(ran, text) is not False, ran)
    given = [head + it for head in (HEAD, VALIDATED, b"") for it in given[-100:]]
    for text, ran in zip(given, trial.each(lambda it: t.run(["dis", "--code"], it), given)):
        count.take("bytes as code, %r" % text, is_refused(ran, text), ran)
    script = b"(def r (ref 0)) (future (dosync (alter r inc)) (println @r)) (future (dosync (alter r + 2)))"
    lists = ["".join(chance.choice(["0", "1", "2", "t", "x", ",", " ", "9", "65536", "100001", "-"]) for _ in range(chance.randrange(12))) for _ in range(1000 if is_long else 100)]
    said = {(b"", b"wrong list\n", 2), (b"", b"run failed: NoActor\n", 2)} | {(it + b"\nr 3\n", b"", 0) for it in (b"1", b"3")}
    for text, ran in zip(lists, trial.each(lambda it: t.run(["schedule", "--cells", "--turns=" + it], script), lists)):
        count.take("a list, %r" % text, (ran.out, ran.err, ran.status) in said, ran)


PARTS = {"beginnings": beginnings, "forms": forms, "promises": promises, "texts": texts}


if __name__ == "__main__":
    trial.main(__doc__, PARTS, trial.disturbing)
