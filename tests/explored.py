#!/usr/bin/env python3
"""explored.py [--long] [--only PART,..]
Lists the outcomes of scripts by the built program. Each list of plays gives its outcome again by `schedule --cells`, and where the search is
complete, runs by workers end in one of the outcomes. So with random scripts of two or three short threads. --long makes 300; else 40 are made.
TXS names another program than crates/txs/out/txs. Its last line is 'N passed, M failed'."""
import glob
import os
import random
import re
import trial

EXAMPLES = os.path.join(trial.HERE, "..", "examples")
COMPLETE = b"complete: each schedule ends in "
FORMS = ["(dosync (alter a inc))", "(dosync (ref-set b (+ @a 1)))", "(println @a)", "(swap! c inc)", "(reset! c (inc @c))", "(println @c)",
         "(dosync (commute a + 2))", "(send g inc)", "(dosync (send g + 5) (alter b inc))", "(println (quot 6 @a))", "(dosync (when (= 0 (ensure b)) (alter a dec)))"]
CELLS = "(def a (ref 0)) (def b (ref 0)) (def c (atom 0)) (def g (agent 0)) "


def outcomes_in(ran):
    """The outcomes that were written, each as its list of plays and its lines; and the last line."""
    *heads, last = ran.out.splitlines(keepends=True)
    found, first = [], []
    for line in heads:
        head = re.fullmatch(rb"outcome (\d+), by --turns (.*)\n", line)
        if head:
            found.append([b"" if head[2] == b'""' else head[2], []])
        else:
            found[-1][1].append(line)
    for i, one in enumerate(found):
        if i == 0:
            first = one[1]
            continue
        lacks = [line[2:] for line in one[1] if line.startswith(b"- ")]
        has = [line[2:] for line in one[1] if line.startswith(b"+ ")]
        one[1] = placed(first, lacks, has)
    return found, last


def placed(first, lacks, has):
    """All texts that have these lines in the place of those that they lack."""
    texts = []
    for at in range(len(first) - len(lacks) + 1):
        if first[at:at + len(lacks)] == lacks:
            texts.append(first[:at] + has + first[at + len(lacks):])
    return texts


def lines_of(ran):
    return (ran.out + ran.err).splitlines(keepends=True)


def is_right(t, script, runs):
    """What is wrong with the outcomes of a script, or nothing."""
    ran = t.run(["explore", "--limit", "200000"], script)
    found, last = outcomes_in(ran)
    texts = []
    for i, (turns, text) in enumerate(found):
        again = lines_of(t.run(["schedule", "--cells", "--turns", turns.decode()], script))
        if again != text if i == 0 else again not in text:
            return f"outcome {i + 1}: {again} and {text}"
        texts.append(again)
    if not last.startswith(COMPLETE):
        return None if last.startswith(b"not complete: ") else f"{last}"
    for i in range(runs):
        run = lines_of(t.run(["run", "--cells", "--workers", str(2 + i % 3)], script))
        if run not in texts:
            return f"a run by workers: {run}"
    return None


def examples(t, count, is_long):
    names = sorted(glob.glob(os.path.join(EXAMPLES, "*.clj")))
    for name, wrong in zip(names, trial.each(lambda name: is_right(t, open(name, "rb").read(), 40), names)):
        count.take(f"outcomes of {os.path.basename(name)}", wrong is None, wrong)


def random_scripts(t, count, is_long):
    rng = random.Random(7)
    scripts = []
    for _ in range(300 if is_long else 40):
        threads = [" ".join(rng.choice(FORMS) for _ in range(rng.randint(1, 2))) for _ in range(rng.randint(2, 3))]
        scripts.append((CELLS + " ".join(f"(future {body})" for body in threads)).encode())
    for script, wrong in zip(scripts, trial.each(lambda script: is_right(t, script, 20), scripts)):
        count.take(f"outcomes of {script.decode()}", wrong is None, wrong)


if __name__ == "__main__":
    trial.main(__doc__, {"examples": examples, "random": random_scripts})
