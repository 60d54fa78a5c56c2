#!/usr/bin/env python3
"""audited.py [--long] [--seed N]
Audits runs of the built program, by schedules and by workers: of each example, and of random scripts of one to four threads, also with few
steps. These have refs, atoms and agents, of which some have validators. Actions run transactions, swap, print and send. Each audit has to agree. No cell may have a value that its validator
refuses, unless it opened with it. --long makes 500 scripts; else 60 are made. TXS names another program than
crates/txs/out/txs. Its last line is 'N passed, M failed'."""
import argparse
import collections
import glob
import os
import random
import re
import tempfile
import trial

EXAMPLES = os.path.join(trial.HERE, "..", "examples")
FUNCTIONS = """(defn f [x y] (if (< x y) (+ x 1) (* y 2)))
(defn bad [x] (quot x 0))
(defn spin [x n] (loop [i 0 v x] (if (< i n) (recur (inc i) (+ v i)) v)))
(defn small [x] (< x 12))
(defn odd [x] (if (= 1 (mod x 2)) true nil))
(defn slow [x] (loop [i 0] (if (< i 9) (recur (inc i)) (> x 2))))
(defn part [x] (quot 9 (- x 7)))
"""
# what validators accept, of whole numbers; `part` faults for the others, and `count` for all
ACCEPTED = {"small": lambda x: x < 12, "odd": lambda x: x % 2 == 1, "slow": lambda x: x > 2, "part": lambda x: x != 7, "pos?": lambda x: x > 0,
            "inc": lambda x: True, "nil?": lambda x: False, "count": lambda x: False}
# what a transaction does; R, S are refs, G an agent, N a number
INNER = ["(alter R inc)"] * 4 + ["(ref-set R (+ @S 1))"] * 2 + ["(commute R f N)"] * 3 + ["(ensure R)"] * 2 + ["(alter R + @S)"] * 2 + [
    "(commute R inc)", "(commute R bad)", "(when (< @R 20) (alter S spin 3))", "@R", "@S", "(send G f N)", "(send G f N)"]
# what a thread does outside transactions; T is a whole transaction, A an atom
OUTER = ["T"] * 9 + ["(println T)"] * 2 + ["(println @R)", "(println @G)", "(println @A)", "(swap! A inc)", "(swap! A f 3)", "(println (swap! A spin 4))",
    "(reset! A 5)", "(swap! A bad)", "(send G inc)", "(send G f 2)", "(send G quot 0)", "(send G spin 5)", "(loop [i 0] (when (< i 4) (dosync (alter R inc)) (recur (inc i))))"]
# what a thread or a transaction sends, where there are functions that act
ACTED = ["(send G act0 N)"] * 3 + ["(send G act1 N)"] * 2 + ["(dosync (send G act0 N) (alter R inc))"] * 2
# what such a function does; its last form is one of the second list
ACTS = ["T"] * 6 + ["(println s n)", "(println T)", "(println @R)", "(println @G)", "(println @A)", "(swap! A inc)", "(swap! A f n)", "(reset! A n)", "(swap! A bad)",
    "(send G inc)", "(send G f n)", "(send G - N)", "(send G quot 0)", "(dosync (alter R + n))", "(dosync (send G f n) (alter R - N))",
    "(loop [i 0] (when (< i 3) (dosync (alter R inc)) (recur (inc i))))"]
LAST = ["(inc s)", "(f s n)", "(- s n)", "s", "(spin s 3)", "(bad s)"]


class Maker:
    """Makes random scripts and schedules."""

    def __init__(self, seed):
        self.rng = random.Random(seed)
        self.cells, self.validators, self.outer, self.inner, self.modes = {}, {}, OUTER, INNER, ["", "", " :error-mode :continue"]
        # how many functions act, and what they do
        self.acting, self.acts, self.last = 0, ACTS, LAST
        # functions that stand behind the cells
        self.before = None

    def one(self, forms):
        """One of these forms for which there are cells, with names and numbers in it."""
        while True:
            form = self.rng.choice(forms)
            if "T" in form:
                form = form.replace("T", "(dosync %s)" % " ".join(self.one(self.inner) for _ in range(self.rng.randint(1, 4))))
            if all(self.cells[kind] for kind in re.findall(r"\b[RSAG]\b", form)):
                named = re.sub(r"\b[RSAG]\b", lambda m: self.rng.choice(self.cells[m[0]]), form)
                return re.sub(r"\bN\b", lambda m: str(self.rng.randint(0, 9)), named)

    def script(self, most=4):
        """A script of one thread, or up to so many."""
        many = self.rng.randint
        refs = ["r%d" % i for i in range(many(1, 3))]
        self.cells = {"R": refs, "S": refs, "A": ["a%d" % i for i in range(many(0, 2))], "G": ["g%d" % i for i in range(many(0, 2))]}
        opened = [("ref", it) for it in refs] + [("atom", it) for it in self.cells["A"]] + [("agent", it) for it in self.cells["G"]]
        self.rng.shuffle(opened)
        values = {name: many(0, 9) for _, name in opened}
        # each cell with a validator, by its opening value and what is accepted
        self.validators = {}
        lines = ["(def %s (%s %d%s))" % (name, kind, values[name], self.options(kind, name, values[name])) for kind, name in opened]
        lines += [self.before] if self.before else []
        lines += [self.act(number) for number in range(self.acting)]
        threads = ["(future %s)" % " ".join(self.one(self.outer) for _ in range(many(1, 5))) for _ in range(many(1, most))]
        return "\n".join([FUNCTIONS, *lines, *threads])

    def act(self, number):
        """A function for actions, which may send those before it."""
        forms = self.acts + ["(send G act%d N)" % it for it in range(number)] * 3
        return "(defn act%d [s n] %s %s)" % (number, " ".join(self.one(forms) for _ in range(self.rng.randint(1, 3))), self.rng.choice(self.last))

    def options(self, kind, name, value):
        """The options of a cell, in some order."""
        options = [self.rng.choice(self.modes)] if kind == "agent" else []
        validator = self.rng.choice([None, None, "small", "small", "odd", *ACCEPTED])
        if validator:
            self.validators[name] = (value, ACCEPTED[validator])
            options.append(" :validator " + validator)
        self.rng.shuffle(options)
        return "".join(options)

    def is_valid(self, out):
        """Whether each cell with a validator has its opening value, or one that is accepted."""
        cells = dict(re.findall(r"^([rag]\d) (-?\d+)$", out.decode(), re.M))
        return all(name in cells and (int(cells[name]) == value or accepts(int(cells[name]))) for name, (value, accepts) in self.validators.items())

    def turns(self, threads):
        """A schedule of the first thread, of the second where there is one, and of the agents where functions act."""
        rng = self.rng
        actors = [*range(min(2, threads)), *range(threads, threads + (len(self.cells["G"]) if self.acting else 0))]
        return ",".join("%s%d%s" % (rng.choice(["", "t"]), rng.choice(actors), rng.choice(["", "x3", "x9"])) for _ in range(rng.randint(0, 40)))


def take(count, told, what, ran, is_valid=True):
    """Counts a run: its audit agrees, and its cells are valid."""
    said = re.findall(rb"^audit [a-z ]+", ran.out, re.M)
    is_well = len(said) == 1 and said[0] in (b"audit agrees", b"audit agrees serial") and ran.status in (0, 3, 4)
    count.take(what, is_well and is_valid, ran)
    told[said[0].decode() if len(said) == 1 else "none"] += 1
    told["runs with a refused value"] += b" failed: InvalidState at " in ran.err


def main():
    parser = argparse.ArgumentParser(description=__doc__, formatter_class=argparse.RawDescriptionHelpFormatter)
    parser.add_argument("--long", action="store_true")
    parser.add_argument("--seed", type=int, default=1)
    a = parser.parse_args()
    trial.need_the_program()
    count, told = trial.Count(), collections.Counter()
    maker = Maker(a.seed)
    maker.acting, maker.outer = 2, OUTER + ACTED
    with tempfile.TemporaryDirectory() as folder:
        t = trial.Trial(folder)
        for file in sorted(glob.glob(os.path.join(EXAMPLES, "*.clj"))):
            with open(file, "rb") as h:
                text = h.read()
            for words in (["schedule"], ["run", "--workers", "3"]):
                take(count, told, "%s, %s" % (os.path.basename(file), words[0]), t.run([*words, "--audit"], text))
        for k in range(500 if a.long else 60):
            text = maker.script()
            turns = maker.turns(text.count("(future "))
            steps = str(maker.rng.choice([30, 60, 100, 1000000, 1000000, 1000000]))
            for words in (["schedule", "--turns", turns], ["run", "--workers", str(1 + k % 5)]):
                ran = t.run([*words, "--cells", "--audit", "--steps", steps], text.encode())
                take(count, told, "script %d by %s with %s steps: %s" % (k, " ".join(words), steps, text), ran, maker.is_valid(ran.out))
    print("audits: %s" % ", ".join("%d %s" % (many, what) for what, many in sorted(told.items())))
    count.end()


if __name__ == "__main__":
    main()
