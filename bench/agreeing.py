#!/usr/bin/env python3
"""agreeing.py [--scripts N] [--seed S]
Makes N scripts at random from the forms that docs/LANGUAGE.md tells, without its departures from Clojure, runs each in
txs and in real Clojure, and compares: both end, or both fault, and what they printed is the same. One script in four
also makes long vectors of one another, in loops, while locals and a ref hold the older ones. Prints the scripts on
which they don't agree, and then the counts. One departure can't be left out, since the least number may come of any
arithmetic: Clojure's `-` overflows where it is taken away, also where the difference fits. A script that differs is run
once more with a `-` that doesn't, and counted apart where it then agrees. Needs Debian's package `clojure`, and the built
program (./txs --build makes it)."""
import argparse, collections, json, os, random, subprocess, tempfile
import beside
NAMES = ["a", "b", "c", "x", "y", "n", "count", "inc", "+", "first"]
KINDS = ["int", "int", "int", "ints", "bool", "any"]
TWO = ["+", "-", "*", "quot", "rem", "mod", "max", "min"]
COMPARE = ["<", ">", "<=", ">=", "=", "not="]
LENGTHS = [0, 1, 31, 32, 33, 63, 64, 65, 1023, 1024, 1025, 1056, 1057, 2047, 2048, 2080]
OF_VECTORS = [
    "(def table (ref []))",
    "(defn put [old new] new)",
    "(defn grow [v n] (if (< (count v) n) (recur (conj v (count v)) n) v))",
    "(defn less [v n] (if (< n (count v)) (recur (pop v) n) v))",
    "(defn change [v i step] (if (< i (count v)) (recur (assoc v i (- (nth v i))) (+ i step) step) v))",
    "(defn sum [v] (loop [i 0 s 0] (if (< i (count v)) (recur (inc i) (+ s (* i (nth v i)))) s)))"]


class Function:
    def __init__(self, name, takes, gives, pure, outside):
        self.name, self.takes, self.gives, self.pure, self.outside = name, takes, gives, pure, outside


class Maker:
    """Makes scripts. `names` is what is in scope, a kind for each; a value of another kind stands in here and there."""

    def __init__(self, rng):
        self.rng = rng

    def literal(self, kind):
        r = self.rng
        if kind == "int":
            return str(r.choice([9223372036854775807, 4611686018427387904, -4611686018427387904]) if r.random() < 0.04 else r.randint(-9, 9))
        if kind == "ints":
            return "[%s]" % " ".join(self.literal("int") for _ in range(r.randint(0, 3)))
        if kind == "bool":
            return r.choice(["true", "false"])
        return r.choice([":k", ":a", '"x y"', '"q\\"r\\n"', "nil", "true", "[]", "[1 :b]", "[nil [false \"s\"]]", self.literal("int")])

    def call(self, names, head, *args):
        """A call, unless a local hides the name."""
        return None if head in names else "(%s)" % " ".join((head,) + args)

    def value(self, kind, names, depth):
        """An expression of this kind."""
        r = self.rng
        known = [n for n, k in names.items() if k == kind]
        if depth <= 0 or r.random() < 0.15:
            return r.choice(known) if known and r.random() < 0.7 else self.literal(kind)
        if r.random() < 0.006:
            return r.choice([":wrong", "true"])
        made = r.choice([self.branch, self.binding, self.loop, self.of_functions, self.of_refs, self.operation, self.operation, self.operation])
        return made(kind, names, depth - 1) or self.literal(kind)

    def branch(self, kind, names, depth):
        r = self.rng
        test, any_ = self.value("bool", names, depth), self.value("any", names, depth)
        one, two = self.value(kind, names, depth), self.value(kind, names, depth)
        return r.choice([
            "(if %s %s %s)" % (test, one, two), "(if-not %s %s %s)" % (any_, one, two), "(cond %s %s :else %s)" % (test, one, two),
            "(and :k %s)" % one, "(or nil false %s)" % two, "(do %s %s)" % (any_, one)] + ([
                "(and %s %s)" % (test, any_), "(or %s %s)" % (any_, one), "(when %s %s)" % (test, any_),
                "(when-not %s %s %s)" % (test, one, any_), "(cond %s %s %s %s)" % (test, one, any_, any_)] if kind == "any" else []))

    def binding(self, kind, names, depth):
        names, pairs = dict(names), []
        for _ in range(self.rng.randint(0, 3)):
            name, of = self.rng.choice(NAMES), self.rng.choice(KINDS)
            pairs.append("%s %s" % (name, self.value(of, names, depth)))
            names[name] = of
        return "(let [%s] %s)" % (" ".join(pairs), self.value(kind, names, depth))

    def loop(self, kind, names, depth):
        if kind not in ("int", "ints") or "<" in names or "inc" in names:
            return None
        inner = dict(names, i="int", s=kind)
        return "(loop [i 0 s %s] (if (< i %d) (recur (inc i) %s) %s))" % (
            self.value(kind, names, depth), self.rng.randint(0, 4), self.value(kind, inner, depth), self.value(kind, inner, depth))

    def of_functions(self, kind, names, depth):
        fit = [f for f in self.functions if f.gives == kind and f.name not in names and (f.pure or not self.only_pure)
               and not (f.outside and self.in_dosync)]
        if not fit:
            return None
        f = self.rng.choice(fit)
        self.outside = self.outside or f.outside
        return "(%s)" % " ".join([f.name] + [self.value(k, names, depth) for k in f.takes])

    def of_refs(self, kind, names, depth):
        if self.only_pure or kind not in ("int", "ints") or self.rng.random() < 0.3:
            return None
        if self.in_dosync:
            return self.alter(kind, names, depth)
        self.in_dosync = True
        body = " ".join(self.value(self.rng.choice(KINDS), names, depth) for _ in range(self.rng.randint(0, 2)))
        made = "(dosync %s %s)" % (body, self.value(kind, names, depth))
        self.in_dosync = False
        return made

    def alter(self, kind, names, depth):
        ref = {"int": "total", "ints": "log"}[kind]
        fit = [f for f in self.functions if f.pure and f.gives == kind and f.takes[:1] == [kind] and f.name not in names]
        if self.rng.random() < 0.3:
            return "@" + ref
        if fit and self.rng.random() < 0.5:
            f = self.rng.choice(fit)
            return "(alter %s)" % " ".join([ref, f.name] + [self.value(k, names, depth) for k in f.takes[1:]])
        op = self.rng.choice(["+", "-", "*", "max"]) if kind == "int" else "conj"
        return None if op in names else "(alter %s %s %s)" % (ref, op, self.value("int", names, depth))

    def operation(self, kind, names, depth):
        r = self.rng
        int_, ints = (lambda: self.value("int", names, depth)), (lambda: self.value("ints", names, depth))
        any_, place = (lambda: self.value("any", names, depth)), (lambda: "(rem %s 5)" % self.value("int", names, depth))
        if kind == "int":
            return r.choice([
                lambda: self.call(names, r.choice(TWO), int_(), int_()), lambda: self.call(names, r.choice(["+", "-", "*"]), int_(), int_(), int_()),
                lambda: self.call(names, r.choice(["inc", "dec", "-"]), int_()), lambda: self.call(names, "count", ints()),
                lambda: self.call(names, "nth", ints(), place()), lambda: self.call(names, "peek", ints())])()
        if kind == "ints":
            return r.choice([
                lambda: self.call(names, "conj", ints(), int_()), lambda: self.call(names, "pop", ints()),
                lambda: self.call(names, "assoc", ints(), place(), int_()), lambda: "[%s %s]" % (int_(), int_())])()
        if kind == "bool":
            return r.choice([
                lambda: self.call(names, r.choice(COMPARE), int_(), int_()), lambda: self.call(names, r.choice(["=", "not="]), any_(), any_()),
                lambda: self.call(names, r.choice(["not", "nil?"]), any_()), lambda: self.call(names, r.choice(["zero?", "pos?", "neg?"]), int_())])()
        return r.choice([lambda: "[%s %s]" % (any_(), any_()), int_, ints, lambda: self.value("bool", names, depth)])()

    def long_vectors(self):
        """Long vectors, each made of one before it, and what each of them is at the end."""
        r, lengths = self.rng, [self.rng.choice(LENGTHS)]
        pairs = ["v0 (grow [] %d)" % lengths[0]]
        for i in range(1, r.randint(3, 9)):
            k = r.randrange(i)
            n, v = lengths[k], "v%d" % k
            place = r.randint(0, n)
            made, length = r.choice([
                ("(conj %s %d)" % (v, i), n + 1), ("(pop %s)" % v, n - 1), ("(assoc %s %d %d)" % (v, place, -i), max(n, place + 1)),
                ("(grow %s %d)" % (v, n + r.choice([1, 31, 32, 33, 1025])), None), ("(less %s %d)" % (v, n // 2), n // 2),
                ("(change %s %d %d)" % (v, r.randint(0, 40), r.randint(1, 90)), n), ("(dosync (alter table put %s) @table)" % v, n),
                ("(dosync (alter table put %s) (alter table conj %d) (alter table assoc %d 5))" % (v, i, place), n + 1),
                ("(do (dosync (alter table put %s)) (dosync (alter table pop)) %s)" % (v, v), n)])
            if length is None:
                length = int(made.split()[-1][:-1])
            if length < 0 or (n == 0 and "pop" in made):
                made, length = v, n
            pairs.append("v%d %s" % (i, made))
            lengths.append(length)
        shown = []
        for i, n in enumerate(lengths):
            shown += ["(count v%d)" % i, "(peek v%d)" % i, "(sum v%d)" % i, "(= v%d v%d)" % (i, r.randrange(len(lengths)))]
            shown += ["(nth v%d %d)" % (i, r.randrange(n))] if n else []
        return "(let [%s] (println %s) (println (count @table) (sum @table)))" % (" ".join(pairs), " ".join(shown))

    def line(self, names, depth):
        self.outside = True
        return "(println %s)" % " ".join(self.value(self.rng.choice(KINDS), names, depth) for _ in range(self.rng.randint(0, 3)))

    def script(self):
        r = self.rng
        self.functions, self.in_dosync = [], False
        long = r.random() < 0.25
        parts = (OF_VECTORS if long else []) + ["(def total (ref %s))" % self.literal("int"), "(def log (ref %s))" % self.literal("ints"), "(def k %s)" % self.literal("int")]
        for number in range(r.randint(0, 4)):
            takes, gives = [r.choice(KINDS) for _ in range(r.randint(0, 3))], r.choice(KINDS)
            parameters = r.sample(NAMES, len(takes))
            names = dict({"k": "int"}, **dict(zip(parameters, takes)))
            self.only_pure, self.outside = r.random() < 0.6, False
            body = [] if self.only_pure or r.random() < 0.5 else [self.line(names, 2)]
            body.append(self.value(gives, names, r.randint(1, 4)))
            parts.append("(defn f%d [%s] %s)" % (number, " ".join(parameters), " ".join(body)))
            self.functions.append(Function("f%d" % number, takes, gives, self.only_pure, self.outside))
        self.only_pure = False
        body = [self.line({"k": "int"}, r.randint(2, 5)) for _ in range(r.randint(1, 4))] + ["(println @total @log)"]
        body = [self.long_vectors()] + body if long else body
        return " ".join(parts + ["(future %s)" % " ".join(body)])


def ended(script):
    done = subprocess.run([beside.TXS, "run"], input=script, capture_output=True, text=True)
    return {0: "ok", 1: "refused", 3: "fault"}.get(done.returncode, "stopped"), done.stdout, done.stderr.strip()


def clojure(folder, scripts, *words):
    """How each script ends in Clojure, and what it prints."""
    path = os.path.join(folder, "scripts")
    with open(path, "w", encoding="utf-8") as h:
        h.write("".join(s + "\n" for s in scripts))
    told = subprocess.run(beside.JAVA + [os.path.join(beside.HERE, "agree.clj"), path, *words], capture_output=True, text=True, check=True)
    return [json.loads(line.replace('" "', '", "')) for line in told.stdout.splitlines()]


def agree(ours, theirs):
    return theirs[0].split()[0] == ours[0] and theirs[1] == ours[1]


def main():
    parser = argparse.ArgumentParser(description=__doc__, formatter_class=argparse.RawDescriptionHelpFormatter)
    parser.add_argument("--scripts", type=int, default=2000)
    parser.add_argument("--seed", type=int, default=1)
    a = parser.parse_args()
    beside.need_the_program()
    maker = Maker(random.Random(a.seed))
    scripts = [maker.script() for _ in range(a.scripts)]
    counts, others = collections.Counter(), []
    with tempfile.TemporaryDirectory() as folder:
        for script, theirs in zip(scripts, clojure(folder, scripts)):
            ours = ended(script)
            if agree(ours, theirs):
                counts[ours[0]] += 1
            else:
                others.append((script, ours, theirs))
        exact = clojure(folder, [it[0] for it in others], "exact") if others else []
    for (script, ours, theirs), of_exact in zip(others, exact):
        kind = "depart" if agree(ours, of_exact) else "differ"
        counts[kind] += 1
        print("%s: %s\n  txs: %s\n  clj: %s\n" % (kind, script, ours, theirs))
    print("scripts %d: both end %d, both fault %d, the least number taken away %d, differ %d" % (
        len(scripts), counts["ok"], counts["fault"], counts["depart"], counts["differ"]))


if __name__ == "__main__":
    main()
