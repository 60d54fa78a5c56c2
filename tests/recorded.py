#!/usr/bin/env python3
"""recorded.py [--long] [--only PART,..]
Records runs of the built program by workers, and replays each by a schedule: both write the same bytes to both streams, with the same status.
Each example is recorded and replayed 50 times while other runs load the machine, and so are scripts that contend, that fault, and whose actors spend
their steps. --long makes 500. TXS names another program than crates/txs/out/txs. Its last line is 'N passed, M failed'."""
import glob
import os
import time
import trial

EXAMPLES = os.path.join(trial.HERE, "..", "examples")
OWN = {
    "refs": "(def a (ref 0)) (def b (ref 0)) " + "(future (loop [i 0] (when (< i 20) (println (dosync (alter a inc) (ref-set b (+ @a @b)))) (recur (inc i)))))" * 4,
    "commutes": "(def a (ref 0)) " + "(future (loop [i 0] (when (< i 20) (println (dosync (commute a inc))) (recur (inc i)))))" * 4,
    "atoms": "(def a (atom 0)) (def b (atom 0)) " + "(future (loop [i 0] (when (< i 50) (println (swap! a inc) @b) (swap! b + @a) (recur (inc i)))))" * 4,
    "agents": "(def g (agent 0)) (def h (agent 0 :error-mode :continue)) (defn both [s] (send h + s) (println s) (inc s)) "
              + "(future (loop [i 0] (when (< i 20) (send g both) (send h quot 0) (recur (inc i)))))" * 3,
    "a failed agent": "(def g (agent 0)) (future (send g quot 0)) " + "(future (loop [i 0] (when (< i 10) (dosync (send g inc)) (recur (inc i)))))" * 2,
    "no request": "(future (println 1)) (future (println 2))",
    "a fault": "(def a (ref 3)) " + "(future (loop [] (println (dosync (alter a - 1) (quot 6 @a))) (recur)))" * 2,
}
STEPS = "(def a (ref 0)) (def n (atom 0)) " + "(future (loop [] (dosync (alter a inc)) (swap! n inc) (recur)))" * 3


def recorded(t, script, words):
    """Whether a run is recorded, and what both wrote."""
    place = os.path.join(os.path.dirname(t.files()["given"]), "list")
    if os.path.exists(place):
        os.remove(place)
    run = t.run(["run", "--cells", "--events", *words, "--record", place], script)
    again = t.run(["schedule", "--cells", "--events", *[w for w in words if not w.startswith("--workers")], "--turns-from", place], script)
    return run.is_like(again), f"{run}\n  and: {again}"


def scripts():
    """Scripts by name, each with the words of its runs."""
    found = {name: (text.encode(), []) for name, text in OWN.items()}
    for name in sorted(glob.glob(os.path.join(EXAMPLES, "*.clj"))):
        with open(name, "rb") as h:
            found[os.path.basename(name)] = (h.read(), [])
    found["spent steps"] = (STEPS.encode(), ["--steps", "1000"])
    return found


def again(t, count, is_long):
    """Runs that are replayed."""
    found = scripts()

    def one(name):
        script, words = found[name]
        for i in range(500 if is_long else 50):
            is_like, came = recorded(t, script, [*words, f"--workers={2 + i % 4}"])
            if not is_like:
                return came
        return None

    for name, came in zip(found, trial.each(one, list(found))):
        count.take(f"recorded and replayed: {name}", came is None, came)


def many(t, count, is_long):
    """A million requests are recorded in seconds."""
    script = "(def a (atom 0)) " + "(future (loop [i 0] (when (< i 125000) (swap! a inc) (recur (inc i)))))" * 4
    place = os.path.join(os.path.dirname(t.files()["given"]), "list")
    start = time.time()
    ran = t.run(["run", "--cells", "--record", place], script.encode())
    took = time.time() - start
    is_well = (ran.out, ran.err, ran.status) == (b"a 500000\n", b"", 0) and took < 60 and os.path.exists(place)
    count.take("a million requests", is_well, f"{ran}, {took:.1f} s")
    replayed = t.run(["schedule", "--cells", "--turns-from", place], script.encode())
    count.take("a million requests replayed", replayed.is_like(ran), replayed)


if __name__ == "__main__":
    trial.main(__doc__, {"again": again, "many": many})
