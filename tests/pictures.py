#!/usr/bin/env python3
"""pictures.py [--long] [--only PART,..]
Has the built program write pictures of runs by schedules, with `--timeline`, and compares each with what `--events` lists of the same run. A picture is
XML, in which each text of the script is whole or shortened; it has each event of the journal in its order, in the lane of its actor; each end of a try has
a bar, each retry what caused it, and each action from where it was sent. With --long random scripts are tried, too.
Parts: examples, shown (the pictures of the pages), texts, many, random. The program is crates/txs/out/txs, or what TXS names."""
import collections
import os
import random
import re
import xml.dom.minidom

import trial

EXAMPLES = os.path.join(trial.HERE, "..", "examples")
BARS = {"commit": "bar", "retry": "lost", "fail": "void", "refused": "void"}
# what the journals of atoms have is not among the lines of `--events`, and of reads no line says which journal it is
OTHERS = ("read", "swap", "broke")
TOP, LANE = 222, 78
TEXTS = ("<script>alert(1)</script>", "a && b", "'quoted'", "]]>", "&lt;", "é€😀", "\u202eabc", "\ufffe\uffff", "x" * 300)


def picture(t, script, words=()):
    """What a run by a schedule writes, and the text of its picture."""
    path = os.path.join(t.folder, "picture%d.svg" % random.getrandbits(60))
    ran = t.run(["schedule", "--events", "--timeline", path, *words], script)
    with open(path, "rb") as h:
        return ran.out, h.read()


def place_of(group):
    """The place that a group is moved to."""
    return tuple(int(n) for n in group.getAttribute("transform")[len("translate("):-1].split())


def groups_of(page):
    """The groups of the picture itself, in their order: neither the signs nor what they mean."""
    return [it for it in page.documentElement.childNodes if it.nodeName == "g" and it.getElementsByTagName("title")]


def events_of(page):
    """The events that are seen: their column's place, their actor, their kind, and the classes of their bars."""
    found = []
    for group in groups_of(page):
        x, y = place_of(group)
        for use in group.getElementsByTagName("use"):
            kind = use.getAttribute("href")[1:]
            if kind in BARS or kind in OTHERS or kind in ("send", "send-refused", "act"):
                bars = [it.getAttribute("class") for it in group.getElementsByTagName("rect")]
                found.append((x, (y - TOP) // LANE, kind, bars))
    return found


def journal_of(out):
    """The lines of events, as actor and kind."""
    lines = [line.split() for line in out.decode().splitlines()]
    return [(int(it[1]), it[2]) for it in lines if len(it) == 3 and it[0].isdigit() and it[1].isdigit() and it[2].replace("-", "").isalpha()]


def links_of(page, name):
    return [it for it in page.getElementsByTagName("path") if it.getAttribute("class") == name and it.parentNode is page.documentElement]


def compare(count, what, out, svg):
    """Whether a picture has what the lines of events say. Its page, if it is one."""
    try:
        page = xml.dom.minidom.parseString(svg)
    except Exception as e:
        count.take(what, False, e)
        return None
    found, journal = events_of(page), journal_of(out)
    seen = [(actor, kind) for _, actor, kind, _ in found if kind not in OTHERS]
    wanted = [it for it in journal if it[1] not in OTHERS]
    count.take(what + ": its events", seen == wanted, (seen[:20], wanted[:20]))
    count.take(what + ": their order", [it[0] for it in found] == sorted({it[0] for it in found}))
    count.take(what + ": its bars", all(bars == ([BARS[kind]] if kind in BARS else []) for _, _, kind, bars in found))
    kinds = collections.Counter(kind for _, kind in wanted)
    count.take(what + ": causes", len(links_of(page, "cause")) == kinds["retry"], kinds)
    count.take(what + ": sends", len(links_of(page, "send")) == kinds["act"], kinds)
    count.take(what + ": alone", b"<script" not in svg and svg.count(b"http") == 1 and b"@import" not in svg)
    return page


def examples(t, count, long):
    for name in sorted(os.listdir(EXAMPLES)):
        if name.endswith(".clj"):
            with open(os.path.join(EXAMPLES, name), "rb") as h:
                compare(count, name, *picture(t, h.read()))


def shown(t, count, long):
    """The pictures that pages show are those of the program: each is of a schedule whose list the README gives."""
    with open(os.path.join(EXAMPLES, "..", "README.md"), encoding="utf-8") as h:
        page = h.read()
    for name in sorted(os.listdir(EXAMPLES)):
        if name.endswith(".svg"):
            turns = re.search(r"--turns (\S+) --timeline", page)[1]
            with open(os.path.join(EXAMPLES, name), "rb") as h, open(os.path.join(EXAMPLES, name[:-4] + ".clj"), "rb") as script:
                count.take(name, picture(t, script.read(), ["--turns", turns])[1] == h.read() and "(examples/" + name + ")" in page)


def texts(t, count, long):
    """Texts with characters that XML gives a meaning, forbids, or shows wrongly."""
    for text in TEXTS:
        script = '(def r (ref 0)) (def a (atom 0)) (future (println "%s") (dosync (ref-set r "%s")) (reset! a "%s"))' % (text, text, text)
        page = compare(count, repr(text), *picture(t, script.encode()))
        if page and text.isprintable() and len(text) < 200:
            titles = [it.firstChild.data.strip().splitlines()[-1] for it in page.getElementsByTagName("title")]
            count.take(repr(text) + " in titles", all(it in titles for it in (text, "r = " + text, "a = " + text)), titles)


def many(t, count, long):
    """A run of more events than a picture has."""
    _, svg = picture(t, b"(def r (ref 0)) (future (loop [i 0] (when (< i 12345) (dosync (alter r inc)) (recur (inc i)))))")
    page = xml.dom.minidom.parseString(svg)
    count.take("many events", b">the first 10000 of 12345 events<" in svg and len(events_of(page)) == 10000, len(svg))


def random_script(r):
    forms = ["(def a (ref 0))", "(def b (ref 0))", "(def x (atom 0))", "(def g (agent 0))", "(def h (agent 0 :error-mode :continue))"]
    steps = ["(dosync (alter a inc))", "(dosync (ref-set b (+ @a @b)) (send g + 1))", "(dosync (commute a + 2))", "(swap! x inc)", "(send h + 1)",
             "(println @a)", "(dosync (ensure b) (alter a inc))", "(send h quot 0)", "(println \"<\" @x)"]
    for _ in range(r.randint(1, 4)):
        forms.append("(future %s)" % " ".join(r.choice(steps) for _ in range(r.randint(1, 8))))
    return "\n".join(forms).encode()


def randoms(t, count, long):
    for seed in range(200 if long else 20):
        r = random.Random(seed)
        turns = ",".join(str(r.randint(0, 1)) for _ in range(40))
        script = random_script(r)
        if script.count(b"(future") > 1:
            compare(count, "script %d" % seed, *picture(t, script, ["--turns", turns]))


if __name__ == "__main__":
    trial.main(__doc__, {"examples": examples, "shown": shown, "texts": texts, "many": many, "random": randoms})
