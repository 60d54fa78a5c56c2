#!/usr/bin/env python3
"""shown.py [--long] [--only PART,..]
Shows runs of the built program by --events=full, --timeline and --json, and compares that with its plain output. The scripts are the examples, those
of tests/rows, and some whose texts have every byte that is written otherwise. Lines of JSON are parsed, and what they say is what the plain lines do:
what threads and agents printed, the cells, the journal, the status and refusals. The long form has a line for each event. Each picture is parsed as
XML, and what is written besides is as without it. --long runs each script by workers 20 times; else twice. TXS names another program than
crates/txs/out/txs. Its last line is 'N passed, M failed'."""
import glob
import json
import os
import re
import tempfile
import xml.dom.minidom
import rows
import trial

EXAMPLES = os.path.join(trial.HERE, "..", "examples")
ROWS = os.path.join(trial.HERE, "rows")
# texts as a script has them: what XML, JSON and the reader write otherwise, and a long one
TEXTS = ["<a href='x'>&amp;]]></a>", r"\" \\ \n \t \r", "é ∀ 😀", "a" * 65535, "", "\x01\x02\x08\x0c\x1b\x7f", "\u0085\u2028\ufeff", "-->", "\t\r\n"]
ODD = ["(def r (ref nil)) (def a (atom nil)) (def g (agent nil)) (defn put [s v] v) (future (println \"%s\") (dosync (ref-set r \"%s\") (send g put \"%s\")) (reset! a [\"%s\" :k]))"
       % (text, text, text, text) for text in TEXTS]
ODD += ["(def r (ref 0)) (def g (agent 0)) (future (dosync (alter r inc) (send g quot 0))) (future (println (quot 1 @r)))",
        "(def g (agent 0 :error-mode :continue)) (defn f [s] (send g inc) (println s) (quot 1 s)) (future (send g f) (send g f))",
        "(def a<b (ref 0)) (def c&d (atom 1)) (future (dosync (alter a<b + @c&d))) (future (swap! c&d inc))"]
# words of the titles of rows with values that are too large to be written whole
LARGE = (*rows.LONG, "8^30 parts")
# how many requests a search for outcomes makes
LIMIT = "20000"


def scripts():
    """Scripts by name, each with the words of its run by a schedule."""
    found = {"odd %d" % i: (text.encode(), []) for i, text in enumerate(ODD)}
    for name in sorted(glob.glob(os.path.join(EXAMPLES, "*.clj"))):
        found[os.path.basename(name)] = (rows.read(name), [])
    for path in sorted(glob.glob(os.path.join(ROWS, "*.rows"))):
        head, *texts = rows.read(path).decode().split("\n# ")
        for text in texts:
            title, _, text = text.partition("\n")
            own, script = rows.marked(text)
            words = (own["$"] or rows.marked(head)[0]["$"] or ["run"])[0].split()
            if not own["%"] and words[0] in ("run", "schedule", "check", "dis", "explore") and not any(word in title for word in LARGE):
                found["%s: %s" % (os.path.basename(path), title)] = (script, kept(words))
    return found


def kept(words):
    """Those of the words that a schedule takes with all that is shown."""
    found, some = [], iter(words[1:])
    for word in some:
        if word in ("--turns", "--steps"):
            found += [word, next(some)]
        elif word.startswith(("--turns=", "--steps=")):
            found.append(word)
    return found


def of_type(lines, kind):
    return [line for line in lines if line["type"] == kind]


def plain_of(lines):
    """What the plain output with cells and events is, by the lines of JSON."""
    out = "".join(line["printed"] for kind in ("thread", "agent") for line in of_type(lines, kind))
    out += "".join("%s %s\n" % (line["name"], line["text"]) for line in of_type(lines, "cell"))
    journal = sorted((line for line in of_type(lines, "event") if line["book"] == "journal"), key=lambda line: line["index"])
    return out + "".join("%d %d %s\n" % (line["index"], line["actor"], line["event"]) for line in journal)


def refusal_of(line):
    return "refused %d %s at %d..%d" % (line["number"], line["name"], line["from"], line["to"])


def json_wrong(t, script, words):
    """What is wrong with the lines of JSON of a run by a schedule, or nothing."""
    plain = t.run(["schedule", "--cells", "--events", "--explain=never", *words], script)
    ran = t.run(["schedule", "--json", *words], script)
    lines = split(ran)
    if ran.err or ran.status != plain.status or not lines or lines[-1] != {"type": "end", "status": plain.status}:
        return "%s, and plainly %s" % (ran, plain)
    if plain.status == 1:
        return None if plain.err.decode() == refusal_of(lines[0]) + "\n" and len(lines) == 2 else "%s, and plainly %s" % (lines[0], plain.err)
    if plain.status == 2:
        return None if lines[0] == {"type": "problem", "message": plain.err.decode().split("\n")[0]} else "%s, and plainly %s" % (lines[0], plain.err)
    if plain_of(lines).encode() != plain.out:
        return "%r, and plainly %r" % (plain_of(lines)[-200:], plain.out[-200:])
    return events_wrong(lines)


def split(ran):
    """The lines of JSON that a run wrote; none where it isn't whole lines."""
    try:
        text = ran.out.decode()
        return [json.loads(line) for line in text.split("\n")[:-1]] if text.endswith("\n") else []
    except ValueError:
        return []


def events_wrong(lines):
    """What is wrong with the order of events, or nothing."""
    books, orders = {}, [line["order"] for line in of_type(lines, "event")]
    if orders != list(range(len(orders))):
        return "orders %s" % orders[:20]
    for line in of_type(lines, "event"):
        at = books.setdefault(line["book"], 0)
        if line["index"] != at:
            return "index %d of book %s, where %d is the next" % (line["index"], line["book"], at)
        books[line["book"]] += 1
    return None


LONG_LINE = re.compile(r"(journal|atom \S+) (\d+): (thread \d+|agent \S+) ([a-z-]+)")


def full_wrong(t, script, words):
    """What is wrong with the long form of a run's events, or nothing."""
    plain = t.run(["schedule", "--cells", *words], script)
    ran = t.run(["schedule", "--cells", "--events=full", *words], script)
    if (ran.err, ran.status) != (plain.err, plain.status) or not ran.out.startswith(plain.out):
        return "%s, and plainly %s" % (ran, plain)
    if plain.status in (1, 2):
        return None if ran.out == plain.out else "lines of a run that there isn't"
    long = [LONG_LINE.match(line) for line in ran.out[len(plain.out):].decode().split("\n")[:-1]]
    events = of_type(split(t.run(["schedule", "--json", *words], script)), "event")
    if not all(long) or len(long) != len(events):
        return "%d lines, %d events, %r" % (len(long), len(events), ran.out[len(plain.out):][:300])
    for line, event in zip(long, events):
        actor = "agent %s" % event["agent"] if event["agent"] is not None else "thread %d" % event["thread"]
        if line.groups() != ("journal" if event["book"] == "journal" else "atom " + event["book"], str(event["index"]), actor, event["event"]):
            return "%s, and %s" % (line.groups(), event)
    return None


def picture_wrong(t, script, words):
    """What is wrong with the picture of a run, or nothing."""
    place = os.path.join(os.path.dirname(t.files()["given"]), "picture")
    if os.path.exists(place):
        os.remove(place)
    plain = t.run(["schedule", "--cells", "--events", *words], script)
    ran = t.run(["schedule", "--cells", "--events", "--timeline", place, *words], script)
    if not ran.is_like(plain):
        return "%s, and plainly %s" % (ran, plain)
    if plain.status in (1, 2):
        return "a picture of no run" if os.path.exists(place) else None
    return svg_wrong(place)


def svg_wrong(place):
    """What is wrong with a picture in a file, or nothing."""
    try:
        found = xml.dom.minidom.parse(place).documentElement
    except Exception as error:
        return "%s: %r" % (error, rows.read(place)[:200])
    if found.tagName != "svg" or found.getAttribute("xmlns") != "http://www.w3.org/2000/svg":
        return "no SVG: %s" % found.tagName
    return None


def worked_wrong(t, script, times):
    """What is wrong with what is shown of runs by workers, or nothing."""
    place = os.path.join(os.path.dirname(t.files()["given"]), "worked")
    for i in range(times):
        if os.path.exists(place):
            os.remove(place)
        ran = t.run(["run", "--json", "--audit", "--timeline", place, "--workers", str(2 + i % 3)], script)
        lines = split(ran)
        if ran.err or not lines or lines[-1] != {"type": "end", "status": ran.status}:
            return "%s" % ran
        if ran.status == 1:
            continue
        if lines[-2].get("verdict") != "agrees":
            return "%s" % lines[-2]
        wrong = events_wrong(lines) or svg_wrong(place)
        if wrong:
            return wrong
    return None


def checked_wrong(t, script):
    """What is wrong with the line of a check, or nothing."""
    plain, ran = t.run(["check", "--explain=never"], script), t.run(["check", "--json"], script)
    lines = split(ran)
    if ran.err or ran.status != plain.status or len(lines) != 1:
        return "%s, and plainly %s" % (ran, plain)
    if plain.status == 0:
        return None if lines == [{"type": "ok"}] else "%s" % lines
    return None if refusal_of(lines[0]) + "\n" == plain.err.decode() and lines[0]["advice"] else "%s, and plainly %s" % (lines, plain)


def explored_wrong(t, script):
    """What is wrong with the pictures of all outcomes, or nothing."""
    plain = t.run(["explore", "--limit", LIMIT], script)
    with tempfile.TemporaryDirectory(dir=t.folder) as folder:
        ran = t.run(["explore", "--limit", LIMIT, "--timeline", folder], script)
        if not ran.is_like(plain):
            return "%s, and plainly %s" % (ran, plain)
        lists = [b"" if it == b'""' else it for it in re.findall(rb"^outcome \d+, by --turns (.*)$", plain.out, re.M)]
        names = {"outcome-%d.svg" % (i + 1) for i in range(len(lists))}
        if set(os.listdir(folder)) != names:
            return "%s, and %d outcomes" % (sorted(os.listdir(folder)), len(lists))
        for i, turns in enumerate(lists):
            place, alone = os.path.join(folder, "outcome-%d.svg" % (i + 1)), os.path.join(folder, "alone")
            t.run(["schedule", "--turns", turns.decode(), "--timeline", alone], script)
            wrong = svg_wrong(place) or (rows.read(place) != rows.read(alone) and "the picture by the list is another")
            if wrong:
                return wrong
    return None


def tried(count, found, what, wrong_of):
    """Tries something on each of these scripts."""
    names = list(found)
    for name, wrong in zip(names, trial.each(lambda name: wrong_of(*found[name]), names)):
        count.take("%s: %s" % (what, name), wrong is None, wrong)


def main():
    found = scripts()
    few = {name: found[name] for name in found if ".rows: " not in name or name.startswith(("agents", "atoms", "commute", "transactions", "validated"))}
    trial.main(__doc__, {
        "json": lambda t, count, is_long: tried(count, found, "lines of JSON", lambda script, words: json_wrong(t, script, words)),
        "full": lambda t, count, is_long: tried(count, found, "the long form", lambda script, words: full_wrong(t, script, words)),
        "picture": lambda t, count, is_long: tried(count, found, "a picture", lambda script, words: picture_wrong(t, script, words)),
        "check": lambda t, count, is_long: tried(count, found, "a check", lambda script, words: checked_wrong(t, script)),
        "workers": lambda t, count, is_long: tried(count, few, "by workers", lambda script, words: worked_wrong(t, script, 20 if is_long else 2)),
        "explore": lambda t, count, is_long: tried(count, few, "outcomes", lambda script, words: explored_wrong(t, script)),
    })


if __name__ == "__main__":
    main()
