#!/usr/bin/env python3
"""code.py [--program TXS] [--bytes N] [--instructions N]
Counts by callgrind the machine instructions that it takes to compile a script, to write its code, and to read and verify
that, in one run over the same script; and times code of so many instructions, read, verified and listed. Counts are
steady where times are not. Needs valgrind and the built program (./txs --build makes it), or another by --program."""
import argparse, os, re, struct, subprocess, tempfile, time
import compiling
# the parts, by the functions in which their instructions are counted
PARTS = {
    "compile": ["txs_compile::script::compile"],
    "encode": ["txs_code_encode::encoding::put_bodies", "txs_code_encode::written::put_value"],
    "decode": ["txs_code_decode::bodies::bodies_at", "txs_code_decode::values::values_at"],
    "load": ["txs_verify::load::load"],
    "seal": ["txs_code_meaning::verified::Verified::seal"],
}


def counts(program, words, folder):
    """The inclusive counts of functions, by their names."""
    out = os.path.join(folder, "callgrind")
    subprocess.run(["valgrind", "--tool=callgrind", f"--callgrind-out-file={out}", program] + words, check=True, capture_output=True)
    told = subprocess.run(["callgrind_annotate", "--inclusive=yes", "--threshold=100", out], check=True, capture_output=True, text=True).stdout
    found = {}
    for count, name in re.findall(r"^\s*([\d,]+) \([^)]*\)\s+\S*?:(\S+)", told, re.M):
        found.setdefault(name, int(count.replace(",", "")))
    return found


def long_code(count):
    """Code of one thread, which pushes and pops a constant up to its end."""
    instr = lambda bytes: bytes + b"\0" * 8
    pair = instr(b"\0" + struct.pack(">I", 0)) + instr(b"\3")
    body = pair * ((count - 2) // 2) + instr(b"\0" + struct.pack(">I", 0)) + instr(b"\x18")
    return b"TXS1\0\0\0\0\0\1\0\0\0\0\1\0\0" + struct.pack(">I", (count - 2) // 2 * 2 + 2) + body


def main():
    parser = argparse.ArgumentParser(description=__doc__, formatter_class=argparse.RawDescriptionHelpFormatter)
    parser.add_argument("--program", default=compiling.TXS)
    parser.add_argument("--bytes", type=int, default=420000)
    parser.add_argument("--instructions", type=int, default=1000000)
    a = parser.parse_args()
    with tempfile.TemporaryDirectory() as folder:
        script, code = os.path.join(folder, "f.clj"), os.path.join(folder, "f.code")
        with open(script, "w", encoding="utf-8") as h:
            h.write(compiling.script(a.bytes) + "(future (println 1))\n")
        built = counts(a.program, ["build", "--out", code, script], folder)
        read = counts(a.program, ["run", "--code", code], folder)
        both = {**built, **read}
        found = {part: sum(both.get(name, 0) for name in names) for part, names in PARTS.items()}
        found["verify"] = found["load"] - found["decode"]
        print("script %d bytes, code %d bytes" % (os.path.getsize(script), os.path.getsize(code)))
        for part in ("compile", "encode", "decode", "verify", "seal"):
            print("%-8s %12d instructions%s" % (part, found[part], "" if part == "compile" or not found[part] else ", compiling takes %.1f times as many" % (found["compile"] / found[part])))
        with open(code, "wb") as h:
            h.write(long_code(a.instructions))
        for words in (["run", "--code", code], ["dis", "--code", code]):
            before, start = os.times(), time.perf_counter()
            subprocess.run([a.program] + words, check=True, stdout=subprocess.DEVNULL)
            wall, after = time.perf_counter() - start, os.times()
            print("%-4s of %d instructions %6.2f s, of a processor %.2f s" % (words[0], a.instructions, wall, after.children_user - before.children_user))


if __name__ == "__main__":
    main()
