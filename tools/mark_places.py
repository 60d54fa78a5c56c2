#!/usr/bin/env python3
"""mark_places.py 'N Name' 'TITLE' 'SCRIPT' : prints a row of tests/rows for a script that is refused. In SCRIPT the form
that is refused stands between two marks, as in

    tools/mark_places.py '27 OutsideOnly' 'println in a transaction' '(future (dosync ⟦(println 1)⟧))'

whose place is counted here, in bytes. It runs nothing: what is refused, and why, is for you to say."""
import sys

if len(sys.argv) != 4 or sys.argv[3].count("⟦") != 1 or sys.argv[3].count("⟧") != 1:
    sys.exit(__doc__)
refusal, title, marked = sys.argv[1:]
before, rest = marked.split("⟦")
inside, behind = rest.split("⟧")
start = len(before.encode())
print(f"# {title}\n{before}{inside}{behind}\n! refused {refusal} at {start}..{start + len(inside.encode())}\n")
