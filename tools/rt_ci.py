#!/usr/bin/env python3
"""`rt ci`, with the sum and the list of the crates below made once for each crate.

The kit 13b makes the sum of a crate's text anew for each crate above it, and so over all ways through crates.txt: over a million for the
program, which takes longer than all proofs. Here each is made once, which changes no verdict: no text changes while the gate runs, and the
sums only say which library may be taken by other commands. All else is the kit's own `rt ci`. A kit that keeps what passed makes each sum
once by itself, and is called as it is."""
import os
import sys

import kit


def once(make):
    """The same method, whose answer for a crate is made once."""
    made = {}

    def answer(crate):
        if crate.folder not in made:
            made[crate.folder] = make(crate)
        return made[crate.folder]

    return answer


def main():
    os.chdir(kit.ROOT)
    if hasattr(kit.RT, "Kept"):
        os.execvp("rt", ["rt", "ci"])
    kit.RT.Crate.stamp = kit.RT.rtlib.Crate.stamp = once(kit.RT.rtlib.Crate.stamp)
    below = once(kit.RT.rtlib.Crate.below)
    kit.RT.Crate.below = kit.RT.rtlib.Crate.below = lambda crate: [*below(crate)]
    return kit.RT.ci()


if __name__ == "__main__":
    sys.exit(main())
