#!/usr/bin/env python3
"""Takes the libraries that `rt ci` has kept of the same text, so that `rt check`, `rt plant` and tools/wrong_bodies.py needn't build them.

usage: kept_libraries.py [FOLDER]   FOLDER is the top of a clone of this repository, else this one

The gate keeps what it proved beside the kit, by the checksums of all that it read. This gives each crate whose own text and whose libraries
below are the same its library in out/rlib, with the stamp by which the other commands of `rt` take it as built. It proves nothing, and
names the crates of which nothing is kept. `rt ci` builds on none of it."""
import os
import shutil
import sys

import kit


def takes(kept, crate, stamp):
    """Gives the crate the library that is kept of it, if there is one, in the place of an older one. Whether it did."""
    key = kept.key(crate)
    # (what is asked for and can't be taken whole is no longer kept)
    if not os.path.isdir(kept.place(crate, False, key)):
        return False
    shutil.rmtree(f"{crate.folder}/out/rlib", ignore_errors=True)
    os.makedirs(f"{crate.folder}/out", exist_ok=True)
    if not kept.give(crate, False, key):
        return False
    with open(f"{crate.folder}/out/rlib/stamp", "w", encoding="utf-8") as file:
        file.write(stamp)
    return True


def main():
    crates, stamps, lacking = kit.crates_of(os.path.abspath(sys.argv[1] if len(sys.argv) > 1 else kit.ROOT)), {}, []
    stamp_of = kit.RT.Crate.stamp

    def stamp(crate):
        if crate.folder not in stamps:
            stamps[crate.folder] = stamp_of(crate)
        return stamps[crate.folder]

    # (a crate's stamp has those of all below it: each is made once)
    kit.RT.Crate.stamp = stamp
    if not hasattr(kit.RT, "Kept"):
        sys.exit("this kit keeps nothing of what the gate proved")
    kept = kit.RT.Kept(crates)
    for crate in [it for it in crates if not it.is_program]:
        if any(it.name not in kept.rlibs for it in crate.below()) or not (crate.is_built() or takes(kept, crate, stamp(crate))):
            lacking.append(crate.name)
        else:
            kept.is_built(crate)
    print(f"{len(kept.rlibs)} libraries are there" + (f"; nothing is kept of {' '.join(lacking)}" if lacking else ""))


if __name__ == "__main__":
    main()
