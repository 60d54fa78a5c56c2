"""What the tools beside it share: the kit's own `rt` as a module, and the crates of a clone of this repository as it sees them."""
import hashlib
import importlib.machinery
import importlib.util
import os
import shutil
import sys

ROOT = os.path.dirname(os.path.dirname(os.path.abspath(__file__)))


def rt_of_the_kit():
    """The kit's `rt`, as a module that takes libraries as `rt ci` makes them."""
    found = shutil.which("rt") or sys.exit("there is no 'rt' (of Rattle's kit) on the path\n0 passed, 1 failed")
    path = os.path.realpath(found)
    sys.dont_write_bytecode = True
    sys.path.insert(0, os.path.dirname(path))
    loader = importlib.machinery.SourceFileLoader("rt_of_the_kit", path)
    module = importlib.util.module_from_spec(importlib.util.spec_from_loader(loader.name, loader))
    words, sys.argv = sys.argv, ["rt"]
    loader.exec_module(module)
    sys.argv = words
    module.rtlib.Crate = module.Crate
    # (these hold the statements of their proofs alone)
    module.Crate.cuts_libraries = True
    return module


RT = rt_of_the_kit()


def crates_of(top):
    """The crates of a clone, each behind those that it uses."""
    os.chdir(top)
    RT.Crate.allowed = RT.handles_of(top)
    return RT.rtlib.crates_below(top)


def is_there(crate):
    """Whether the library of a crate is in its out/, as `rt ci` and `rt lib` leave it."""
    return os.path.isfile(f"{crate.rlib}/format")


def texts_below(crate):
    """The files of a crate and of all crates below it that a check reads, by their paths in the repository."""
    found = []
    for it in [crate, *crate.below()]:
        for part in ("src", "specs", "proofs"):
            for at, _, names in os.walk(f"{it.folder}/{part}"):
                found += [os.path.join(at, name) for name in names]
    return sorted(found)


def sum_below(crate):
    """The sum of all that a check of the crate reads: the kit, its own text, and the texts below. A library is what its texts give."""
    whole = hashlib.sha256()
    with open(f"{RT.KIT}/KIT-ID", "rb") as file:
        whole.update(file.read())
    for path in texts_below(crate):
        with open(path, "rb") as file:
            whole.update(repr((os.path.relpath(path, ROOT), hashlib.sha256(file.read()).hexdigest())).encode())
    return whole.hexdigest()
