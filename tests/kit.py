"""Used by what needs more of the kit than its commands: `rt`, the kit's own rt as a module, and the repository's crates."""
import importlib.machinery
import importlib.util
import os
import shutil
import sys

ROOT = os.path.dirname(os.path.dirname(os.path.realpath(__file__)))


def load():
    loader = importlib.machinery.SourceFileLoader("rt", os.path.realpath(shutil.which("rt")))
    made = importlib.util.module_from_spec(importlib.util.spec_from_loader("rt", loader))
    sys.modules["rt"] = made
    loader.exec_module(made)
    return made


rt = load()


def crates():
    """The crates of crates.txt, from the repository's top."""
    os.chdir(ROOT)
    rt.rtlib.guarded()
    return rt.rtlib.crates_below(ROOT)


def has_stamp(crate):
    """Whether the crate's library is of rt check or rt lib: rt ci leaves none, and its libraries are of the files that it read."""
    return os.path.exists(f"{os.path.dirname(crate.rlib)}/stamp")


def are_built(libraries):
    """Whether these libraries stand as their files do: those of rt ci as they are, others built where they are missing or old."""
    return not any((has_stamp(it) or not os.path.isdir(it.rlib)) and it.build_rlib(["--jobs", "1"], anew=False) for it in libraries)
