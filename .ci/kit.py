"""The kit's own rt, as a module or, with arguments, as a command: how it reads an edit, sums a library or calls the prover is not written a second
time in this repository. `rt ci`, which the gate goes by, is called as it is."""
import functools
import importlib.machinery
import importlib.util
import os
import shutil
import sys

sys.dont_write_bytecode = True


def load():
    loader = importlib.machinery.SourceFileLoader("rt", os.path.realpath(shutil.which("rt")))
    made = importlib.util.module_from_spec(importlib.util.spec_from_loader("rt", loader))
    sys.modules["rt"] = made
    loader.exec_module(made)
    return made


@functools.lru_cache(maxsize=None)
def below(crate):
    """As rt's own, in the same order; that one walks each of the millions of paths between the crates."""
    return [*dict.fromkeys(it for dep in crate.deps for it in [*below(dep), dep])]


rt = load()
rt.rtlib.Crate.below = below

if __name__ == "__main__":
    sys.exit(rt.main(sys.argv[1:]))
