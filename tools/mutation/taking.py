"""Puts into out/ what `rt ci` proved of the very same files on this machine, in any checkout. Some kits keep that, and some don't. It takes
as long as copying the files."""
import contextlib
import os
from pathlib import Path

from .checks import rt

ROOT = str(Path(__file__).resolve().parent.parent.parent)


def take(crates):
    """Gives crates, lowest first, what rt ci keeps of them, each library with the stamp by which rt knows it as built. Returns the
    names of those that got it. A library that is built already stays, unless one below it was given: then it was made of other files."""
    given = set()
    if not hasattr(rt, "Kept"):
        return given
    rt.Crate.allowed = rt.handles_of(ROOT)
    kept = rt.Kept(crates)
    for crate in crates:
        below = {it.name for it in crate.below()}
        if crate.is_built() and not below & given:
            kept.is_built(crate)
        elif below <= kept.rlibs.keys() and is_given(kept, crate):
            given.add(crate.name)
        elif below & given:
            rt.clear(f"{crate.folder}/out/rlib")
    return given


def is_given(kept, crate):
    key = kept.key(crate)
    if not kept.at or not os.path.isdir(kept.place(crate, False, key)):
        return False
    # A kept file may have a second name here. So that name is removed, and nothing is written into the file.
    for made in kept.made(crate, False):
        with contextlib.suppress(FileNotFoundError):
            os.remove(f"{crate.folder}/out/{made}")
    if not kept.give(crate, False, key):
        return False
    if not crate.is_program:
        kept.is_built(crate)
        Path(crate.folder, "out/rlib/stamp").write_text(crate.stamp())
    return True
