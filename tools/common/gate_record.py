"""The gate's own record: what `rt ci` keeps of the crates that passed, by the checksums of all that it read.

It has no other record of a run. The names in its store are computed here as it computes them itself, by its own module; so a record that isn't of these
very sources, of these libraries as they were built and of this toolchain isn't found. A toolchain with another module is refused, as nothing is known of its
record.
"""
import hashlib
import importlib.machinery
import importlib.util
import json
import os
import pathlib
import shutil
import sys


def toolchain():
    """The toolchain's module of `rt ci`."""
    sys.dont_write_bytecode = True
    loader = importlib.machinery.SourceFileLoader("rt", str(pathlib.Path(shutil.which("rt")).resolve()))
    found = importlib.util.module_from_spec(importlib.util.spec_from_loader("rt", loader))
    loader.exec_module(found)
    return found


def kit():
    """The toolchain's folder."""
    return pathlib.Path(shutil.which("rt")).resolve().parents[1]


def kept_files(rt, place, key):
    """The files of a record with their sums, each of which is there and has its sum; None where there is no such record."""
    try:
        with open(f"{place}/made.json", encoding="utf-8") as it:
            made = json.load(it)
        files = [(path, digest) for path, digest in made["files"]]
        is_whole = made["key"] == key and all(rt.rtlib.sum_of(f"{place}/{number}") == digest for number, (_, digest) in enumerate(files))
    except (OSError, ValueError, KeyError, TypeError):
        return None
    return files if is_whole else None


def lacking_edits(rt, kept, crate, key):
    """The wrong bodies of the crate that no run has seen refused."""
    sums = (key, rt.stamp_of(crate, {}))
    for edit in rt.edits_of(crate)[0]:
        tried = [found for found in (kept.tried(kept.of_edit(edit, it)) for it in sums) if found]
        if not any(kind in (rt.REFUSED, rt.AT_LIMIT) for kind, _ in tried):
            yield f"{crate.name}: the wrong body {os.path.basename(edit)}"


def lacking_of(rt, kept, crate):
    """What the record lacks of a crate. Where those below it are there, the sum of its library is known from then on, for those above it."""
    below = [it.name for it in crate.below() if it.name not in kept.rlibs]
    if below:
        return [f"{crate.name}: {below[0]}, on which it stands"]
    key = kept.key(crate)
    files = kept_files(rt, kept.place(crate, False, key), key)
    if files is None:
        return [f"{crate.name}: its proofs"]
    kept.rlibs[crate.name] = hashlib.sha256(repr(files).encode()).hexdigest()
    are_tested = not crate.has_tests() or kept_files(rt, kept.place(crate, True, key), key) is not None
    return [*([] if are_tested else [f"{crate.name}: the proofs of its tests"]), *lacking_edits(rt, kept, crate, key)]


def lacking(top):
    """What the record lacks for the sources below a folder, in words: nothing where each crate, its tests and its wrong bodies have passed."""
    here = os.getcwd()
    os.chdir(top)
    try:
        rt = toolchain()
        rt.Crate.allowed = rt.handles_of(str(top))
        crates = rt.crates_of(str(top))
        kept = rt.Kept(crates)
        return [told for crate in crates for told in lacking_of(rt, kept, crate)]
    finally:
        os.chdir(here)
