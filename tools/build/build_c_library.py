#!/usr/bin/env python3
"""Proves and builds the C library, as crates/x509_c/out/libx509_c.a.

Where `rt ci` has just left the libraries that it stands on, each newer than its sources, it is built over those; else `rt lib` builds them first.
"""
import argparse
import importlib
import os
import pathlib
import shutil
import subprocess
import sys

TOP = pathlib.Path(__file__).resolve().parents[2]
FOLDER = TOP / "crates" / "x509_c"


def toolchain():
    """Returns the toolchain's own module, which knows how a crate is built."""
    sys.dont_write_bytecode = True
    sys.path.insert(0, str(pathlib.Path(shutil.which("rt")).resolve().parent))
    return importlib.import_module("rtlib")


def is_left(crate):
    """Returns whether the crate's library is there, and newer than its sources."""
    library = pathlib.Path(crate.rlib)
    if not library.is_dir() or not any(library.iterdir()):
        return False
    made = library.stat().st_mtime
    sources = (file for part in ("src", "specs", "proofs") for file in pathlib.Path(crate.folder, part).rglob("*") if not file.is_dir())
    return all(file.stat().st_mtime < made for file in sources)


def main():
    argparse.ArgumentParser(description=__doc__, formatter_class=argparse.RawDescriptionHelpFormatter).parse_args()
    os.chdir(FOLDER)
    os.makedirs("out", exist_ok=True)
    crate = toolchain().Crate(str(FOLDER), str(TOP), {})
    if all(map(is_left, crate.below())) and crate.build_static([]) == 0:
        return 0
    return subprocess.run(["rt", "lib"], check=False).returncode


if __name__ == "__main__":
    sys.exit(main())
