#!/usr/bin/env python3
"""Writes a folder of spoilt paths, as check_paths.py takes it: the certificates of the path of another folder (examples/data/make_path.py), each with
a bit of one octet turned, for each octet, and with an octet left out.

What is to be printed of these is what the checker in Python says (examples/python/path.py); it may never be that the path holds.
"""
import argparse
import os
import pathlib
import sys

TOP = pathlib.Path(__file__).resolve().parents[2]
sys.path[:0] = [str(TOP / "examples" / "python"), str(TOP / "bindings" / "python" / "src")]


def spoilt(data):
    for at in range(len(data)):
        yield f"turned_{at}", data[:at] + bytes([data[at] ^ 1 << at % 8]) + data[at + 1 :]
        yield f"left_out_{at}", data[:at] + data[at + 1 :]


def spoil(paths, folder, library):
    """Writes the folder, and prints whether a path held."""
    os.environ["X509_LIBRARY"] = library
    from path import REASONS, check

    moment = 1_893_456_000
    names = ["root", "intermediate", "server"]
    anchor, *path = [(paths / f"{name}.der").read_bytes() for name in names]
    folder.mkdir(parents=True, exist_ok=True)
    rows, held = [], []
    for place, whole in enumerate(path):
        for how, data in spoilt(whole):
            name = f"{names[place + 1]}_{how}.der"
            files = [os.path.relpath(paths / f"{it}.der", folder) for it in names]
            files[place + 1] = name
            (folder / name).write_bytes(data)
            fault = check(anchor, [*path[:place], data, *path[place + 1 :]], moment)
            if fault is None:
                held.append(name)
            else:
                rows.append(f"{moment}\t{' '.join(files)}\tfault {fault[0]} {REASONS[fault[1]]}\t1\n")
    (folder / "cases.txt").write_text("".join(rows), encoding="ascii")
    print(f"{'failed' if held else 'passed'}: Python, of {len(rows) + len(held)} spoilt paths none holds", *held)
    return int(bool(held))


def main():
    parser = argparse.ArgumentParser(description=__doc__, formatter_class=argparse.RawDescriptionHelpFormatter)
    parser.add_argument("paths", metavar="PATHS", type=pathlib.Path, help="the folder of the path")
    parser.add_argument("folder", metavar="FOLDER", type=pathlib.Path, help="the folder that is written")
    parser.add_argument("library", metavar="LIBRARY", help="libx509.so")
    given = parser.parse_args()
    return spoil(given.paths, given.folder, given.library)


if __name__ == "__main__":
    sys.exit(main())
