#!/usr/bin/env python3
"""Prints what a project takes to use a crate: its lines of crates.txt and those of the crates that it stands on, the lowest first."""
import argparse
import pathlib
import sys

sys.path.insert(0, str(pathlib.Path(__file__).resolve().parents[1]))
from common.crates import crates_below, lines_of, path_of


def main():
    parser = argparse.ArgumentParser(description=__doc__)
    parser.add_argument("--folders", action="store_true", help="their folders in place of their lines")
    parser.add_argument("crates", nargs="+", metavar="CRATE")
    asked = parser.parse_args()
    named = crates_below()
    for crate in asked.crates:
        if crate not in named:
            sys.exit(f"{crate}: crates.txt has no such crate")
    wanted = set().union(*(path_of(crate, named) for crate in asked.crates))
    for line in lines_of(wanted):
        print(f"crates/{line.partition(':')[0].split()[0]}" if asked.folders else line)
    return 0


if __name__ == "__main__":
    sys.exit(main())
