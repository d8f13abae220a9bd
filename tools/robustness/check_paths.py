#!/usr/bin/env python3
"""Asks a checker of paths, as examples/c/path.c, for each case of a folder, some at once, and compares what it prints and with what it ends. It is
to say nothing on standard error.

FOLDER/cases.txt has a case a line, with a tab between each two: the moment, the files, the line that is to be printed, and the status.
"""
import argparse
import concurrent.futures
import os
import pathlib
import subprocess
import sys


def told(folder, words, case):
    """What is wrong with the answer to a case, or nothing."""
    moment, names, line, status = case.split("\t")
    files = [folder / name for name in names.split(" ")]
    ended = subprocess.run([*words, moment, *files], stdin=subprocess.DEVNULL, capture_output=True, text=True, check=False)
    if (ended.stdout, ended.stderr, ended.returncode) == (line + "\n", "", int(status)):
        return None
    return f"{moment} {names}: status {ended.returncode}, and not {status}, or another line than '{line}':\n{ended.stdout}{ended.stderr}"


def ask(folder, name, words):
    cases = (folder / "cases.txt").read_text(encoding="ascii").splitlines()
    with concurrent.futures.ThreadPoolExecutor(os.cpu_count()) as pool:
        faults = [fault for fault in pool.map(lambda case: told(folder, words, case), cases) if fault]
    for fault in faults[:20]:
        print(f"failed: {name}, {fault}", end="")
    if faults or not cases:
        print(f"failed: {name}, {len(faults)} of {len(cases)} paths")
        return 1
    print(f"passed: {name}, {len(cases)} paths")
    return 0


def main():
    parser = argparse.ArgumentParser(description=__doc__, formatter_class=argparse.RawDescriptionHelpFormatter)
    parser.add_argument("folder", metavar="FOLDER", type=pathlib.Path)
    parser.add_argument("name", metavar="NAME", help="what the checker is called in the lines that are printed")
    parser.add_argument("words", metavar="WORDS", nargs=argparse.REMAINDER, help="the checker's command")
    given = parser.parse_args()
    return ask(given.folder, given.name, given.words)


if __name__ == "__main__":
    sys.exit(main())
