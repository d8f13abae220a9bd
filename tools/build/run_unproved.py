#!/usr/bin/env python3
"""Runs a program from its sources, unproved, by `rt try`: it stops at an index out of bounds, an overflow and the like, and else prints and ends
as the proved program does. A line on standard error says so, and what proves it.

The status is the program's own. Where the run gives no answer it is 3, with the reason on standard error and nothing on standard output: the
sources don't compile, the program faults, it takes over 60 seconds, or it prints over 1 MiB. Standard input is the program's.
"""
import argparse
import pathlib
import re
import subprocess
import sys

sys.path.insert(0, str(pathlib.Path(__file__).resolve().parents[1]))
from common.crates import TOP, crate_of, crates_below, minutes_of, path_of

NO_ANSWER = 3
OWN_LINES = re.compile(rb"^(interpreter|checked|run): ?|^run=")


def notice(program, crate):
    """The line that says that nothing is proved."""
    minutes = minutes_of(path_of(program, crates_below()))
    return (
        f"{program}: there is no proved program of these sources yet, so they run unproved, in {'about a minute' if crate == program else 'half a minute or so'}. "
        f"`tools/build/build_program.py {program}` proves and builds it ({minutes} processor minutes); `rt ci` proves it too."
    )


def status_of(said):
    """The program's own status, which stands in the last line; None where it gave no answer."""
    last = said.rstrip().rpartition(b"\n")[2]
    ended = re.match(rb"run=ended status=(\d+) ", last)
    return int(ended[1]) if ended else None


def main(program, words):
    crate = crate_of(program, words)
    print(notice(program, crate), file=sys.stderr, flush=True)
    try:
        run = subprocess.run(
            ["rt", "try", crate, "--", *words],
            cwd=TOP / "crates" / crate,
            stdout=subprocess.PIPE,
            stderr=subprocess.PIPE,
            check=False,
        )
    except OSError as error:
        print(f"{program}: rt doesn't start: {error}", file=sys.stderr)
        return NO_ANSWER
    status = status_of(run.stderr)
    if status is None:
        sys.stderr.buffer.write(run.stderr)
        print(
            f"{program}: the unproved run gave no answer. It prints at most 1 MiB and takes at most 60 seconds; "
            "the proved program has no such limits.",
            file=sys.stderr,
        )
        return NO_ANSWER
    sys.stdout.buffer.write(run.stdout)
    sys.stderr.buffer.writelines(line for line in run.stderr.splitlines(True) if not OWN_LINES.match(line))
    return status


if __name__ == "__main__":
    parser = argparse.ArgumentParser(description=__doc__, usage="%(prog)s NAME [WORD ..]", formatter_class=argparse.RawDescriptionHelpFormatter)
    parser.add_argument("program", metavar="NAME", help="the program's crate, as x509_tool; all words behind it are handed to the program")
    # The words may be any, also such as the parser would take for its own.
    sys.exit(main(parser.parse_args(sys.argv[1:2]).program, sys.argv[2:]))
