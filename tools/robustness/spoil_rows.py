#!/usr/bin/env python3
"""Asks the program of rows about spoilt encodings, by the million.

The vectors are the rows of `crates/x509_test_rows/stdin` whose answer in `stdout` is their own bytes. Each is spoilt in three ways,
and each spoilt row is read under the profile that keeps dates as they are (`raw`):
- cut at each length below its own: `refused: Malformed`, since no spelling begins another;
- followed by one byte 00: `refused: Malformed`, for the same reason;
- with one byte replaced, at each place by each other value: `refused: Malformed`, or its own bytes, since a value has one spelling.

The program asks the check of the type too, so an answer is wrong as well where that says otherwise than the decoder.

It prints how many rows of each kind were asked and how many answers were wrong, with the first of those, and ends with 1 where
there is one. With --places it spoils each vector at so many places at the most, spread over its length, and a byte is replaced there by
those that differ from it in one of three bits.

With --share it asks nothing: it prints a fixed share of these rows whose answer the rules above leave no choice, as lines of
`stdin`, a tabulator, and the line of `stdout`. So these answers come from the rules and not from the program.
"""
import argparse
import itertools
import pathlib
import subprocess
import sys
import time

sys.path.insert(0, str(pathlib.Path(__file__).resolve().parents[1]))
from common.rows import HEADERS, MALFORMED, vectors

CUT, FOLLOWED, REPLACED = "cut", "followed by 00", "one byte replaced"
# the bits of a byte that is replaced where not each place is asked about: those of a number, of a letter's case, of an identifier's class
BITS = (0x01, 0x20, 0x80)
# every so manieth vector has a part in the fixed share
STRIDE = 5
# about so many rows are asked in one run
BATCH = 20_000


def spoilt(number, kind, hexed, most):
    """Yields how the vector with this number is spoilt, and the row, at so many places at the most; at all where that is none."""
    octets = bytes.fromhex(hexed)
    step = 1 if most is None else -(-len(octets) // most)
    places = range(number % step, len(octets), step)
    yield FOLLOWED, f"{kind} raw {hexed}00"
    for place in places:
        own, before, behind = octets[place], hexed[: 2 * place], hexed[2 * place + 2 :]
        others = (it for it in range(256) if it != own) if most is None else (own ^ bit for bit in BITS)
        yield CUT, f"{kind} raw {before}"
        yield from ((REPLACED, f"{kind} raw {before}{it:02X}{behind}") for it in others)


def answers_of(program, lines):
    """Returns the program's answers to the lines."""
    asked = "\n".join(lines).encode() + b"\n"
    told = subprocess.run([program], input=asked, stdout=subprocess.PIPE, check=False).stdout
    return told.decode().split("\n")[: len(lines)]


def ask(program, seconds, most):
    asked = dict.fromkeys((CUT, FOLLOWED, REPLACED), 0)
    kept, wrong, start = 0, [], time.monotonic()
    rows = (it for number, vector in enumerate(vectors()) for it in spoilt(number, *vector, most))
    while batch := list(itertools.islice(rows, BATCH)):
        if seconds and time.monotonic() - start > seconds:
            print(f"stopped after {seconds} seconds, in front of {batch[0][1]}")
            break
        told = answers_of(program, [row for _, row in batch])
        if len(told) != len(batch):
            sys.exit(f"{batch[0][1]}, and those behind it: {len(batch)} rows, {len(told)} answers")
        for (way, row), answer in zip(batch, told):
            asked[way] += 1
            if answer == MALFORMED:
                continue
            if way == REPLACED and answer == row.split(" ")[2]:
                kept += 1
            else:
                wrong.append(f"{way}: {row}: {answer}")
    for way, count in asked.items():
        print(f"{way}: {count:,} rows")
    print(f"of the replaced {kept:,} were read, and written as they came")
    print(f"{len(wrong)} wrong")
    for it in wrong[:20]:
        print(it)
    return 1 if wrong else 0


def share():
    """Prints the rows of the fixed share: spoilt headers for each type, and of some vectors half, all but the last byte, one byte
    more, and one with the first length octet raised by one, which then tells another length."""
    known = list(vectors())
    rows = [f"{kind} raw {it}" for kind in sorted({kind for kind, _ in known}) for it in HEADERS]
    for number, (kind, hexed) in enumerate(known):
        if number % STRIDE:
            continue
        half = len(hexed) // 4 * 2
        lengthened = f"{hexed[:2]}{(int(hexed[2:4], 16) + 1) % 256:02X}{hexed[4:]}"
        rows += [f"{kind} raw {it}" for it in (hexed[:half], hexed[:-2], hexed + "00", lengthened)]
    for row in dict.fromkeys(rows):
        print(f"{row}\t{MALFORMED}")


def main():
    parser = argparse.ArgumentParser(description=__doc__, formatter_class=argparse.RawDescriptionHelpFormatter)
    either = parser.add_mutually_exclusive_group(required=True)
    either.add_argument("program", metavar="PROGRAM", nargs="?", type=pathlib.Path, help="crates/x509_test_rows/out/x509_test_rows")
    either.add_argument("--share", action="store_true", help="print the fixed share")
    parser.add_argument("--places", type=int, help="spoil each vector at so many places at the most")
    parser.add_argument("--seconds", type=int, help="go no further after so long, and say where it stopped")
    given = parser.parse_args()
    return share() if given.share else ask(given.program.resolve(), given.seconds, given.places)


if __name__ == "__main__":
    sys.exit(main())
