#!/usr/bin/env python3
"""Refuses each allocation in turn: a run must end with its answer, or as one that lacked memory.

A line of standard input is a case: the words, a tab, the line in, a tab and the line out. Each case is run with no allocation refused, then with
the Nth one refused, and with all from the Nth on, for N from 1 until so many aren't asked for.

With --tests it runs each test of the crates so; it must end well, by an error that says that memory was refused, or by an assertion of its own,
where the answer that it wants is another than a lack of memory (it says `assertion ..`, or `at ..` with what it was over). A test whose name speaks
of memory may not end by an assertion: what it wants holds whatever is refused. All else is printed, as a fault or a run without end.
"""
import argparse
import collections
import pathlib
import re
import subprocess
import sys

sys.path.insert(0, str(pathlib.Path(__file__).resolve().parents[1]))
from common.allocations import Counted

MEMORY = (1, b"refused: Memory\n")


def each_refusal(asked):
    for place in range(1, asked + 1):
        yield str(place)
        yield f"{place}+"


def program(path):
    counted = Counted(path)
    cases = runs = memory = wrong = 0
    most = collections.Counter()
    for line in sys.stdin.buffer.read().rstrip(b"\n").split(b"\n"):
        words, data, want = (part.decode() for part in line.split(b"\t"))
        answer = (1 if want.startswith("refused: ") else 0, want.encode() + b"\n")
        cases += 1
        status, out, _, (asked, _, _) = counted.run(words.split(), data.encode())
        if (status, out) != answer:
            wrong += 1
            print(f"{words}: {data[:60]}: {out[:60]!r}, not {want[:60]}")
        most[words] = max(most[words], asked)
        for refuse in each_refusal(asked):
            status, out, _, (_, _, refused) = counted.run(words.split(), data.encode(), refuse)
            runs += 1
            memory += (status, out) == MEMORY
            if (status, out) not in (MEMORY, answer) or not refused:
                wrong += 1
                print(f"{words}: {data[:60]}: allocation {refuse} refused: {status} {out[:60]!r}")
    for words, asked in sorted(most.items()):
        print(f"{words}: at most {asked} allocations")
    print(f"{cases} cases, {runs} runs with refused allocations, {memory} ended with Memory, {wrong} disagreements")
    return 1 if wrong or not runs else 0


def tests(paths):
    names, wrong, ends = 0, 0, collections.Counter()
    for path in paths:
        counted = Counted(path)
        listed = subprocess.run([path, "--list"], capture_output=True, text=True, check=True).stdout
        for name in re.findall(r"(?m)^(\S+): test$", listed):
            names += 1
            status, _, said, (asked, _, _) = counted.run([name], b"")
            if status:
                sys.exit(f"{path} {name}: {said.decode()}")
            for refuse in each_refusal(min(asked, 400)):
                status, _, said, _ = counted.run([name], b"", refuse)
                if not status:
                    ends["ended well"] += 1
                elif status == 101 and re.search(rb"Memory|Alloc(Error|Failed)", said):
                    ends["out of memory"] += 1
                elif status == -6 and said.startswith((b"assertion ", b"at ")) and "memory" not in name:
                    ends["by an assertion"] += 1
                else:
                    wrong += 1
                    print(f"{path} {name}: allocation {refuse} refused: {status} {said.decode().strip()[:200]}")
    told = ", ".join(f"{count} {how}" for how, count in ends.items())
    print(f"{names} tests, {sum(ends.values()) + wrong} runs with refused allocations: {told}, {wrong} otherwise")
    return 1 if wrong or not ends else 0


def main():
    parser = argparse.ArgumentParser(description=__doc__, formatter_class=argparse.RawDescriptionHelpFormatter)
    either = parser.add_mutually_exclusive_group(required=True)
    either.add_argument("program", metavar="PROGRAM", nargs="?", help="crates/x509_tool/out/x509_tool")
    either.add_argument("--tests", metavar="TESTS", nargs="+", help="crates/*/out/*_tests")
    given = parser.parse_args()
    return tests(given.tests) if given.tests else program(given.program)


if __name__ == "__main__":
    sys.exit(main())
