#!/usr/bin/env python3
"""Runs the gate, and prints the processor seconds of each crate: of its proofs, of its tests, and of its wrong bodies.

In the top folder of a clean clone. With the names of crates it runs `rt ci` over these and those below them alone, which isn't the gate; what passed
before on this machine isn't proved again, and has no row. What `rt ci` prints goes to FILE with the time of each line, and the table to standard output, also where the
run is interrupted. The processes of its checker are looked at every second, so a figure can lack the last second of each.
"""
import argparse
import collections
import os
import signal
import subprocess
import sys
import threading
import time

TICK = os.sysconf("SC_CLK_TCK")


def processes():
    """The numbers of each process's `stat`, from its parent on."""
    found = {}
    for process in filter(str.isdigit, os.listdir("/proc")):
        try:
            with open(f"/proc/{process}/stat", encoding="utf-8", errors="replace") as file:
                found[process] = file.read().rsplit(")", 1)[1].split()[1:]
        except OSError:
            continue
    return found


def words_of(process):
    """The command line of a process of the checker; of another none."""
    try:
        with open(f"/proc/{process}/cmdline", encoding="utf-8", errors="replace") as file:
            words = file.read().split("\0")
    except OSError:
        return []
    return words if os.path.basename(words[0]) == "rattle" and "--crate-name" in words else []


def checks(gate):
    """Each check of the gate: what tells it from others, its crate, its part, its processor seconds. The copies that a check makes of itself
    are in its own figure once they have ended, so they have none."""
    found = processes()
    for process, numbers in found.items():
        parent = process
        while parent in found and parent != gate:
            parent = found[parent][0]
        words = words_of(process)
        if parent != gate or not words or words_of(numbers[0]):
            continue
        try:
            folder = os.readlink(f"/proc/{process}/cwd")
        except OSError:
            continue
        part = "wrong bodies" if "rt-edit-" in folder else "tests" if "--test" in words else "proofs"
        crate = words[words.index("--crate-name") + 1]
        yield (process, numbers[18]), crate, part, sum(map(int, numbers[10:14])) / TICK


def watch(gate, seen, is_over):
    while not is_over.wait(1):
        for key, crate, part, seconds in checks(gate):
            seen[key] = crate, part, seconds


def table(seen):
    parts = ["proofs", "tests", "wrong bodies"]
    spent, bodies = collections.Counter(), collections.Counter()
    for crate, part, seconds in seen.values():
        spent[crate, part] += seconds
        bodies[crate] += part == parts[2]
    print("| Crate | Proofs | Tests | Wrong bodies | each |")
    print("|---|---|---|---|---|")
    for crate in sorted({crate for crate, _, _ in seen.values()}):
        row = [f"{spent[crate, part]:.0f}" for part in parts]
        each = f"{spent[crate, parts[2]] / bodies[crate]:.0f}" if bodies[crate] else ""
        print(f"| `{crate}` | {' | '.join(row)} | {each} |")
    totals = [sum(spent[crate, part] for crate in bodies) / 60 for part in parts]
    print(f"| all, in minutes | {' | '.join(f'{total:.0f}' for total in totals)} | |")


def main():
    parser = argparse.ArgumentParser(description=__doc__, formatter_class=argparse.RawDescriptionHelpFormatter)
    parser.add_argument("file", metavar="FILE", nargs="?", default="gate.log", help="gate.log, if left out")
    parser.add_argument("crates", metavar="CRATE", nargs="*", help="all, if left out")
    said = parser.parse_args()
    seen, is_over, start = {}, threading.Event(), time.time()
    signal.signal(signal.SIGTERM, lambda number, frame: sys.exit(number))
    gate = subprocess.Popen(["rt", "ci", *said.crates], stdout=subprocess.PIPE, stderr=subprocess.STDOUT, text=True)
    watcher = threading.Thread(target=watch, args=(str(gate.pid), seen, is_over))
    watcher.start()
    try:
        with open(said.file, "w", encoding="utf-8") as log:
            last = ""
            for line in gate.stdout:
                last = line.rstrip("\n")
                log.write(f"{time.strftime('%T')} {last}\n")
                log.flush()
        print(f"{last}, in {(time.time() - start) / 60:.0f} minutes")
    finally:
        gate.terminate()
        is_over.set()
        watcher.join()
        table(seen)


if __name__ == "__main__":
    main()
