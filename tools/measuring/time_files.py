#!/usr/bin/env python3
"""Times a program over many certificates: in files, in one file of PEM, and of PEM on standard input.

For each way and each count it prints the microseconds and the most memory of the process, in MB, of the fastest of three runs, and the status. What the
program prints goes to a file. Memory that grows with the count, beside the names of files, or microseconds that do show a step that isn't linear.
"""
import argparse
import base64
import contextlib
import pathlib
import subprocess
import sys
import tempfile
import time

TOP = pathlib.Path(__file__).resolve().parents[2]

RUNS = 3


def certificates(folder):
    """The certificates of a folder, as DER."""
    found = [path.read_bytes() for path in sorted(folder.glob("*.der"))]
    if not found:
        sys.exit(f"{folder}: no certificate in a file *.der")
    return found


def pem_of(data):
    """PEM of a certificate (RFC 7468 2)."""
    text = base64.b64encode(data)
    lines = b"".join(text[at : at + 64] + b"\n" for at in range(0, len(text), 64))
    return b"-----BEGIN CERTIFICATE-----\n" + lines + b"-----END CERTIFICATE-----\n"


def memory_of(child):
    """The most memory that a process has had so far in MB; 0 where it has ended. (What wait4 says has that of this one, which it was forked from.)"""
    with contextlib.suppress(OSError), open(f"/proc/{child.pid}/status", encoding="ascii") as status:
        for line in status:
            if line.startswith("VmHWM:"):
                return int(line.split()[1]) / 1024
    return 0


def run(words, stdin, output, folder):
    """The seconds of a run, the most memory of it in MB, as asked every few milliseconds, and its status."""
    start, memory = time.perf_counter(), 0
    child = subprocess.Popen(words, stdin=stdin, stdout=output, stderr=subprocess.DEVNULL, cwd=folder)
    while child.poll() is None:
        memory = max(memory, memory_of(child))
        time.sleep(0.002)
    return time.perf_counter() - start, memory, child.returncode


def fastest(words, folder, piped=None):
    found = []
    for _ in range(RUNS):
        with open(folder / "output", "wb") as output:
            if piped is None:
                found.append(run(words, subprocess.DEVNULL, output, folder))
            else:
                with subprocess.Popen(["cat", piped], stdout=subprocess.PIPE) as cat:
                    found.append(run(words, cat.stdout, output, folder))
    return min(found)


def ways(program, count, data, folder):
    """For each way what it is called, the words, and what is piped in."""
    names = []
    for at in range(count):
        name = f"{at:x}"
        (folder / name).write_bytes(data[at % len(data)])
        names.append(name)
    with open(folder / "bundle.pem", "wb") as bundle:
        for at in range(count):
            bundle.write(pem_of(data[at % len(data)]))
    yield "files", [*program, *names], None
    yield "PEM", [*program, "bundle.pem"], None
    yield "PEM on standard input", program, folder / "bundle.pem"


def main():
    parser = argparse.ArgumentParser(description=__doc__, formatter_class=argparse.RawDescriptionHelpFormatter)
    parser.add_argument("program", nargs="+", help="the program and options, as crates/x509_linter/out/x509_linter --count")
    parser.add_argument("--certificates", type=pathlib.Path, default=TOP / "examples" / "data", help="a folder with certificates in files *.der")
    parser.add_argument("--counts", type=int, nargs="+", default=[1_000, 10_000, 100_000])
    asked = parser.parse_args()
    program = [str(pathlib.Path(asked.program[0]).resolve()), *asked.program[1:]]
    data = certificates(asked.certificates)
    print(f"{len(data)} certificates of {sum(map(len, data)) / len(data):.0f} bytes")
    for count in asked.counts:
        with tempfile.TemporaryDirectory() as name:
            for way, words, piped in ways(program, count, data, pathlib.Path(name)):
                seconds, memory, status = fastest(words, pathlib.Path(name), piped)
                print(f"{count:>7} {way:<22} {1e6 * seconds / count:8.1f} us each {memory:8.1f} MB, status {status}", flush=True)


if __name__ == "__main__":
    main()
