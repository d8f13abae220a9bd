#!/usr/bin/env python3
"""Times the program over growing inputs, and counts its allocations, to show that its work grows as the bytes do.

For each kind of input it prints how many members there are, how many bytes, the seconds of the fastest of three runs, the
nanoseconds a byte, the allocations, and the most bytes of memory that stood at once for each byte of input. A quadratic
step would show as nanoseconds a byte that grow with the input.
"""
import argparse
import itertools
import pathlib
import subprocess
import sys
import time

sys.path.insert(0, str(pathlib.Path(__file__).resolve().parents[1]))
from common.allocations import Counted
from common.der import NULL, OID, element, object_identifier, octet_string, sequence, set_of

COUNTS = [1_000, 10_000, 100_000, 1_000_000]


def attributes(count):
    """So many attributes of eight bytes: a type of two arcs or three, and an empty value under any identifier."""
    types = [bytes([first, last]) for first in range(0x2A, 0x2E) for last in range(128)]
    types += [bytes([first, last]) for first in range(0x81, 0xC1) for last in range(128)]
    tags = [tag for tag in range(0x40, 0x100) if tag % 32 != 31]
    made = (sequence(element(OID, kind), element(tag)) for tag in tags for kind in types)
    return itertools.islice(made, count)


def one_element(count):
    return octet_string(bytes(count))


def empty_sets(count):
    return sequence(set_of() * count)


def sets_of_one(count):
    # nine bytes a set: a shorter type, so that most of a million fit into the program's limit
    return sequence(set_of(sequence(object_identifier(1, 2), NULL)) * count)


def sets_of_many(count):
    made = sorted(attributes(1_000))
    return sequence(set_of(*made) * (count // 1_000))


def one_set(count):
    return set_of(*sorted(attributes(count)))


def plain_value(count):
    return b"CN=" + b"a" * count


def escaped_value(count):
    return b"CN=" + b"\\\\" * (count // 2)


def digits_value(count):
    return b"CN=" + b"\\01" * (count // 3)


def many_names(count):
    return b",".join(b"CN=%d" % n for n in range(count // 10))


def one_name(count):
    return b"+".join(sorted((b"CN=%d" % n for n in range(count // 10)), key=lambda text: (len(text), text)))


def fastest(program, words, data, answer):
    times = []
    for _ in range(3):
        start = time.perf_counter()
        done = subprocess.run([program, *words], input=data, capture_output=True, check=False)
        times.append(time.perf_counter() - start)
        if done.returncode != 0 or (answer is not None and done.stdout != answer + b"\n"):
            sys.exit(f"{words}: another answer: {done.stdout[:60]!r}")
    return min(times), done.stdout[:-1]


def row(counted, program, what, count, size, words, data, answer=None):
    """Prints a row of the table, and returns the answer."""
    seconds, answer = fastest(program, words, data, answer)
    _, _, _, (made, most, _) = counted.run(words, data)
    a_byte = seconds * 1e9 / size
    print(f"| {what} | {count:,} | {size:,} | {seconds:.3f} | {a_byte:.0f} | {made:,} | {most / size:.1f} |")
    return answer


def main():
    parser = argparse.ArgumentParser(description=__doc__, formatter_class=argparse.RawDescriptionHelpFormatter)
    parser.add_argument("program", metavar="PROGRAM", help="crates/x509_tool/out/x509_tool")
    program = parser.parse_args().program
    counted = Counted(program)
    print("| Input | Members | Bytes | Seconds | Nanoseconds a byte | Allocations | Memory a byte |")
    print("|---|---|---|---|---|---|---|")
    for what, word, make, counts in [
        ("`any`: one element, its octets", "any", one_element, COUNTS + [8_000_000]),
        ("`name`: empty sets", "name", empty_sets, COUNTS),
        ("`name`: sets of one attribute", "name", sets_of_one, COUNTS[:3] + [900_000]),
        ("`name`: attributes in sets of 1,000", "name", sets_of_many, COUNTS),
        ("`rdn`: attributes of one set", "rdn", one_set, COUNTS),
    ]:
        for count in counts:
            encoding = make(count)
            data = encoding.hex().upper().encode()
            row(counted, program, what, count, len(encoding), ["reencode", word], data, data)
            what = ""
    # texts of about so many bytes, read and printed back; the bytes are those of the text
    for what, make in [
        ("one value, no escapes", plain_value),
        ("one value of escaped backslashes", escaped_value),
        ("one value of bytes by their digits", digits_value),
        ("relative names of one attribute", many_names),
        ("one relative name of many", one_name),
    ]:
        for count in COUNTS:
            text = make(count)
            encoding = row(counted, program, f"`encode-name`: {what}" if count == COUNTS[0] else "", count, len(text), ["encode-name"], text)
            row(counted, program, "`name`, back", count, len(text), ["name"], encoding, text)


if __name__ == "__main__":
    main()
