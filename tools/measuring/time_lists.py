#!/usr/bin/env python3
"""Times a program over CRLs of growing numbers of entries, each with a serial number of 16 octets, every third with a reason.

For each count it prints the bytes of the CRL, the seconds and the most memory of the process, in MB, of the fastest of three runs, how many bytes of that an
entry takes beyond the CRL itself, and the status. What the program prints goes to a file.
"""
import argparse
import pathlib
import sys
import tempfile

sys.path.insert(0, str(pathlib.Path(__file__).resolve().parents[1]))
from common.der import UTC_TIME, UTF8_STRING, bit_string, context, element, integer, object_identifier, octet_string, sequence, set_of
from time_files import fastest

ALGORITHM = sequence(object_identifier(1, 2, 840, 10045, 4, 3, 2))
ISSUER = sequence(set_of(sequence(object_identifier(2, 5, 4, 3), element(UTF8_STRING, b"An authority"))))
DAY = element(UTC_TIME, b"260102030405Z")
REASON = sequence(sequence(object_identifier(2, 5, 29, 21), octet_string(b"\x0a\x01\x04")))
KEY_ID = sequence(object_identifier(2, 5, 29, 35), octet_string(sequence(element(0x80, b"authority"))))
NUMBER = sequence(object_identifier(2, 5, 29, 20), octet_string(integer(7)))
# Odd, so that the serial numbers differ modulo 2^120; they don't stand in order.
STEP = 0x3C6EF372FE94F82BE54FF53A5F1D36F1


def entries(count):
    for at in range(1, count + 1):
        serial = element(2, b"\x40" + (at * STEP % 2**120).to_bytes(15, "big"))
        yield sequence(serial, DAY, REASON if at % 3 == 0 else b"")


def crl(count):
    """A CRL of so many entries (RFC 5280 5.1) that breaks no rule."""
    listed = sequence(*entries(count))
    part = sequence(integer(1), ALGORITHM, ISSUER, DAY, element(UTC_TIME, b"270102030405Z"), listed, context(0, sequence(KEY_ID, NUMBER)))
    return sequence(part, ALGORITHM, bit_string(sequence(integer(1), integer(2))))


def main():
    parser = argparse.ArgumentParser(description=__doc__, formatter_class=argparse.RawDescriptionHelpFormatter)
    parser.add_argument("program", nargs="+", help="the program and options, as crates/x509_linter/out/x509_linter")
    parser.add_argument("--counts", type=int, nargs="+", default=[1_000, 10_000, 100_000, 1_000_000])
    asked = parser.parse_args()
    program = [str(pathlib.Path(asked.program[0]).resolve()), *asked.program[1:]]
    for count in asked.counts:
        with tempfile.TemporaryDirectory() as name:
            folder = pathlib.Path(name)
            data = crl(count)
            (folder / "list.crl").write_bytes(data)
            seconds, memory, status = fastest([*program, "list.crl"], folder)
            beyond = (memory * 1024 * 1024 - len(data)) / count
            print(f"{count:>9,} entries {len(data):>12,} bytes {seconds:7.3f} s {memory:8.1f} MB {beyond:8.1f} bytes an entry, status {status}", flush=True)


if __name__ == "__main__":
    main()
