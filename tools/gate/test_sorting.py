#!/usr/bin/env python3
"""Looks by valgrind's callgrind whether PROGRAM, a proved `x509_tool`, puts the members of a large set into places by their lengths.

That is for time alone (`crates/x509_der/src/set/sorting.rt`): no clause tells whether it is done. It encodes RDNs of attributes whose values have as many lengths,
once in the byte order of their encodings (X.690 11.6) and once out of it. Up to 24 members are only compared, so what the second takes more is what comparisons
take, for each member some factor of the logarithm of how many there are. Of 240, which are put into places first, a member takes less than that, not more.
"""
import argparse
import pathlib
import subprocess
import sys
import tempfile

sys.path.insert(0, str(pathlib.Path(__file__).resolve().parents[1]))
sys.dont_write_bytecode = True
from common.callgrind import counted
from common.der import UTF8_STRING, element, object_identifier, sequence, set_of

# how many members, and a step without a common divisor that leads to each
FEW, MANY = (24, 7), (240, 77)


def attribute(length):
    """The attribute CN of a value of so many octets."""
    return sequence(object_identifier(2, 5, 4, 3), element(UTF8_STRING, b"a" * length))


def taken(program, folder, members, step):
    """How many instructions it takes to encode the RDN of values of 1 octet and more, by this step."""
    text = "+".join("CN=" + "a" * (place * step % members + 1) for place in range(members)).encode() + b"\n"
    answer = subprocess.run([program, "encode-name"], input=text, capture_output=True, check=False).stdout
    if answer != sequence(set_of(*map(attribute, range(1, members + 1)))).hex().upper().encode() + b"\n":
        sys.exit(f"failed: the RDN of {members} attributes isn't encoded in the order of X.690 11.6: {answer[:60]!r}")
    return counted([program, "encode-name"], folder, given=text)[0]


def more(program, folder, members, step):
    """What a member out of order takes more than one in order."""
    return (taken(program, folder, members, step) - taken(program, folder, members, 1)) / members


if __name__ == "__main__":
    parser = argparse.ArgumentParser(description=__doc__, formatter_class=argparse.RawDescriptionHelpFormatter)
    parser.add_argument("program", metavar="PROGRAM")
    with tempfile.TemporaryDirectory() as made:
        few, many = (more(str(pathlib.Path(parser.parse_args().program).resolve()), pathlib.Path(made), *it) for it in (FEW, MANY))
    is_well = 0 < many < few
    print(f"{'passed' if is_well else 'failed'}: a member out of order takes {many:.0f} instructions more in a set of {MANY[0]}, in one of {FEW[0]} {few:.0f}")
    sys.exit(not is_well)
