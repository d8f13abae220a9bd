#!/usr/bin/env python3
"""Times `x509_path_validate_views_under_key` over growing paths, policies and name constraints, to show that its work grows as the bytes do, and that no path
brings it down: signatures are for the caller, so none is made.

LIBRARY is `libx509.so`, as `tools/build/link_c_library.sh` makes it. For each kind of path it prints how many certificates there are, how many bytes, and the
milliseconds of the fastest of five calls, in processor time. What is answered has to be what is stated here: the path is valid, under so many policies.

- certificates: a path of so many, each of which has BasicConstraints and a KeyUsage.
- policies: 30 certificates of so many policies and mappings each. Every other policy is mapped to itself and to the one behind it, so that the valid policy
  tree of RFC 5280 6.1.2 (a) would double with each certificate.
- names: so many DNS names of the last certificate, below as many permitted subtrees of the one above it, each below one, or outside of all excluded ones.
"""
import argparse
import pathlib
import sys
import time

sys.path.insert(0, str(pathlib.Path(__file__).resolve().parents[1]))
sys.dont_write_bytecode = True
from common.der import context, element, object_identifier, sequence
from common.paths import CA, OK, Library, certificate, extension


def certificates(count):
    return [certificate(place, place + 1, *CA) for place in range(count)], 0


def policy(number):
    return object_identifier(2, 5, 30, number)


def policies(count):
    """Each of so many policies, and so many mappings."""
    listed = extension(32, sequence(*(sequence(policy(it)) for it in range(count))))
    pairs = [sequence(policy(it), policy(to)) for it in range(0, count, 2) for to in (it, (it + 1) % count)]
    mapped = extension(33, sequence(*pairs), critical=False)
    explicit = extension(36, sequence(element(0x80, b"\x00")))
    path = [certificate(place, place + 1, *CA, listed, mapped, *([explicit] if not place else [])) for place in range(29)]
    return [*path, certificate(29, 30, listed)], count


def host(number):
    return b"h%d.example" % number


def names(field):
    """So many names, and so many subtrees: permitted ones, in [0], have each a name; of the excluded ones, in [1], none has."""

    def made(count):
        subtrees = (sequence(element(0x82, host(it) if field == 0 else b"x" + host(it))) for it in range(count))
        above = certificate(0, 1, *CA, extension(30, sequence(context(field, *subtrees))))
        subjects = (element(0x82, b"www." + host(it)) for it in reversed(range(count)))
        return [above, certificate(1, 2, extension(17, sequence(*subjects), critical=False))], 0

    return made


KINDS = [
    ("certificates", certificates, (10, 100, 1_000, 10_000)),
    ("policies and mappings in each of 30 certificates", policies, (10, 100, 1_000)),
    ("names below as many permitted subtrees", names(0), (1_000, 10_000, 100_000)),
    ("names beside as many excluded subtrees", names(1), (1_000, 10_000, 100_000)),
]


def timed(library, path):
    """The status, the length of the policies, and the seconds of a call."""
    call, answer = library.asked(path)
    begun = time.process_time()
    status = call()
    return status, answer.policies_len, time.process_time() - begun


def wanted_len(count):
    """How long the encoding of so many policies is."""
    return len(sequence(*(sequence(policy(it)) for it in range(count))))


def main():
    parser = argparse.ArgumentParser(description=__doc__, formatter_class=argparse.RawDescriptionHelpFormatter)
    parser.add_argument("library", metavar="LIBRARY", type=pathlib.Path)
    library, failed = Library(parser.parse_args().library), 0
    for what, make, counts in KINDS:
        for count in counts:
            path, valid = make(count)
            found = [timed(library, path) for _ in range(5)]
            wrong = [it[:2] for it in found if it[:2] != (OK, wanted_len(valid))]
            if wrong:
                print(f"failed: {count:,} {what}: status and length of the policies {wrong[0]}, and not {(OK, wanted_len(valid))}")
                failed = 1
                continue
            print(f"{count:>9,} {what}: {sum(map(len, path)):,} bytes, {min(it[2] for it in found) * 1000:.2f} ms", flush=True)
    return failed


if __name__ == "__main__":
    sys.exit(main())
