#!/usr/bin/env python3
"""Tries hostile sizes on the calls of the C library, as one would who wants them to crash, to take long, or to answer wrongly.

FOLDER holds `libx509.so`, as `tools/build/link_c_library.sh` makes it; `include/x509.h` says what each call answers. What is tried:
- as many zeros as the limit allows and one more, under each type and each call, and elements of these lengths that are well spelled;
- headers of an indefinite length, of lengths that claim too much and of one cut off, under the identifier octets of each type;
- depth: elements nested in each other, wherever any element may stand, and where none may;
- width: many members of each list and set, also with one behind them that is none, and of sets with two in the wrong order;
- long strings, and texts of names with many parts, in orders that sorting might dislike.

An input is made by its grammar (`hostile_inputs.py`), so what it has to answer is known: its own bytes, or a refusal that the header tells. Each
call is made in a child process, on a thread that has a stack of 64 KiB at all sizes: depth or width that took stack would end the child by a
signal. Before all else a child that does run over its stack has to end so.

It prints a table of the growing inputs, with the least processor time of three calls each. Where the largest of a kind takes more than three
times as long a byte as one of a tenth, three times over, that is a fault, unless it is below 2 nanoseconds, which are those of copying. It tells
the faults, and ends with 1 where there is one.

With --rows it asks nothing: it writes wide and deep values of some thousand members, and their answers, to the files `rows` and `answers` of the
folder, in the form that `refuse_memory.c` takes.
"""
import argparse
import ctypes
import pathlib
import random
import resource
import sys
import threading

sys.path.insert(0, str(pathlib.Path(__file__).resolve().parents[1]))
from common import rows
from common.der import NULL, TRUE, UTF8_STRING, element, header_len, integer, nested, object_identifier, octet_string, sequence, set_of
from hostile_calls import ABSENT, FAILED, FAULT, KEPT, MALFORMED, OK, OVERLENGTH, RAW, REPEATED, RFC5280, ROOM, SET_DUPLICATE
from hostile_calls import Library, Trial, checks, in_child, keep_memory, looks, reencodes, writes
from hostile_inputs import ALGORITHM, BITS, COMMON_NAME, COUNTS, DEEP, LEVELS, LISTS, ONE, REASON, SECONDS, SETS, STRINGS
from hostile_inputs import attribute, certificate, common_name, crl, dns_name, entry, extension, relative_name, request, rising, valued

LIMIT = 268_435_455
STACK = 65_536
ROWS = 3_000


def find_extension(library, data, octets):
    return library.look("x509_certificate_extension", "I4x2Q", data, octets)


# the empty name and a key, of which the certificates and CRLs of hostile_inputs.py are
SIGNER = (sequence(), sequence(ALGORITHM, BITS))


def ask_status(library, data):
    return library.revocation(certificate(), data, SIGNER, SECONDS)


# each call on an input that is none: what it answers over the limit, and within
WHOLE = [(name, checks(name), OVERLENGTH, MALFORMED) for name in ("x509_certificate_check", "x509_crl_check", "x509_request_check")]
WHOLE += [(name, writes(name, lambda data: 0), OVERLENGTH, MALFORMED) for name in ("x509_certificate_reencode", "x509_name_text")]
WHOLE += [
    (f"x509_{kind}_{style}", writes(f"x509_{kind}_{style}", lambda data: 0), OVERLENGTH, MALFORMED)
    for kind in ("certificate", "crl", "request", "anchor")
    for style in ("text", "json")
]
WHOLE += [(f"x509_{kind}_lint", writes(f"x509_{kind}_lint", lambda data: 0), OVERLENGTH, MALFORMED) for kind in ("certificate", "crl", "request", "anchor")]
WHOLE += [(name, looks(name, "I"), OVERLENGTH, MALFORMED) for name in ("x509_certificate_view", "x509_crl_walk", "x509_may_sign_crls")]
WHOLE += [
    ("x509_certificate_extension", lambda library, data: find_extension(library, data, ONE[2:]), OVERLENGTH, MALFORMED),
    ("x509_crl_lookup", looks("x509_crl_lookup", "I", integer(1)), OVERLENGTH, MALFORMED),
    ("x509_crl_index", writes("x509_crl_index", lambda data: 0), OVERLENGTH, MALFORMED),
    ("x509_crl_lookup, the number", lambda library, data: library.look("x509_crl_lookup", "I", crl(), data), OVERLENGTH, MALFORMED),
    ("x509_certificate_extension, the identifier", lambda library, data: find_extension(library, certificate(), data), ABSENT, ABSENT),
    ("x509_revocation_status", lambda library, data: library.revocation(data, crl(), SIGNER, SECONDS), OVERLENGTH, MALFORMED),
    ("x509_revocation_status, the CRL", ask_status, OVERLENGTH, MALFORMED),
    ("x509_revocation_status, the name", lambda library, data: library.revocation(certificate(), crl(), (data, SIGNER[1]), SECONDS), OVERLENGTH, MALFORMED),
    ("x509_revocation_status, the key", lambda library, data: library.revocation(certificate(), crl(), (SIGNER[0], data), SECONDS), OVERLENGTH, MALFORMED),
    ("x509_signed_slice", looks("x509_signed_slice", "I"), MALFORMED, MALFORMED),
    ("x509_name_from_text", writes("x509_name_from_text", lambda data: 0), FAILED, FAILED),
    ("x509_reencode, the type", lambda library, data: reencodes(data)(library, NULL), FAILED, FAILED),
]


def try_limits(trial, kinds):
    over, within, times = bytes(LIMIT + 1), bytes(LIMIT), {}
    named = [(kind, reencodes(kind.encode(), profile, lambda data: 0), OVERLENGTH, MALFORMED) for kind in kinds for profile in (RFC5280, RAW)]
    for what, call, above, inside in named + WHOLE:
        for data, status in ((over, above), (within, inside)):
            spent = trial.ask(f"{what}: {len(data):,} zeros", call, data, (status, KEPT))
            times[what] = max(spent / 1e6, times.get(what, 0))
    longest = ", ".join(f"{what} {times[what]:.3f} ms" for what in sorted(times, key=times.get)[:-4:-1])
    print(f"{len(named + WHOLE)} calls on {LIMIT:,} zeros and on one more; the longest: {longest}")
    for kind in (b"Any", b"OctetString"):
        longest = octet_string(bytes(LIMIT - 6))
        spent = trial.ask(f"{kind}, the longest", reencodes(kind), longest, (OK, longest))
        trial.ask(f"{kind}, one octet longer", reencodes(kind, RAW, lambda data: 0), octet_string(bytes(LIMIT - 5)), (OVERLENGTH, KEPT))
        print(f"{kind.decode()} of {LIMIT:,} bytes, read and written: {spent / 1e6:.0f} ms")


def try_headers(trial, kinds):
    before = trial.asked
    for kind, octets in kinds.items():
        for octet in sorted(octets | {"30"}):
            for header in rows.HEADERS:
                for profile in (RFC5280, RAW):
                    data = bytes.fromhex(octet + header[2:])
                    trial.ask(f"{kind} {data.hex()}", reencodes(kind.encode(), profile), data, (MALFORMED, KEPT))
    for what, call, _, status in WHOLE:
        for header in rows.HEADERS:
            trial.ask(f"{what} {header}", call, bytes.fromhex(header), (status, KEPT))
    print(f"{trial.asked - before:,} headers of wrong lengths")


def same(_, data):
    return OK, data


def refused(status):
    return lambda size, data: (status, KEPT)


def try_depth(trial):
    for what, kind, around in DEEP:
        trial.grow(f"`{kind}`: {what}, nested", LEVELS, lambda levels: around(nested(levels)), reencodes(kind.encode()), same)
    deep = lambda levels: common_name(nested(levels))
    text = lambda levels: b"2.5.4.3=#" + nested(levels).hex().encode()
    trial.grow("`x509_name_text`: value, nested", LEVELS, deep, writes("x509_name_text"), lambda levels, _: (OK, text(levels)))
    trial.grow("`x509_name_from_text`: value, nested", LEVELS, text, writes("x509_name_from_text"), lambda levels, _: (OK, deep(levels)))


def try_depth_where_none_is(trial, kinds):
    before = trial.asked
    for tag in (0x30, 0x31, 0xA0, 0xA1, 0xA2, 0xA4):
        data = nested(LEVELS[-1], tag)
        for kind in sorted(set(kinds) - {"Any"}):
            trial.ask(f"{kind}: {tag:X}, nested", reencodes(kind.encode()), data, (MALFORMED, KEPT))
    print(f"{trial.asked - before} values of {LEVELS[-1]:,} levels where no such value may stand")


def try_width(trial):
    for what, kind, member, around, is_set in [(*row, False) for row in LISTS] + [(*row, True) for row in SETS]:
        many = lambda size: rising(member, size)
        call = reencodes(kind.encode())
        trial.grow(f"`{kind}`: {what}", COUNTS, lambda size: around(many(size)), call, same)
        trial.grow(f"`{kind}`: {what}, NULL behind", COUNTS, lambda size: around(many(size) + [NULL]), call, refused(MALFORMED))
        if is_set:
            fallen = lambda size: around(many(size)[:-2] + many(size)[:-3:-1])
            twice = lambda size: around(many(size) + many(size)[-1:])
            trial.grow(f"`{kind}`: {what}, the last two fall", COUNTS, fallen, call, refused(MALFORMED))
            trial.grow(f"`{kind}`: {what}, the last twice", COUNTS, twice, call, refused(MALFORMED))


def try_strings(trial):
    for kind, tag, front in STRINGS:
        trial.grow(f"`{kind}`: parts of 64 octets", COUNTS, lambda size: element(tag, front, b"a" * 64 * size), reencodes(kind.encode()), same)


def said(mark, numbers):
    return mark.join(b"CN=%08d" % number for number in numbers)


def upwards(size):
    return range(1, size + 1)


def downwards(size):
    return range(size, 0, -1)


def shuffled(size):
    return random.Random(0).sample(upwards(size), size)


def one_name(size):
    return sequence(set_of(*rising(attribute, size)))


def try_names(trial):
    names = lambda size: sequence(*rising(relative_name, size))
    commas = lambda size: common_name(element(UTF8_STRING, b"," * size))
    unknown = lambda size: sequence(set_of(sequence(ONE, element(UTF8_STRING, b"a" * size))))
    for what, encoding, text in (
        ("relative names", names, lambda size: said(b",", downwards(size))),
        ("attributes of one name", one_name, lambda size: said(b"+", upwards(size))),
        ("commas in a value", commas, lambda size: b"CN=" + b"\\," * size),
        ("octets of an unknown type's value", unknown, lambda size: b"1.2.1=#" + element(UTF8_STRING, b"a" * size).hex().encode()),
    ):
        trial.grow(f"`x509_name_text`: {what}", COUNTS, encoding, writes("x509_name_text"), lambda size, _: (OK, text(size)))
        trial.grow(f"`x509_name_from_text`: {what}", COUNTS, text, writes("x509_name_from_text"), lambda size, _: (OK, encoding(size)))


def try_orders(trial):
    for what, order in (
        ("falling", downwards),
        ("rising, then falling", lambda size: [*range(1, size, 2), *range(size - size % 2, 0, -2)]),
        ("shuffled", shuffled),
    ):
        text = lambda size: said(b"+", order(size))
        trial.grow(f"`x509_name_from_text`: attributes, {what}", COUNTS, text, writes("x509_name_from_text"), lambda size, _: (OK, one_name(size)))
    alike = lambda number: b"a" * 64 + b"%08d" % number
    front = lambda size: b"+".join(b"CN=" + alike(number) for number in shuffled(size))
    long_name = lambda size: sequence(set_of(*(sequence(COMMON_NAME, element(UTF8_STRING, alike(number))) for number in upwards(size))))
    what = "`x509_name_from_text`: attributes alike for 64 octets, shuffled"
    trial.grow(what, COUNTS, front, writes("x509_name_from_text"), lambda size, _: (OK, long_name(size)))
    equal = lambda size: b"+".join([b"CN=a"] * size)
    trial.grow("`x509_name_from_text`: equal attributes", COUNTS, equal, writes("x509_name_from_text"), refused(SET_DUPLICATE))


def certificate_calls():
    """Calls on certificates of many extensions, and a named one behind: what is called, the input, the call, and its answer."""
    named = sequence(object_identifier(2, 5, 29, 15), octet_string())
    tail = len(ALGORITHM + BITS)
    members = lambda size: rising(extension, size) + [named]
    make = lambda size: certificate(extensions=members(size))
    twice = lambda size: certificate(extensions=[named] + members(size))
    find = lambda last: lambda library, data: find_extension(library, data, b"\x55\x1d" + last)
    signed = lambda header, total: (header, total - header - tail)
    view = lambda size, data: (3, len(data) - tail - len(sequence(*members(size))), len(sequence(*members(size))), SECONDS, SECONDS)
    yield "x509_certificate_check", make, checks, lambda size, data: (OK, KEPT)
    yield "x509_certificate_reencode", make, lambda name: writes(name, len), same
    yield "x509_certificate_reencode, a byte too few", make, lambda name: writes(name, lambda data: len(data) - 1), lambda size, data: (ROOM, len(data))
    yield "x509_certificate_view", make, lambda name: looks(name, "I68x4Q"), lambda size, data: (OK, view(size, data))
    yield "x509_certificate_extension", make, lambda name: find(b"\x0f"), lambda size, data: (OK, (0, len(data) - tail, 0))
    yield "x509_certificate_extension, absent", make, lambda name: find(b"\x10"), refused(ABSENT)
    yield "x509_certificate_extension, twice", twice, lambda name: find(b"\x0f"), refused(REPEATED)
    yield "x509_signed_slice", make, lambda name: looks(name, "2Q"), lambda size, data: (OK, signed(header_len(len(data)), len(data)))


def index(size):
    """Where each of the entries of a list stands in its content, by the octets of their numbers: entries that rise, and one behind with the number 0."""
    places, at = [], 0
    for member, number in [*sorted((entry(number), number) for number in range(1, size + 1)), (entry(0), 0)]:
        places.append((number.to_bytes(number.bit_length() // 8 + 1, "big"), at))
        at += len(member)
    return [at for _, at in sorted(places)]


def other_calls():
    """The same of lists of many entries or with an entry of many extensions, and of requests with many attributes."""
    entries = lambda size: crl(rising(entry, size) + [entry(0)])
    reason = lambda size: crl([entry(0, *rising(extension, size), REASON)])
    reasons = lambda size: crl([entry(0, REASON, *rising(extension, size), REASON)])
    find = lambda number: looks("x509_crl_lookup", "Qi", integer(number))
    yield "x509_crl_check", entries, checks, lambda size, data: (OK, KEPT)
    yield "x509_crl_walk", entries, lambda name: looks(name, "Q"), lambda size, data: (OK, (size + 1,))
    yield "x509_crl_lookup", entries, lambda name: find(0), lambda size, data: (OK, (SECONDS, -1))
    yield "x509_crl_lookup, absent", entries, lambda name: find(1 << 40), refused(ABSENT)
    yield "x509_crl_lookup, the reason", reason, lambda name: find(0), lambda size, data: (OK, (SECONDS, 1))
    yield "x509_crl_lookup, two reasons", reasons, lambda name: find(0), refused(FAILED)
    # the list alone: the last entry, which has the number 0, by its places, its date and no extensions
    listed = lambda size: sequence(*rising(entry, size), entry(0))
    last = lambda size, data: (OK, (len(data) - len(entry(0)) + 2, 3, SECONDS, 0, 0))
    seek = lambda number: looks("x509_crl_entry_find", "5Q", integer(number))
    yield "x509_crl_entry_find", listed, lambda name: seek(0), last
    yield "x509_crl_entry_find, absent", listed, lambda name: seek(1 << 40), refused(ABSENT)
    yield "x509_crl_index", listed, lambda name: lambda library, data: library.index(data, len(data) // len(entry(0))), lambda size, data: (OK, index(size))
    others = lambda size: rising(lambda number: entry(number + 1), size)
    named = lambda size: crl(issuer=sequence(*rising(relative_name, size)))
    asks = lambda name: ask_status
    yield "x509_revocation_status", lambda size: crl(others(size) + [entry(1)]), asks, lambda size, data: (OK, (2, 0, 0, SECONDS, 0))
    yield "x509_revocation_status, other entries", lambda size: crl(others(size)), asks, lambda size, data: (OK, (1, 0, 0, 0, 0))
    yield "x509_revocation_status, another issuer", named, asks, lambda size, data: (OK, (0, 0, 0, 0, 0x1FE))
    yield "x509_request_check", lambda size: request(rising(valued, size)), checks, lambda size, data: (OK, KEPT)


def path_calls():
    """The same of paths: of one certificate with many extensions or names, and of many certificates of authorities, also with a hundred extensions or names
    each."""
    anchor = certificate()
    is_ca = sequence(object_identifier(2, 5, 29, 19), octet_string(sequence(TRUE)))
    named = lambda size: sequence(object_identifier(2, 5, 29, 17), TRUE, octet_string(sequence(*rising(dns_name, size))))
    one = lambda name: lambda library, data: library.path(anchor, data, [len(data)], SECONDS)
    each = lambda member: lambda name: lambda library, data: library.path(anchor, data, [len(member)] * (len(data) // len(member)), SECONDS)
    twice = lambda size: certificate(extensions=rising(extension, size) + [extension(size // 2)])
    above = certificate(extensions=[is_ca])
    extended = certificate(extensions=[is_ca, *rising(extension, 99)])
    titled = certificate(extensions=[is_ca, named(100)])
    yield "x509_path_check, extensions", lambda size: certificate(extensions=rising(extension, size)), one, lambda size, data: (OK, KEPT)
    yield "x509_path_check, one of them twice", twice, one, lambda size, data: (FAULT, (0, 6))
    yield "x509_path_check, names of a SAN", lambda size: certificate(extensions=[named(size)]), one, lambda size, data: (OK, KEPT)
    yield "x509_path_check, certificates", lambda size: above * size, each(above), lambda size, data: (OK, KEPT)
    yield "x509_path_check, certificates of 100 extensions", lambda size: extended * (size // 100), each(extended), lambda size, data: (OK, KEPT)
    yield "x509_path_check, certificates of 100 names", lambda size: titled * (size // 100), each(titled), lambda size, data: (OK, KEPT)


def write_rows(folder):
    values = [(kind, around(rising(member, ROWS)), True) for _, kind, member, around in LISTS + SETS]
    values += [(kind, around(rising(member, ROWS) + [NULL]), False) for _, kind, member, around in LISTS + SETS]
    values += [(kind, around(nested(ROWS)), True) for _, kind, around in DEEP]
    asked = "".join(f"{kind} raw {data.hex().upper()}\n" for kind, data, _ in values)
    answers = "".join(f"{data.hex().upper() if is_good else rows.MALFORMED}\n" for _, data, is_good in values)
    (folder / "rows").write_text(asked, encoding="ascii")
    (folder / "answers").write_text(answers, encoding="ascii")


def runs_over():
    """Takes stack without end."""
    ctypes.CFUNCTYPE(None)(runs_over)()


def main():
    parser = argparse.ArgumentParser(description=__doc__, formatter_class=argparse.RawDescriptionHelpFormatter)
    parser.add_argument("folder", metavar="FOLDER", type=pathlib.Path)
    parser.add_argument("--rows", action="store_true", help="write the files of rows and answers there")
    given = parser.parse_args()
    if given.rows:
        return write_rows(given.folder)
    resource.setrlimit(resource.RLIMIT_CORE, (0, 0))
    threading.stack_size(STACK)
    keep_memory()
    if in_child(runs_over)[1] != "ended by SIGSEGV":
        sys.exit("a child that runs over its stack isn't seen")
    kinds = {}
    for kind, answer in rows.vectors():
        kinds.setdefault(kind, set()).add(answer[:2])
    trial = Trial(Library(given.folder.resolve() / "libx509.so"))
    try_limits(trial, kinds)
    try_headers(trial, kinds)
    try_depth_where_none_is(trial, kinds)
    print("| Input | Members | Bytes | Milliseconds | Nanoseconds a byte |")
    print("|---|--:|--:|--:|--:|")
    try_depth(trial)
    try_width(trial)
    try_strings(trial)
    try_names(trial)
    try_orders(trial)
    for name, make, call, wanted in [*certificate_calls(), *other_calls(), *path_calls()]:
        name, comma, how = name.partition(",")
        trial.grow(f"`{name}`{comma}{how}", COUNTS, make, call(name), wanted)
    return trial.end()


if __name__ == "__main__":
    main()
