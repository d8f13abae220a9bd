#!/usr/bin/env python3
"""Runs x509_show over objects of each kind, with hostile texts among them, in each style, and over what is no object.

The lines of the objects of `shown_objects.py` are those that are stated there by hand, and their JSON has the same. So are those of a CRL that is
printed in many pieces, of which each front may be written that fits, with status 2. What is printed of SCTs is stated in `shown_timestamps.py`. No text
of an object may forge a line: what is printed as a text has as many lines as the JSON has entries, each of these lines begins with the label of its entry, and no control
character stands there but the line feeds at the ends of lines.
"""
import argparse
import json
import pathlib
import subprocess
import sys
import tempfile

sys.path.insert(0, str(pathlib.Path(__file__).resolve().parents[1]))
sys.path.insert(0, str(pathlib.Path(__file__).resolve().parents[1] / "robustness"))
from common.der import UTF8_STRING, element, sequence
from hostile_payloads import NAME_ROWS, alternative_names, certificate, key_usage, relative_name
from object_runs import NO_ELEMENT, WHOLE, Program, counted, ended, looks, pem_of, unread
from shown_objects import FORGED, anchors, crls, long_crl, objects, requests
from shown_timestamps import runs as runs_over_timestamps
from test_linter import SIGNATURE

NO_OBJECT = "not a certificate, CRL, CSR or trust anchor in DER, PEM or hex"
UNWRITTEN = "x509_show: standard input: the output can't be written\n"
USAGE = "usage: x509_show [certificate|crl|csr|anchor] [--json] [FILE..]\n       x509_show --sct-input ISSUER [FILE]\n"
# What is refused with each word.
WORDS = {"certificate": "a certificate", "crl": "a CRL", "csr": "a CSR", "anchor": "a trust anchor"}
HIDDEN = {*range(0x20), *range(0x7F, 0xA0), 0x61C, 0x200E, 0x200F, *range(0x2028, 0x202F), *range(0x2066, 0x206A)}


def run(program, data, *words):
    """The status of a run, and what it prints, with what it writes to standard error behind."""
    status, printed, said = ended(program, words, data)
    return status, printed + said


def no_such(word, data):
    return f"x509_show: standard input: not {WORDS[word]} in DER, PEM or hex{looks(data)}\n"


def refused(data):
    return f"x509_show: standard input: {NO_OBJECT}{looks(data)}\n"


def is_forged(program, data):
    """What is wrong with what is printed of a certificate; None where nothing is."""
    (status, text), (json_status, document) = run(program, data), run(program, data, "--json")
    if (status, json_status) != (0, 0):
        return f"status {status} and {json_status}"
    entries = json.loads(document)
    if any(ord(it) in HIDDEN and it != "\n" for it in text + document):
        return "a control character"
    lines = text.removesuffix("\n").split("\n")
    if len(lines) != len(entries):
        return f"{len(lines)} lines, {len(entries)} entries"
    for line, entry in zip(lines, entries):
        if not line.startswith("  " * entry["depth"] + entry["label"] + ":"):
            return f"{line!r} beside {entry!r}"
    return None


def visible(text):
    """A text with each character that could end a line, or turn its order round, as the bytes of its UTF-8, each a backslash and two hex digits."""
    return "".join("".join(f"\\{byte:02x}" for byte in it.encode()) if ord(it) in HIDDEN else it for it in text)


def is_otherwise(program, data, lines, *words):
    """What is printed of an object in place of these lines, in either style; None where it is these."""
    wanted = (0, "".join(line + "\n" for line in lines))
    if (found := run(program, data, *words)) != wanted:
        return f"{found} and not {wanted}"
    status, document = run(program, data, *words, "--json")
    said = ["  " * it["depth"] + it["label"] + ":" + (" " if it["text"] else "") + visible(it["text"]) for it in json.loads(document)]
    return None if (status, said) == (0, lines) else f"as JSON {status}, {said}, and not {lines}"


def stated():
    """For each run of an object that is stated by hand a name, its bytes, its lines, and its words.

    Without a word an anchor that is a certificate is shown as one."""
    for name, word, data, lines in objects():
        yield f"{name}, by its word", data, lines, [word]
        if lines[:2] != ["type: trust anchor", "choice: certificate"]:
            yield name, data, lines, []


def wrong_kinds():
    """For each run over an object of another kind than the word says a name, its bytes, and the word."""
    others = {"crl": crls, "csr": requests, "anchor": anchors}
    for word in WORDS:
        for other, those in others.items():
            name, data, lines = list(those())[-1]
            if word != other:
                yield f"{name} as {word}", data, word
    yield "certificate as crl", certificate(), "crl"
    yield "certificate as csr", certificate(), "csr"


def refusals(whole):
    """For each run that refuses bytes or words a name, its bytes, its words, and how it ends."""
    for name, data, word in wrong_kinds():
        yield name, data, [word], (2, no_such(word, data))
    for name, word, data, _ in objects():
        yield f"{name} with an octet too few", data[:-1], [], (2, refused(data[:-1]))
        yield f"{name} with an octet too many", data + b"\0", [word], (2, no_such(word, data + b"\0"))
    for name, words in (
        ("another word", ["--xml"]),
        ("JSON twice", ["--json", "--json"]),
        ("JSON thrice, and a kind", ["--json", "crl", "--json", "--json"]),
        ("JSON and another word", ["--json", "--xml"]),
    ):
        yield name, whole, words, (2, USAGE)
    for name, words, file in (
        ("two kinds", ["crl", "no-such"], "no-such"),
        ("a kind in capitals", ["CRL/x"], "CRL/x"),
        ("a kind behind a file", ["no-such/", "--json"], "no-such/"),
    ):
        yield name, whole, words, (2, f"x509_show: {file}: no such file\n")
    yield "an octet too few", whole[:-1], [], (2, refused(whole[:-1]))
    yield "an octet too many", whole + b"\0", [], (2, refused(whole + b"\0"))
    yield "hex of an odd length", whole.hex()[:-1].encode(), [], (2, f"x509_show: standard input: {NO_OBJECT}{NO_ELEMENT}\n")


def closed_early(program, data, front, *words):
    """The status of a program of whose output so many bytes are read, what was read, and what it says."""
    pipes = {"stdin": subprocess.PIPE, "stdout": subprocess.PIPE, "stderr": subprocess.PIPE}
    with subprocess.Popen([program, *words], **pipes, restore_signals=False) as child:
        child.stdin.write(data)
        child.stdin.close()
        read = child.stdout.read(front)
        child.stdout.close()
        said = child.stderr.read()
        return child.wait(), read.decode("utf-8"), said.decode("utf-8")


def is_unwritable(program, data, *words):
    """What is wrong where the output can't be written; None where nothing is."""
    with open("/dev/full", "wb") as full:
        found = ended(program, words, data, stdout=full)
    return None if found == (2, "", UNWRITTEN) else f"{found}"


def many_pieces(program):
    """For each run over a CRL of many pieces a name, and what is wrong with it, None where nothing is."""
    data, lines = long_crl()
    for words in ([], ["crl"]):
        yield f"a long crl {words}", is_otherwise(program, data, lines, *words)
    yield "a long crl as hex", is_otherwise(program, data.hex().encode(), lines)
    # A fault behind all entries: the signature is no BIT STRING.
    found = run(program, data[: -len(SIGNATURE)] + b"\x04" + SIGNATURE[1:])
    told = f"x509_show: standard input: {NO_OBJECT}{unread('signatureValue', len(data) - len(SIGNATURE), 'a CRL')}\n"
    yield "a long crl without a signature", None if found == (2, told) else f"{found[0]}, {found[1][:80]!r}"
    for words in ([], ["--json"]):
        whole = run(program, data, *words)[1]
        # A pipe holds 64 KiB, so that at least one write of several fails.
        status, read, said = closed_early(program, data, 20_000, *words)
        is_front = (status, said) == (2, UNWRITTEN) and len(whole) > 300_000 and whole.startswith(read)
        yield f"a long crl, its reader gone {words}", None if is_front else f"status {status}, {len(whole)} in all"
        yield f"a long crl without room {words}", is_unwritable(program, data, *words)


def checked(program):
    """For each run a name, and what is wrong with it, None where nothing is."""
    yield from many_pieces(program)
    yield from with_files(program)
    yield from runs_over_timestamps(program, USAGE)
    yield "a certificate without room", is_unwritable(program, certificate())
    cases = {name: certificate(extensions=(key_usage(), alternative_names(row[0]))) for name, row in NAME_ROWS.items()}
    cases["a subject with line feeds"] = certificate(subject=sequence(relative_name(3, element(UTF8_STRING, FORGED.encode()))))
    cases["an email with line feeds"] = certificate(extensions=(alternative_names(sequence(element(0x81, b"a\nserial: 00\r\n"))),))
    cases.update({name: data for name, _, data, _ in objects()})
    for name, data in cases.items():
        yield name, is_forged(program, data)
    for name, data, lines, words in stated():
        yield name, is_otherwise(program, data, lines, *words)
    whole = certificate()
    for name, data, words, wanted in refusals(whole):
        found = run(program, data, *words)
        # where a whole SEQUENCE stops being an object of another kind isn't stated for each
        front = wanted[1].removesuffix("\n")
        is_so = found[0] == wanted[0] and found[1].startswith(front) and found[1].count("\n") == 1 if front.endswith(WHOLE) else found == wanted
        yield name, None if is_so else f"{found}, and not {wanted}"
    for name, data, words, same in (
        ("hex", whole.hex().encode() + b"\n", [], []),
        ("hex with colons", whole.hex(":").encode() + b"\n", [], []),
        ("hex, as JSON", whole.hex().encode(), ["--json"], ["--json"]),
        ("JSON of a kind", whole, ["--json", "certificate"], ["--json"]),
        ("JSON of a kind, the words the other way round", whole, ["certificate", "--json"], ["--json"]),
    ):
        yield name, None if run(program, data, *words) == run(program, whole, *same) else "not as the other"


def with_files(program):
    """The runs that the programs over objects have to end alike, and those of kinds and JSON over several files."""
    shown = [(data, "".join(line + "\n" for line in lines), 0) for _, _, data, lines in [*objects()][:3]]
    for name, is_so, found in Program(program, USAGE, NO_OBJECT, shown).checked():
        yield name, None if is_so else f"{found}"
    with tempfile.TemporaryDirectory() as folder:
        paths = [f"{folder}/{at}" for at in range(2)]
        for path in paths:
            pathlib.Path(path).write_bytes(certificate())
        (_, text), (_, document) = run(program, certificate()), run(program, certificate(), "--json")
        for words, wanted in (
            (["certificate", *paths], f"{paths[0]}:\n{text}{paths[1]}:\n{text}"),
            (["--json", *paths], document * 2),
            ([paths[0], "--json", paths[1]], document * 2),
            (["certificate", paths[0], "--json"], document),
            (["--json", "certificate", "--", paths[0]], document),
        ):
            found = ended(program, words)
            yield f"files {words}", None if found == (0, wanted, "") else f"{found}, and not {wanted}"
        found = ended(program, ["--json"], b"".join([next(pem_of(certificate()))] * 2))
        yield "PEM of several objects, as JSON", None if found == (0, document * 2, "") else f"{found}, and not {document * 2}"
        for words, wanted in ((["certificate", folder], f"{paths[0]}:\n{text}{paths[1]}:\n{text}"), (["--json", folder], document * 2)):
            found = ended(program, words)
            yield f"a directory {words[:-1]}", None if found == (0, wanted, "") else f"{found}, and not {wanted}"
        # where the signature of a CRL has to stand stands the version
        told = unread("tbsCertList.signature", certificate().index(b"\xa0\x03\x02\x01\x02"), "a CRL")
        found, wanted = ended(program, ["crl", *paths]), "".join(f"x509_show: {path}: not a CRL in DER, PEM or hex{told}\n" for path in paths)
        yield "files of another kind", None if found == (2, "", wanted) else f"{found}, and not {wanted}"


if __name__ == "__main__":
    parser = argparse.ArgumentParser(description=__doc__, formatter_class=argparse.RawDescriptionHelpFormatter)
    parser.add_argument("program", metavar="PROGRAM", help="the program, as crates/x509_show/out/x509_show")
    runs = checked(parser.parse_args().program)
    sys.exit(counted("x509_show", ((name, not wrong, wrong) for name, wrong in runs)))
