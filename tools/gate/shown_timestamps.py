"""Runs of `x509_show --sct-input`: certificates with SCTs, and what is to be printed of them, stated here by hand (RFC 6962 3.2, 3.3).

The signatures are none: nothing verifies them here.
"""
import hashlib
import pathlib
import tempfile

from common.der import object_identifier, octet_string, sequence
from hostile_payloads import KEY, alternative_names, certificate, key_usage, signed_part
from object_runs import WHOLE, ended, pem_of
from shown_objects import crls

NO_CERTIFICATE = "not a certificate in DER, PEM or hex"
LIST = object_identifier(1, 3, 6, 1, 4, 1, 11129, 2, 4, 2)
POISON = object_identifier(1, 3, 6, 1, 4, 1, 11129, 2, 4, 3)
OTHERS = (key_usage(), alternative_names())
# a log's ID, a moment in milliseconds since 1970, and what stands for signatures
LOG, MOMENT, SIGNATURE = bytes(range(32)), (1_767_225_600_123).to_bytes(8, "big"), bytes.fromhex("3006020101020102")


def vector(size, octets):
    """A vector of TLS, whose length stands in so many octets in front (RFC 5246 4.3)."""
    return len(octets).to_bytes(size, "big") + octets


def timestamp(version=b"\0", extensions=b"", algorithm=b"\4\3", signature=SIGNATURE):
    return version + LOG + MOMENT + vector(2, extensions) + algorithm + vector(2, signature)


def listed(*timestamps):
    """The extension with a list of these."""
    return extension(vector(2, b"".join(vector(2, it) for it in timestamps)))


def extension(octets):
    return sequence(LIST, octet_string(octet_string(octets)))


def line(others=OTHERS, extensions=b"", signature=SIGNATURE):
    """The line of an SCT of the certificate with these other extensions, whose issuer has its key."""
    entry = b"\0\1" + hashlib.sha256(KEY).digest() + vector(3, signed_part(extensions=others))
    return f"{LOG.hex()} {(bytes(2) + MOMENT + entry + vector(2, extensions)).hex()} {signature.hex()}\n"


def shown():
    """For each certificate a name, its bytes, and what is printed."""
    yield "one SCT", certificate(extensions=(*OTHERS, listed(timestamp()))), line()
    yield "one in front of the others", certificate(extensions=(listed(timestamp()), *OTHERS)), line()
    yield "one between the others", certificate(extensions=(OTHERS[0], listed(timestamp()), OTHERS[1])), line()
    yield "a list, and no other extension", certificate(extensions=(listed(timestamp()),)), line(others=())
    poison = sequence(POISON, octet_string(b"\5\0"))
    yield "a list, and a poison", certificate(extensions=(listed(timestamp()), poison)), line(others=(poison,))
    yield "an empty list", certificate(extensions=(*OTHERS, listed())), ""
    rsa = {"signature": bytes(256)}
    both = listed(timestamp(extensions=b"\xab\xcd"), timestamp(algorithm=b"\4\1", **rsa))
    yield "two SCTs", certificate(extensions=(*OTHERS, both)), line(extensions=b"\xab\xcd") + line(**rsa)
    yield "an SCT without a signature", certificate(extensions=(*OTHERS, listed(timestamp(signature=b"")))), line(signature=b"")
    others = {
        "of another version": timestamp(version=b"\1"),
        "of an unknown algorithm": timestamp(algorithm=b"\4\x09"),
        "that is cut off": timestamp()[:-1],
        "with an octet behind it": timestamp() + b"\0",
        "without octets": b"",
    }
    for name, octets in others.items():
        data = certificate(extensions=(*OTHERS, listed(timestamp(), octets, timestamp())))
        yield f"an SCT {name} between two", data, f"{line()}undecodable\n{line()}"


def refused():
    """For each certificate that gives no SCTs a name, its bytes, and why."""
    for name, value in {
        "a wrong length": b"\0\1" + vector(2, timestamp()),
        "an octet behind it": vector(2, vector(2, timestamp())) + b"\0",
        "an SCT that is longer": vector(2, b"\xff\xff"),
        "no octets": b"",
    }.items():
        yield f"a list with {name}", certificate(extensions=(*OTHERS, extension(value))), "its list of SCTs can't be decoded"
    bare = sequence(LIST, octet_string(vector(2, vector(2, timestamp()))))
    yield "a list without an OCTET STRING", certificate(extensions=(*OTHERS, bare)), "its list of SCTs can't be decoded"
    yield "no list", certificate(), "it has no list of SCTs"
    yield "two lists", certificate(extensions=(listed(timestamp()), *OTHERS, listed())), "it has two lists of SCTs or more"
    yield "a CRL", [*crls()][-1][1], NO_CERTIFICATE + WHOLE + "something in it is wrong"
    yield "nothing", b"", f"{NO_CERTIFICATE}; it is empty"


def runs(program, usage):
    """For each run a name, and what is wrong with it, None where nothing is."""

    def compared(name, words, data, wanted):
        found = ended(program, words, data)
        return f"SCTs, {name}", None if found == wanted else f"{found}, and not {wanted}"

    def told(label, reason):
        return 2, "", f"x509_show: {label}: {reason}\n"

    option, good = "--sct-input", certificate(extensions=(*OTHERS, listed(timestamp())))
    with tempfile.TemporaryDirectory() as folder:
        issuer, file, bad = (str(pathlib.Path(folder, it)) for it in ("issuer.der", "certificate.der", "crl.der"))
        for path, data in ((issuer, certificate()), (file, good), (bad, [*crls()][-1][1])):
            pathlib.Path(path).write_bytes(data)
        missing = folder + "/no such file"
        for name, data, text in shown():
            yield compared(name, [option, issuer], data, (0, text, ""))
        for name, data, reason in refused():
            yield compared(name, [option, issuer, "-"], data, told("standard input", reason))
        for name, words, data in (
            ("a file", [option, issuer, file], b""),
            ("the option behind the files", [issuer, file, option], b""),
            ("the option between the files", [issuer, option, "--", file], b""),
            ("the issuer on standard input", [option, "-", file], certificate()),
            ("in hex", [option, issuer], good.hex().encode()),
            *(("in PEM", [option, issuer], it) for it in pem_of(good)),
        ):
            yield compared(name, words, data, (0, line(), ""))
        for name, words, data, wanted in (
            ("no file", [option, issuer, missing], b"", told(missing, "no such file")),
            ("a directory", [option, issuer, folder], b"", told(folder, "is a directory")),
            ("no issuer", [option, missing, file], b"", told(missing, "no such file")),
            ("neither", [option, missing, folder], b"", told(missing, "no such file")),
            ("an issuer that is a CRL", [option, bad, file], b"", told(bad, NO_CERTIFICATE + WHOLE + "something in it is wrong")),
            ("both on standard input", [option, "-", "-"], good, told("standard input", f"{NO_CERTIFICATE}; it is empty")),
            ("a long input", [option, issuer], b"\1" * 16777217, told("standard input", "longer than 16777216 bytes")),
            ("a kind in place of the issuer", [option, "certificate", folder], b"", told("certificate", "no such file")),
            ("no name", [option], good, (2, "", usage)),
            ("three names", [option, issuer, file, file], b"", (2, "", usage)),
            ("JSON", [option, "--json", issuer, file], b"", (2, "", usage)),
            ("the option twice", [option, option, issuer, file], b"", (2, "", usage)),
            ("the option with something behind it", [option + "=" + issuer, file], b"", (2, "", usage)),
        ):
            yield compared(name, words, data, wanted)
        with open("/dev/full", "wb") as full:
            found, wanted = ended(program, [option, issuer, file], stdout=full), told(file, "the output can't be written")
        yield "SCTs, without room", None if found == wanted else f"{found}, and not {wanted}"
        status, text, said = ended(program, [option, "--help"])
        yield "SCTs, help", None if (status, said) == (0, "") and text.startswith(usage) else f"{status}, {text}, {said}"
