#!/usr/bin/env python3
"""Holds the programs that say all that certificates have, `facts` of examples/c, bindings/rust/examples and examples/python, against what is stated here of
certificates that Python's `cryptography` makes, which have each extension and each kind of a name; and against one another, over these, the certificate of the
examples, the hostile ones of FOLDER and the system's store. Where a program reads a text in a name and another doesn't, as one with a character that isn't of
its type, the texts aren't compared. Each PROGRAM is a command, in the words of a shell. Without any FOLDER gets what is stated: each.der, other.der, and
said.txt of the two.
"""
import argparse
import datetime
import glob
import ipaddress
import pathlib
import re
import shlex
import ssl
import subprocess
import sys
import tempfile

from cryptography import x509
from cryptography.hazmat.primitives.asymmetric import ed25519
from cryptography.hazmat.primitives.serialization import Encoding, PublicFormat, load_der_private_key

TOP = pathlib.Path(__file__).resolve().parents[2]
STORE = "/etc/ssl/certs/*.pem"
# a private key of Ed25519 (RFC 8410 7), whose octets are zeros but for the last
KEY = bytes.fromhex("302e020100300506032b657004220420") + bytes(31) + b"\1"
OID = x509.ObjectIdentifier
NOTICE = x509.UserNotice(x509.NoticeReference("Haus\x07", [1, 200]), "Nur\u202e so")
POLICIES = [
    x509.PolicyInformation(OID("1.2.3"), ["http://a.example/cps", NOTICE]),
    x509.PolicyInformation(OID("2.5.29.32.0"), None),
]
NAMES = [
    x509.OtherName(OID("1.2.3.4"), b"\x05\x00"),
    x509.RFC822Name("a@a.example"),
    x509.DNSName("*.a.example"),
    x509.DirectoryName(x509.Name([x509.NameAttribute(x509.NameOID.COMMON_NAME, "a,b")])),
    x509.UniformResourceIdentifier("http://a.example"),
    x509.IPAddress(ipaddress.ip_address("192.0.2.7")),
    x509.IPAddress(ipaddress.ip_address("2001:db8::1")),
    x509.RegisteredID(OID("1.2.3.5")),
]
NAMES_TOLD = [
    "other 1.2.3.4 0500",
    "email a@a.example",
    "dns *.a.example",
    "name CN=a\\,b",
    "uri http://a.example",
    "ip 192.0.2.7",
    "ip 20010db8000000000000000000000001",
    "id 1.2.3.5",
]
DNS = [x509.DNSName("a.example")]
PLACE = [x509.UniformResourceIdentifier("http://a.example/crl")]
RELATIVE = x509.RelativeDistinguishedName([x509.NameAttribute(x509.NameOID.COMMON_NAME, "a")])
COMPROMISED = frozenset([x509.ReasonFlags.key_compromise, x509.ReasonFlags.aa_compromise])
POINTS = [x509.DistributionPoint(PLACE, None, COMPROMISED, NAMES[3:4]), x509.DistributionPoint(None, RELATIVE, None, None)]
FIRST, LAST = (datetime.datetime(year, 2, 3, 4, 5, 6) for year in (2026, 2055))


def raw(oid, digits):
    return x509.UnrecognizedExtension(OID(oid), bytes.fromhex(digits))


# each extension, whether it is critical, and what is said of it
EXTENSIONS = [
    (x509.KeyUsage(True, True, False, False, True, False, True, False, True), True, ["digitalSignature nonRepudiation keyAgreement cRLSign decipherOnly"]),
    (x509.BasicConstraints(True, 3), True, ["authority true, path length 3"]),
    (x509.ExtendedKeyUsage([OID("1.3.6.1.5.5.7.3.1"), OID("1.2.3")]), False, ["1.3.6.1.5.5.7.3.1", "1.2.3"]),
    (x509.SubjectAlternativeName(NAMES), False, NAMES_TOLD),
    (x509.IssuerAlternativeName(DNS), False, ["dns a.example"]),
    (x509.SubjectKeyIdentifier(b"\xab\xcd"), False, ["abcd"]),
    (x509.AuthorityKeyIdentifier(b"\x01\x02", DNS, 0xFF), False, ["key 0102", "issuer dns a.example", "serial number 00:FF"]),
    (
        x509.AuthorityInformationAccess([x509.AccessDescription(OID("1.3.6.1.5.5.7.48.1"), PLACE[0])]),
        False,
        ["1.3.6.1.5.5.7.48.1 uri http://a.example/crl"],
    ),
    (
        x509.SubjectInformationAccess([x509.AccessDescription(OID("1.3.6.1.5.5.7.48.5"), DNS[0])]),
        False,
        ["1.3.6.1.5.5.7.48.5 dns a.example"],
    ),
    (
        x509.CertificatePolicies(POLICIES),
        False,
        [
            "policy 1.2.3",
            "practice statement http://a.example/cps",
            "notices of Haus\\u{7}: 01 00:C8",
            "notice Nur\\u{202e} so",
            "policy 2.5.29.32.0",
        ],
    ),
    # two pairs (RFC 5280 4.2.1.5)
    (raw("2.5.29.33", "3018300a06032a03040603" "2a0305" "300a06032a030606032a0307"), True, ["1.2.3.4 1.2.3.5", "1.2.3.6 1.2.3.7"]),
    (x509.PolicyConstraints(0, 7), True, ["explicit after 0", "no mapping after 7"]),
    (x509.InhibitAnyPolicy(5), True, ["after 5"]),
    (
        x509.NameConstraints([*DNS, x509.IPAddress(ipaddress.ip_network("10.0.0.0/8"))], NAMES[1:2]),
        True,
        ["permits dns a.example", "permits ip 0a000000ff000000", "excludes email a@a.example"],
    ),
    (
        x509.CRLDistributionPoints(POINTS),
        False,
        [
            "point",
            "at uri http://a.example/crl",
            "for keyCompromise aACompromise",
            "issued by name CN=a\\,b",
            "point",
            "at 2.5.4.3 0c0161",
        ],
    ),
    (x509.FreshestCRL([x509.DistributionPoint(PLACE, None, None, None)]), False, ["point", "at uri http://a.example/crl"]),
    # of version 1 at the millisecond 256 with the algorithms 4 and 3, and one of another version (RFC 6962 3.2, 3.3)
    (
        raw("1.3.6.1.4.1.11129.2.4.2", "043a" "0038" "0031" "00" + 32 * "ab" + "0000000000000100" "0000" "0403" "0002" "0102" "0003" "070809"),
        False,
        [f"log {32 * 'ab'} at 256"],
    ),
    (
        raw("2.5.29.16", "3022" "800f" + b"20260102030405Z".hex() + "810f" + b"20270102030405Z".hex()),
        False,
        ["not before 2026-01-02T03:04:05Z", "not after 2027-01-02T03:04:05Z"],
    ),
    # two values of a type (RFC 5280 4.2.1.8)
    (raw("2.5.29.9", "300f" "300d" "06032a0305" "3106" "0c0161" "0c0162"), False, ["1.2.3.5: 0c0161 0c0162"]),
    (x509.TLSFeature([x509.TLSFeatureType.status_request, x509.TLSFeatureType.status_request_v2]), False, ["5", "17"]),
    (x509.PrecertPoison(), True, ["0500"]),
    (x509.OCSPNoCheck(), False, ["0500"]),
    (raw("1.2.3.4.5", "0102"), False, ["0102"]),
]
# others of the same identifiers: names of EDI (RFC 5280 4.2.1.6), a notice alone, and what can't be read
OTHERS = [
    (raw("2.5.29.17", "3018" "a50a" "a0030c0161a1030c0162" "a50a" "a0031301" "61a1031301" "62"), False, ["edi b of a", "edi b of a"]),
    (raw("2.5.29.18", "3007" "a505" "a1030c0162"), False, ["edi b of none"]),
    (raw("2.5.29.15", "0303078000"), True, ["it can't be read"]),
    (raw("2.5.29.32", "3010" "300e" "06022a03" "3008" "3006" "06022a04" "0500"), False, ["policy 1.2.3", "1.2.4 0500"]),
    (x509.BasicConstraints(False, None), False, ["authority false, path length none"]),
    (raw("2.5.29.37", "0500"), False, ["it can't be read"]),
]


def made(extensions):
    """A certificate with these extensions, and the lines that are stated of it."""
    key = load_der_private_key(KEY, None)
    assert isinstance(key, ed25519.Ed25519PrivateKey)
    values = [
        (x509.NameOID.COUNTRY_NAME, "DE", None),
        (x509.NameOID.ORGANIZATION_NAME, "Söhne, Töchter\n", None),
        (x509.NameOID.COMMON_NAME, "a+b", x509.name._ASN1Type.BMPString),
    ]
    subject = x509.Name([x509.NameAttribute(oid, value, kind) for oid, value, kind in values])
    issuer = x509.Name(
        [x509.RelativeDistinguishedName([x509.NameAttribute(x509.NameOID.COMMON_NAME, "R"), x509.NameAttribute(x509.NameOID.COUNTRY_NAME, "US")])]
    )
    builder = x509.CertificateBuilder().serial_number(0x80FF).issuer_name(issuer).subject_name(subject).public_key(key.public_key())
    builder = builder.not_valid_before(FIRST).not_valid_after(LAST)
    for value, critical, _ in extensions:
        builder = builder.add_extension(value, critical)
    point = key.public_key().public_bytes(Encoding.Raw, PublicFormat.Raw).hex()
    lines = [
        "version: 3",
        "serial number: 00:80:FF",
        # the attributes of a relative name stand in the order of their encodings (X.690 11.6)
        "issuer: CN=R+C=US",
        "  2.5.4.3: R",
        "  2.5.4.6: US",
        # of a BMPString the element is printed, in hex, under the identifier in dots (docs/DEFINITIONS.md)
        f"subject: 2.5.4.3=#1e06{'a+b'.encode('utf-16-be').hex()},O=Söhne\\, Töchter\\0a,C=DE",
        "  2.5.4.6: DE",
        "  2.5.4.10: Söhne, Töchter\\u{a}",
        "  2.5.4.3: a+b",
        "not before: 2026-02-03T04:05:06Z",
        "not after: 2055-02-03T04:05:06Z",
        "key: 1.3.101.112, 256 bits",
        f"point: {point}",
        "signature: 1.3.101.112, 64 octets",
    ]
    for value, critical, told in extensions:
        lines += [f"extension {value.oid.dotted_string}{', critical' if critical else ''}", *(f"  {it}" for it in told)]
    return builder.sign(key, None).public_bytes(Encoding.DER), lines


def said(program, files):
    """What a program says of files: the lines of each that it reads, and the names of those that it refuses."""
    ended = subprocess.run([*program, *map(str, files)], capture_output=True, check=False)
    blocks = re.split(r"^(?=version: )", ended.stdout.decode("utf-8"), flags=re.M)
    refused = {line.partition(": ")[0] for line in ended.stderr.decode("utf-8").splitlines()}
    if ended.returncode != int(bool(refused)) or blocks[0] or len(blocks) - 1 + len(refused) != len(files):
        raise SystemExit(f"{shlex.join(program)}: status {ended.returncode}, {len(blocks) - 1} certificates of {len(files)}: {ended.stderr[-300:]!r}")
    return [block.splitlines() for block in blocks[1:]], refused


ATTRIBUTE = re.compile(r"  [0-9.]+: ")


def without_texts(lines, places):
    return [it for at, it in enumerate(lines) if at not in places]


def are_same(ours, theirs):
    """Whether two programs say the same of a certificate, but for the texts in names that one of them doesn't read."""
    if len(ours) != len(theirs):
        return False
    unread = re.compile(r"  [0-9.]+: #")
    pairs = enumerate(zip(ours, theirs))
    places = {at for at, (one, two) in pairs if ATTRIBUTE.match(one) and ATTRIBUTE.match(two) and (unread.match(one) or unread.match(two))}
    return without_texts(ours, places) == without_texts(theirs, places)


def certificates(folder):
    """The DER of certificates, each with a name: of the examples, hostile ones, and those of the store."""
    yield "example.der", (TOP / "examples/data/certificate.der").read_bytes()
    for file in sorted(folder.glob("*.der")):
        yield file.name, file.read_bytes()
    for file in sorted(glob.glob(STORE)):
        try:
            yield pathlib.Path(file).name, ssl.PEM_cert_to_DER_cert(pathlib.Path(file).read_text(encoding="ascii"))
        except ValueError:
            continue


STATED = (("each", EXTENSIONS), ("other", OTHERS))


def write(folder):
    """Puts what is stated into a folder."""
    folder.mkdir(parents=True, exist_ok=True)
    said = []
    for name, extensions in STATED:
        der, lines = made(extensions)
        (folder / f"{name}.der").write_bytes(der)
        said += lines
    (folder / "said.txt").write_text("".join(f"{it}\n" for it in said), encoding="utf-8")


def wrong_in(programs, folder, scratch):
    """What isn't as it should be, in words."""
    for name, extensions in STATED:
        der, lines = made(extensions)
        file = scratch / f"{name}.der"
        file.write_bytes(der)
        for program in programs:
            [told], _ = said(program, [file])
            if told != lines:
                yield f"{shlex.join(program)}, {file.name}: says {[it for it in told if it not in lines]}, and not {[it for it in lines if it not in told]}"
    files = []
    for name, der in certificates(folder):
        files.append(scratch / f"{len(files)}-{name}")
        files[-1].write_bytes(der)
    told, refused = said(programs[0], files)
    read = [it.name for it in files if str(it) not in refused]
    for program in programs[1:]:
        other, others = said(program, files)
        if others != refused:
            yield f"{shlex.join(program)}: refuses others than {shlex.join(programs[0])}: {sorted(others ^ refused)[:3]}"
            continue
        wrong = [(name, one, two) for name, one, two in zip(read, told, other, strict=True) if not are_same(one, two)]
        yield from (f"{shlex.join(program)}, {name}: {sorted(set(one) ^ set(two))[:4]}" for name, one, two in wrong[:3])
    print(f"{len(read)} certificates read, {len(refused)} refused")


def main():
    parser = argparse.ArgumentParser(description=__doc__, formatter_class=argparse.RawDescriptionHelpFormatter)
    parser.add_argument("folder", metavar="FOLDER", type=pathlib.Path, help="the folder that tools/robustness/hostile_payloads.py has filled")
    parser.add_argument("programs", metavar="PROGRAM", nargs="*")
    words = parser.parse_args()
    programs = [shlex.split(it) for it in words.programs]
    if not programs:
        write(words.folder)
        return 0
    with tempfile.TemporaryDirectory() as folder:
        wrong = list(wrong_in(programs, words.folder, pathlib.Path(folder)))
    print("\n".join(wrong) or f"{len(programs)} programs say all that certificates have, and the same")
    return int(bool(wrong))


if __name__ == "__main__":
    sys.exit(main())
