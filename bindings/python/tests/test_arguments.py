"""What each argument of the builders, and of what is handed to them, does to the bytes: a table with a row for each argument.

A row says where in what was made the argument stands. A change of it changes just that, as the package reads it, and what `cryptography` reads is the same;
what can't stand there is refused. The calls are found by their signatures: an argument without a row fails.

usage: X509_LIBRARY=.../libx509.so PYTHONPATH=bindings/python/src python3 -m unittest discover -s bindings/python/tests
"""

from __future__ import annotations

import copy
import dataclasses
import datetime
import enum
import inspect
import ipaddress
import unittest
from typing import Any, Callable

import x509_cert as ours

try:
    from cryptography import x509 as theirs
    from cryptography.hazmat.primitives import hashes, serialization
    from cryptography.hazmat.primitives.asymmetric import ed25519, padding, rsa, x25519
except ImportError:  # what it says is left out then
    theirs = None  # type: ignore[assignment]

Made = ours.Certificate | ours.CertificateRevocationList | ours.CertificateSigningRequest
Path = tuple[Any, ...]

NOW = datetime.datetime(2030, 1, 1, tzinfo=datetime.timezone.utc)
LATER = datetime.datetime(2051, 2, 3, 4, 5, 6, tzinfo=datetime.timezone(datetime.timedelta(hours=2)))
EARLIER = datetime.datetime(2029, 12, 31, 23, 59, 59, tzinfo=datetime.timezone.utc)
# AlgorithmIdentifiers, and keys by their SubjectPublicKeyInfo (RFC 8410 3, 4, RFC 3279 2.3.1, RFC 5480 2.1)
ED25519, ED448 = bytes.fromhex("300506032b6570"), bytes.fromhex("300506032b6571")
KEY, OTHER_KEY = (bytes.fromhex("302a300506032b6570032100") + bytes([octet]) * 32 for octet in (0, 1))
EC_KEY = bytes.fromhex(
    "3059301306072a8648ce3d020106082a8648ce3d030107034200046b17d1f2e12c4247f8bce6e563a440f277037d812deb33a0f4a13945d898c296"
    "4fe342e2fe1a7f9b8ee7eb4a7c0f9e162bce33576b315ececbb6406837bf51f5"
)
_modulus = bytes.fromhex("0282010100") + b"\xc5" * 256
_rsa = bytes.fromhex("3082010a") + _modulus + bytes.fromhex("0203010001")
RSA_KEY = bytes.fromhex("30820122300d06092a864886f70d01010105000382010f00") + _rsa

ISSUER, SUBJECT, ROOT = (ours.Name.from_rfc4514_string(text) for text in ("CN=I", "CN=S", "CN=R,O=O,C=DE"))
# id-on-hardwareModuleName with a HardwareModuleName (RFC 4108 5)
HARDWARE = ours.OtherName(ours.ObjectIdentifier("1.3.6.1.5.5.7.8.4"), bytes.fromhex("300706022a03040105"))
OID, OTHER_OID = ours.ObjectIdentifier("1.2.3"), ours.ObjectIdentifier("2.5.29.32.0")
NAMES = [ours.DNSName("a.example"), ours.RFC822Name("a@b.example")]
OTHER_NAMES = [ours.IPAddress(ipaddress.ip_address("192.0.2.1")), ours.DirectoryName(SUBJECT)]
TIMESTAMP = bytes(33) + (5).to_bytes(8, "big") + bytes.fromhex("0000" "0403" "00020102")
OTHER_TIMESTAMP = bytes(33) + (6).to_bytes(8, "big") + bytes.fromhex("0000" "0403" "00020102")

# what an argument of a type doesn't take
NO_NUMBER = (True, 5.0, "5", b"5", None)
NO_BYTES = (5, "ab", [1, 2], None)
NO_FLAG = (1, 0, None, "x")
NO_TEXT = (5, b"a", None)
NO_NAME = ("CN=a", SUBJECT.public_bytes(), None, [])
NO_LIST = (5, [object()], "ab", b"ab")
NO_IDENTIFIER = ("1.2.3", b"\x2a", None)
NO_TIME = (
    datetime.date(2030, 1, 1),
    "2030-01-01",
    1_900_000_000,
    NOW.replace(tzinfo=None),
    NOW.replace(microsecond=1),
    datetime.datetime(1969, 12, 31, 23, 59, 59, tzinfo=datetime.timezone.utc),
    datetime.datetime(9999, 12, 31, 23, tzinfo=datetime.timezone(datetime.timedelta(hours=-2))),
)


def signs(part: bytes) -> bytes:
    return bytes(64)


def signs_otherwise(part: bytes) -> bytes:
    return bytes([1] * 64)


# ---- what was made, as a tree


def tree(it: Any) -> Any:
    """What an object is, as dicts, lists and plain values."""
    if isinstance(it, ours.ObjectIdentifier):
        return it.dotted_string
    if isinstance(it, ours.Name):
        return [tree(rdn) for rdn in it.rdns]
    if isinstance(it, ours.RelativeDistinguishedName):
        return [tree(attribute) for attribute in it]
    if isinstance(it, ours.NameAttribute):
        return {"oid": tree(it.oid), "tag": it.tag, "value": it.value}
    if isinstance(it, ours.GeneralName):
        return {"kind": type(it).__name__, "value": tree(it.value)} | ({"data": it.data} if isinstance(it, ours.OtherName) else {})
    if isinstance(it, enum.Enum):
        return it.name
    if isinstance(it, datetime.datetime):
        return it.astimezone(datetime.timezone.utc).isoformat()
    if isinstance(it, frozenset):
        return sorted(it)
    if isinstance(it, ours.Extensions):
        return {tree(one.oid): {"critical": one.critical, "value": tree(one.value)} for one in it}
    if isinstance(it, (list, tuple, ours.GeneralNames)):
        return [tree(one) for one in it]
    if isinstance(it, ours.ExtensionType):
        return {name: tree(value) for name, value in vars(it).items() if name not in ("data", "bits", "serialized") and not name.startswith("_")}
    if isinstance(it, (ours.DistributionPoint, ours.AccessDescription, ours.PolicyInformation, ours.PolicyQualifier, ours.SignedCertificateTimestamp)):
        return {name: tree(value) for name, value in vars(it).items()}
    if isinstance(it, (ours.NoticeReference, ours.DirectoryAttribute)):
        return {name: tree(value) for name, value in vars(it).items()}
    assert it is None or isinstance(it, (str, bytes, int, ipaddress.IPv4Address, ipaddress.IPv4Network)), it
    return it


def part(it: Made) -> dict[str, Any]:
    """What the three kinds of signed objects have, each field by its name."""
    if isinstance(it, ours.Certificate):
        found = {
            "version": it.version,
            "serial_number": it.serial_number,
            "issuer": it.issuer,
            "subject": it.subject,
            "public_key": it.public_key_bytes,
            "not_before": it.not_valid_before_utc,
            "not_after": it.not_valid_after_utc,
        }
    elif isinstance(it, ours.CertificateRevocationList):
        entries = [
            {"serial_number": one.serial_number, "date": tree(one.revocation_date_utc), "extensions": tree(one.extensions)} for one in it
        ]
        found = {"issuer": it.issuer, "last_update": it.last_update_utc, "next_update": it.next_update_utc}
        found = {name: tree(value) for name, value in found.items()} | {"entries": entries}
        return found | {"extensions": tree(it.extensions), "algorithm": it.signature_algorithm_bytes, "signature": it.signature}
    else:
        kept = [one for one in it.attributes if one.oid != ours.AttributeOID.EXTENSION_REQUEST]
        found = {"subject": it.subject, "public_key": it.public_key_bytes}
        found |= {"attributes": [(one.oid, one.tag, one.value) for one in kept]}
    found |= {"extensions": it.extensions, "algorithm": it.signature_algorithm_bytes, "signature": it.signature}
    return {name: tree(value) for name, value in found.items()}


def their_extensions(given: Any) -> list[tuple[str, bool, bytes]]:
    """Each with what `cryptography` writes of what it read."""
    return [(it.oid.dotted_string, it.critical, it.value.public_bytes()) for it in given]


def our_extensions(given: ours.Extensions) -> list[tuple[str, bool, bytes]]:
    return [(it.oid.dotted_string, it.critical, it.data) for it in given]


def same(test: unittest.TestCase, it: Made) -> None:
    """`cryptography` reads the same."""
    data = it.public_bytes()
    if isinstance(it, ours.Certificate):
        their = theirs.load_der_x509_certificate(data)
        test.assertEqual(it.serial_number, their.serial_number)
        test.assertEqual((it.not_valid_before_utc, it.not_valid_after_utc), (their.not_valid_before_utc, their.not_valid_after_utc))
        test.assertEqual(it.issuer.public_bytes(), their.issuer.public_bytes())
    elif isinstance(it, ours.CertificateRevocationList):
        their = theirs.load_der_x509_crl(data)
        test.assertEqual((it.last_update_utc, it.next_update_utc), (their.last_update_utc, their.next_update_utc))
        test.assertEqual(it.issuer.public_bytes(), their.issuer.public_bytes())
        for one, other in zip(it, their, strict=True):
            test.assertEqual((one.serial_number, one.revocation_date_utc), (other.serial_number, other.revocation_date_utc))
            test.assertEqual(our_extensions(one.extensions), their_extensions(other.extensions))
    else:
        their = theirs.load_der_x509_csr(data)
        test.assertEqual([(one.oid.dotted_string, one.value) for one in it.attributes], [(one.oid.dotted_string, one.value) for one in their.attributes])
    if not isinstance(it, ours.CertificateRevocationList):
        spki = their.public_key().public_bytes(serialization.Encoding.DER, serialization.PublicFormat.SubjectPublicKeyInfo)
        test.assertEqual((it.subject.public_bytes(), it.public_key_bytes), (their.subject.public_bytes(), spki))
    test.assertEqual((it.signature_algorithm_oid.dotted_string, it.signature), (their.signature_algorithm_oid.dotted_string, their.signature))
    test.assertEqual(our_extensions(it.extensions), their_extensions(their.extensions))


def at(made: Any, path: Path) -> Any:
    for step in path:
        made = made[step]
    return made


def without(made: Any, path: Path) -> Any:
    """The tree with nothing at that place."""
    made = copy.deepcopy(made)
    at(made, path[:-1])[path[-1]] = None
    return made


# ---- makers


def builder(**changed: Any) -> ours.CertificateBuilder:
    """A builder that was given all that a certificate has; an ellipsis leaves it out."""
    given = {"serial_number": 5, "issuer_name": ISSUER, "subject_name": SUBJECT, "public_key": KEY, "not_valid_before": NOW, "not_valid_after": NOW} | changed
    made = ours.CertificateBuilder()
    for name, value in given.items():
        made = made if value is ... else getattr(made, name)(value)
    return made


def certificate(**changed: Any) -> ours.Certificate:
    return builder(**changed).sign(ED25519, signs)


def holding(value: ours.ExtensionType) -> ours.Certificate:
    return builder().add_extension(value, critical=False).sign(ED25519, signs)


def root(**changed: Any) -> ours.Certificate:
    words = {"algorithm": ED25519, "signer": signs} | changed
    return builder(issuer_name=..., subject_name=ROOT).sign_root(**words)


def subordinate(**changed: Any) -> ours.Certificate:
    return builder().sign_subordinate(**({"algorithm": ED25519, "signer": signs, "issuer_public_key": KEY} | changed))


def subscriber(key: bytes = KEY, **changed: Any) -> ours.Certificate:
    return builder(public_key=key).sign_subscriber(**({"algorithm": ED25519, "signer": signs, "issuer_public_key": KEY} | changed))


def device(**changed: Any) -> ours.Certificate:
    return builder().sign_device(**({"algorithm": ED25519, "signer": signs, "issuer_public_key": KEY} | changed))


def crl_builder(**changed: Any) -> ours.CertificateRevocationListBuilder:
    given = {"issuer": AUTHORITY, "crl_number": 1, "last_update": NOW} | changed
    made = ours.CertificateRevocationListBuilder()
    for name, value in given.items():
        made = getattr(made, name)(value)
    return made


def named_crl(**changed: Any) -> ours.CertificateRevocationList:
    given = {"issuer_name": SUBJECT, "crl_number": 1, "last_update": NOW} | changed
    made = ours.CertificateRevocationListBuilder()
    for name, value in given.items():
        made = getattr(made, name)(value)
    return made.add_extension(ours.AuthorityKeyIdentifier(b"a", None, None), critical=False).sign(ED25519, signs)


def entry_builder(**changed: Any) -> ours.RevokedCertificateBuilder:
    given = {"serial_number": 2, "revocation_date": NOW} | changed
    made = ours.RevokedCertificateBuilder()
    for name, value in given.items():
        made = getattr(made, name)(value)
    return made


def built(made: ours.RevokedCertificateBuilder, **words: Any) -> ours.CertificateRevocationList:
    return crl_builder().add_revoked_certificate(made.build(**words)).sign(ED25519, signs)


def crl(**changed: Any) -> ours.CertificateRevocationList:
    return crl_builder(**changed).sign(ED25519, signs)


def revoking(**changed: Any) -> ours.CertificateRevocationList:
    entry = ours.RevokedCertificate(**({"serial_number": 2, "revocation_date_utc": NOW, "reason": None} | changed))
    return crl_builder().add_revoked_certificate(entry).sign(ED25519, signs)


def csr_builder(**changed: Any) -> ours.CertificateSigningRequestBuilder:
    given = {"subject_name": SUBJECT, "public_key": KEY} | changed
    made = ours.CertificateSigningRequestBuilder()
    for name, value in given.items():
        made = getattr(made, name)(value)
    return made


def csr(**changed: Any) -> ours.CertificateSigningRequest:
    return csr_builder(**changed).sign(ED25519, signs)


def attributed(**changed: Any) -> ours.CertificateSigningRequest:
    words = {"oid": ours.AttributeOID.CHALLENGE_PASSWORD, "value": b"word"} | changed
    return csr_builder().add_attribute(**words).sign(ED25519, signs)


AUTHORITY = certificate()
OTHER_AUTHORITY = certificate(subject_name=ISSUER)


# ---- the table


@dataclasses.dataclass(frozen=True)
class Row:
    """What is `taken` stands at `path` in what is `made` with it, as `means` says; `refused` is a TypeError or a ValueError."""

    made: Callable[[Any], Any]
    path: Path
    taken: tuple[Any, ...]
    refused: tuple[Any, ...]
    means: Callable[[Any], Any] = tree


# values of which `cryptography` reads none, or not all
OURS_ALONE = ("PolicyQualifier(", "EDIPartyName(", "IPAddress(value)")


def held(kind: type[ours.ExtensionType], name: str, taken: tuple[Any, ...], refused: tuple[Any, ...], attribute: str = "", **rest: Any) -> Row:
    """An argument of an extension, which is an attribute of the same name where none is named."""
    path = ("extensions", kind.oid.dotted_string, "value", attribute or name)
    return Row(lambda it: holding(kind(**(rest | {name: it}))), path, taken, refused)


def in_points(name: str, taken: tuple[Any, ...], refused: tuple[Any, ...], **rest: Any) -> Row:
    rest = {"full_name": None, "relative_name": None, "reasons": None, "crl_issuer": None} | rest
    path = ("extensions", "2.5.29.31", "value", "points", 0, name)
    made = lambda it: ours.CRLDistributionPoints([ours.DistributionPoint(**(rest | {name: it}))])  # noqa: E731
    return Row(lambda it: holding(made(it)), path, taken, refused, reasons if name == "reasons" else tree)


# the bits of reasons (RFC 5280 4.2.1.13) and their names
BITS = {
    ours.ReasonFlags.key_compromise: "keyCompromise",
    ours.ReasonFlags.ca_compromise: "cACompromise",
    ours.ReasonFlags.affiliation_changed: "affiliationChanged",
    ours.ReasonFlags.superseded: "superseded",
    ours.ReasonFlags.cessation_of_operation: "cessationOfOperation",
    ours.ReasonFlags.certificate_hold: "certificateHold",
    ours.ReasonFlags.privilege_withdrawn: "privilegeWithdrawn",
    ours.ReasonFlags.aa_compromise: "aACompromise",
}
SOME_REASONS = (
    *({it} for it in BITS),
    frozenset({"keyCompromise", "superseded"}),
    [ours.ReasonFlags.ca_compromise, "aACompromise"],
)
NO_REASONS = (5, "keyCompromise", {"other"}, {5}, {ours.ReasonFlags.unspecified}, {ours.ReasonFlags.remove_from_crl})


def reasons(given: Any) -> Any:
    return None if given is None else sorted(it if isinstance(it, str) else BITS[it] for it in given)


def in_names(made: Callable[[Any], ours.GeneralName], taken: tuple[Any, ...], refused: tuple[Any, ...], step: str = "value") -> Row:
    path = ("extensions", "2.5.29.17", "value", "names", 0, step)
    return Row(lambda it: holding(ours.SubjectAlternativeName([made(it)])), path, taken, refused)


def in_subject(made: Callable[[Any], ours.Name], path: Path, taken: tuple[Any, ...], refused: tuple[Any, ...], means: Callable[[Any], Any] = tree) -> Row:
    return Row(lambda it: certificate(subject_name=made(it)), ("subject", *path), taken, refused, means)


def usages() -> dict[str, Row]:
    """The arguments of KeyUsage, of which two are refused without a third."""
    names = list(inspect.signature(ours.KeyUsage).parameters)
    beside = {"encipher_only": {"key_agreement": True}, "decipher_only": {"key_agreement": True}}
    return {name: held(ours.KeyUsage, name, (False, True), NO_FLAG, **beside.get(name, {})) for name in names}


ALGORITHMS = ((ED25519, ED448), (*NO_BYTES, b"", b"\x30\x00"))
SIGNERS = ((signs, signs_otherwise), (None, lambda part: 64, lambda part: "ab", lambda part: None))
# private keys of `cryptography`, paddings of RSA with the algorithms that these make (RFC 4055 5, 3.1, by hand), and what is none
KEYS: tuple[Any, ...] = ()
NO_KEYS: tuple[Any, ...] = (5, b"ab", "key", signs)
RSA_PRIVATE: Any = None
PADDINGS: tuple[Any, ...] = ()
NO_PADDINGS: tuple[Any, ...] = (5, "PKCS1v15")
PSS_SHA256 = "304106092a864886f70d01010a3034a00f300d06096086480165030402010500a11c301a06092a864886f70d010108300d06096086480165030402010500a203020120"
PSS_SHORT = "303c06092a864886f70d01010a302fa00f300d06096086480165030402010500a11c301a06092a864886f70d010108300d06096086480165030402020500"
if theirs is not None:
    KEYS = tuple(ed25519.Ed25519PrivateKey.from_private_bytes(bytes([octet]) * 32) for octet in (1, 2))
    NO_KEYS += (x25519.X25519PrivateKey.generate(), KEYS[0].public_key())
    RSA_PRIVATE = rsa.generate_private_key(65537, 2048)
    pads = [padding.PSS(padding.MGF1(mask), salt) for mask, salt in ((hashes.SHA256(), 32), (hashes.SHA384(), 20), (hashes.SHA256(), padding.PSS.AUTO))]
    PADDINGS, NO_PADDINGS = (padding.PKCS1v15(), *pads[:2]), (*NO_PADDINGS, pads[2])


def signed_part(it: Made) -> bytes:
    if isinstance(it, ours.Certificate):
        return it.tbs_certificate_bytes
    return it.tbs_certlist_bytes if isinstance(it, ours.CertificateRevocationList) else it.tbs_certrequest_bytes


def padded(made: Callable[..., Made], pad: Any) -> Made:
    """With the algorithm that an RSA key with the padding has, and another signature."""
    by_key = made(private_key=RSA_PRIVATE, algorithm=hashes.SHA256() if theirs is not None else None, signer=None, rsa_padding=pad)
    return made(algorithm=by_key.signature_algorithm_bytes)


def of_padding(pad: Any) -> bytes:
    return bytes.fromhex(dict(zip(map(id, PADDINGS), ("300d06092a864886f70d01010b0500", PSS_SHA256, PSS_SHORT)))[id(pad)])


def signing(made: Callable[..., Made], keys: tuple[Any, ...] = KEYS, padding_made: Callable[..., Made] | None = None) -> dict[str, Row]:
    """The arguments that each method has that signs."""
    by_key = lambda it: made(private_key=it, algorithm=None, signer=None)  # noqa: E731
    return {
        "algorithm": Row(lambda it: made(algorithm=it), ("algorithm",), *ALGORITHMS),
        "signer": Row(lambda it: made(signer=it), ("signature",), *SIGNERS, means=lambda it: it(b"")),
        "private_key": Row(by_key, ("signature",), keys, NO_KEYS, means=lambda it: it.sign(signed_part(by_key(it)))),
        "rsa_padding": Row(lambda it: padded(padding_made or made, it), ("algorithm",), PADDINGS, NO_PADDINGS, means=of_padding),
    }


def signing_otherwise(made: Callable[..., Made], **words: Any) -> dict[str, Row]:
    """The same of `sign`, which takes an argument more that `cryptography` has and that means nothing."""
    return signing(made, **words) | {"backend": Row(lambda it: made(backend=it), ("signature",), (None,), (), lambda it: bytes(64))}


def signed_csr(key: Any) -> Callable[..., ours.CertificateSigningRequest]:
    """A CSR of a key, whichever way it is signed."""
    return lambda **words: csr_builder(public_key=KEY if key is None else key.public_key()).sign(**({"algorithm": ED25519, "signer": signs} | words))


def extending(made: Callable[[], Any]) -> dict[str, Row]:
    """The two arguments of add_extension."""
    path = ("extensions", "2.5.29.19")
    values = (ours.BasicConstraints(True, 1), ours.BasicConstraints(False, None))
    return {
        "extval": Row(
            lambda it: made().add_extension(it, critical=False).sign(ED25519, signs),
            (*path, "value"),
            values,
            (None, values[0].data, ours.BasicConstraints, OID),
        ),
        "critical": Row(lambda it: made().add_extension(values[0], critical=it).sign(ED25519, signs), (*path, "critical"), (False, True), NO_FLAG),
    }


def issuer_key(made: Callable[..., ours.Certificate]) -> Row:
    path = ("extensions", "2.5.29.35", "value", "key_identifier")
    means = lambda it: ours.AuthorityKeyIdentifier.from_issuer_public_key_bytes(it).key_identifier  # noqa: E731
    return Row(lambda it: made(issuer_public_key=it), path, (KEY, EC_KEY, RSA_KEY), (*NO_BYTES, b"", b"\x30\x00"), means)


def use(made: Callable[[bool], ours.Certificate], name: str) -> Row:
    return Row(made, ("extensions", "2.5.29.15", "value", name), (False, True), NO_FLAG)


SERVER, CLIENT = ours.ExtendedKeyUsageOID.SERVER_AUTH, ours.ExtendedKeyUsageOID.CLIENT_AUTH


def client(made: Callable[..., ours.Certificate]) -> Row:
    path = ("extensions", "2.5.29.37", "value", "usages")
    return Row(lambda it: made(client_auth=it), path, (False, True), NO_FLAG, lambda it: tree([SERVER, CLIENT] if it else [SERVER]))


def assembled(signed: bytes, algorithm: bytes) -> bytes:
    """The whole of a signed part, by hand (RFC 5280 4.1, 5.1): of 128 to 65,535 bytes."""
    content = signed + algorithm + b"\x03\x41\x00" + bytes(64)
    size = len(content)
    return b"\x30" + (bytes([0x81, size]) if size < 256 else b"\x82" + size.to_bytes(2, "big")) + content


def held_octets(oid: ours.ObjectIdentifier, data: Any = b"\x05\x00") -> dict[str, Any]:
    return tree(data if isinstance(data, ours.ExtensionType) else ours.UnrecognizedExtension(oid, data))


def in_access(name: str, taken: tuple[Any, ...], refused: tuple[Any, ...], **rest: Any) -> Row:
    path = ("extensions", "1.3.6.1.5.5.7.1.1", "value", "descriptions", 0, name)
    return Row(lambda it: holding(ours.AuthorityInformationAccess([ours.AccessDescription(**(rest | {name: it}))])), path, taken, refused)


def in_policy(name: str, taken: tuple[Any, ...], refused: tuple[Any, ...], **rest: Any) -> Row:
    path = ("extensions", "2.5.29.32", "value", "policies", 0, name)
    return Row(lambda it: holding(ours.CertificatePolicies([ours.PolicyInformation(**(rest | {name: it}))])), path, taken, refused)


def in_qualifier(name: str, taken: tuple[Any, ...], refused: tuple[Any, ...], **rest: Any) -> Row:
    path = ("extensions", "2.5.29.32", "value", "policies", 0, "policy_qualifiers", 0, name)
    made = lambda it: [ours.PolicyInformation(OID, [ours.PolicyQualifier(**(rest | {name: it}))])]  # noqa: E731
    return Row(lambda it: holding(ours.CertificatePolicies(made(it))), path, taken, refused)



def in_attribute(name: str, taken: tuple[Any, ...], refused: tuple[Any, ...], **rest: Any) -> Row:
    path = ("extensions", "2.5.29.9", "value", "attributes", 0, name)
    return Row(lambda it: holding(ours.SubjectDirectoryAttributes([ours.DirectoryAttribute(**(rest | {name: it}))])), path, taken, refused)


def qualified(it: ours.PolicyQualifier) -> ours.Certificate:
    return holding(ours.CertificatePolicies([ours.PolicyInformation(OID, [it])]))


def ia5(text: str) -> bytes:
    return b"\x16" + bytes([len(text)]) + text.encode()


QUALIFIED: Path = ("extensions", "2.5.29.32", "value", "policies", 0, "policy_qualifiers", 0)
REFERENCES = (ours.NoticeReference("Org", [1]), ours.NoticeReference("Org", [2]), ours.NoticeReference("Other", []))
ATTRIBUTES = [ours.DirectoryAttribute(OID, [b"\x05\x00"]), ours.DirectoryAttribute(OTHER_OID, [b"\x0c\x01a", b"\x13\x01a"])]
POINTS = [ours.DistributionPoint(NAMES, None, None, None)]
OTHER_POINTS = [ours.DistributionPoint(None, SUBJECT.rdns[0], None, None), ours.DistributionPoint(None, None, {"superseded"}, NAMES)]
DESCRIPTIONS = [ours.AccessDescription(ours.AuthorityInformationAccessOID.OCSP, NAMES[0])]
OTHER_DESCRIPTIONS = [*DESCRIPTIONS, ours.AccessDescription(ours.AuthorityInformationAccessOID.CA_ISSUERS, NAMES[1])]
# cPSuri (RFC 5280 4.2.1.4)
QUALIFIER = ours.PolicyQualifier(ours.ObjectIdentifier("1.3.6.1.5.5.7.2.1"), bytes.fromhex("160161"))
OTHER_QUALIFIER = ours.PolicyQualifier(ours.ObjectIdentifier("1.3.6.1.5.5.7.2.1"), bytes.fromhex("160162"))
POLICIES, OTHER_POLICIES = [ours.PolicyInformation(OID, [QUALIFIER])], [ours.PolicyInformation(OTHER_OID, None), ours.PolicyInformation(OID, None)]
TREES = [ours.DNSName("a.example"), ours.IPAddress(ipaddress.ip_network("10.0.0.0/8"))]
NO_TREES = (*NO_LIST, [], [ours.IPAddress(ipaddress.ip_address("10.0.0.0"))], [ours.DNSName("*.example")])
LISTS, NO_LISTS = (NAMES, OTHER_NAMES, ours.GeneralNames(NAMES[:1])), (*NO_LIST, [], SUBJECT, NAMES[0])
RDNS = tuple(ours.Name.from_rfc4514_string(text).rdns[0] for text in ("CN=a", "CN=a+O=b"))
REASON = ours.Extension(ours.ExtensionOID.CRL_REASON, False, ours.CRLReason(ours.ReasonFlags.superseded))
HOLD = ours.Extension(ours.ObjectIdentifier("2.5.29.23"), True, bytes.fromhex("06072a8648ce380202"))
ENTRY = ("entries", 0)
POINT = ours.ExtensionOID.ISSUING_DISTRIBUTION_POINT
SCOPE = {
    "full_name": None,
    "relative_name": None,
    "only_contains_user_certs": False,
    "only_contains_ca_certs": False,
    "only_some_reasons": None,
    "indirect_crl": True,
    "only_contains_attribute_certs": False,
}


def scope(name: str, taken: tuple[Any, ...], refused: tuple[Any, ...], means: Callable[[Any], Any] = tree) -> Row:
    def made(value: Any) -> ours.CertificateRevocationList:
        rest = SCOPE | {"indirect_crl": name != "only_contains_ca_certs", name: value}
        rest |= {"only_contains_user_certs": True} if name == "indirect_crl" else {}
        return crl_builder().add_extension(ours.IssuingDistributionPoint(**rest), critical=True).sign(ED25519, signs)

    return Row(made, ("extensions", POINT.dotted_string, "value", name), taken, refused, means)


def entry(name: str, path: Path, taken: tuple[Any, ...], refused: tuple[Any, ...], means: Callable[[Any], Any] = tree) -> Row:
    return Row(lambda it: revoking(**{name: it}), (*ENTRY, *path), taken, refused, means)


def attribute(name: str, step: int, taken: tuple[Any, ...], refused: tuple[Any, ...], means: Callable[[Any], Any] = tree) -> Row:
    return Row(lambda it: attributed(**{name: it}), ("attributes", 0, step), taken, refused, means)


def named(value: str = "a", oid: ours.ObjectIdentifier = ours.NameOID.COMMON_NAME, **rest: Any) -> ours.Name:
    return ours.Name([ours.NameAttribute(oid, value, **rest)])


def in_extension(name: str, step: str, taken: tuple[Any, ...], refused: tuple[Any, ...], means: Callable[[Any], Any] = tree) -> Row:
    """An argument of Extension, of which entries of CRLs have some."""
    words = {"oid": OID, "critical": False, "data": b"\x05\x00"}

    def made(value: Any) -> ours.CertificateRevocationList:
        return revoking(extensions=ours.Extensions([ours.Extension(**(words | {name: value}))]))

    return Row(made, (*ENTRY, "extensions", *((OID.dotted_string, step) if step else ())), taken, refused, means)


LONG = "a" * 65
TABLE: dict[str, dict[str, Row]] = {
    "CertificateBuilder.serial_number": {
        "number": Row(lambda it: certificate(serial_number=it), ("serial_number",), (1, 127, 128, (1 << 159) - 1), (*NO_NUMBER, 0, -1, 1 << 159)),
    },
    "CertificateBuilder.issuer_name": {"name": Row(lambda it: certificate(issuer_name=it), ("issuer",), (ISSUER, SUBJECT, ROOT), NO_NAME)},
    "CertificateBuilder.subject_name": {"name": Row(lambda it: certificate(subject_name=it), ("subject",), (ISSUER, SUBJECT, ROOT), NO_NAME)},
    "CertificateBuilder.public_key": {
        "public_key": Row(lambda it: certificate(public_key=it), ("public_key",), (KEY, OTHER_KEY, EC_KEY), (*NO_BYTES, b"", KEY[:-1], KEY + b"\x00")),
    },
    "CertificateBuilder.not_valid_before": {"time": Row(lambda it: certificate(not_valid_before=it), ("not_before",), (NOW, EARLIER), (*NO_TIME, LATER))},
    "CertificateBuilder.not_valid_after": {"time": Row(lambda it: certificate(not_valid_after=it), ("not_after",), (NOW, LATER), (*NO_TIME, EARLIER))},
    "CertificateBuilder.add_extension": extending(builder),
    "CertificateBuilder.tbs_certificate_bytes": {
        "algorithm": Row(lambda it: ours.Certificate(assembled(builder().tbs_certificate_bytes(it), it)), ("algorithm",), *ALGORITHMS),
    },
    "CertificateBuilder.sign": signing_otherwise(lambda **words: builder().sign(**({"algorithm": ED25519, "signer": signs} | words))),
    "CertificateBuilder.sign_root": signing(root)
    | {"signs_ocsp_responses": use(lambda it: root(signs_ocsp_responses=it), "digital_signature")},
    "CertificateBuilder.sign_subordinate": signing(subordinate)
    | {
        "issuer_public_key": issuer_key(subordinate),
        "path_length": Row(
            lambda it: subordinate(path_length=it),
            ("extensions", "2.5.29.19", "value", "path_length"),
            (None, 0, 1, 255),
            (*(it for it in NO_NUMBER if it is not None), -1, 256),
        ),
        "signs_ocsp_responses": use(lambda it: subordinate(signs_ocsp_responses=it), "digital_signature"),
        "client_auth": client(subordinate),
    },
    "CertificateBuilder.sign_subscriber": signing(subscriber)
    | {
        "issuer_public_key": issuer_key(subscriber),
        "client_auth": client(subscriber),
        "key_encipherment": use(lambda it: subscriber(RSA_KEY, key_encipherment=it), "key_encipherment"),
        "key_agreement": use(lambda it: subscriber(EC_KEY, key_agreement=it), "key_agreement"),
        "data_encipherment": use(lambda it: subscriber(RSA_KEY, data_encipherment=it), "data_encipherment"),
    },
    "CertificateBuilder.sign_device": signing(device)
    | {
        "issuer_public_key": issuer_key(device),
        "names": Row(
            lambda it: device(names=it), ("extensions", "2.5.29.17", "value", "names"), ([HARDWARE], [HARDWARE, *NAMES]), (*NO_LIST, None, NAMES)
        ),
    },
    "CertificateRevocationListBuilder.issuer": {
        "certificate": Row(
            lambda it: crl(issuer=it), ("issuer",), (AUTHORITY, OTHER_AUTHORITY), (AUTHORITY.public_bytes(), SUBJECT, None), lambda it: tree(it.subject)
        ),
    },
    "CertificateRevocationListBuilder.issuer_name": {
        "name": Row(lambda it: named_crl(issuer_name=it), ("issuer",), (ISSUER, SUBJECT, ROOT), NO_NAME),
    },
    "CertificateRevocationListBuilder.crl_number": {
        "number": Row(
            lambda it: crl(crl_number=it), ("extensions", "2.5.29.20", "value", "crl_number"), (0, 1, 127, 128, 1 << 64), (*NO_NUMBER, -1)
        ),
    },
    "CertificateRevocationListBuilder.last_update": {"time": Row(lambda it: crl(last_update=it), ("last_update",), (NOW, EARLIER, LATER), NO_TIME)},
    "CertificateRevocationListBuilder.next_update": {"time": Row(lambda it: crl(next_update=it), ("next_update",), (NOW, LATER), (*NO_TIME, EARLIER))},
    "CertificateRevocationListBuilder.add_extension": extending(crl_builder),
    "CertificateRevocationListBuilder.add_revoked_certificate": {
        "revoked": Row(
            lambda it: crl_builder().add_revoked_certificate(it).sign(ED25519, signs),
            ENTRY,
            (ours.RevokedCertificate(2, NOW, None), ours.RevokedCertificate(3, LATER, ours.ReasonFlags.superseded, ours.Extensions([HOLD]))),
            (2, None, AUTHORITY, ours.RevokedCertificate(2, NOW, None, ours.Extensions([HOLD, HOLD]))),
            lambda it: {"serial_number": it.serial_number, "date": tree(it.revocation_date_utc), "extensions": tree(it.extensions)},
        ),
    },
    "CertificateRevocationListBuilder.tbs_certlist_bytes": {
        "algorithm": Row(lambda it: ours.CertificateRevocationList(assembled(crl_builder().tbs_certlist_bytes(it), it)), ("algorithm",), *ALGORITHMS),
    },
    "CertificateRevocationListBuilder.sign": signing_otherwise(lambda **words: crl_builder().sign(**({"algorithm": ED25519, "signer": signs} | words))),
    "CertificateSigningRequestBuilder.subject_name": {"name": Row(lambda it: csr(subject_name=it), ("subject",), (ISSUER, SUBJECT, ROOT), NO_NAME)},
    "CertificateSigningRequestBuilder.public_key": {
        "public_key": Row(lambda it: csr(public_key=it), ("public_key",), (KEY, OTHER_KEY, EC_KEY), (*NO_BYTES, b"", KEY[:-1], KEY + b"\x00")),
    },
    "CertificateSigningRequestBuilder.add_extension": extending(csr_builder),
    "CertificateSigningRequestBuilder.add_attribute": {
        "oid": attribute("oid", 0, (OID, ours.AttributeOID.CHALLENGE_PASSWORD), (*NO_IDENTIFIER, ours.AttributeOID.EXTENSION_REQUEST)),
        "value": attribute("value", 2, (b"", b"word", b"\xc3\xb6"), (*NO_BYTES, b"\xff")),
        "tag": attribute(
            "tag",
            1,
            (0x0C, 0x13, 0x04, ours.ASN1Type.IA5String),
            (*NO_NUMBER, -1, 256, 0x1F),
            lambda it: it.value if isinstance(it, ours.ASN1Type) else it,
        ),
        "_tag": attribute(
            "_tag",
            1,
            (None, ours.ASN1Type.PrintableString, ours.ASN1Type.IA5String, ours.ASN1Type.OctetString),
            (12, "UTF8String", True),
            lambda it: 0x0C if it is None else it.value,
        ),
    },
    "CertificateSigningRequestBuilder.add_attribute_bytes": {
        "attribute": Row(
            lambda it: csr_builder().add_attribute_bytes(it).sign(ED25519, signs),
            ("attributes",),
            (bytes.fromhex("300806022a03310204" "00"), bytes.fromhex("300906022a0331030c0161")),
            (*NO_BYTES, b"", b"\x05\x00", bytes.fromhex("300706022a0331010c"), bytes.fromhex("300806022a0331020400") * 2),
            lambda it: [["1.2.3", it[8], it[10:]]],
        ),
    },
    "CertificateSigningRequestBuilder.tbs_certrequest_bytes": {},
    "CertificateSigningRequestBuilder.sign": signing_otherwise(
        signed_csr(KEYS[0] if KEYS else None), keys=KEYS[:1], padding_made=signed_csr(RSA_PRIVATE)
    ),
    "RevokedCertificateBuilder.serial_number": {
        "number": Row(lambda it: built(entry_builder(serial_number=it)), (*ENTRY, "serial_number"), (1, 128, (1 << 159) - 1), (*NO_NUMBER, 0, -1, 1 << 159)),
    },
    "RevokedCertificateBuilder.revocation_date": {
        "time": Row(lambda it: built(entry_builder(revocation_date=it)), (*ENTRY, "date"), (NOW, EARLIER, LATER), (*NO_TIME, None)),
    },
    "RevokedCertificateBuilder.add_extension": {
        "extval": Row(
            lambda it: built(entry_builder().add_extension(it, critical=False)),
            (*ENTRY, "extensions"),
            (ours.CRLReason(ours.ReasonFlags.superseded), ours.InvalidityDate(NOW), ours.CertificateIssuer(NAMES)),
            (None, REASON, b"\x05\x00", ours.CRLReason, OID),
            lambda it: {it.oid.dotted_string: {"critical": False, "value": tree(it)}},
        ),
        "critical": Row(
            lambda it: built(entry_builder().add_extension(ours.CertificateIssuer(NAMES), critical=it)),
            (*ENTRY, "extensions", "2.5.29.29", "critical"),
            (False, True),
            NO_FLAG,
        ),
    },
    "RevokedCertificateBuilder.build": {"backend": Row(lambda it: built(entry_builder(), backend=it), (*ENTRY, "serial_number"), (None,), (), lambda it: 2)},
    "RevokedCertificate": {
        "serial_number": entry("serial_number", ("serial_number",), (2, 128, 0, -1, (1 << 167) - 1), (*NO_NUMBER, 1 << 167)),
        "revocation_date_utc": entry("revocation_date_utc", ("date",), (NOW, EARLIER, LATER), (*NO_TIME, None)),
        "reason": entry(
            "reason",
            ("extensions",),
            (None, *ours.ReasonFlags),
            (1, "key_compromise", False),
            lambda it: {} if it is None else {"2.5.29.21": {"critical": False, "value": {"reason": it.name}}},
        ),
        "extensions": entry(
            "extensions",
            ("extensions",),
            (None, ours.Extensions([REASON]), ours.Extensions([HOLD, REASON])),
            (5, [REASON], REASON),
            lambda it: {} if it is None else tree(it),
        ),
    },
    "Extensions": {
        "extensions": Row(
            lambda it: revoking(extensions=ours.Extensions(it)),
            (*ENTRY, "extensions"),
            ([], [REASON], [HOLD, REASON]),
            (*NO_LIST, None, REASON, [REASON.data]),
            lambda it: tree(ours.Extensions(it)),
        ),
    },
    "Extension": {
        "oid": in_extension("oid", "", (OID, OTHER_OID), NO_IDENTIFIER, lambda it: {it.dotted_string: {"critical": False, "value": held_octets(it)}}),
        "critical": in_extension("critical", "critical", (False, True), NO_FLAG),
        "data": in_extension(
            "data",
            "value",
            (b"", b"\x05\x00", ours.UnrecognizedExtension(OID, b"a")),
            (*NO_BYTES, ours.PrecertPoison()),
            lambda it: held_octets(OID, it),
        ),
    },
    "KeyUsage": usages(),
    "BasicConstraints": {
        "ca": held(ours.BasicConstraints, "ca", (False, True), NO_FLAG, path_length=None),
        "path_length": held(ours.BasicConstraints, "path_length", (None, 0, 127, 128, 255), (True, 5.0, "5", -1, 256), ca=True),
    },
    "ExtendedKeyUsage": {"usages": held(ours.ExtendedKeyUsage, "usages", ([OID], [SERVER, CLIENT]), (*NO_LIST, None, [], ["1.2.3"]))},
    "SubjectAlternativeName": {"general_names": held(ours.SubjectAlternativeName, "general_names", LISTS, (*NO_LISTS, None), "names")},
    "IssuerAlternativeName": {"general_names": held(ours.IssuerAlternativeName, "general_names", LISTS, (*NO_LISTS, None), "names")},
    "SubjectKeyIdentifier": {"digest": held(ours.SubjectKeyIdentifier, "digest", (b"", b"abc", bytes(200)), NO_BYTES, "key_identifier")},
    "AuthorityKeyIdentifier": {
        "key_identifier": held(
            ours.AuthorityKeyIdentifier, "key_identifier", (None, b"", b"abc"), (5, "ab", [1]), authority_cert_issuer=None, authority_cert_serial_number=None
        ),
        "authority_cert_issuer": held(
            ours.AuthorityKeyIdentifier, "authority_cert_issuer", LISTS, (*NO_LISTS, None), key_identifier=b"a", authority_cert_serial_number=5
        ),
        "authority_cert_serial_number": held(
            ours.AuthorityKeyIdentifier,
            "authority_cert_serial_number",
            (0, 5, 128, (1 << 167) - 1),
            (*NO_NUMBER, 1 << 167),
            key_identifier=b"a",
            authority_cert_issuer=NAMES,
        ),
    },
    "AuthorityInformationAccess": {
        "descriptions": held(ours.AuthorityInformationAccess, "descriptions", (DESCRIPTIONS, OTHER_DESCRIPTIONS), (*NO_LIST, None, [], NAMES)),
    },
    "SubjectInformationAccess": {
        "descriptions": held(ours.SubjectInformationAccess, "descriptions", (DESCRIPTIONS, OTHER_DESCRIPTIONS), (*NO_LIST, None, [], NAMES)),
    },
    "AccessDescription": {
        "access_method": in_access("access_method", (OID, OTHER_OID), NO_IDENTIFIER, access_location=NAMES[0]),
        "access_location": in_access("access_location", (*NAMES, *OTHER_NAMES, HARDWARE), ("a.example", None, NAMES, SUBJECT), access_method=OID),
    },
    "CRLDistributionPoints": {
        "distribution_points": held(ours.CRLDistributionPoints, "distribution_points", (POINTS, OTHER_POINTS), (*NO_LIST, None, [], NAMES), "points"),
    },
    "FreshestCRL": {"distribution_points": held(ours.FreshestCRL, "distribution_points", (POINTS, OTHER_POINTS), (*NO_LIST, None, [], NAMES), "points")},
    "DistributionPoint": {
        "full_name": in_points("full_name", (None, *LISTS), NO_LISTS, crl_issuer=NAMES),
        "relative_name": in_points("relative_name", (None, *RDNS), ("CN=a", SUBJECT, b"", []), crl_issuer=NAMES),
        "reasons": in_points("reasons", (None, *SOME_REASONS), NO_REASONS, full_name=NAMES),
        "crl_issuer": in_points("crl_issuer", (None, *LISTS), NO_LISTS, full_name=NAMES),
    },
    "NameConstraints": {
        "permitted_subtrees": held(ours.NameConstraints, "permitted_subtrees", (None, TREES, TREES[:1]), NO_TREES, excluded_subtrees=TREES),
        "excluded_subtrees": held(ours.NameConstraints, "excluded_subtrees", (None, TREES, TREES[:1]), NO_TREES, permitted_subtrees=TREES),
    },
    "CRLNumber": {"crl_number": held(ours.CRLNumber, "crl_number", (0, 127, 128, 1 << 64), (*NO_NUMBER, -1))},
    "DeltaCRLIndicator": {"crl_number": held(ours.DeltaCRLIndicator, "crl_number", (0, 127, 128, 1 << 64), (*NO_NUMBER, -1))},
    "IssuingDistributionPoint": {
        "full_name": scope("full_name", (None, *LISTS), NO_LISTS),
        "relative_name": scope("relative_name", (None, *RDNS), ("CN=a", SUBJECT, b"", [])),
        "only_contains_user_certs": scope("only_contains_user_certs", (False, True), NO_FLAG),
        "only_contains_ca_certs": scope("only_contains_ca_certs", (True,), (*NO_FLAG, False)),
        "only_some_reasons": scope("only_some_reasons", (None, *SOME_REASONS), NO_REASONS, reasons),
        "indirect_crl": scope("indirect_crl", (False, True), NO_FLAG),
        "only_contains_attribute_certs": scope("only_contains_attribute_certs", (False, True), NO_FLAG),
    },
    "CRLReason": {"reason": held(ours.CRLReason, "reason", tuple(ours.ReasonFlags), (1, "key_compromise", None))},
    "PrecertificateSignedCertificateTimestamps": {
        "signed_certificate_timestamps": held(
            ours.PrecertificateSignedCertificateTimestamps,
            "signed_certificate_timestamps",
            ([ours.SignedCertificateTimestamp(TIMESTAMP)], [ours.SignedCertificateTimestamp(it) for it in (OTHER_TIMESTAMP, TIMESTAMP)]),
            (*NO_LIST, None, [], [TIMESTAMP]),
            "timestamps",
        ),
    },
    "SignedCertificateTimestamp": {
        "data": Row(
            lambda it: holding(ours.PrecertificateSignedCertificateTimestamps([ours.SignedCertificateTimestamp(it)])),
            ("extensions", "1.3.6.1.4.1.11129.2.4.2", "value", "timestamps", 0),
            (TIMESTAMP, OTHER_TIMESTAMP),
            (*NO_BYTES, b"", TIMESTAMP[:-1]),
            lambda it: tree(ours.SignedCertificateTimestamp(it)),
        ),
    },
    "PrecertPoison": {},
    "OCSPNoCheck": {},
    "TLSFeature": {
        "features": held(
            ours.TLSFeature,
            "features",
            ([ours.TLSFeatureType.status_request], [ours.TLSFeatureType.status_request_v2, ours.TLSFeatureType.status_request]),
            (*NO_LIST, None, [], [True], ["5"]),
        ),
    },
    "PrivateKeyUsagePeriod": {
        "not_before": held(ours.PrivateKeyUsagePeriod, "not_before", (None, NOW, EARLIER), (*NO_TIME, LATER), not_after=NOW),
        "not_after": held(ours.PrivateKeyUsagePeriod, "not_after", (None, NOW, LATER), (*NO_TIME, EARLIER), not_before=NOW),
    },
    "InvalidityDate": {
        "invalidity_date": held(ours.InvalidityDate, "invalidity_date", (NOW, EARLIER, LATER), (*NO_TIME, None), "invalidity_date_utc"),
    },
    "CertificateIssuer": {"general_names": held(ours.CertificateIssuer, "general_names", LISTS, (*NO_LISTS, None), "names")},
    "SubjectDirectoryAttributes": {
        "attributes": held(ours.SubjectDirectoryAttributes, "attributes", (ATTRIBUTES, ATTRIBUTES[::-1]), (*NO_LIST, None, [], ATTRIBUTES[0], NAMES)),
    },
    "DirectoryAttribute": {
        "oid": in_attribute("oid", (OID, OTHER_OID), NO_IDENTIFIER, values=[b"\x05\x00"]),
        "values": in_attribute("values", ([b"\x05\x00"], [b"\x0c\x01a", b"\x0c\x01b"]), (*NO_LIST, None, [], [b"\x05"], [5], b"\x05\x00"), oid=OID),
    },
    "UnrecognizedExtension": {
        "oid": Row(
            lambda it: holding(ours.UnrecognizedExtension(it, b"\x05\x00")),
            ("extensions",),
            (OID, OTHER_OID),
            NO_IDENTIFIER,
            lambda it: {it.dotted_string: {"critical": False, "value": held_octets(it)}},
        ),
        "value": Row(
            lambda it: holding(ours.UnrecognizedExtension(OID, it)),
            ("extensions", OID.dotted_string, "value", "value"),
            (b"", b"\x05\x00", b"abc"),
            NO_BYTES,
        ),
    },
    "CertificatePolicies": {"policies": held(ours.CertificatePolicies, "policies", (POLICIES, OTHER_POLICIES), (*NO_LIST, None, [], [OID]))},
    "PolicyInformation": {
        "policy_identifier": in_policy("policy_identifier", (OID, OTHER_OID), NO_IDENTIFIER, policy_qualifiers=None),
        "policy_qualifiers": in_policy(
            "policy_qualifiers", (None, [QUALIFIER], [QUALIFIER, OTHER_QUALIFIER]), (*NO_LIST, [], ["a"]), policy_identifier=OID
        ),
    },
    "PolicyQualifier": {
        "oid": in_qualifier("oid", (OID, OTHER_OID), NO_IDENTIFIER, data=b"\x05\x00"),
        "data": in_qualifier("data", (b"\x05\x00", b"\x16\x01a"), (5, "ab", [1], b"\x05"), oid=OID),
    },
    "CPSPointer": {
        "uri": Row(
            lambda it: qualified(ours.CPSPointer(it)),
            (*QUALIFIED, "data"),
            ("urn:a", "https://a.example/"),
            (*NO_TEXT, "", "a", ":a", "https://ö.example"),
            ia5,
        ),
    },
    "UserNotice": {
        "notice_reference": Row(
            lambda it: qualified(ours.UserNotice(it, "text")),
            QUALIFIED,
            (None, *REFERENCES),
            ("Org", 5, ["Org", [1]]),
            lambda it: tree(ours.UserNotice(it, "text")),
        ),
        "explicit_text": Row(
            lambda it: qualified(ours.UserNotice(None, it)),
            QUALIFIED,
            (None, "a", "ö" * 200),
            (5, b"a", "", "a" * 201, "\ud800"),
            lambda it: tree(ours.UserNotice(None, it)),
        ),
    },
    "NoticeReference": {
        "organization": Row(
            lambda it: qualified(ours.UserNotice(ours.NoticeReference(it, [1]), None)),
            QUALIFIED,
            ("Org", "Ör,g"),
            (*NO_TEXT, "\ud800"),
            lambda it: tree(ours.UserNotice(ours.NoticeReference(it, [1]), None)),
        ),
        "notice_numbers": Row(
            lambda it: qualified(ours.UserNotice(ours.NoticeReference("Org", it), None)),
            QUALIFIED,
            ([1], [1, 300, 0], []),
            (*NO_LIST, None, ["1"], [True], [1.0]),
            lambda it: tree(ours.UserNotice(ours.NoticeReference("Org", it), None)),
        ),
    },
    "PolicyMappings": {
        "mappings": held(
            ours.PolicyMappings,
            "mappings",
            ([(OID, SERVER)], [(SERVER, OID), [OID, SERVER]]),
            (*NO_LIST, None, [], [(OID,)], [(OID, SERVER, OID)], [("1.2.3", "1.2.4")]),
        ),
    },
    "PolicyConstraints": {
        name: held(ours.PolicyConstraints, name, (None, 0, 5, 255, 300), (True, 5.0, "5", -1, 1 << 32), **{other: 1})
        for name, other in (("require_explicit_policy", "inhibit_policy_mapping"), ("inhibit_policy_mapping", "require_explicit_policy"))
    },
    "InhibitAnyPolicy": {"skip_certs": held(ours.InhibitAnyPolicy, "skip_certs", (0, 7, 300), (*NO_NUMBER, -1, 1 << 32))},
    "GeneralNames": {"names": in_points("full_name", (NAMES, OTHER_NAMES), ())},
    "RFC822Name": {"value": in_names(ours.RFC822Name, ("a@b.example", "c@d.example"), (*NO_TEXT, "", "A <a@b.example>", "ö@b.example"))},
    "DNSName": {"value": in_names(ours.DNSName, ("a.example", "*.example", ""), (*NO_TEXT, "ö.example"))},
    "UniformResourceIdentifier": {"value": in_names(ours.UniformResourceIdentifier, ("https://a.example/", "urn:a"), (*NO_TEXT, "https://ö.example"))},
    "DirectoryName": {"value": in_names(ours.DirectoryName, (SUBJECT, ROOT, ours.Name.from_rfc4514_string("")), NO_NAME)},
    "RegisteredID": {"value": in_names(ours.RegisteredID, (OID, OTHER_OID), NO_IDENTIFIER)},
    "IPAddress": {
        "value": in_names(
            ours.IPAddress,
            (ipaddress.ip_address("192.0.2.1"), ipaddress.ip_network("10.0.0.0/8"), b"abc"),
            ("192.0.2.1", 5, None, b"abcd"),
        ),
    },
    "OtherName": {
        "type_id": in_names(lambda it: ours.OtherName(it, b"\x05\x00"), (OID, OTHER_OID), NO_IDENTIFIER),
        "data": in_names(lambda it: ours.OtherName(OID, it), (b"\x05\x00", b"\x0c\x01a"), (*NO_BYTES, b"", b"\x05"), "data"),
    },
    # its fields are those of an EDIPartyName (RFC 5280 4.2.1.6), of which the party stands under [1]
    "EDIPartyName": {"value": in_names(ours.EDIPartyName, (bytes.fromhex("a1030c0161"), bytes.fromhex("a1030c0162")), (*NO_BYTES, b"\x05\x00"))},
    "ObjectIdentifier": {
        "dotted_string": Row(
            lambda it: holding(ours.ExtendedKeyUsage([ours.ObjectIdentifier(it)])),
            ("extensions", "2.5.29.37", "value", "usages", 0),
            ("1.2.3", "2.5.29.32.0", "2.999.5"),
            (*NO_TEXT, "", "1", "1.2.03", "1.40", "a", " 1.2.3"),
        ),
    },
    "Name": {
        "attributes": Row(
            lambda it: certificate(subject_name=ours.Name(it)),
            ("subject",),
            (ROOT.public_bytes(), [], *(list(ours.Name.from_rfc4514_string(text).rdns) for text in ("CN=a", "CN=a+O=b,C=DE"))),
            (*NO_LIST, None, SUBJECT, RDNS[0], b"", [b"0\0"], ["CN=a"], [RDNS[0], RDNS[1].public_bytes()]),
            lambda it: tree(ours.Name(it)) if isinstance(it, bytes) else tree(it),
        ),
    },
    "RelativeDistinguishedName": {
        "attributes": in_subject(
            lambda it: ours.Name([ours.RelativeDistinguishedName(it)]),
            (0,),
            (list(RDNS[0]), list(RDNS[1])),
            (*NO_LIST, None, [], SUBJECT.rdns, [*RDNS[0], *RDNS[1]]),
        ),
    },
    "NameAttribute": {
        "oid": in_subject(lambda it: named(oid=it), (0, 0, "oid"), (ours.NameOID.COMMON_NAME, ours.NameOID.ORGANIZATION_NAME), NO_IDENTIFIER),
        "value": in_subject(named, (0, 0, "value"), ("a", "b,O=c", "ö", " #\x00\\"), (*NO_TEXT, "", LONG, "\ud800")),
        "_type": in_subject(
            lambda it: named(_type=it),
            (0, 0, "tag"),
            (None, ours.ASN1Type.PrintableString),
            (12, "UTF8String", ours.ASN1Type.OctetString, ours.ASN1Type.BitString),
            lambda it: 0x0C if it is None else it.value,
        ),
        "_validate": Row(
            lambda it: certificate(subject_name=named("a" if it is True else LONG, _validate=it)),
            ("subject", 0, 0, "value"),
            (True, False),
            NO_FLAG,
            lambda it: "a" if it else LONG,
        ),
    },
}


# ---- what is called

BUILDERS = (
    ours.CertificateBuilder,
    ours.CertificateRevocationListBuilder,
    ours.CertificateSigningRequestBuilder,
    ours.RevokedCertificateBuilder,
)
# what is read and never made of values, and what others are made of
READ = {
    ours.Certificate,
    ours.CertificateRevocationList,
    ours.CertificateSigningRequest,
    ours.TrustAnchor,
    ours.FoundPath,
    ours.ValidatedPath,
    ours.RevocationStatus,
    ours.SignedCrl,
    ours.Revocation,
    ours.PathControls,
    ours.PublicKey,
    ours.UniqueIdentifier,
    ours.AlgorithmIdentifier,
    ours.Attribute,
    ours.Attributes,
    ours.HashAlgorithm,
    ours.SignatureAlgorithm,
    ours.ExtensionType,
    ours.GeneralName,
    ours.Finding,
}


def parameters(call: Callable[..., Any]) -> set[str]:
    return set(inspect.signature(call).parameters) - {"self"}


def calls() -> dict[str, set[str]]:
    """The builders' methods and the constructors of what is handed to them, with their arguments."""
    found = {}
    for kind in BUILDERS:
        for name, method in inspect.getmembers(kind, inspect.isfunction):
            if not name.startswith("_"):
                found[f"{kind.__name__}.{name}"] = parameters(method)
    for name in ours.__all__:
        kind = getattr(ours, name)
        is_made = inspect.isclass(kind) and not issubclass(kind, (Exception, enum.Enum)) and kind.__module__.startswith("x509_cert.")
        if is_made and kind not in READ and kind not in BUILDERS and not name.endswith("OID"):
            found[name] = parameters(kind)
    return found


class Arguments(unittest.TestCase):
    def rows(self) -> list[tuple[str, Row]]:
        return [(f"{call}({name})", row) for call, rows in TABLE.items() for name, row in rows.items()]

    def test_each_has_a_row(self) -> None:
        self.assertEqual({call: set(rows) for call, rows in TABLE.items()}, calls())
        self.assertEqual([list(inspect.signature(kind).parameters) for kind in BUILDERS], [[], [], [], []])

    def test_what_is_taken(self) -> None:
        for name, row in self.rows():
            made: list[Made] = []
            for value in row.taken:
                with self.subTest(name, value=value):
                    one = row.made(value)
                    made.append(one)
                    self.assertEqual(at(part(one), row.path), row.means(value))
            with self.subTest(name):
                self.assertEqual(len({it.public_bytes() for it in made}), len(row.taken))
                # no other place is changed
                kept = [without(part(it), row.path) for it in made]
                self.assertEqual(kept, kept[:1] * len(kept))

    def test_what_is_refused(self) -> None:
        for name, row in self.rows():
            for value in row.refused:
                with self.subTest(name, value=value), self.assertRaises((TypeError, ValueError)):
                    row.made(value)

    @unittest.skipIf(theirs is None, "cryptography isn't installed")
    def test_beside_cryptography(self) -> None:
        for name, row in self.rows():
            for value in row.taken:
                if not name.startswith(OURS_ALONE) or isinstance(value, (ipaddress.IPv4Address, ipaddress.IPv4Network)):
                    with self.subTest(name, value=value):
                        same(self, row.made(value))

    def test_iterators_and_other_buffers(self) -> None:
        """A list may come as an iterator, which is used up once, and bytes as any buffer."""
        iterators, buffers = 0, 0
        for name, row in self.rows():
            for value in row.taken:
                with self.subTest(name, value=value):
                    if isinstance(value, list) and not any(isinstance(it, list) for it in value):
                        self.assertEqual(row.made(iter(value)).public_bytes(), row.made(value).public_bytes())
                        iterators += 1
                    if isinstance(value, bytes):
                        for other in (bytearray(value), memoryview(value)):
                            self.assertEqual(row.made(other).public_bytes(), row.made(value).public_bytes())
                        buffers += 1
        self.assertGreater(min(iterators, buffers), 20)


if __name__ == "__main__":
    unittest.main()
