#!/usr/bin/env python3
"""Makes a path of certificates by Python's `cryptography`, wrong variants of it, and what is to be said of each, which is stated here by hand.

NAME.der    a certificate: `root`, `intermediate`, `server`, or a variant
cases.txt   a case a line, with a tab between each two: the moment, the files, the anchor's first, the line that is to be printed, and the status
"""
import argparse
import datetime
import pathlib
import sys
from typing import NamedTuple

from cryptography import x509
from cryptography.hazmat.primitives import hashes, serialization
from cryptography.hazmat.primitives.asymmetric import dsa, ec, ed448, ed25519, padding, rsa, x25519
from cryptography.x509.oid import ExtendedKeyUsageOID, ExtensionOID, NameOID

sys.path.insert(0, str(pathlib.Path(__file__).resolve().parents[2] / "tools"))
from common.der import NULL, bit_string, object_identifier, octet_string, sequence

UTC = datetime.timezone.utc
# 2025-01-01T00:00:00Z and 2035-01-01T00:00:00Z, which are the first and the last second of the validity, and 2030-01-01T00:00:00Z
FIRST, LAST, NOW = 1_735_689_600, 2_051_222_400, 1_893_456_000
# 9999-12-31T23:59:59Z
MOST = 253_402_300_799
DATES = (datetime.datetime(2025, 1, 1, tzinfo=UTC), datetime.datetime(2035, 1, 1, tzinfo=UTC))
PAST = (datetime.datetime(2025, 1, 1, tzinfo=UTC), datetime.datetime(2026, 1, 1, tzinfo=UTC))
SHA256 = hashes.SHA256()
# How DER spells the AlgorithmIdentifiers of RSA with SHA-1, SHA-256 and SHA-384 (RFC 8017 A.2.4).
RSA_SHA1, RSA_SHA256, RSA_SHA384 = (sequence(object_identifier(1, 2, 840, 113549, 1, 1, last), NULL) for last in (5, 11, 12))
# of ECDSA with SHA-256 (RFC 5758 3.2)
ECDSA_SHA256 = sequence(object_identifier(1, 2, 840, 10045, 4, 3, 2))
TAKEN = "rsa_sha256 rsa_sha384 rsa_sha512 pss_sha256 pss_sha384 pss_sha512 ecdsa_sha256 ecdsa_sha384 ecdsa_sha512 ed25519".split()
OTHERS = "rsa_sha224 rsa_sha3 rsa_1024 pss_salt_20 pss_mask_sha512 ecdsa_sha224 ecdsa_p224 ed448 dsa".split()

CASES = [
    # paths that hold
    (NOW, "root intermediate server", "holds"),
    (NOW, "root root intermediate server", "holds"),
    (NOW, "root intermediate", "holds"),
    (NOW, "root root", "holds"),
    (NOW, "intermediate server", "holds"),
    # of the anchor's certificate nothing but the name and the key is looked at
    (NOW, "root_spoilt intermediate server", "holds"),
    (NOW, "root_bare intermediate server", "holds"),
    # spoilt signatures
    (NOW, "root root_spoilt intermediate server", "fault 0 Signature"),
    (NOW, "root intermediate_spoilt server", "fault 0 Signature"),
    (NOW, "root intermediate server_spoilt", "fault 1 Signature"),
    (NOW, "root root intermediate server_spoilt", "fault 2 Signature"),
    (NOW, "root intermediate_spoilt server_spoilt", "fault 0 Signature"),
    # the first of two faults: the upper one, or of one certificate that with the lower number
    (NOW, "root intermediate_spoilt server_cut", "fault 0 Signature"),
    (NOW, "root intermediate_spoilt server_past", "fault 0 Signature"),
    (NOW, "root intermediate_not_ca server_spoilt", "fault 0 NotCa"),
    (NOW, "root intermediate_cut server_spoilt", "fault 0 Decode"),
    (LAST + 1, "root intermediate_spoilt server", "fault 0 Moment"),
    (NOW, "root_other_name intermediate_spoilt server", "fault 0 Issuer"),
    (NOW, "root intermediate server_critical_spoilt", "fault 1 Signature"),
    (NOW, "root intermediate_not_ca_spoilt server", "fault 0 Signature"),
    (NOW, "root intermediate sub_spoilt server_of_sub", "fault 1 Signature"),
    # bytes that are those of no certificate
    (NOW, "root intermediate_cut server", "fault 0 Decode"),
    (NOW, "root intermediate server_cut", "fault 1 Decode"),
    (NOW, "root intermediate server_behind", "fault 1 Decode"),
    (NOW, "root intermediate_behind server", "fault 0 Decode"),
    (NOW, "root intermediate_cut last_octet_and_server", "fault 0 Decode"),
    (NOW, "root intermediate_and_server", "fault 0 Decode"),
    (NOW, "root intermediate_and_server nothing", "fault 0 Decode"),
    (NOW, "root intermediate nothing", "fault 1 Decode"),
    (NOW, "root nothing intermediate server", "fault 0 Decode"),
    (NOW, "root intermediate server nothing", "fault 1 NotCa"),
    # algorithms
    (NOW, "root intermediate_two_algorithms server", "fault 0 Algorithm"),
    (NOW, "root intermediate_sha1 server", "fault 0 Signature"),
    # names, which are compared as they are spelled
    (NOW, "root_other_name intermediate server", "fault 0 Issuer"),
    (NOW, "root intermediate server_other_issuer", "fault 1 Issuer"),
    (NOW, "root intermediate_printable server", "fault 0 Issuer"),
    (NOW, "root server", "fault 0 Issuer"),
    (NOW, "root server intermediate", "fault 0 Issuer"),
    (NOW, "root intermediate intermediate server", "fault 1 Issuer"),
    # moments
    (FIRST - 1, "root intermediate server", "fault 0 Moment"),
    (FIRST, "root intermediate server", "holds"),
    (LAST, "root intermediate server", "holds"),
    (LAST + 1, "root intermediate server", "fault 0 Moment"),
    (NOW, "root intermediate server_past", "fault 1 Moment"),
    (0, "root intermediate server", "fault 0 Moment"),
    (MOST, "root intermediate server", "fault 0 Moment"),
    # keys
    (NOW, "root_other_key intermediate server", "fault 0 Signature"),
    (NOW, "root_other_type intermediate server", "fault 0 Signature"),
    (NOW, "root_key_spoilt intermediate server", "fault 0 Signature"),
    (NOW, "root_key_with_parameters intermediate server", "fault 0 Signature"),
    (NOW, "root_key_for_pss intermediate server", "fault 0 Signature"),
    (NOW, "intermediate_off_curve server", "fault 0 Signature"),
    (NOW, "intermediate_unknown_key server", "fault 0 Signature"),
    (NOW, "intermediate_x25519 server", "fault 0 Signature"),
    # bits of signatures
    (NOW, "root intermediate server_unused_bit", "fault 1 Signature"),
    (NOW, "root intermediate server_unused_bit_set", "fault 1 Decode"),
    (NOW, "root intermediate server_bits_unreadable", "fault 1 Signature"),
    (NOW, "root intermediate server_no_bits", "fault 1 Signature"),
    # signatures of the right key, made otherwise than the algorithm says
    (NOW, "root intermediate_ecdsa_by_rsa server", "fault 0 Signature"),
    (NOW, "root intermediate_pkcs1_by_pss server", "fault 0 Signature"),
    (NOW, "root intermediate_pss_by_pkcs1 server", "fault 0 Signature"),
    (NOW, "root intermediate_pss_by_other_salt server", "fault 0 Signature"),
    (NOW, "root intermediate_by_sha384 server", "fault 0 Signature"),
    # extensions
    (NOW, "root intermediate_repeated server", "fault 0 Repeated"),
    (NOW, "root intermediate server_critical", "fault 1 Critical"),
    (NOW, "root intermediate server_not_critical", "holds"),
    (NOW, "root intermediate server_known_critical", "holds"),
    (NOW, "root intermediate server_names_unreadable", "fault 1 Critical"),
    (NOW, "root intermediate_name_constraints server", "fault 0 Critical"),
    (NOW, "root intermediate_constraints_unreadable_critical server", "fault 0 Critical"),
    (NOW, "root intermediate_constraints_unreadable server", "fault 0 NotCa"),
    # authorities
    (NOW, "root intermediate_not_ca server", "fault 0 NotCa"),
    (NOW, "root intermediate_no_constraints server", "fault 0 NotCa"),
    (NOW, "root intermediate_not_ca", "holds"),
    (NOW, "root intermediate server server", "fault 1 NotCa"),
    (NOW, "root intermediate_no_key_usage server", "holds"),
    (NOW, "root intermediate_key_usage server", "fault 0 KeyUsage"),
    (NOW, "root intermediate_key_usage", "holds"),
    (NOW, "root intermediate_key_usage_unreadable server", "fault 0 KeyUsage"),
    # lengths of paths
    (NOW, "root intermediate sub server_of_sub", "fault 1 PathLen"),
    (NOW, "root intermediate sub", "holds"),
    (NOW, "root intermediate_1 sub server_of_sub", "holds"),
    (NOW, "root intermediate_1 sub sub_deep server_of_deep", "fault 2 PathLen"),
    (NOW, "root intermediate self_issued server_of_self_issued", "holds"),
    (NOW, "root intermediate self_issued self_issued_sub server_of_sub", "fault 2 PathLen"),
    (NOW, "root intermediate_256 server", "fault 0 Critical"),
    # refusals
    (NOW, "root_cut intermediate server", "refused 2"),
    (NOW, "root_behind intermediate server", "refused 2"),
    (NOW, "nothing intermediate server", "refused 2"),
    (LAST + 1, "root_cut intermediate_spoilt server", "refused 2"),
    (MOST + 1, "root intermediate server", "refused 5"),
    (10**19 - 1, "root intermediate server", "refused 5"),
    (NOW, "root", "refused 6"),
    # each algorithm
    *((NOW, f"{name}_ca {name}", "holds") for name in TAKEN),
    *((NOW, f"{name}_ca {name}_spoilt", "fault 0 Signature") for name in TAKEN),
    *((NOW, f"{name}_ca {name}", "fault 0 Signature") for name in OTHERS),
]


class Party(NamedTuple):
    """Who has a certificate, or gives one."""

    name: str
    key: object


def name_of(party):
    return x509.Name(
        [
            x509.NameAttribute(NameOID.COUNTRY_NAME, "DE"),
            x509.NameAttribute(NameOID.ORGANIZATION_NAME, "Beispiel"),
            x509.NameAttribute(NameOID.COMMON_NAME, party.name),
        ]
    )


def usage_of(*, key_cert_sign):
    """To sign certificates and CRLs, or to sign anything else."""
    return x509.KeyUsage(not key_cert_sign, False, False, False, False, key_cert_sign, key_cert_sign, False, False)


def authority(path_length):
    """The extensions of an authority, each with whether it is critical."""
    return [(x509.BasicConstraints(True, path_length), True), (usage_of(key_cert_sign=True), True)]


def unreadable(oid):
    return x509.UnrecognizedExtension(oid, b"\x01")


def issue(party, issuer, extensions, dates=DATES, digest=SHA256, rsa_padding=None):
    """A certificate with these extensions, and with those that tell keys apart."""
    builder = (
        x509.CertificateBuilder()
        .subject_name(name_of(party))
        .issuer_name(name_of(issuer))
        .public_key(party.key.public_key())
        .serial_number(x509.random_serial_number())
        .not_valid_before(dates[0])
        .not_valid_after(dates[1])
    )
    told = [
        (x509.SubjectKeyIdentifier.from_public_key(party.key.public_key()), False),
        (x509.AuthorityKeyIdentifier.from_issuer_public_key(issuer.key.public_key()), False),
    ]
    for extension, is_critical in extensions + told:
        builder = builder.add_extension(extension, is_critical)
    return builder.sign(issuer.key, digest, rsa_padding=rsa_padding)


def der(certificate):
    return certificate.public_bytes(serialization.Encoding.DER)


def joined(part, algorithm, bits):
    """The DER of a certificate, of its three parts."""
    return sequence(part, algorithm, bit_string(bits))


def spoilt(data):
    """With another bit in the last octet, which is one of the signature."""
    return data[:-1] + bytes([data[-1] ^ 1])


def replaced(data, old, new):
    """With other octets, as many, in the one place where the old ones stand."""
    assert data.count(old) == 1 and len(old) == len(new)
    return data.replace(old, new)


def signed_again(certificate, old, new, key, digest=SHA256):
    """With other octets in the signed part, as many, and a signature of that by RSA, which is as long as the old one."""
    part = replaced(certificate.tbs_certificate_bytes, old, new)
    data = replaced(der(certificate), certificate.tbs_certificate_bytes, part)
    return replaced(data, certificate.signature, key.sign(part, padding.PKCS1v15(), digest))


class Maker:
    def __init__(self):
        self.root = Party("Root", rsa.generate_private_key(65537, 2048))
        self.intermediate = Party("Intermediate", ec.generate_private_key(ec.SECP256R1()))
        self.server = Party("Server", ed25519.Ed25519PrivateKey.generate())
        self.names = x509.SubjectAlternativeName([x509.DNSName("www.example.org")])
        self.serving = [(usage_of(key_cert_sign=False), True)]
        self.files = {"nothing": b""}

    def add(self, name, *arguments, **others):
        certificate = issue(*arguments, **others)
        self.files[name] = der(certificate)
        return certificate

    def add_server(self, name, *extensions, **others):
        return self.add(name, self.server, self.intermediate, self.serving + list(extensions), **others)

    def make_path(self):
        self.add("root", self.root, self.root, authority(None))
        self.add("intermediate", self.intermediate, self.root, authority(0))
        self.add_server("server", (self.names, False))

    def make_spoilt(self):
        for name in ("root", "intermediate", "server", "server_critical", "intermediate_not_ca", "sub"):
            self.files[f"{name}_spoilt"] = spoilt(self.files[name])
        for name in ("root", "intermediate", "server"):
            self.files[f"{name}_cut"] = self.files[name][:-1]
            self.files[f"{name}_behind"] = self.files[name] + b"\0"
        self.files["intermediate_and_server"] = self.files["intermediate"] + self.files["server"]
        self.files["last_octet_and_server"] = self.files["intermediate"][-1:] + self.files["server"]

    def make_roots(self):
        self.add("root_bare", self.root, self.root, [], dates=PAST)
        self.add("root_other_name", Party("Another", self.root.key), self.root, authority(None))
        other = Party("Root", rsa.generate_private_key(65537, 2048))
        self.add("root_other_key", other, other, authority(None))
        self.add("root_other_type", Party("Root", self.intermediate.key), self.root, authority(None))
        # A key of RSA is a SEQUENCE, and no SET.
        front = bytes.fromhex("0382010F00")
        self.files["root_key_spoilt"] = replaced(self.files["root"], front + b"\x30", front + b"\x31")
        # Its algorithm has NULL for parameters (RFC 3279 2.3.1), and no OCTET STRING.
        of_rsa = object_identifier(1, 2, 840, 113549, 1, 1, 1)
        self.files["root_key_with_parameters"] = replaced(self.files["root"], of_rsa + NULL, of_rsa + octet_string())
        # The same key, but for signatures of PSS alone (RFC 4055 1.2): without parameters, two octets shorter.
        usual, other = (bytes.fromhex(it) for it in ("30820122300D06092A864886F70D0101010500", "30820120300B06092A864886F70D01010A"))
        content = x509.load_der_x509_certificate(self.files["root"]).tbs_certificate_bytes[4:]
        assert content.count(usual) == 1
        self.files["root_key_for_pss"] = joined(sequence(content.replace(usual, other)), RSA_SHA256, b"")

    def make_intermediates(self):
        constraints, usage = authority(0)
        only = x509.NameConstraints([x509.DNSName("example.org")], None)
        for name, extensions in {
            "1": authority(1),
            "256": authority(256),
            "not_ca": [(x509.BasicConstraints(False, None), True), usage],
            "no_constraints": [usage],
            "no_key_usage": [constraints],
            "key_usage": [constraints, (usage_of(key_cert_sign=False), True)],
            "key_usage_unreadable": [constraints, (unreadable(ExtensionOID.KEY_USAGE), False)],
            "constraints_unreadable": [(unreadable(ExtensionOID.BASIC_CONSTRAINTS), False), usage],
            "constraints_unreadable_critical": [(unreadable(ExtensionOID.BASIC_CONSTRAINTS), True), usage],
            "name_constraints": [constraints, usage, (only, True)],
        }.items():
            self.add(f"intermediate_{name}", self.intermediate, self.root, extensions)
        self.add("intermediate_x25519", Party("Intermediate", x25519.X25519PrivateKey.generate()), self.root, authority(0))
        point = self.intermediate.key.public_key().public_bytes(serialization.Encoding.X962, serialization.PublicFormat.UncompressedPoint)
        of_curves, of_none = (object_identifier(1, 2, 840, 10045, 2, last) for last in (1, 9))
        self.files["intermediate_off_curve"] = replaced(self.files["intermediate"], point, spoilt(point))
        self.files["intermediate_unknown_key"] = replaced(self.files["intermediate"], of_curves, of_none)

    def make_intermediates_by_hand(self):
        """Those that `cryptography` doesn't make."""
        oids = [x509.ObjectIdentifier(f"1.2.3.{last}") for last in (4, 5)]
        two = [(x509.UnrecognizedExtension(oid, b"\x05\x00"), False) for oid in oids]
        certificate = issue(self.intermediate, self.root, authority(0) + two)
        again = lambda old, new, *digest: signed_again(certificate, old, new, self.root.key, *digest)
        self.files["intermediate_repeated"] = again(object_identifier(1, 2, 3, 5), object_identifier(1, 2, 3, 4))
        self.files["intermediate_printable"] = again(b"\x0c\x04Root", b"\x13\x04Root")
        self.files["intermediate_two_algorithms"] = again(RSA_SHA256, RSA_SHA384)
        self.files["intermediate_sha1"] = replaced(again(RSA_SHA256, RSA_SHA1, hashes.SHA1()), RSA_SHA256, RSA_SHA1)

    def make_other_signatures(self):
        """Signatures that aren't those of their algorithm, and bits that are none."""
        key, sha384 = self.root.key, hashes.SHA384()
        pkcs1 = padding.PKCS1v15()
        pss, shorter = (padding.PSS(padding.MGF1(SHA256), salt) for salt in (32, 20))
        for name, said, done, digest in (
            ("pkcs1_by_pss", pkcs1, pss, SHA256),
            ("pss_by_pkcs1", pss, pkcs1, SHA256),
            ("pss_by_other_salt", pss, shorter, SHA256),
            ("by_sha384", pkcs1, pkcs1, sha384),
        ):
            certificate = issue(self.intermediate, self.root, authority(0), rsa_padding=said)
            bits = key.sign(certificate.tbs_certificate_bytes, done, digest)
            self.files[f"intermediate_{name}"] = replaced(der(certificate), certificate.signature, bits)
        part = issue(self.intermediate, Party("Root", self.intermediate.key), authority(0)).tbs_certificate_bytes
        self.files["intermediate_ecdsa_by_rsa"] = joined(part, ECDSA_SHA256, key.sign(part, pkcs1, SHA256))
        certificate = self.add_server("server_bits_unreadable")
        part, bits = certificate.tbs_certificate_bytes, certificate.signature
        assert joined(part, ECDSA_SHA256, bits) == der(certificate)
        # A signature of ECDSA is a SEQUENCE (RFC 3279 2.2.3), and no SET.
        self.files["server_bits_unreadable"] = joined(part, ECDSA_SHA256, b"\x31" + bits[1:])
        self.files["server_no_bits"] = joined(part, ECDSA_SHA256, b"")

    def make_servers(self):
        unknown = x509.UnrecognizedExtension(x509.ObjectIdentifier("1.2.3.4"), b"\x05\x00")
        usages = x509.ExtendedKeyUsage([ExtendedKeyUsageOID.SERVER_AUTH])
        self.add_server("server_past", (self.names, False), dates=PAST)
        self.add_server("server_critical", (unknown, True))
        self.add_server("server_not_critical", (unknown, False))
        self.add_server("server_known_critical", (self.names, True), (usages, True))
        self.add_server("server_names_unreadable", (unreadable(ExtensionOID.SUBJECT_ALTERNATIVE_NAME), True))
        self.add("server_other_issuer", self.server, Party("Another", self.intermediate.key), self.serving)
        # A signature of ECDSA is another one each time; the last bit may be called unused where it is 0 (X.690 11.2.1).
        for name, bit in (("server_unused_bit", 0), ("server_unused_bit_set", 1)):
            certificate = self.add_server(name)
            while certificate.signature[-1] & 1 != bit:
                certificate = self.add_server(name)
            bits = certificate.signature
            self.files[name] = replaced(self.files[name], b"\0" + bits, b"\1" + bits)

    def make_longer_paths(self):
        sub, deep, self_issued = (Party(name, ec.generate_private_key(ec.SECP256R1())) for name in ("Sub", "Deep", "Intermediate"))
        for name, party, issuer in (
            ("sub", sub, self.intermediate),
            ("sub_deep", deep, sub),
            ("self_issued", self_issued, self.intermediate),
            ("self_issued_sub", sub, self_issued),
        ):
            self.add(name, party, issuer, authority(None))
        for name, issuer in (("sub", sub), ("deep", deep), ("self_issued", self_issued)):
            self.add(f"server_of_{name}", self.server, issuer, self.serving)

    def make_algorithms(self):
        """An authority for each algorithm, with a certificate that it signs."""
        key, small = self.root.key, rsa.generate_private_key(65537, 1024)
        pss = lambda mask, salt: padding.PSS(padding.MGF1(mask), salt)
        sha224, sha384, sha512 = hashes.SHA224(), hashes.SHA384(), hashes.SHA512()
        curve = ec.generate_private_key
        for name, *row in (
            ("rsa_sha256", key, SHA256),
            ("rsa_sha384", key, sha384),
            ("rsa_sha512", key, sha512),
            ("pss_sha256", key, SHA256, pss(SHA256, 32)),
            ("pss_sha384", key, sha384, pss(sha384, 48)),
            ("pss_sha512", key, sha512, pss(sha512, 64)),
            ("ecdsa_sha256", curve(ec.SECP256R1()), SHA256),
            ("ecdsa_sha384", curve(ec.SECP384R1()), sha384),
            ("ecdsa_sha512", curve(ec.SECP521R1()), sha512),
            ("ed25519", ed25519.Ed25519PrivateKey.generate(), None),
            ("rsa_sha224", key, sha224),
            ("rsa_sha3", key, hashes.SHA3_256()),
            ("rsa_1024", small, SHA256),
            ("pss_salt_20", key, SHA256, pss(SHA256, 20)),
            ("pss_mask_sha512", key, SHA256, pss(sha512, 32)),
            ("ecdsa_sha224", self.intermediate.key, sha224),
            ("ecdsa_p224", curve(ec.SECP224R1()), SHA256),
            ("ed448", ed448.Ed448PrivateKey.generate(), None),
            ("dsa", dsa.generate_private_key(2048), SHA256),
        ):
            self.make_algorithm(name, *row)

    def make_algorithm(self, name, key, digest, rsa_padding=None):
        party = Party("Root", key)
        how = {"digest": digest, "rsa_padding": rsa_padding}
        self.add(f"{name}_ca", party, party, authority(None), **how)
        self.add(name, self.server, party, self.serving, **how)
        if name in TAKEN:
            self.files[f"{name}_spoilt"] = spoilt(self.files[name])


def main():
    parser = argparse.ArgumentParser(description=__doc__, formatter_class=argparse.RawDescriptionHelpFormatter)
    parser.add_argument("folder", metavar="FOLDER", type=pathlib.Path, help="where the files go")
    folder = parser.parse_args().folder
    folder.mkdir(parents=True, exist_ok=True)
    maker = Maker()
    maker.make_path()
    maker.make_roots()
    maker.make_intermediates()
    maker.make_intermediates_by_hand()
    maker.make_other_signatures()
    maker.make_servers()
    maker.make_longer_paths()
    maker.make_spoilt()
    maker.make_algorithms()
    for name, data in maker.files.items():
        (folder / f"{name}.der").write_bytes(data)
    rows = ((moment, " ".join(f"{name}.der" for name in names.split()), line, int(line != "holds")) for moment, names, line in CASES)
    (folder / "cases.txt").write_text("".join("\t".join(map(str, row)) + "\n" for row in rows))


if __name__ == "__main__":
    main()
