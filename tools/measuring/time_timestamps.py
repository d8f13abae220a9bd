#!/usr/bin/env python3
"""Counts the instructions of calls for clients of logs (RFC 6962), by valgrind's callgrind, beside what OpenSSL takes for the same.

LIBRARY is `libx509.so`, as `tools/build/link_c_library.sh` makes it. The certificate is made by Python's `cryptography`: of some 1,400 bytes, with the
extensions of a server of the web and the SCTs of two logs, under a key of RSA with 2,048 bits; its issuer has such a key too. `timestamps.c` makes each call
once and 101 times, compiled here by $CC over libcrypto 3 with its headers; a hundredth of the difference is what is printed. That leaves out the start of the
process, what the first call prepares, and the reading of files.

OpenSSL doesn't give away the octets that are signed. SCT_validate is asked with a moment before the SCT's, so that it ends behind the signed part, which it
cuts out of a copy of the certificate, and in front of the digest and the signature; the key in that copy is decoded too. The library is given the DER of both
certificates, and puts the octets together.
"""
import argparse
import base64
import datetime
import hashlib
import os
import pathlib
import re
import subprocess
import sys
import tempfile

from cryptography import x509
from cryptography.hazmat.primitives import hashes, serialization
from cryptography.hazmat.primitives.asymmetric import ec, rsa

HERE = pathlib.Path(__file__).resolve().parent
DER = serialization.Encoding.DER
DATES = (datetime.datetime(2026, 1, 1), datetime.datetime(2026, 3, 1))
LIST = x509.ObjectIdentifier("1.3.6.1.4.1.11129.2.4.2")
MOMENT = 1_767_225_600_123
HEIGHT, INDEX = 30, 715_827_882
ROWS = [
    ("logged_part", "x509_logged_part, the signed part without the list of SCTs, from DER"),
    ("signed_data", "x509_timestamp_signed_data, the octets that an SCT is a signature of, from the DER of both certificates"),
    ("validate", "openssl, SCT_validate up to the digest, of certificates that are decoded"),
    ("decode", "openssl, d2i_X509 of both certificates, and the list of SCTs"),
    ("inclusion", f"x509_merkle_inclusion in a tree of 2^{HEIGHT} leaves"),
    ("nodes", f"openssl, SHA256 of {HEIGHT} nodes"),
]


def public_info(key):
    return key.public_key().public_bytes(DER, serialization.PublicFormat.SubjectPublicKeyInfo)


def vector(size, octets):
    """A vector of TLS, whose length stands in so many octets in front."""
    return len(octets).to_bytes(size, "big") + octets


def name(text):
    return x509.Name([x509.NameAttribute(x509.NameOID.COUNTRY_NAME, "DE"), x509.NameAttribute(x509.NameOID.COMMON_NAME, text)])


def made(subject, key, issuer, above, *extensions):
    builder = x509.CertificateBuilder(name(issuer), name(subject), key.public_key(), 0x1234_5678_9ABC_DEF0_1234_5678_9ABC_DEF0, *DATES)
    for it, is_critical in extensions:
        builder = builder.add_extension(it, is_critical)
    return builder.sign(above, hashes.SHA256())


def server(key, above, *marks):
    """A certificate as servers of the web have it."""
    place = "http://authority.example/"
    usages = dict.fromkeys(("content_commitment", "data_encipherment", "key_agreement", "key_cert_sign", "crl_sign", "encipher_only", "decipher_only"), False)
    hosts = x509.SubjectAlternativeName([x509.DNSName(it + ".example.org") for it in ("www", "mail", "shop", "static", "images")])
    access = [
        x509.AccessDescription(x509.AuthorityInformationAccessOID.OCSP, x509.UniformResourceIdentifier(place + "ocsp")),
        x509.AccessDescription(x509.AuthorityInformationAccessOID.CA_ISSUERS, x509.UniformResourceIdentifier(place + "issuer.crt")),
    ]
    point = x509.DistributionPoint([x509.UniformResourceIdentifier(place + "list.crl")], None, None, None)
    policy = x509.PolicyInformation(x509.ObjectIdentifier("2.23.140.1.2.1"), None)
    return made(
        "www.example.org",
        key,
        "Authority",
        above,
        (x509.KeyUsage(digital_signature=True, key_encipherment=True, **usages), True),
        (x509.ExtendedKeyUsage([x509.ExtendedKeyUsageOID.SERVER_AUTH, x509.ExtendedKeyUsageOID.CLIENT_AUTH]), False),
        (x509.BasicConstraints(False, None), True),
        (x509.SubjectKeyIdentifier.from_public_key(key.public_key()), False),
        (x509.AuthorityKeyIdentifier.from_issuer_public_key(above.public_key()), False),
        (x509.AuthorityInformationAccess(access), False),
        (hosts, False),
        (x509.CertificatePolicies([policy]), False),
        (x509.CRLDistributionPoints([point]), False),
        *((it, False) for it in marks),
    )


def timestamp(log, part, above):
    """An SCT of the log, over the part of the certificate of that issuer (RFC 6962 3.2)."""
    moment = MOMENT.to_bytes(8, "big")
    entry = b"\x00\x01" + hashlib.sha256(public_info(above)).digest() + vector(3, part)
    signature = log.sign(b"\x00\x00" + moment + entry + b"\x00\x00", ec.ECDSA(hashes.SHA256()))
    return b"\x00" + hashlib.sha256(public_info(log)).digest() + moment + b"\x00\x00" + b"\x04\x03" + vector(2, signature)


def audit_path():
    """The hash of a leaf, the root of a tree, and the audit path of the leaf (RFC 6962 2.1, 2.1.1)."""
    leaf = hashlib.sha256(b"\x00leaf").digest()
    root, hashes_of_path = leaf, []
    for level in range(HEIGHT):
        other = hashlib.sha256(b"\x01%d" % level).digest()
        hashes_of_path.append(other)
        root = hashlib.sha256(b"\x01" + (other + root if INDEX >> level & 1 else root + other)).digest()
    return leaf + root + b"".join(hashes_of_path)


def make_files(folder):
    """Makes what is measured; how many bytes the certificate has."""
    above, key = rsa.generate_private_key(65537, 2048), rsa.generate_private_key(65537, 2048)
    logs = [ec.generate_private_key(ec.SECP256R1()) for _ in range(2)]
    part = server(key, above).tbs_certificate_bytes
    timestamps = [timestamp(log, part, above) for log in logs]
    members = vector(2, b"".join(vector(2, it) for it in timestamps))
    certificate = server(key, above, x509.UnrecognizedExtension(LIST, b"\x04\x82" + vector(2, members))).public_bytes(DER)
    identifier = x509.SubjectKeyIdentifier.from_public_key(above.public_key())
    issuer = made("Authority", above, "Root", above, (x509.BasicConstraints(True, 0), True), (identifier, False))
    key_text = base64.b64encode(public_info(logs[0])).decode()
    for file, octets in (
        ("certificate.der", certificate),
        ("issuer.der", issuer.public_bytes(DER)),
        ("sct.bin", timestamps[0]),
        ("path.bin", audit_path()),
        ("logs.cnf", f"enabled_logs=log\n[log]\ndescription = log\nkey = {key_text}\n".encode()),
    ):
        (folder / file).write_bytes(octets)
    return len(certificate)


def counted(words, count):
    """How many instructions the program takes that makes so many calls."""
    ended = subprocess.run(
        ["valgrind", "--tool=callgrind", "--callgrind-out-file=/dev/null", *words, str(count)], capture_output=True, text=True, check=False
    )
    found = re.search(r"Collected : (\d+)", ended.stderr)
    if ended.returncode or found is None:
        raise SystemExit(f"failed: {words[3]}: {ended.stderr}")
    return int(found[1])


def main():
    parser = argparse.ArgumentParser(description=__doc__, formatter_class=argparse.RawDescriptionHelpFormatter)
    parser.add_argument("library", metavar="LIBRARY", type=pathlib.Path)
    library = parser.parse_args().library.resolve()
    with tempfile.TemporaryDirectory() as name_of:
        folder = pathlib.Path(name_of)
        program = folder / "timestamps"
        words = [os.environ.get("CC", "cc"), "-std=gnu11", "-O2", "-I", HERE.parents[1] / "include", HERE / "timestamps.c", "-lcrypto", "-ldl", "-o", program]
        subprocess.run(words, check=True)
        print(f"a certificate of {make_files(folder):,} bytes with two SCTs")
        for what, text in ROWS:
            asked = [program, library, folder, what]
            print(f"{(counted(asked, 101) - counted(asked, 1)) // 100:>9,} {text}", flush=True)


if __name__ == "__main__":
    sys.exit(main())
