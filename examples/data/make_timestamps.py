#!/usr/bin/env python3
"""Makes certificates with timestamps (SCTs) by Python's `cryptography`, and states by hand what is to be said of them (RFC 6962 3.2, 3.3).

issuer.der, certificate.der    the certificate has four timestamps: of an EC log and an RSA log, which sign; of the first over another moment; of an unknown
                               version
good.der                       the same with the first two
ec.der, rsa.der                the keys of the logs, each a SubjectPublicKeyInfo
all.txt, good.txt, known.txt   what is printed of certificate.der with both keys, of good.der with both, and of good.der with that of the EC log alone
"""
import argparse
import datetime
import hashlib
import pathlib

from cryptography import x509
from cryptography.hazmat.primitives import hashes, serialization
from cryptography.hazmat.primitives.asymmetric import ec, padding, rsa

DATES = (datetime.datetime(2026, 1, 1), datetime.datetime(2026, 3, 1))
LIST = x509.ObjectIdentifier("1.3.6.1.4.1.11129.2.4.2")
# milliseconds since 1970-01-01T00:00:00Z
MOMENT = 1_767_225_600_123


def public_info(key):
    return key.public_key().public_bytes(serialization.Encoding.DER, serialization.PublicFormat.SubjectPublicKeyInfo)


def vector(size, octets):
    """A vector of TLS, whose length stands in so many octets in front."""
    return len(octets).to_bytes(size, "big") + octets


def octet_string(octets):
    length = len(octets)
    return b"\x04" + (bytes([length]) if length < 128 else b"\x82" + length.to_bytes(2, "big")) + octets


def issue(key, *extensions):
    name = x509.Name([x509.NameAttribute(x509.NameOID.COMMON_NAME, "Authority")])
    builder = x509.CertificateBuilder().subject_name(name).issuer_name(name).public_key(key.public_key()).serial_number(7)
    builder = builder.not_valid_before(DATES[0]).not_valid_after(DATES[1]).add_extension(x509.BasicConstraints(False, None), True)
    for it in extensions:
        builder = builder.add_extension(it, False)
    return builder.sign(key, hashes.SHA256())


def timestamped(key, timestamps):
    value = octet_string(vector(2, b"".join(vector(2, it) for it in timestamps)))
    return issue(key, x509.UnrecognizedExtension(LIST, value))


def timestamp(log, entry, moment=MOMENT, signed_moment=MOMENT, extensions=b""):
    """A timestamp of an entry, signed over the second moment."""
    message = b"\x00\x00" + signed_moment.to_bytes(8, "big") + entry + vector(2, extensions)
    if isinstance(log, rsa.RSAPrivateKey):
        algorithm, signature = b"\x04\x01", log.sign(message, padding.PKCS1v15(), hashes.SHA256())
    else:
        algorithm, signature = b"\x04\x03", log.sign(message, ec.ECDSA(hashes.SHA256()))
    log_id = hashlib.sha256(public_info(log)).digest()
    return b"\x00" + log_id + moment.to_bytes(8, "big") + vector(2, extensions) + algorithm + vector(2, signature)


def main():
    parser = argparse.ArgumentParser(description=__doc__, formatter_class=argparse.RawDescriptionHelpFormatter)
    parser.add_argument("folder", type=pathlib.Path)
    folder = parser.parse_args().folder
    folder.mkdir(parents=True, exist_ok=True)
    key, logs = ec.generate_private_key(ec.SECP256R1()), (ec.generate_private_key(ec.SECP256R1()), rsa.generate_private_key(65537, 2048))
    # the TBSCertificate is the same without the list, whatever that holds
    part = timestamped(key, []).tbs_precertificate_bytes
    entry = b"\x00\x01" + hashlib.sha256(public_info(key)).digest() + vector(3, part)
    good = [timestamp(logs[0], entry), timestamp(logs[1], entry, extensions=b"\xab\xcd")]
    others = [timestamp(logs[0], entry, signed_moment=MOMENT + 1), b"\x01\x02\x03"]
    made = {"issuer": issue(key), "certificate": timestamped(key, good + others), "good": timestamped(key, good)}
    for name, certificate in made.items():
        (folder / f"{name}.der").write_bytes(certificate.public_bytes(serialization.Encoding.DER))
    ids = []
    for name, log in zip(("ec", "rsa"), logs):
        (folder / f"{name}.der").write_bytes(public_info(log))
        ids.append(hashlib.sha256(public_info(log)).hexdigest())
    signed = [f"{it} {MOMENT} signed\n" for it in ids]
    (folder / "good.txt").write_text("".join(signed))
    (folder / "known.txt").write_text(f"{signed[0]}{ids[1]} {MOMENT} unknown log\n")
    (folder / "all.txt").write_text("".join(signed) + f"{ids[0]} {MOMENT} not signed\nunknown version\n")


if __name__ == "__main__":
    main()
