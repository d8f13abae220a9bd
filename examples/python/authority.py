"""A small authority: a root (RSA), an intermediate (P-256), a server (Ed25519) by its CSR, and a CRL that revokes the server, made with the package `x509_cert`
and with keys of `cryptography`, which signs.

It writes root.pem, intermediate.pem, server.pem and request.pem into the folder, with the CRLs before.pem, which is empty, and after.pem.

usage: X509_LIBRARY=.../libx509.so PYTHONPATH=bindings/python/src python3 examples/python/authority.py FOLDER
"""

from __future__ import annotations

import datetime
import pathlib
import sys

from cryptography.hazmat.primitives import hashes
from cryptography.hazmat.primitives.asymmetric import ec, ed25519, rsa

import x509_cert as x509

START = datetime.datetime(2026, 1, 1, tzinfo=datetime.timezone.utc)
END = datetime.datetime(2035, 12, 31, 23, 59, 59, tzinfo=datetime.timezone.utc)
SERVER_SERIAL = 0x1234567890ABCDEF


def hash_of(key: object) -> hashes.HashAlgorithm | None:
    """The hash that a key signs by; Ed25519 has its own."""
    return None if isinstance(key, ed25519.Ed25519PrivateKey) else hashes.SHA256()


def name_of(common_name: str) -> x509.Name:
    """A name of values, which stay values, whatever is in them."""
    values = ((x509.NameOID.COUNTRY_NAME, "US"), (x509.NameOID.ORGANIZATION_NAME, "Test"), (x509.NameOID.COMMON_NAME, common_name))
    return x509.Name([x509.NameAttribute(oid, value) for oid, value in values])


def certificate(serial: int, issuer: x509.Name, issuer_key: object, subject: x509.Name, public_key: object, extensions: list) -> x509.Certificate:
    """A certificate with these extensions behind the AKI."""
    aki = x509.AuthorityKeyIdentifier.from_issuer_public_key(issuer_key.public_key())
    builder = x509.CertificateBuilder().serial_number(serial).issuer_name(issuer).subject_name(subject).public_key(public_key)
    builder = builder.not_valid_before(START).not_valid_after(END).add_extension(aki, critical=False)
    for value, critical in extensions:
        builder = builder.add_extension(value, critical)
    return builder.sign(issuer_key, hash_of(issuer_key))


def of_authority(serial: int, issuer: x509.Name, issuer_key: object, subject: x509.Name, key: object, path_length: int | None) -> x509.Certificate:
    extensions = [
        (x509.BasicConstraints(ca=True, path_length=path_length), True),
        (x509.KeyUsage(key_cert_sign=True, crl_sign=True), True),
        (x509.SubjectKeyIdentifier.from_public_key(key.public_key()), False),
    ]
    return certificate(serial, issuer, issuer_key, subject, key.public_key(), extensions)


def of_server(issuer: x509.Name, issuer_key: object, request: x509.CertificateSigningRequest) -> x509.Certificate:
    """The certificate for the subject and the key of a CSR, with the extensions that it asks for."""
    if not request.is_signature_valid:
        raise ValueError("the CSR isn't signed by its own key")
    extensions = [
        (x509.BasicConstraints(ca=False, path_length=None), True),
        (x509.KeyUsage(digital_signature=True), True),
        (x509.ExtendedKeyUsage([x509.ExtendedKeyUsageOID.SERVER_AUTH]), False),
    ]
    extensions += [(it.value, it.critical) for it in request.extensions]
    return certificate(SERVER_SERIAL, issuer, issuer_key, request.subject, request.public_key(), extensions)


def request_of(subject: x509.Name, key: object, host: str) -> x509.CertificateSigningRequest:
    names = x509.SubjectAlternativeName([x509.DNSName(host)])
    return x509.CertificateSigningRequestBuilder().subject_name(subject).add_extension(names, critical=False).sign(key, hash_of(key))


def crl_of(issuer: x509.Certificate, key: object, number: int, revoked: list[int]) -> x509.CertificateRevocationList:
    builder = x509.CertificateRevocationListBuilder().issuer(issuer).crl_number(number).last_update(START).next_update(END)
    for serial in revoked:
        reason = x509.CRLReason(x509.ReasonFlags.key_compromise)
        entry = x509.RevokedCertificateBuilder().serial_number(serial).revocation_date(START).add_extension(reason, critical=False)
        builder = builder.add_revoked_certificate(entry.build())
    return builder.sign(key, hash_of(key))


def main() -> None:
    folder = pathlib.Path(sys.argv[1])
    folder.mkdir(parents=True, exist_ok=True)
    root_key = rsa.generate_private_key(public_exponent=65537, key_size=2048)
    middle_key, server_key = ec.generate_private_key(ec.SECP256R1()), ed25519.Ed25519PrivateKey.generate()
    root_name, middle_name = name_of("Root"), name_of("Intermediate")
    root = of_authority(1, root_name, root_key, root_name, root_key, None)
    middle = of_authority(2, root_name, root_key, middle_name, middle_key, 0)
    request = request_of(x509.Name([x509.NameAttribute(x509.NameOID.COMMON_NAME, "www.example.org")]), server_key, "www.example.org")
    server = of_server(middle_name, middle_key, request)
    before, after = (crl_of(middle, middle_key, number, revoked) for number, revoked in ((1, []), (2, [SERVER_SERIAL])))
    middle.verify_directly_issued_by(root)
    made = {"root": root, "intermediate": middle, "server": server, "request": request, "before": before, "after": after}
    for name, it in made.items():
        (folder / f"{name}.pem").write_bytes(it.public_bytes(x509.Encoding.PEM))


if __name__ == "__main__":
    main()
