#!/usr/bin/env python3
"""Makes the certificate, the list and the request of the examples, and what the examples print of them, by Python's `cryptography`."""
import argparse
import datetime
import ipaddress
import pathlib

from cryptography import x509
from cryptography.hazmat.primitives import hashes, serialization
from cryptography.hazmat.primitives.asymmetric import ec
from cryptography.x509.oid import AttributeOID, ExtensionOID, NameOID

HERE = pathlib.Path(__file__).parent
UTC = datetime.timezone.utc
USAGES = [
    ("digital_signature", "digitalSignature"),
    ("content_commitment", "nonRepudiation"),
    ("key_encipherment", "keyEncipherment"),
    ("data_encipherment", "dataEncipherment"),
    ("key_agreement", "keyAgreement"),
    ("key_cert_sign", "keyCertSign"),
    ("crl_sign", "cRLSign"),
]


def make_name():
    return x509.Name(
        [
            x509.NameAttribute(NameOID.COUNTRY_NAME, "DE"),
            x509.NameAttribute(NameOID.ORGANIZATION_NAME, "Beispiel, Söhne & Co"),
            x509.NameAttribute(NameOID.COMMON_NAME, "www.example.org"),
        ]
    )


def make(key):
    name = make_name()
    names = [
        x509.DNSName("www.example.org"),
        x509.DNSName("example.org"),
        x509.RFC822Name("post@example.org"),
        x509.IPAddress(ipaddress.ip_address("192.0.2.7")),
    ]
    usage = x509.KeyUsage(True, False, True, False, False, False, False, False, False)
    return (
        x509.CertificateBuilder()
        .subject_name(name)
        .issuer_name(name)
        .public_key(key.public_key())
        .serial_number(0x1234567890ABCDEF)
        .not_valid_before(datetime.datetime(2026, 1, 2, 3, 4, 5, tzinfo=UTC))
        .not_valid_after(datetime.datetime(2055, 6, 7, 8, 9, 10, tzinfo=UTC))
        .add_extension(usage, critical=True)
        .add_extension(x509.SubjectAlternativeName(names), critical=False)
        .sign(key, hashes.SHA256())
    )


def make_list(key, certificate):
    builder = (
        x509.CertificateRevocationListBuilder()
        .issuer_name(certificate.issuer)
        .last_update(datetime.datetime(2026, 2, 1, tzinfo=UTC))
        .next_update(datetime.datetime(2026, 3, 1, tzinfo=UTC))
    )
    for number, reason in ((1, None), (certificate.serial_number, x509.ReasonFlags.key_compromise), (3, None)):
        entry = x509.RevokedCertificateBuilder().serial_number(number)
        entry = entry.revocation_date(datetime.datetime(2026, 1, 20, 10, 0, 0, tzinfo=UTC))
        if reason is not None:
            entry = entry.add_extension(x509.CRLReason(reason), critical=False)
        builder = builder.add_revoked_certificate(entry.build())
    return builder.sign(key, hashes.SHA256())


def make_request(key):
    """A request that asks for an extension, and gives a password (RFC 2985 5.4.1)."""
    request = (
        x509.CertificateSigningRequestBuilder()
        .subject_name(make_name())
        .add_extension(x509.SubjectAlternativeName([x509.DNSName("www.example.org")]), critical=False)
        .add_attribute(AttributeOID.CHALLENGE_PASSWORD, b"password")
        .sign(key, hashes.SHA256())
    )
    assert request.is_signature_valid
    return request


def general_name(name):
    if isinstance(name, x509.DNSName):
        return "DNS:" + name.value
    if isinstance(name, x509.RFC822Name):
        return "email:" + name.value
    return "IP:" + str(name.value)


def expected(certificate):
    extensions = certificate.extensions
    usage = extensions.get_extension_for_oid(ExtensionOID.KEY_USAGE)
    names = extensions.get_extension_for_oid(ExtensionOID.SUBJECT_ALTERNATIVE_NAME)
    set_usages = [text for field, text in USAGES if getattr(usage.value, field)]
    form = "%Y-%m-%dT%H:%M:%SZ"
    return "".join(
        line + "\n"
        for line in (
            "subject: " + certificate.subject.rfc4514_string(),
            "not before: " + certificate.not_valid_before_utc.strftime(form),
            "not after: " + certificate.not_valid_after_utc.strftime(form),
            "key usage: " + ("critical, " if usage.critical else "") + " ".join(set_usages),
            "alternative names: " + ("critical, " if names.critical else "") + " ".join(map(general_name, names.value)),
            "written again: the same bytes",
        )
    )


def main():
    argparse.ArgumentParser(description=__doc__).parse_args()
    key = ec.generate_private_key(ec.SECP256R1())
    certificate = make(key)
    (HERE / "certificate.der").write_bytes(certificate.public_bytes(serialization.Encoding.DER))
    (HERE / "list.der").write_bytes(make_list(key, certificate).public_bytes(serialization.Encoding.DER))
    (HERE / "request.der").write_bytes(make_request(key).public_bytes(serialization.Encoding.DER))
    (HERE / "expected.txt").write_text(expected(certificate), encoding="utf-8")


if __name__ == "__main__":
    main()
