"""A program that uses the package as its users do, which `mypy --strict` takes (test_types.py), and which runs."""

from __future__ import annotations

import datetime
from typing import assert_type

from cryptography.hazmat.primitives import hashes
from cryptography.hazmat.primitives.asymmetric import ec, ed25519, padding, rsa
from cryptography.hazmat.primitives.serialization import Encoding

import x509_cert as x509

NOW = datetime.datetime(2030, 1, 1, tzinfo=datetime.timezone.utc)


def certificates() -> x509.Certificate:
    key = ec.generate_private_key(ec.SECP256R1())
    name = x509.Name([x509.NameAttribute(x509.NameOID.COMMON_NAME, "a"), x509.NameAttribute(x509.NameOID.COUNTRY_NAME, "DE")])
    builder = x509.CertificateBuilder().serial_number(x509.random_serial_number()).issuer_name(name).subject_name(name)
    builder = builder.public_key(key.public_key()).not_valid_before(NOW).not_valid_after(NOW)
    builder = builder.add_extension(x509.SubjectKeyIdentifier.from_public_key(key.public_key()), critical=False)
    builder.sign(ed25519.Ed25519PrivateKey.generate(), None)
    builder.sign(rsa.generate_private_key(65537, 2048), hashes.SHA256(), rsa_padding=padding.PKCS1v15())
    builder.sign(private_key=key, algorithm=hashes.SHA256())
    builder.sign(x509.SignatureAlgorithm.ED25519, lambda part: bytes(64))
    builder.sign(x509.SignatureAlgorithm.ED25519.public_bytes(), lambda part: bytes(64))
    return builder.sign(key, hashes.SHA256())


def reading(certificate: x509.Certificate) -> None:
    assert_type(certificate.fingerprint(hashes.SHA256()), bytes)
    assert certificate.fingerprint("sha256") == certificate.fingerprint(hashes.SHA256())
    assert certificate.public_bytes(Encoding.PEM) == certificate.public_bytes(x509.Encoding.PEM)
    certificate.verify_directly_issued_by(certificate)
    assert_type(x509.check_path(certificate, [certificate], NOW), list[x509.Certificate])
    x509.check_path(certificate.public_bytes(), [certificate.public_bytes()], NOW)
    found = certificate.extensions.get_extension_for_class(x509.SubjectKeyIdentifier)
    assert_type(found.value, x509.SubjectKeyIdentifier)
    assert_type(certificate.public_key_info.key_size, "int | None")
    assert_type(x509.lint(certificate), list[x509.Finding])
    assert_type(x509.lint(x509.load_der_trust_anchor(certificate.public_bytes())), list[x509.Finding])


def values() -> None:
    assert_type(x509.SubjectAlternativeName([x509.DNSName("a")])[0], x509.GeneralName)
    assert_type(x509.SubjectAlternativeName([x509.DNSName("a")])[:1], list[x509.GeneralName])
    assert_type(x509.TLSFeature([x509.TLSFeatureType.status_request])[0], "x509.TLSFeatureType | int")
    assert_type(x509.ExtendedKeyUsage([x509.ExtendedKeyUsageOID.SERVER_AUTH])[0], x509.ObjectIdentifier)
    place = [x509.UniformResourceIdentifier("http://a.example")]
    point = x509.DistributionPoint(place, None, frozenset([x509.ReasonFlags.key_compromise]), None)
    assert point.reasons == frozenset([x509.ReasonFlags("keyCompromise"), x509.ReasonFlags(1)])
    notice = x509.UserNotice(x509.NoticeReference("a", [1]), "b")
    x509.CertificatePolicies([x509.PolicyInformation(x509.CertificatePoliciesOID.ANY_POLICY, ["https://a.example", notice])])


def lists() -> None:
    key = ec.generate_private_key(ec.SECP256R1())
    entry = x509.RevokedCertificateBuilder().serial_number(5).revocation_date(NOW).build()
    builder = x509.CertificateRevocationListBuilder().issuer_name(x509.Name([])).last_update(NOW).crl_number(1)
    crl = builder.add_revoked_certificate(entry).sign(key, hashes.SHA256())
    assert_type(crl[0], x509.RevokedCertificate)
    assert_type(crl[0:1], list[x509.RevokedCertificate])
    assert crl.is_signature_valid(key.public_key()) and crl.is_signature_valid(x509.PublicKey(certificates().public_key_bytes)) is False
    csr = x509.CertificateSigningRequestBuilder().subject_name(x509.Name([])).sign(key, hashes.SHA256())
    assert_type(csr.is_signature_valid, bool)


def finding(certificate: x509.Certificate) -> None:
    asked = x509.Revocation([], certificates=[certificate], scope=x509.RevocationScope.leaf, allows_undetermined=True)
    found = x509.find_path([certificate], [certificate.public_bytes()], certificate, NOW, revocation=asked)
    assert_type(found.statuses, tuple[x509.RevocationStatus, ...])
    store = x509.verification.Store([certificate])
    verifier = x509.verification.PolicyBuilder().store(store).time(NOW).revocation(asked).build_server_verifier("a.example")
    try:
        assert_type(verifier.verify(certificate, [certificate]), list[x509.Certificate])
    except x509.verification.VerificationError as refused:
        assert_type(refused.fault, "x509.PathFault | None")
        assert_type(refused.revocation, "x509.RevocationFault | None")


def main() -> None:
    reading(certificates())
    finding(certificates())
    values()
    lists()
    print("done")


if __name__ == "__main__":
    main()
