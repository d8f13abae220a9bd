"""Says all that certificates have, each in DER or in PEM: their fields, their key, their signature, and what each extension holds. `examples/c/facts.c` and
`bindings/rust/examples/facts.rs` say the same.

usage: X509_LIBRARY=.../libx509.so PYTHONPATH=bindings/python/src python3 examples/python/facts.py CERTIFICATE..
"""

from __future__ import annotations

import datetime
import ipaddress
import pathlib
import re
import sys
from typing import Iterable, Iterator

import x509_cert as x509

# the names of the usages of a key (RFC 5280 4.2.1.3), and of the reasons of a point (4.2.1.13), in their order
USES = {
    "digital_signature": "digitalSignature",
    "content_commitment": "nonRepudiation",
    "key_encipherment": "keyEncipherment",
    "data_encipherment": "dataEncipherment",
    "key_agreement": "keyAgreement",
    "key_cert_sign": "keyCertSign",
    "crl_sign": "cRLSign",
    "encipher_only": "encipherOnly",
    "decipher_only": "decipherOnly",
}
REASONS = (
    "unused keyCompromise cACompromise affiliationChanged superseded cessationOfOperation certificateHold privilegeWithdrawn aACompromise"
).split()

# what ends a line, turns its order round, or controls something else
HIDDEN = re.compile("[\0-\x1f\x7f-\x9f\u061c\u200e\u200f\u2028-\u202e\u2066-\u2069]")


def visible(text: str) -> str:
    """A text of a certificate, in which no character ends the line or turns its order round."""
    return HIDDEN.sub(lambda found: f"\\u{{{ord(found[0]):x}}}", text)


def load(data: bytes) -> x509.Certificate:
    return x509.load_pem_x509_certificate(data) if data.lstrip().startswith(b"-----") else x509.load_der_x509_certificate(data)


def moment(time: datetime.datetime) -> str:
    return f"{time:%Y-%m-%dT%H:%M:%SZ}"


def octets_of(number: int) -> str:
    """The content octets of the INTEGER of a number that isn't negative, in hex."""
    return number.to_bytes(number.bit_length() // 8 + 1, "big").hex(":").upper()


def name_facts(what: str, name: x509.Name) -> Iterator[str]:
    yield f"{what}: {visible(name.rfc4514_string())}"
    for it in name:
        value = visible(it.value) if isinstance(it.value, str) else f"#{it.element.hex()}"
        yield f"  {it.oid.dotted_string}: {value}"


def unique_id(what: str, found: x509.UniqueIdentifier | None) -> Iterator[str]:
    if found is not None:
        yield f"{what}'s unique identifier: {found.bits.hex()}, {found.unused_bits} bits unused"


def key_facts(key: x509.PublicKey) -> Iterator[str]:
    """The numbers aren't said where they can't be read."""
    is_rsa = key.kind in (x509.KeyKind.rsa, x509.KeyKind.rsa_pss)
    try:
        numbers = (key.modulus, key.exponent)
    except x509.X509Error:
        numbers = (None, None)
    yield f"key: {key.algorithm_oid.dotted_string}, {'none' if key.key_size is None else key.key_size} bits"
    yield from (f"{what}: {octets_of(number)}" for what, number in zip(("modulus", "exponent"), numbers) if number is not None)
    if key.curve_oid is not None:
        yield f"curve: {key.curve_oid.dotted_string}"
    if not is_rsa:
        yield f"bits: {key.bits.hex()}" if key.point is None else f"point: {key.point.hex()}"


def address_of(value: object) -> str:
    """Of IPv4 as it is written, and of all else the octets: an address has a mask behind it in name constraints."""
    if isinstance(value, ipaddress.IPv4Address):
        return str(value)
    if isinstance(value, (ipaddress.IPv4Network, ipaddress.IPv6Network)):
        return (value.network_address.packed + value.netmask.packed).hex()
    return (value.packed if isinstance(value, ipaddress.IPv6Address) else value).hex()


def party_of(name: x509.EDIPartyName) -> str:
    try:
        return f"{visible(name.party_name)} of {'none' if name.name_assigner is None else visible(name.name_assigner)}"
    except x509.X509Error:
        return name.value.hex()


def name_of(name: x509.GeneralName) -> str:
    match name:
        case x509.OtherName():
            return f"other {name.type_id.dotted_string} {name.data.hex()}"
        case x509.RFC822Name():
            return f"email {visible(name.value)}"
        case x509.DNSName():
            return f"dns {visible(name.value)}"
        case x509.DirectoryName():
            return f"name {visible(name.value.rfc4514_string())}"
        case x509.UniformResourceIdentifier():
            return f"uri {visible(name.value)}"
        case x509.IPAddress():
            return f"ip {address_of(name.value)}"
        case x509.RegisteredID():
            return f"id {name.value.dotted_string}"
        case x509.EDIPartyName():
            return f"edi {party_of(name)}"
    raise ValueError("a name of another kind")


def authority_key(value: x509.AuthorityKeyIdentifier) -> Iterator[str]:
    if value.key_identifier is not None:
        yield f"key {value.key_identifier.hex()}"
    yield from (f"issuer {name_of(it)}" for it in value.authority_cert_issuer or ())
    number = value.authority_cert_serial_number
    if number is not None:
        size = (number + (number < 0)).bit_length() // 8 + 1
        yield f"serial number {number.to_bytes(size, 'big', signed=True).hex(':').upper()}"


def points_of(value: x509.CRLDistributionPoints | x509.FreshestCRL) -> Iterator[str]:
    for point in value:
        yield "point"
        yield from (f"at {name_of(it)}" for it in point.full_name or ())
        yield from (f"at {it.oid.dotted_string} {it.element.hex()}" for it in point.relative_name or ())
        if point.reasons is not None:
            yield f"for {' '.join(it for it in REASONS if it in point.reasons)}"
        yield from (f"issued by {name_of(it)}" for it in point.crl_issuer or ())


def qualifier_of(it: x509.PolicyQualifier) -> Iterator[str]:
    if isinstance(it, x509.CPSPointer):
        yield f"practice statement {visible(it)}"
    elif isinstance(it, x509.UserNotice):
        if it.notice_reference is not None:
            numbers = "".join(f" {octets_of(number)}" for number in it.notice_reference.notice_numbers)
            yield f"notices of {visible(it.notice_reference.organization)}:{numbers}"
        if it.explicit_text is not None:
            yield f"notice {visible(it.explicit_text)}"
    else:
        yield f"{it.oid.dotted_string} {'none' if it.data is None else it.data.hex()}"


def policies_of(value: x509.CertificatePolicies) -> Iterator[str]:
    for policy in value:
        yield f"policy {policy.policy_identifier.dotted_string}"
        for it in policy.policy_qualifiers or ():
            yield from qualifier_of(it)


def constraints_of(value: x509.PolicyConstraints) -> Iterator[str]:
    if value.require_explicit_policy is not None:
        yield f"explicit after {value.require_explicit_policy}"
    if value.inhibit_policy_mapping is not None:
        yield f"no mapping after {value.inhibit_policy_mapping}"


def trees_of(value: x509.NameConstraints) -> Iterator[str]:
    yield from (f"permits {name_of(it)}" for it in value.permitted_subtrees or ())
    yield from (f"excludes {name_of(it)}" for it in value.excluded_subtrees or ())


def period_of(value: x509.PrivateKeyUsagePeriod) -> Iterator[str]:
    if value.not_before is not None:
        yield f"not before {moment(value.not_before)}"
    if value.not_after is not None:
        yield f"not after {moment(value.not_after)}"


def held(value: x509.ExtensionType) -> Iterable[str]:
    """What an extension holds, a line for each thing."""
    match value:
        case x509.KeyUsage():
            return [" ".join(name for use, name in USES.items() if getattr(value, use))]
        case x509.BasicConstraints():
            return [f"authority {str(value.ca).lower()}, path length {'none' if value.path_length is None else value.path_length}"]
        case x509.ExtendedKeyUsage():
            return (it.dotted_string for it in value)
        case x509.SubjectAlternativeName() | x509.IssuerAlternativeName():
            return map(name_of, value)
        case x509.SubjectKeyIdentifier():
            return [value.key_identifier.hex()]
        case x509.AuthorityKeyIdentifier():
            return authority_key(value)
        case x509.AuthorityInformationAccess() | x509.SubjectInformationAccess():
            return (f"{it.access_method.dotted_string} {name_of(it.access_location)}" for it in value)
        case x509.CertificatePolicies():
            return policies_of(value)
        case x509.PolicyMappings():
            return (f"{issuer.dotted_string} {subject.dotted_string}" for issuer, subject in value)
        case x509.PolicyConstraints():
            return constraints_of(value)
        case x509.InhibitAnyPolicy():
            return [f"after {value.skip_certs}"]
        case x509.NameConstraints():
            return trees_of(value)
        case x509.CRLDistributionPoints() | x509.FreshestCRL():
            return points_of(value)
        case x509.PrecertificateSignedCertificateTimestamps():
            return (f"log {it.log_id.hex()} at {it.milliseconds}" for it in value)
        case x509.PrivateKeyUsagePeriod():
            return period_of(value)
        case x509.SubjectDirectoryAttributes():
            return (f"{it.oid.dotted_string}:{''.join(f' {one.hex()}' for one in it.values)}" for it in value)
        case x509.TLSFeature():
            return (str(it.value if isinstance(it, x509.TLSFeatureType) else it) for it in value)
    return [value.data.hex()]


def extension_facts(extension: x509.Extension[x509.ExtensionType]) -> Iterator[str]:
    yield f"extension {extension.oid.dotted_string}{', critical' if extension.critical else ''}"
    try:
        yield from [f"  {it}" for it in held(extension.value)]
    except x509.X509Error:
        yield "  it can't be read"


def facts(certificate: x509.Certificate) -> Iterator[str]:
    yield f"version: {certificate.version.number}"
    yield f"serial number: {certificate.serial_number_text}"
    yield from name_facts("issuer", certificate.issuer)
    yield from name_facts("subject", certificate.subject)
    yield f"not before: {moment(certificate.not_valid_before_utc)}"
    yield f"not after: {moment(certificate.not_valid_after_utc)}"
    yield from unique_id("issuer", certificate.issuer_unique_id)
    yield from unique_id("subject", certificate.subject_unique_id)
    yield from key_facts(certificate.public_key_info)
    yield f"signature: {certificate.signature_algorithm_oid.dotted_string}, {len(certificate.signature)} octets"
    if certificate.inner_signature_algorithm_bytes != certificate.signature_algorithm_bytes:
        yield "another algorithm stands in the signed part"
    for extension in certificate.extensions:
        yield from extension_facts(extension)


def main() -> int:
    sys.stdout.reconfigure(encoding="utf-8")
    status = 0
    for name in sys.argv[1:]:
        try:
            print(*facts(load(pathlib.Path(name).read_bytes())), sep="\n")
        except (OSError, ValueError) as error:
            print(f"{name}: {error}", file=sys.stderr)
            status = 1
    return status


if __name__ == "__main__":
    sys.exit(main())
