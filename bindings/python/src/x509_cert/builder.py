"""Builders of certificates, CRLs and CSRs (RFC 5280 4.1, 5.1, RFC 2986), with a signer of yours.

A builder isn't changed: each method gives a further one. What is given is encoded, or refused before anything is signed: a TypeError where it is of another
type, a ValueError where it can't stand there. An X509Error is the library's ValueError. What is signed is written by the C library; the private key stays with
the signer. Times have a time zone, and no fractions of a second.

The methods that sign take an algorithm and a signer, a function from the bytes to be signed to the octets of their signature; or in their place a private key
of `cryptography` and a hash, also by the names private_key and algorithm, and of an RSA key rsa_padding. An algorithm is one of SignatureAlgorithm, another
AlgorithmIdentifier, or the DER of one. A public key is one of `cryptography`, a PublicKey, or the DER of a SubjectPublicKeyInfo. That a signature is one of
these bytes isn't checked.
"""

from __future__ import annotations

import copy
import ctypes
import datetime
from typing import Any, Iterable, TypeVar

from . import _cryptography
from ._arguments import instance, listed, no_backend, octets, whole, whole_seconds
from ._cryptography import AnyAlgorithm, AnyPublicKey, AnySigner, PrivateKeyOfCryptography, algorithm_bytes, key_bytes
from ._der import BIT_STRING, SEQUENCE, UTF8_STRING, context, element
from ._extension import ExtensionType
from ._header import RequestAttributeView
from ._library import fill, walk
from ._writing import identifier_of
from ._numbers import serial_element
from .certificate import Certificate, certificate_of
from .crl import CertificateRevocationList, RevokedCertificate
from .extensions import AuthorityKeyIdentifier, CRLNumber, KeyUsage, SubjectAlternativeName, SubjectKeyIdentifier
from .general_name import GeneralName
from .key import AlgorithmIdentifier
from .name import ASN1Type, Name, name_of
from .oid import AttributeOID, CertificatePoliciesOID, ExtensionOID, ObjectIdentifier
from .request import CertificateSigningRequest

Signer = _cryptography.Signer

_Given = TypeVar("_Given")
_Builder = TypeVar("_Builder", bound="_WithExtensions")


def _needed(given: _Given | None, what: str) -> _Given:
    if given is None:
        raise ValueError(f"{what} has to be given")
    return given


def _moment(given: datetime.datetime | None, what: str) -> ctypes.c_uint64:
    return ctypes.c_uint64(whole_seconds(_needed(given, what), what))


def _flag(is_set: bool, what: str) -> ctypes.c_uint32:
    return ctypes.c_uint32(instance(is_set, bool, what))


def _below(number: int, bound: int, what: str) -> int:
    if not 0 <= whole(number, what) < bound:
        raise ValueError(f"{what} is from 0 to {bound - 1}, not {number}")
    return number


def _in_order(first: datetime.datetime | None, last: datetime.datetime | None, what: str) -> None:
    if first is not None and last is not None and last < first:
        raise ValueError(f"{what} is before the first moment")


def _extension(oid: ObjectIdentifier, critical: bool, data: bytes) -> bytes:
    return fill("x509_extension_encode", oid.content, _flag(critical, "critical"), data)


def _assembled(part: bytes, algorithm: bytes, signature: bytes) -> bytes:
    return fill("x509_assemble", part, algorithm, signature)


class _How:
    """By which algorithm something is signed, by which signer, and of a private key of `cryptography` also for which public key."""

    def __init__(self, algorithm: AnyAlgorithm, signer: AnySigner, private_key: PrivateKeyOfCryptography | None, rsa_padding: Any) -> None:
        self.algorithm, self._sign, self.public_key = _cryptography.how(algorithm, signer, private_key, rsa_padding)

    def signed(self, part: bytes) -> bytes:
        """The whole of a part that is signed."""
        return _assembled(part, self.algorithm, octets(self._sign(part), "a signature"))


class _WithExtensions:
    """What has extensions, in the order in which they were added."""

    def __init__(self) -> None:
        self._extensions: tuple[tuple[ObjectIdentifier, bytes], ...] = ()

    def _with(self: _Builder, **fields: object) -> _Builder:
        """A copy with other fields, none of which was given before."""
        made = copy.copy(self)
        for name, value in fields.items():
            if getattr(self, name) is not None:
                raise ValueError(f"{name.strip('_')} was given before")
            setattr(made, name, value)
        return made

    def add_extension(self: _Builder, extval: ExtensionType, critical: bool) -> _Builder:
        """With this extension behind the others; a ValueError where there is one of its identifier."""
        oid = instance(extval, ExtensionType, "extval").oid
        if any(oid == other for other, _ in self._extensions):
            raise ValueError(f"there is an extension {oid.dotted_string}")
        made = copy.copy(self)
        made._extensions = (*self._extensions, (oid, _extension(oid, critical, extval.data)))
        return made

    def _members(self) -> bytes:
        return b"".join(data for _, data in self._extensions)


class CertificateBuilder(_WithExtensions):
    """A certificate: of v3 where there are extensions, else of v1.

    The methods for certificates of a kind make extensions of their own: an X509Error, REPEATED, where one of these was added. They take what such a certificate
    has; a ValueError where more was given."""

    def __init__(self) -> None:
        super().__init__()
        self._serial_number: int | None = None
        self._issuer_name: Name | None = None
        self._subject_name: Name | None = None
        self._public_key: bytes | None = None
        self._not_valid_before: datetime.datetime | None = None
        self._not_valid_after: datetime.datetime | None = None

    def serial_number(self, number: int) -> CertificateBuilder:
        """A positive number of 159 bits at most, whose INTEGER has 20 octets then (RFC 5280 4.1.2.2)."""
        if not 0 < whole(number, "a serial number") < 1 << 159:
            raise ValueError("a serial number is positive, and has 159 bits at most")
        return self._with(_serial_number=number)

    def issuer_name(self, name: Name) -> CertificateBuilder:
        return self._with(_issuer_name=name_of(name, "the issuer"))

    def subject_name(self, name: Name) -> CertificateBuilder:
        return self._with(_subject_name=name_of(name, "the subject"))

    def public_key(self, public_key: AnyPublicKey) -> CertificateBuilder:
        """The key of the subject."""
        return self._with(_public_key=key_bytes(public_key, "the public key"))

    def not_valid_before(self, time: datetime.datetime) -> CertificateBuilder:
        """The first moment, which isn't after the last one."""
        _moment(time, "the first moment")
        _in_order(time, self._not_valid_after, "the last moment")
        return self._with(_not_valid_before=time)

    def not_valid_after(self, time: datetime.datetime) -> CertificateBuilder:
        """The last moment, which isn't before the first one."""
        _moment(time, "the last moment")
        _in_order(self._not_valid_before, time, "the last moment")
        return self._with(_not_valid_after=time)

    def tbs_certificate_bytes(self, algorithm: bytes | AlgorithmIdentifier) -> bytes:
        """The bytes to be signed, for a signature by the algorithm; a ValueError where something wasn't given."""
        issuer = _needed(self._issuer_name, "the issuer").public_bytes()
        return fill("x509_build_certificate", *self._front(algorithm), issuer, *self._middle(), self._members())

    def _front(self, algorithm: bytes | AlgorithmIdentifier) -> tuple[bytes, bytes]:
        return serial_element(_needed(self._serial_number, "the serial number")), algorithm_bytes(algorithm)

    def _middle(self) -> tuple[ctypes.c_uint64, ctypes.c_uint64, bytes, bytes]:
        return (
            _moment(self._not_valid_before, "the first moment"),
            _moment(self._not_valid_after, "the last moment"),
            _needed(self._subject_name, "the subject").public_bytes(),
            _needed(self._public_key, "the public key"),
        )

    def _under(self, name: str, algorithm: bytes, issuer_public_key: AnyPublicKey | None, *asked: object) -> bytes:
        """The bytes to be signed of a kind of certificates under an issuer with that key."""
        issuer = _needed(self._issuer_name, "the issuer").public_bytes()
        if issuer_public_key is None:
            raise ValueError("the issuer's public key has to be given")
        key = key_bytes(issuer_public_key, "the issuer's public key")
        return fill(name, *self._front(algorithm), issuer, key, *self._middle(), *asked, self._members())

    def sign_root(
        self,
        algorithm: AnyAlgorithm = None,
        signer: AnySigner = None,
        signs_ocsp_responses: bool = False,
        *,
        private_key: PrivateKeyOfCryptography | None = None,
        rsa_padding: Any = None,
    ) -> Certificate:
        """A root (CA/Browser Forum, Baseline Requirements 7.1.2.1), which is its own issuer: the library makes AKI, basic constraints, key usage and SKI,
        behind the extensions that were added. A ValueError where an issuer was given.

        An X509Error where a root can't have that subject (7.1.4.2): it has a country, an organization and a common name, in that order, and between the first
        two may have a state, a locality, a postal code and a street address; each is there once, alone in its relative name. `sign` makes a root of any name,
        whose issuer and extensions you give."""
        if self._issuer_name is not None:
            raise ValueError("a root is its own issuer: none can be given")
        how = _How(algorithm, signer, private_key, rsa_padding)
        asked = _flag(signs_ocsp_responses, "signs_ocsp_responses")
        part = fill("x509_build_root", *self._front(how.algorithm), *self._middle(), asked, self._members())
        return Certificate(how.signed(part))

    def sign_subordinate(
        self,
        algorithm: AnyAlgorithm = None,
        signer: AnySigner = None,
        issuer_public_key: AnyPublicKey | None = None,
        path_length: int | None = None,
        signs_ocsp_responses: bool = False,
        client_auth: bool = False,
        *,
        private_key: PrivateKeyOfCryptography | None = None,
        rsa_padding: Any = None,
    ) -> Certificate:
        """An authority under another one, for TLS (7.1.2.6), with AKI, basic constraints, key usage, SKI and extended key usage behind the added extensions."""
        how = _How(algorithm, signer, private_key, rsa_padding)
        length = ctypes.c_uint32(0 if path_length is None else _below(path_length, 256, "path_length"))
        flags = (_flag(signs_ocsp_responses, "signs_ocsp_responses"), _flag(client_auth, "client_auth"))
        part = self._under("x509_build_subordinate", how.algorithm, issuer_public_key, ctypes.c_uint32(path_length is not None), length, *flags)
        return Certificate(how.signed(part))

    def sign_subscriber(
        self,
        algorithm: AnyAlgorithm = None,
        signer: AnySigner = None,
        issuer_public_key: AnyPublicKey | None = None,
        client_auth: bool = False,
        key_encipherment: bool = False,
        key_agreement: bool = False,
        data_encipherment: bool = False,
        *,
        private_key: PrivateKeyOfCryptography | None = None,
        rsa_padding: Any = None,
    ) -> Certificate:
        """A TLS server of which control of its domains was validated (7.1.2.7): AKI, extended key usage, basic constraints and key usage stand behind the added
        extensions, of which the SAN is one. A ValueError where the subject has more than a country and common names, or where the key can't be
        used as asked: an RSA key enciphers keys and data, one of an elliptic curve agrees on keys."""
        how = _How(algorithm, signer, private_key, rsa_padding)
        asked = {"key_encipherment": key_encipherment, "key_agreement": key_agreement, "data_encipherment": data_encipherment}
        flags = [_flag(is_set, use) for use, is_set in {"client_auth": client_auth, **asked}.items()]
        part = self._under("x509_build_subscriber", how.algorithm, issuer_public_key, *flags)
        self._look_at_subscriber(Certificate(_assembled(part, how.algorithm, b"")), asked)
        return Certificate(how.signed(part))

    def _look_at_subscriber(self, made: Certificate, asked: dict[str, bool]) -> None:
        """The library leaves out what a certificate of the kind can't have. Here it has to have all that was given."""
        if made.subject != self._subject_name:
            raise ValueError(f"the subject of a server has a country and common names, and would be {made.subject.rfc4514_string()!r}")
        usage = made.extensions.get_extension_for_class(KeyUsage).value
        for use, is_set in asked.items():
            if getattr(usage, use) != is_set:
                raise ValueError(f"no key of that kind is for {use}")

    def sign_device(
        self,
        algorithm: AnyAlgorithm = None,
        signer: AnySigner = None,
        issuer_public_key: AnyPublicKey | None = None,
        names: Iterable[GeneralName] = (),
        *,
        private_key: PrivateKeyOfCryptography | None = None,
        rsa_padding: Any = None,
    ) -> Certificate:
        """A device (IEEE 802.1AR 8): AKI, key usage, and a SAN of these names, of which one is that of a hardware module (RFC 4108 5), behind the added
        extensions; no SAN of no names."""
        how = _How(algorithm, signer, private_key, rsa_padding)
        names = listed(names, GeneralName, "names")
        part = self._under("x509_build_device", how.algorithm, issuer_public_key, SubjectAlternativeName(names).data if names else b"")
        return Certificate(how.signed(part))

    def sign(
        self,
        algorithm: AnyAlgorithm = None,
        signer: AnySigner = None,
        backend: object = None,
        *,
        private_key: PrivateKeyOfCryptography | None = None,
        rsa_padding: Any = None,
    ) -> Certificate:
        """The certificate with the signer's signature, or the private key's."""
        no_backend(backend)
        how = _How(algorithm, signer, private_key, rsa_padding)
        return Certificate(how.signed(self.tbs_certificate_bytes(how.algorithm)))


class CertificateRevocationListBuilder(_WithExtensions):
    """A CRL of v2. Its first extensions are its number and the identifier of the issuer's key (RFC 5280 5.2.1, 5.2.3), which the builder makes; those that are
    added come behind them. The issuer is given by its certificate, or by its name; with the name the number and the identifier may also be added as extensions,
    and where no identifier is, it is that of the private key of `cryptography` that signs."""

    def __init__(self) -> None:
        super().__init__()
        self._issuer: Certificate | None = None
        self._issuer_name: Name | None = None
        self._key_identifier: AuthorityKeyIdentifier | None = None
        self._crl_number: int | None = None
        self._last_update: datetime.datetime | None = None
        self._next_update: datetime.datetime | None = None
        self._entries: tuple[bytes, ...] = ()

    def issuer(self, certificate: Certificate) -> CertificateRevocationListBuilder:
        """The certificate of the authority that signs it."""
        if self._issuer_name is not None:
            raise ValueError("issuer_name was given before")
        return self._with(_issuer=certificate_of(certificate, "the issuer"))

    def issuer_name(self, name: Name) -> CertificateRevocationListBuilder:
        """The name of the authority that signs it."""
        if self._issuer is not None:
            raise ValueError("issuer was given before")
        return self._with(_issuer_name=name_of(name, "the issuer"))

    def crl_number(self, number: int) -> CertificateRevocationListBuilder:
        if whole(number, "a CRL number") < 0:
            raise ValueError("a CRL number isn't negative")
        return self._with(_crl_number=number)

    def last_update(self, time: datetime.datetime) -> CertificateRevocationListBuilder:
        """When it is issued, which isn't after the next update."""
        _moment(time, "the last update")
        _in_order(time, self._next_update, "the next update")
        return self._with(_last_update=time)

    def next_update(self, time: datetime.datetime) -> CertificateRevocationListBuilder:
        """By when the next one will be issued; left out where it isn't given."""
        _moment(time, "the next update")
        _in_order(self._last_update, time, "the next update")
        return self._with(_next_update=time)

    def add_extension(self, extval: ExtensionType, critical: bool) -> CertificateRevocationListBuilder:
        """With this extension behind the others; a ValueError where there is one of its identifier, or the builder makes it: the number and the identifier of
        the key are taken where the issuer's name was given before, not critical, and the identifier without the issuer of a certificate."""
        oid = instance(extval, ExtensionType, "extval").oid
        if oid not in (ExtensionOID.CRL_NUMBER, ExtensionOID.AUTHORITY_KEY_IDENTIFIER):
            return super().add_extension(extval, critical)
        if self._issuer_name is None:
            raise ValueError(
                "the CRL number is given by crl_number, and the identifier of the issuer's key is that of its certificate; issuer_name allows both"
            )
        if instance(critical, bool, "critical"):
            raise ValueError("the CRL number and the identifier of the issuer's key aren't critical (RFC 5280 5.2.1, 5.2.3)")
        if oid == ExtensionOID.CRL_NUMBER:
            return self.crl_number(instance(extval, CRLNumber, "the CRL number").crl_number)
        identifier = instance(extval, AuthorityKeyIdentifier, "the identifier of the issuer's key")
        if identifier.key_identifier is None or identifier.authority_cert_issuer is not None or identifier.authority_cert_serial_number is not None:
            raise ValueError("the identifier of the issuer's key is a key identifier alone (RFC 5280 5.2.1)")
        return self._with(_key_identifier=identifier)

    def add_revoked_certificate(self, revoked: RevokedCertificate) -> CertificateRevocationListBuilder:
        """With this entry behind the others: its serial number, its date, and its extensions, of which its reason is one. A ValueError where an extension is
        there twice."""
        given = instance(revoked, RevokedCertificate, "an entry").extensions
        if len({it.oid for it in given}) != len(given):
            raise ValueError("an entry has an extension twice")
        extensions = b"".join(_extension(it.oid, it.critical, it.data) for it in given)
        number, date = serial_element(revoked.serial_number), _moment(revoked.revocation_date_utc, "the revocation date")
        made = copy.copy(self)
        made._entries = (*self._entries, fill("x509_crl_entry_encode", number, date, extensions))
        return made

    def tbs_certlist_bytes(self, algorithm: bytes | AlgorithmIdentifier) -> bytes:
        """The bytes to be signed, for a signature by the algorithm; a ValueError where something wasn't given."""
        return self._part(algorithm_bytes(algorithm), None)

    def _part(self, algorithm: bytes, key: bytes | None) -> bytes:
        """The bytes to be signed, where the identifier of the issuer's key may also be that of this key."""
        number = _needed(self._crl_number, "the CRL number")
        has_next = self._next_update is not None
        return fill(
            "x509_build_crl",
            self._issuer_bytes(algorithm, key),
            algorithm,
            number.to_bytes(max(1, (number.bit_length() + 7) // 8), "big"),
            _moment(self._last_update, "the last update"),
            ctypes.c_uint32(has_next),
            _moment(self._next_update, "the next update") if has_next else ctypes.c_uint64(0),
            b"".join(self._entries),
            self._members(),
        )

    def _issuer_bytes(self, algorithm: bytes, key: bytes | None) -> bytes:
        """The issuer's certificate. Of a name it is made for the library, which takes the name and the identifier of the key from one: it is signed by nobody,
        and nobody sees it."""
        if self._issuer_name is None:
            return _needed(self._issuer, "the issuer").public_bytes()
        identifier = self._key_identifier
        if identifier is None and key is None:
            raise ValueError("the identifier of the issuer's key has to be given: as an AuthorityKeyIdentifier, or by a private key that signs")
        held = b"" if identifier is None else SubjectKeyIdentifier(identifier.key_identifier or b"").data
        members = _extension(ExtensionOID.SUBJECT_KEY_IDENTIFIER, False, held) if held else b""
        name, moment = self._issuer_name.public_bytes(), ctypes.c_uint64(0)
        part = fill("x509_build_certificate", serial_element(1), algorithm, name, moment, moment, name, key or _NO_KEY, members)
        return _assembled(part, algorithm, b"")

    def sign(
        self,
        algorithm: AnyAlgorithm = None,
        signer: AnySigner = None,
        backend: object = None,
        *,
        private_key: PrivateKeyOfCryptography | None = None,
        rsa_padding: Any = None,
    ) -> CertificateRevocationList:
        """The CRL with the signer's signature, or the private key's."""
        no_backend(backend)
        how = _How(algorithm, signer, private_key, rsa_padding)
        return CertificateRevocationList(how.signed(self._part(how.algorithm, how.public_key)))


# a SubjectPublicKeyInfo that holds no key, where none is asked for
_NO_KEY = element(SEQUENCE, element(SEQUENCE, identifier_of(CertificatePoliciesOID.ANY_POLICY)), element(BIT_STRING, b"\0"))


def _type_of_attribute(attribute: bytes) -> ObjectIdentifier:
    """The type of an attribute of a CSR; a ValueError where the bytes aren't one."""
    under = element(context(0, True), attribute)
    found = [ObjectIdentifier.from_content(it.oid.of(under)) for it in walk("x509_request_attribute_next", RequestAttributeView, under)]
    if len(found) != 1:
        raise ValueError("one attribute is added at a time")
    return found[0]


class CertificateSigningRequestBuilder(_WithExtensions):
    """A CSR. It asks for the extensions that are added."""

    def __init__(self) -> None:
        super().__init__()
        self._subject_name: Name | None = None
        self._public_key: bytes | None = None
        self._attributes: tuple[tuple[ObjectIdentifier, bytes], ...] = ()

    def subject_name(self, name: Name) -> CertificateSigningRequestBuilder:
        return self._with(_subject_name=name_of(name, "the subject"))

    def public_key(self, public_key: AnyPublicKey) -> CertificateSigningRequestBuilder:
        """The key of the subject, by which it is signed; where a private key of `cryptography` signs, it may be left out."""
        return self._with(_public_key=key_bytes(public_key, "the public key"))

    def add_attribute(
        self, oid: ObjectIdentifier, value: bytes, tag: int | ASN1Type = UTF8_STRING, *, _tag: ASN1Type | None = None
    ) -> CertificateSigningRequestBuilder:
        """With a further attribute of one value, by its content octets and its identifier octet, which is that of a UTF8String; `cryptography` says it by
        _tag."""
        tag = tag if _tag is None else instance(_tag, ASN1Type, "_tag")
        content, octet = octets(value, "a value"), _below(tag.value if isinstance(tag, ASN1Type) else tag, 256, "tag")
        if octet == UTF8_STRING:
            content.decode("utf-8")
        kind = instance(oid, ObjectIdentifier, "the type of an attribute")
        return self.add_attribute_bytes(fill("x509_request_attribute_encode", kind.content, element(octet, content)))

    def add_attribute_bytes(self, attribute: bytes) -> CertificateSigningRequestBuilder:
        """With a further attribute, by its DER: of another type than the others, and than the one that asks for extensions, which the builder makes."""
        data = octets(attribute, "an attribute")
        oid = _type_of_attribute(data)
        if oid == AttributeOID.EXTENSION_REQUEST:
            raise ValueError("extensions are asked for by add_extension")
        if any(oid == other for other, _ in self._attributes):
            raise ValueError(f"there is an attribute {oid.dotted_string}")
        made = copy.copy(self)
        made._attributes = (*self._attributes, (oid, data))
        return made

    def tbs_certrequest_bytes(self) -> bytes:
        """The bytes to be signed; a ValueError where something wasn't given."""
        return self._part(_needed(self._public_key, "the public key"))

    def _part(self, key: bytes) -> bytes:
        return fill(
            "x509_build_request",
            _needed(self._subject_name, "the subject").public_bytes(),
            key,
            b"".join(data for _, data in self._attributes),
            self._members(),
        )

    def sign(
        self,
        algorithm: AnyAlgorithm = None,
        signer: AnySigner = None,
        backend: object = None,
        *,
        private_key: PrivateKeyOfCryptography | None = None,
        rsa_padding: Any = None,
    ) -> CertificateSigningRequest:
        """The CSR with the signer's signature, or the private key's, which is that of its public key; a ValueError where another one was given."""
        no_backend(backend)
        how = _How(algorithm, signer, private_key, rsa_padding)
        if how.public_key is not None and self._public_key not in (None, how.public_key):
            raise ValueError("a CSR is signed by the private key of its public key")
        key = _needed(self._public_key if how.public_key is None else how.public_key, "the public key")
        return CertificateSigningRequest(how.signed(self._part(key)))
