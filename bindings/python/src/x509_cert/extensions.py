"""Extensions of certificates (RFC 5280 4.2), by the calls that read their payloads."""

from __future__ import annotations

import ctypes
import datetime
import enum
import hashlib
import ipaddress
from typing import TYPE_CHECKING, Generic, Iterable, Iterator, Sequence, TypeVar

from . import _cryptography
from ._arguments import instance, listed, octets, some, whole
from ._cryptography import AnyPublicKey
from ._der import BIT_STRING, element, integer
from ._extension import ExtensionType, ListExtension, _number, _part, natural_octets, optional_number
from ._general_names import NamesExtension
from ._header import (
    AccessView,
    AuthorityKeyIdentifierView,
    BasicConstraintsView,
    DistributionPointView,
    ExtensionEntryView,
    GeneralNameView,
    IssuingDistributionPointView,
    NameConstraintsView,
    Span,
    SubtreeView,
    TimestampView,
)
from ._library import fill, number, view, walk
from ._writing import general_name_der, general_names_der, names_joined
from .algorithms import ECDSA, RSA, algorithm_of
from .crl_entry_extensions import CertificateIssuer, InvalidityDate
from .directory_attributes import SubjectDirectoryAttributes
from .general_name import DNSName, GeneralName, GeneralNames, IPAddress, general_name
from .key import PublicKey
from .name import RelativeDistinguishedName
from .null_extensions import OCSPNoCheck, PrecertPoison
from .oid import ExtensionOID, ObjectIdentifier
from .policies import CertificatePolicies, InhibitAnyPolicy, PolicyConstraints, PolicyMappings
from .private_key_usage_period import PrivateKeyUsagePeriod
from .tls_features import TLSFeature

if TYPE_CHECKING:
    from .certificate import Certificate


class ExtensionNotFound(Exception):
    """No extension has the identifier."""

    def __init__(self, oid: ObjectIdentifier) -> None:
        super().__init__(f"no extension has the identifier {oid.dotted_string}")
        self.oid = oid


class DuplicateExtension(Exception):
    """Two or more extensions have the identifier."""

    def __init__(self, oid: ObjectIdentifier) -> None:
        super().__init__(f"several extensions have the identifier {oid.dotted_string}")
        self.oid = oid


class UnrecognizedExtension(ExtensionType):
    """An extension of another type, or one that can't be read: `value` are its octets."""

    def __init__(self, oid: ObjectIdentifier, value: bytes) -> None:
        self._read(octets(value, "the value of an extension"))
        self.oid = instance(oid, ObjectIdentifier, "the type of an extension")  # type: ignore[misc]
        self.value = self.data

    def __eq__(self, other: object) -> bool:
        return isinstance(other, UnrecognizedExtension) and (self.oid, self.value) == (other.oid, other.value)

    def __hash__(self) -> int:
        return hash((self.oid, self.value))


class KeyUsage(ExtensionType):
    """What a key may be used for (RFC 5280 4.2.1.3). `encipher_only` and `decipher_only` mean something beside `key_agreement`, and are refused without."""

    oid = ExtensionOID.KEY_USAGE

    def __init__(
        self,
        digital_signature: bool = False,
        content_commitment: bool = False,
        key_encipherment: bool = False,
        data_encipherment: bool = False,
        key_agreement: bool = False,
        key_cert_sign: bool = False,
        crl_sign: bool = False,
        encipher_only: bool = False,
        decipher_only: bool = False,
    ) -> None:
        front = (digital_signature, content_commitment, key_encipherment, data_encipherment, key_agreement)
        uses = listed((*front, key_cert_sign, crl_sign, encipher_only, decipher_only), bool, "usages")
        if (encipher_only or decipher_only) and not key_agreement:
            raise ValueError("encipher_only and decipher_only are said of key_agreement")
        bits = sum(1 << bit for bit, is_set in enumerate(uses) if is_set)
        # no usage at all, which `cryptography` writes too, and RFC 5280 4.2.1.3 doesn't allow
        data = fill("x509_key_usage_encode", ctypes.c_uint32(bits)) if bits else element(BIT_STRING, b"\0")
        self._write(data, bits=bits)

    def _read(self, data: bytes) -> None:
        super()._read(data)
        self.bits = number("x509_key_usage", data)
        (
            self.digital_signature,
            self.content_commitment,
            self.key_encipherment,
            self.data_encipherment,
            self.key_agreement,
            self.key_cert_sign,
            self.crl_sign,
            self.encipher_only,
            self.decipher_only,
        ) = (bool(self.bits >> bit & 1) for bit in range(9))


class BasicConstraints(ExtensionType):
    """Whether the key may sign certificates, and how many authorities may follow (RFC 5280 4.2.1.9)."""

    oid = ExtensionOID.BASIC_CONSTRAINTS

    def __init__(self, ca: bool, path_length: int | None) -> None:
        limit = optional_number(path_length, "path_length")
        if path_length is not None and not instance(ca, bool, "ca"):
            raise ValueError("a path length is one of an authority")
        told = BasicConstraintsView(int(instance(ca, bool, "ca")), *limit)
        self._write(fill("x509_basic_constraints_encode", ctypes.byref(told)), ca=ca, path_length=path_length)

    def _read(self, data: bytes) -> None:
        super()._read(data)
        found = view("x509_basic_constraints", BasicConstraintsView, data)
        self.ca = bool(found.ca)
        self.path_length: int | None = int(found.path_len) if found.has_path_len else None


class ExtendedKeyUsage(ListExtension[ObjectIdentifier]):
    """Purposes of a key (RFC 5280 4.2.1.12)."""

    oid = ExtensionOID.EXTENDED_KEY_USAGE

    def __init__(self, usages: Iterable[ObjectIdentifier]) -> None:
        usages = some(usages, ObjectIdentifier, "usages")
        contents = [it.content for it in usages]
        lens = (ctypes.c_size_t * len(contents))(*map(len, contents))
        data = fill("x509_extended_key_usage_encode", b"".join(contents), lens, ctypes.c_size_t(len(contents)))
        self._write(data, usages=usages)

    def _read(self, data: bytes) -> None:
        super()._read(data)
        self.usages = [ObjectIdentifier.from_content(it.of(data)) for it in walk("x509_extended_key_usage_next", Span, data)]

    def _members(self) -> Sequence[ObjectIdentifier]:
        return self.usages


class _AlternativeNames(NamesExtension):
    def get_values_for_type(self, kind: type[GeneralName]) -> list[object]:
        """What the names of that kind hold."""
        return self.names.get_values_for_type(kind)


class SubjectAlternativeName(_AlternativeNames):
    """Further names of the subject (RFC 5280 4.2.1.6)."""

    oid = ExtensionOID.SUBJECT_ALTERNATIVE_NAME


class IssuerAlternativeName(_AlternativeNames):
    """Further names of the issuer (RFC 5280 4.2.1.7)."""

    oid = ExtensionOID.ISSUER_ALTERNATIVE_NAME


class SubjectKeyIdentifier(ExtensionType):
    """The identifier of the certified key (RFC 5280 4.2.1.2)."""

    oid = ExtensionOID.SUBJECT_KEY_IDENTIFIER

    def __init__(self, digest: bytes) -> None:
        digest = octets(digest, "a key identifier")
        self._write(fill("x509_subject_key_identifier_encode", digest), key_identifier=digest)

    @classmethod
    def from_public_key(cls, public_key: AnyPublicKey) -> SubjectKeyIdentifier:
        """The SHA-1 digest of the bits of a key (RFC 5280 4.2.1.2): of one of `cryptography`, of a PublicKey or of a SubjectPublicKeyInfo."""
        return cls(_key_digest(_cryptography.key_bytes(public_key, "a public key")))

    @classmethod
    def from_public_key_bytes(cls, public_key: bytes) -> SubjectKeyIdentifier:
        """The SHA-1 digest of the bits of a key (RFC 5280 4.2.1.2), by its SubjectPublicKeyInfo."""
        return cls(_key_digest(public_key))

    @property
    def digest(self) -> bytes:
        return self.key_identifier

    def _read(self, data: bytes) -> None:
        super()._read(data)
        self.key_identifier = view("x509_subject_key_identifier", Span, data).of(data)


class AuthorityKeyIdentifier(ExtensionType):
    """Which key signed (RFC 5280 4.2.1.1). The issuer and the serial number of its certificate are given both, or neither of them."""

    oid = ExtensionOID.AUTHORITY_KEY_IDENTIFIER

    def __init__(
        self,
        key_identifier: bytes | None,
        authority_cert_issuer: Iterable[GeneralName] | None,
        authority_cert_serial_number: int | None,
    ) -> None:
        identifier = None if key_identifier is None else octets(key_identifier, "a key identifier")
        issuer = None if authority_cert_issuer is None else GeneralNames(authority_cert_issuer)
        serial = None if authority_cert_serial_number is None else whole(authority_cert_serial_number, "a serial number")
        if (issuer is None) != (serial is None):
            raise ValueError("the issuer and the serial number of a certificate are given both, or neither of them")
        self._write(
            fill(
                "x509_authority_key_identifier_encode",
                ctypes.c_uint32(identifier is not None),
                identifier or b"",
                b"" if issuer is None else general_names_der(issuer),
                b"" if serial is None else integer(serial),
            ),
            key_identifier=identifier,
            authority_cert_issuer=issuer,
            authority_cert_serial_number=serial,
        )

    @classmethod
    def from_issuer_public_key(cls, public_key: AnyPublicKey) -> AuthorityKeyIdentifier:
        """The SHA-1 digest of the bits of the issuer's key (RFC 5280 4.2.1.2): of one of `cryptography`, of a PublicKey or of a SubjectPublicKeyInfo."""
        return cls(_key_digest(_cryptography.key_bytes(public_key, "a public key")), None, None)

    @classmethod
    def from_issuer_public_key_bytes(cls, public_key: bytes) -> AuthorityKeyIdentifier:
        """The SHA-1 digest of the bits of the issuer's key (RFC 5280 4.2.1.2), by its SubjectPublicKeyInfo."""
        return cls(_key_digest(public_key), None, None)

    @classmethod
    def from_issuer_subject_key_identifier(cls, ski: SubjectKeyIdentifier) -> AuthorityKeyIdentifier:
        """The SKI in the issuer's certificate."""
        return cls(instance(ski, SubjectKeyIdentifier, "an identifier").key_identifier, None, None)

    def _read(self, data: bytes) -> None:
        super()._read(data)
        found = view("x509_authority_key_identifier", AuthorityKeyIdentifierView, data)
        self.key_identifier = _part(found.key_identifier, data)
        self.authority_cert_issuer = _names_under(1, found.issuer, data)
        serial = _part(found.serial_number, data)
        self.authority_cert_serial_number = None if serial is None else int.from_bytes(serial, "big", signed=True)


class AccessDescription:
    """Where something is found, and by which means (RFC 5280 4.2.2.1)."""

    def __init__(self, access_method: ObjectIdentifier, access_location: GeneralName) -> None:
        self.access_method = instance(access_method, ObjectIdentifier, "a means of access")
        self.access_location = instance(access_location, GeneralName, "a place")

    def __eq__(self, other: object) -> bool:
        theirs = (other.access_method, other.access_location) if isinstance(other, AccessDescription) else None
        return (self.access_method, self.access_location) == theirs

    def __hash__(self) -> int:
        return hash((self.access_method, self.access_location))

    def __repr__(self) -> str:
        return f"<AccessDescription({self.access_method!r}, {self.access_location!r})>"


class _Access(ListExtension[AccessDescription]):
    def __init__(self, descriptions: Iterable[AccessDescription]) -> None:
        descriptions = some(descriptions, AccessDescription, "descriptions")
        members = [fill("x509_access_encode", it.access_method.content, general_name_der(it.access_location)) for it in descriptions]
        self._write(fill("x509_info_access_encode", b"".join(members)), descriptions=descriptions)

    def _read(self, data: bytes) -> None:
        super()._read(data)
        self.descriptions = [
            AccessDescription(ObjectIdentifier.from_content(it.method.of(data)), general_name(it.location, data))
            for it in walk("x509_access_next", AccessView, data)
        ]

    def _members(self) -> Sequence[AccessDescription]:
        return self.descriptions


class AuthorityInformationAccess(_Access):
    """Where more is found about the issuer (RFC 5280 4.2.2.1)."""

    oid = ExtensionOID.AUTHORITY_INFORMATION_ACCESS


class SubjectInformationAccess(_Access):
    """Where more is found about the subject (RFC 5280 4.2.2.2)."""

    oid = ExtensionOID.SUBJECT_INFORMATION_ACCESS


# the named bits of ReasonFlags (RFC 5280 4.2.1.13)
REASONS = (
    "unused keyCompromise cACompromise affiliationChanged superseded cessationOfOperation certificateHold privilegeWithdrawn aACompromise"
).split()


class DistributionPoint:
    """Where a CRL is found, for which reasons, and who issues it (RFC 5280 4.2.1.13): it has a full name, or one relative to the issuer of the CRL, or an
    issuer. Reasons are given as ReasonFlags or by the names of their bits, as keyCompromise; `reasons` has ReasonFlags, each of which is that text too. None
    means all."""

    def __init__(
        self,
        full_name: Iterable[GeneralName] | None,
        relative_name: RelativeDistinguishedName | None,
        reasons: Iterable[ReasonFlags | str] | None,
        crl_issuer: Iterable[GeneralName] | None,
    ) -> None:
        self.full_name, self.relative_name = _point_name(full_name, relative_name)
        self.reasons = _given_reasons(reasons)
        self.crl_issuer = None if crl_issuer is None else GeneralNames(crl_issuer)
        if full_name is None and relative_name is None and crl_issuer is None:
            raise ValueError("a point has a name or an issuer")

    @classmethod
    def _read(cls, found: DistributionPointView, data: bytes) -> DistributionPoint:
        """One of a list that was read, which may have nothing."""
        made = cls.__new__(cls)
        made.full_name = _names_under(0, found.full_name, data)
        made.relative_name = _relative(found.relative_name, data)
        made.reasons = _reasons(int(found.reasons)) if found.has_reasons else None
        made.crl_issuer = _names_under(2, found.crl_issuer, data)
        return made

    def __eq__(self, other: object) -> bool:
        return isinstance(other, DistributionPoint) and vars(self) == vars(other)

    def __hash__(self) -> int:
        return hash((self.full_name, self.relative_name, self.reasons, self.crl_issuer))

    def _der(self) -> bytes:
        issuer = b"" if self.crl_issuer is None else names_joined(self.crl_issuer)
        has_reasons, reasons = map(ctypes.c_uint32, _reason_numbers(self.reasons))
        return fill("x509_distribution_point_encode", *_point_name_der(self.full_name, self.relative_name), has_reasons, reasons, issuer)

    def __repr__(self) -> str:
        return f"<DistributionPoint(full_name={self.full_name!r}, reasons={self.reasons!r}, crl_issuer={self.crl_issuer!r})>"


def _reasons(bits: int) -> frozenset[ReasonFlags | str]:
    """The reasons of these bits; the first bit isn't used, and has a name alone."""
    return frozenset(_flag(name) for bit, name in enumerate(REASONS) if bits >> bit & 1)


def _flag(name: str) -> ReasonFlags | str:
    return name if name == REASONS[0] else ReasonFlags(name)


def _reason_bits(reasons: frozenset[ReasonFlags | str]) -> int:
    """The bits of these reasons, by their names."""
    return sum(1 << REASONS.index(name) for name in reasons)


def _reason_numbers(reasons: frozenset[ReasonFlags | str] | None) -> tuple[int, int]:
    """Reasons as a view says them: whether they are there, and their bits."""
    return (0, 0) if reasons is None else (1, _reason_bits(reasons))


def _given_reasons(reasons: Iterable[ReasonFlags | str] | None) -> frozenset[ReasonFlags | str] | None:
    """These reasons, which are one at least; a ValueError where one has no bit, as the one of none."""
    if reasons is None:
        return None
    if isinstance(reasons, str):
        raise TypeError("reasons are a set, not a str")
    given = frozenset(map(_reason, listed(reasons, str, "reasons")))
    if not given:
        raise ValueError("reasons are one at least, or None for all")
    return given


def _reason(given: str) -> ReasonFlags | str:
    if given not in REASONS:
        raise ValueError(f"{given!r} is no reason of a point")
    return _flag(given)


def _point_name(
    full: Iterable[GeneralName] | None, relative: RelativeDistinguishedName | None
) -> tuple[GeneralNames | None, RelativeDistinguishedName | None]:
    """The name of a point, which is full, or relative to the issuer of the CRL, or left out."""
    if full is not None and relative is not None:
        raise ValueError("a point has a full name or a relative one")
    return None if full is None else GeneralNames(full), None if relative is None else instance(relative, RelativeDistinguishedName, "a relative name")


def _point_name_der(full: GeneralNames | None, relative: RelativeDistinguishedName | None) -> tuple[bytes, bytes]:
    """The full names of a point one after the other, and its relative name; what it doesn't have is no bytes."""
    return b"" if full is None else names_joined(full), b"" if relative is None else relative.public_bytes()


def _relative(span: Span, data: bytes) -> RelativeDistinguishedName | None:
    part = _part(span, data)
    return None if part is None else RelativeDistinguishedName._read(part, "x509_relative_name_under_next", _number(1))


class _DistributionPoints(ListExtension[DistributionPoint]):
    def __init__(self, distribution_points: Iterable[DistributionPoint]) -> None:
        points = some(distribution_points, DistributionPoint, "points")
        self._write(fill("x509_distribution_points_encode", b"".join(it._der() for it in points)), points=points)

    def _read(self, data: bytes) -> None:
        super()._read(data)
        self.points = [DistributionPoint._read(it, data) for it in walk("x509_distribution_points_next", DistributionPointView, data)]

    def _members(self) -> Sequence[DistributionPoint]:
        return self.points


class CRLDistributionPoints(_DistributionPoints):
    """Where CRLs are found (RFC 5280 4.2.1.13)."""

    oid = ExtensionOID.CRL_DISTRIBUTION_POINTS


class FreshestCRL(_DistributionPoints):
    """Where delta CRLs are found (RFC 5280 4.2.1.15)."""

    oid = ExtensionOID.FRESHEST_CRL


class NameConstraints(ExtensionType):
    """Where the names of certificates further down must lie (RFC 5280 4.2.1.10): one of the lists is given at least, and none is empty. Addresses are
    networks there, and a DNS name has no wildcard."""

    oid = ExtensionOID.NAME_CONSTRAINTS

    def __init__(self, permitted_subtrees: Iterable[GeneralName] | None, excluded_subtrees: Iterable[GeneralName] | None) -> None:
        permitted, excluded = map(_given_subtrees, (permitted_subtrees, excluded_subtrees))
        if permitted is None and excluded is None:
            raise ValueError("a list of names has to be given")
        lists = (_subtrees_der(names) for names in (permitted, excluded))
        self._write(fill("x509_name_constraints_encode", *lists), permitted_subtrees=permitted, excluded_subtrees=excluded)

    def _read(self, data: bytes) -> None:
        super()._read(data)
        found = view("x509_name_constraints", NameConstraintsView, data)
        self.permitted_subtrees = _subtrees(0, found.permitted, data)
        self.excluded_subtrees = _subtrees(1, found.excluded, data)


class CRLNumber(ExtensionType):
    """The number of a CRL (RFC 5280 5.2.3)."""

    oid = ExtensionOID.CRL_NUMBER

    def __init__(self, crl_number: int) -> None:
        self._write(fill("x509_crl_number_encode", natural_octets(crl_number, "a CRL number")), crl_number=crl_number)

    def _read(self, data: bytes) -> None:
        super()._read(data)
        self.crl_number = int.from_bytes(view("x509_crl_number", Span, data).of(data), "big")


class DeltaCRLIndicator(ExtensionType):
    """The number of the CRL that a delta CRL stands on (RFC 5280 5.2.4)."""

    oid = ExtensionOID.DELTA_CRL_INDICATOR

    def __init__(self, crl_number: int) -> None:
        self._write(fill("x509_crl_number_encode", natural_octets(crl_number, "a CRL number")), crl_number=crl_number)

    def _read(self, data: bytes) -> None:
        super()._read(data)
        self.crl_number = int.from_bytes(view("x509_base_crl_number", Span, data).of(data), "big")


class IssuingDistributionPoint(ExtensionType):
    """Of what certificates a CRL speaks (RFC 5280 5.2.5): of some kind of them, and of one at most. `only_some_reasons` are given as those of a
    DistributionPoint."""

    oid = ExtensionOID.ISSUING_DISTRIBUTION_POINT

    def __init__(
        self,
        full_name: Iterable[GeneralName] | None,
        relative_name: RelativeDistinguishedName | None,
        only_contains_user_certs: bool,
        only_contains_ca_certs: bool,
        only_some_reasons: Iterable[ReasonFlags | str] | None,
        indirect_crl: bool,
        only_contains_attribute_certs: bool,
    ) -> None:
        full, relative = _point_name(full_name, relative_name)
        reasons = _given_reasons(only_some_reasons)
        kinds = listed((only_contains_user_certs, only_contains_ca_certs, only_contains_attribute_certs), bool, "kinds of certificates")
        if sum(kinds) > 1:
            raise ValueError("a CRL speaks of one kind of certificates alone")
        if full is None and relative is None and not reasons and not any(kinds) and not instance(indirect_crl, bool, "indirect_crl"):
            raise ValueError("a CRL of all certificates that the issuer has doesn't say so")
        scope = IssuingDistributionPointView(
            only_contains_user_certs=int(only_contains_user_certs),
            only_contains_ca_certs=int(only_contains_ca_certs),
            indirect_crl=int(instance(indirect_crl, bool, "indirect_crl")),
            only_contains_attribute_certs=int(only_contains_attribute_certs),
        )
        scope.has_only_some_reasons, scope.only_some_reasons = _reason_numbers(reasons)
        self._write(
            fill("x509_issuing_distribution_point_encode", ctypes.byref(scope), *_point_name_der(full, relative)),
            full_name=full,
            relative_name=relative,
            only_contains_user_certs=only_contains_user_certs,
            only_contains_ca_certs=only_contains_ca_certs,
            only_some_reasons=reasons,
            indirect_crl=indirect_crl,
            only_contains_attribute_certs=only_contains_attribute_certs,
        )

    def _read(self, data: bytes) -> None:
        super()._read(data)
        found = view("x509_issuing_distribution_point", IssuingDistributionPointView, data)
        self.full_name = _names_under(0, found.full_name, data)
        self.relative_name = _relative(found.relative_name, data)
        self.only_contains_user_certs = bool(found.only_contains_user_certs)
        self.only_contains_ca_certs = bool(found.only_contains_ca_certs)
        self.only_some_reasons = _reasons(int(found.only_some_reasons)) if found.has_only_some_reasons else None
        self.indirect_crl = bool(found.indirect_crl)
        self.only_contains_attribute_certs = bool(found.only_contains_attribute_certs)


class ReasonFlags(str, enum.Enum):
    """Why a certificate was revoked (RFC 5280 5.3.1). Each is the text that names it there, as keyCompromise, which is its value in `cryptography`; `value` is
    its number. Both the number and the text give the reason: ReasonFlags(1), ReasonFlags("keyCompromise")."""

    unspecified = 0, "unspecified"
    key_compromise = 1, "keyCompromise"
    ca_compromise = 2, "cACompromise"
    affiliation_changed = 3, "affiliationChanged"
    superseded = 4, "superseded"
    cessation_of_operation = 5, "cessationOfOperation"
    certificate_hold = 6, "certificateHold"
    remove_from_crl = 8, "removeFromCRL"
    privilege_withdrawn = 9, "privilegeWithdrawn"
    aa_compromise = 10, "aACompromise"

    def __new__(cls, value: int | str, text: str = "") -> ReasonFlags:
        made = str.__new__(cls, text)
        made._value_ = value
        return made

    def __repr__(self) -> str:
        return f"<ReasonFlags.{self.name}: {self.value}>"

    def __str__(self) -> str:
        return f"ReasonFlags.{self.name}"

    def __format__(self, spec: str) -> str:
        return format(str(self), spec)

    @classmethod
    def _missing_(cls, value: object) -> ReasonFlags | None:
        return next((it for it in cls if isinstance(value, str) and str.__eq__(it, value)), None)


class CRLReason(ExtensionType):
    """Why a certificate was revoked, of an entry of a CRL (RFC 5280 5.3.1)."""

    oid = ExtensionOID.CRL_REASON

    def __init__(self, reason: ReasonFlags) -> None:
        given = instance(reason, ReasonFlags, "a reason")
        self._write(fill("x509_crl_reason_encode", ctypes.c_uint32(int(given.value))), reason=given)

    def _read(self, data: bytes) -> None:
        super()._read(data)
        self.reason = ReasonFlags(number("x509_crl_reason", data))


# how logs sign (RFC 6962 2.1.4), by the numbers of hash and signature (RFC 5246 7.4.1.4.1)
_WAYS_OF_LOGS = {(4, 1): RSA, (4, 3): ECDSA}


def verify_of_log(info: bytes, way: tuple[int, int], data: bytes, signature: bytes) -> None:
    """Verifies a signature of a log by the SubjectPublicKeyInfo of its key, and by the numbers of hash and signature."""
    found = _WAYS_OF_LOGS.get(way)
    algorithm = None if found is None else algorithm_of(found, "sha256")
    if algorithm is None:
        raise ValueError("the signatures of logs are by RSA or ECDSA with SHA-256")
    _cryptography.verify(info, algorithm, data, signature)


def _certificate_der(given: object, what: str) -> bytes:
    from .certificate import certificate_of

    return certificate_of(given, what).public_bytes()


class SignedCertificateTimestamp:
    """A log's promise to have a certificate (RFC 6962 3.2), by its octets. An X509Error where they aren't a timestamp of version 1."""

    def __init__(self, data: bytes) -> None:
        self.data = octets(data, "a timestamp")
        found = view("x509_timestamp_view", TimestampView, self.data)
        self.log_id = found.log_id.of(self.data)
        self.milliseconds = int(found.timestamp)
        self.extension_bytes = found.extensions.of(self.data)
        self.hash_algorithm, self.signature_algorithm = int(found.hash), int(found.signature_algorithm)
        self.signature = found.signature.of(self.data)

    @property
    def timestamp(self) -> datetime.datetime:
        """When the log had it, in UTC without a time zone, as of `cryptography`; an OverflowError after the year 9999."""
        return datetime.datetime(1970, 1, 1) + datetime.timedelta(milliseconds=self.milliseconds)

    def signature_input(self, certificate: Certificate, issuer: Certificate | None = None) -> bytes:
        """What its signature is over (RFC 6962 3.2): of a timestamp within the certificate, whose issuer's certificate is given; where none is, of one that
        came beside the certificate, in the TLS handshake or in an OCSP response (3.3). That the certificate has it, and that the issuer issued it, isn't looked
        at. An X509Error where an issuer is given, and the certificate hasn't one list of timestamps. Certificates of `cryptography` are taken too."""
        data = _certificate_der(certificate, "the certificate")
        if issuer is None:
            return fill("x509_timestamp_signed_data_beside", self.data, data)
        return fill("x509_timestamp_signed_data", self.data, data, _certificate_der(issuer, "the issuer"))

    def verify(self, log_key: AnyPublicKey, certificate: Certificate, issuer: Certificate | None = None) -> None:
        """Verifies it by `cryptography` with the key of its log, of the certificate and the issuer as of `signature_input`. A ValueError where the key is that
        of another log, or the signature isn't by RSA or ECDSA with SHA-256, as those of logs are (RFC 6962 2.1.4); InvalidSignature where it is none."""
        info = _cryptography.key_bytes(log_key, "the key of the log")
        if hashlib.sha256(info).digest() != self.log_id:
            raise ValueError("the key is that of another log")
        verify_of_log(info, (self.hash_algorithm, self.signature_algorithm), self.signature_input(certificate, issuer), self.signature)

    def __eq__(self, other: object) -> bool:
        return isinstance(other, SignedCertificateTimestamp) and self.data == other.data

    def __hash__(self) -> int:
        return hash(self.data)

    def __repr__(self) -> str:
        return f"<SignedCertificateTimestamp(log_id={self.log_id.hex()}, milliseconds={self.milliseconds})>"


class PrecertificateSignedCertificateTimestamps(ListExtension[SignedCertificateTimestamp]):
    """The timestamps of a certificate (RFC 6962 3.3), of which those of an unknown version are passed over; `serialized` has the octets of all."""

    oid = ExtensionOID.PRECERT_SIGNED_CERTIFICATE_TIMESTAMPS

    def __init__(self, signed_certificate_timestamps: Iterable[SignedCertificateTimestamp]) -> None:
        timestamps = some(signed_certificate_timestamps, SignedCertificateTimestamp, "timestamps")
        members = [it.data for it in timestamps]
        lens = (ctypes.c_size_t * len(members))(*map(len, members))
        self._write(fill("x509_timestamps_encode", b"".join(members), lens, ctypes.c_size_t(len(members))), timestamps=timestamps)

    def _read(self, data: bytes) -> None:
        super()._read(data)
        self.serialized = [it.of(data) for it in walk("x509_timestamp_next", Span, data)]
        self.timestamps = [SignedCertificateTimestamp(it) for it in self.serialized if it[:1] == b"\x00"]

    def _members(self) -> Sequence[SignedCertificateTimestamp]:
        return self.timestamps


_TYPES: tuple[type[ExtensionType], ...] = (
    KeyUsage,
    BasicConstraints,
    ExtendedKeyUsage,
    SubjectAlternativeName,
    IssuerAlternativeName,
    SubjectKeyIdentifier,
    AuthorityKeyIdentifier,
    AuthorityInformationAccess,
    SubjectInformationAccess,
    CertificatePolicies,
    PolicyMappings,
    PolicyConstraints,
    InhibitAnyPolicy,
    CRLDistributionPoints,
    FreshestCRL,
    NameConstraints,
    CRLNumber,
    DeltaCRLIndicator,
    IssuingDistributionPoint,
    CRLReason,
    PrecertificateSignedCertificateTimestamps,
    PrecertPoison,
    OCSPNoCheck,
    TLSFeature,
    PrivateKeyUsagePeriod,
    SubjectDirectoryAttributes,
    InvalidityDate,
    CertificateIssuer,
)
KINDS = {it.oid: it for it in _TYPES}

Held = TypeVar("Held", bound=ExtensionType)


class Extension(Generic[Held]):
    """An extension: its identifier, whether it is critical, and what it holds, by its octets, which are read when it is asked for, or by a value."""

    def __init__(self, oid: ObjectIdentifier, critical: bool, data: bytes | ExtensionType) -> None:
        self.oid = instance(oid, ObjectIdentifier, "the type of an extension")
        self.critical = instance(critical, bool, "critical")
        if isinstance(data, ExtensionType):
            if data.oid != oid:
                raise ValueError(f"a {type(data).__name__} is no extension {oid.dotted_string}")
            data = data.data
        self.data = octets(data, "what an extension holds")

    @property
    def value(self) -> Held:
        """What it holds. An X509Error where the octets aren't a value of its type."""
        kind = KINDS.get(self.oid)
        held = UnrecognizedExtension(self.oid, self.data) if kind is None else kind.from_der(self.data)
        return held  # type: ignore[return-value]

    def __eq__(self, other: object) -> bool:
        return isinstance(other, Extension) and (self.oid, self.critical, self.data) == (other.oid, other.critical, other.data)

    def __hash__(self) -> int:
        return hash((self.oid, self.critical, self.data))

    def __repr__(self) -> str:
        return f"<Extension(oid={self.oid!r}, critical={self.critical})>"


class Extensions:
    """The extensions of a certificate, in order. An identifier may stand there twice; look-ups refuse that."""

    def __init__(self, extensions: Iterable[Extension[ExtensionType]]) -> None:
        self._extensions = tuple(listed(extensions, Extension, "extensions"))

    @classmethod
    def from_der(cls, data: bytes) -> Extensions:
        """Those of a list of them; none of no bytes."""
        found = walk("x509_extensions_next", ExtensionEntryView, data) if data else iter(())
        return cls([Extension(ObjectIdentifier.from_content(it.oid.of(data)), bool(it.critical), it.value.of(data)) for it in found])

    def get_extension_for_oid(self, oid: ObjectIdentifier) -> Extension[ExtensionType]:
        found = [it for it in self._extensions if it.oid == oid]
        if not found:
            raise ExtensionNotFound(oid)
        if len(found) > 1:
            raise DuplicateExtension(oid)
        return found[0]

    def get_extension_for_class(self, kind: type[Held]) -> Extension[Held]:
        return self.get_extension_for_oid(kind.oid)  # type: ignore[return-value]

    def __iter__(self) -> Iterator[Extension[ExtensionType]]:
        return iter(self._extensions)

    def __len__(self) -> int:
        return len(self._extensions)

    def __getitem__(self, at: int) -> Extension[ExtensionType]:
        return self._extensions[at]


def _key_digest(public_key: bytes) -> bytes:
    return hashlib.sha1(PublicKey(octets(public_key, "a public key")).bits).digest()


def _subtrees_der(names: list[GeneralName] | None) -> bytes:
    """Subtrees with these names one after the other."""
    return b"".join(fill("x509_subtree_encode", general_name_der(it)) for it in names or ())


def _given_subtrees(names: Iterable[GeneralName] | None) -> list[GeneralName] | None:
    """Names that are to be those of trees; a ValueError where one can't be."""
    if names is None:
        return None
    made = some(names, GeneralName, "names of trees")
    for it in made:
        if isinstance(it, IPAddress) and isinstance(it.value, (ipaddress.IPv4Address, ipaddress.IPv6Address)):
            raise ValueError("the addresses of a tree are a network")
        if isinstance(it, DNSName) and "*" in it.value:
            raise ValueError("a DNS name of a tree has no wildcard")
    return made


def _names_under(tag: int, span: Span, data: bytes) -> GeneralNames | None:
    part = _part(span, data)
    if part is None:
        return None
    return GeneralNames([general_name(it, part) for it in walk("x509_general_names_under_next", GeneralNameView, _number(tag), part)])


def _subtrees(tag: int, span: Span, data: bytes) -> list[GeneralName] | None:
    part = _part(span, data)
    if part is None:
        return None
    return [general_name(it.base, part) for it in walk("x509_subtrees_under_next", SubtreeView, _number(tag), part)]
