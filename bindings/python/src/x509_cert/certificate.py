"""Certificates (RFC 5280 4.1)."""

from __future__ import annotations

import ctypes
import datetime
import enum
import functools
import importlib
import secrets
from typing import Any, NamedTuple, Sequence

from ._arguments import der_of, instance, no_backend, octets
from ._header import ABSENT, FAULT, OK, RAW, RFC5280, CertificateView, PathCertificateView, PathFaultView, SignatureView, Span
from ._keyed import Keyed
from ._library import X509Error, fill, number, status_of, view
from ._numbers import moment, whole_number
from ._pem import blocks, refuse_pem
from ._signed import Signed
from .extensions import Extensions
from .general_name import RFC822Name
from .name import Name
from .oid import ObjectIdentifier
from .peer import ServerName, text_of_email, text_of_server


class Version(enum.Enum):
    """The version of a certificate (RFC 5280 4.1.2.1), by the number that its encoding has, as of `cryptography`; `number` is that in its name."""

    v1 = 0
    v2 = 1
    v3 = 2

    @property
    def number(self) -> int:
        """1, 2 or 3."""
        return self.value + 1


class UniqueIdentifier(NamedTuple):
    """A further name of an issuer or a subject (RFC 5280 4.1.2.8): the octets of its bits, and how many of the last one's bits are unused."""

    bits: bytes
    unused_bits: int


class Certificate(Keyed, Signed):
    """A certificate, by its DER."""

    _label = "CERTIFICATE"

    def __init__(self, data: bytes) -> None:
        self._data = octets(data, "a certificate")
        refuse_pem(self._data, "x509_certificate_view", "load_pem_x509_certificate")
        self._view: CertificateView = view("x509_certificate_view", CertificateView, self._data)

    @classmethod
    def _found(cls, data: bytes, told: PathCertificateView) -> Certificate:
        """The certificate of a path that a call has said this of."""
        it = cls.__new__(cls)
        it._data, it._view, it._signature = data, told.view, told.signature
        return it

    def canonical_bytes(self) -> bytes:
        """Its DER with the dates as RFC 5280 4.1.2.5 spells them. Where that isn't how they stood, the signature doesn't hold of these bytes."""
        return fill("x509_certificate_reencode", self._data)

    @property
    def version(self) -> Version:
        return Version(int(self._view.version) - 1)

    @property
    def serial_number(self) -> int:
        return whole_number(self._view.serial_number.of(self._data))

    @property
    def serial_number_text(self) -> str:
        """The octets of the serial number in hex, as 00:FF."""
        element = self._view.serial_number.of(self._data)
        return fill("x509_serial_text", view("x509_serial_number", Span, element).of(element)).decode("ascii")

    @property
    def issuer(self) -> Name:
        return Name(self._view.issuer.of(self._data))

    @property
    def subject(self) -> Name:
        return Name(self._view.subject.of(self._data))

    @property
    def not_valid_before_utc(self) -> datetime.datetime:
        return moment(int(self._view.not_before))

    @property
    def not_valid_after_utc(self) -> datetime.datetime:
        return moment(int(self._view.not_after))

    @property
    def issuer_unique_id(self) -> UniqueIdentifier | None:
        """A further name of the issuer (RFC 5280 4.1.2.8)."""
        return self._unique_id(self._view.issuer_unique_id, int(self._view.issuer_unused_bits))

    @property
    def subject_unique_id(self) -> UniqueIdentifier | None:
        """A further name of the subject (RFC 5280 4.1.2.8)."""
        return self._unique_id(self._view.subject_unique_id, int(self._view.subject_unused_bits))

    def _unique_id(self, bits: Span, unused_bits: int) -> UniqueIdentifier | None:
        return UniqueIdentifier(bits.of(self._data), unused_bits) if bits.is_there() else None

    @property
    def inner_signature_algorithm_bytes(self) -> bytes:
        """The DER of the algorithm in the signed part, which is to be that of the signature (RFC 5280 4.1.1.2). Whether it is isn't looked at."""
        return self._view.inner_algorithm.of(self._data)

    @property
    def extensions(self) -> Extensions:
        return Extensions.from_der(self._view.extensions.of(self._data))

    def matches_name(self, name: ServerName) -> bool:
        """Whether it is that of the server (RFC 9525 6): its SubjectAlternativeName has a name of it. A DNSName names a host where both are the same without regard
        to the case of ASCII; one that begins with `*.` and has two labels or more behind it names each host that has these behind one label. An IPAddress names
        a host where both have the same octets. Nothing else names one, nor does the common name; an extension that can't be decoded, or that is there twice,
        names none. Whether the certificate is to be trusted is asked by `validate_path`.

        The name is a text as `server_name` reads it, or a DNSName, an IPAddress or an address of `ipaddress`. An X509Error where it is neither a DNS name nor an
        IP address."""
        return number("x509_certificate_matches_name", self._data, text_of_server(name)) == 1

    def matches_email(self, address: str | RFC822Name) -> bool:
        """Whether it is that of the mailbox (RFC 5280 7.5): its SubjectAlternativeName has an RFC822Name with the same local part and the same host, the latter
        without regard to the case of ASCII. An address in the subject names nothing. An X509Error where the text is no e-mail address."""
        return number("x509_certificate_matches_email", self._data, text_of_email(address)) == 1

    @property
    def tbs_certificate_bytes(self) -> bytes:
        """The bytes that the signature is over, as they stand in the DER."""
        return view("x509_signed_slice", Span, self._data).of(self._data)

    @property
    def tbs_precertificate_bytes(self) -> bytes:
        """The TBSCertificate that a log has (RFC 6962 3.2): of a certificate without its list of timestamps, of a precertificate without the poison; all else
        byte for byte as it stands, but for the lengths above it. An X509Error where there is neither, or one of these twice."""
        try:
            return fill("x509_logged_part", self._data)
        except X509Error as error:
            if error.status != ABSENT:
                raise
        return fill("x509_logged_precertificate", self._data)

    def tbs_precertificate_bytes_signed_by(self, signing: Certificate) -> bytes:
        """The TBSCertificate that a log has of the precertificate, which a precertificate signing certificate signed (RFC 6962 3.1, 3.2): without the poison,
        with the issuer of the signing certificate, and, where there is an authority key identifier, with the value that this extension has there. Whether that
        certificate is one (its extended key usage has `ExtendedKeyUsageOID.CERTIFICATE_TRANSPARENCY`), and signed this one, isn't looked at. An X509Error
        where there is no poison, where the signing certificate lacks an authority key identifier that this one has, and where one of these is there twice.
        A certificate of `cryptography` is taken too."""
        return fill("x509_logged_precertificate_signed_by", self._data, certificate_of(signing, "the signing certificate").public_bytes())

    @functools.cached_property
    def _signature(self) -> SignatureView:
        return view("x509_certificate_signature", SignatureView, self._data)

    def verify_directly_issued_by(self, issuer: Certificate) -> None:
        """Whether the issuer's certificate has the name that this one says, byte for byte, and its key verifies the signature, by `cryptography`. A ValueError
        where the name is another, or the algorithm is another than in the signed part (RFC 5280 4.1.1.2) or none for such keys; InvalidSignature of
        `cryptography` where the signature is none, a TypeError where the issuer's key is of a kind that verifies none. Nothing else is looked at: no date, and
        not whether the issuer is an authority."""
        issuer = certificate_of(issuer, "the issuer")
        fault = path_fault(issuer._data, [self._data], int(self._view.not_before))
        if fault is not None and fault[1] in _UNFIT:
            raise ValueError(f"the certificate {_UNFIT[fault[1]]}")
        self._verify(issuer.public_key_bytes)

    def to_text(self) -> str:
        """All that it has, as lines for people: each is a label and a text, and no text of the certificate can forge a line or turn its order round."""
        return fill("x509_certificate_text", self._data).decode("utf-8")

    def to_json(self) -> str:
        """The lines of `to_text` as JSON (RFC 8259): an array of objects, each with its `depth`, its `label` and its `text`."""
        return fill("x509_certificate_json", self._data).decode("utf-8")

    def __repr__(self) -> str:
        return f"<Certificate(subject={self.subject!r})>"


def load_der_x509_certificate(data: bytes, backend: object = None) -> Certificate:
    """The certificate that the bytes are; an X509Error where they are none."""
    no_backend(backend)
    return Certificate(data)


# RFC 7468 5.1, and what was written before it
_LABELS = ("CERTIFICATE", "X509 CERTIFICATE")


def load_pem_x509_certificate(data: bytes, backend: object = None) -> Certificate:
    """The first certificate in PEM (RFC 7468 5); a ValueError where there is none."""
    no_backend(backend)
    return Certificate(blocks(data, _LABELS)[0])


def load_pem_x509_certificates(data: bytes) -> list[Certificate]:
    """All certificates in PEM, in order; a ValueError where there is none."""
    return [Certificate(it) for it in blocks(data, _LABELS)]


def random_serial_number() -> int:
    """A positive serial number of 159 random bits, whose INTEGER has 20 octets at most (RFC 5280 4.1.2.2)."""
    return secrets.randbelow((1 << 159) - 1) + 1


def certificate_of(given: object, what: str) -> Certificate:
    """A Certificate, or that of `cryptography` by its DER."""
    data = der_of(given, "Certificate")
    return instance(given, Certificate, what) if data is None else Certificate(data)


def path_fault(anchor: bytes, path: Sequence[bytes], moment: int) -> tuple[int, int] | None:
    """The place and the number of the first fault of a path that isn't one of a signature."""
    fault = PathFaultView()
    lens = (ctypes.c_size_t * len(path))(*map(len, path))
    words = (lens, ctypes.c_size_t(len(path)), ctypes.c_uint64(moment), ctypes.byref(fault))
    status = status_of("x509_path_check", anchor, b"".join(path), *words)
    if status not in (OK, FAULT):
        raise X509Error("x509_path_check", status)
    return (int(fault.place), int(fault.reason)) if status == FAULT else None


# faults of x509.h for which a certificate isn't issued by another one, whoever signed it
_UNFIT = {2: "has another algorithm in its signed part", 3: "has another issuer than the subject of that certificate"}


def reencode(kind: str, data: bytes, raw: bool = True) -> bytes:
    """Reads a value of the type with that name, and writes it again: the same bytes, but without `raw` the dates of a validity as RFC 5280 spells them.

    The types: AccessDescription, AlgorithmIdentifier, Any, Attribute, AttributeTypeAndValue, AuthorityInfoAccessSyntax, AuthorityKeyIdentifier, BaseCrlNumber,
    BasicConstraints, BitString, BmpString, CertPathControls, CertPolicies, CertReq, CertReqInfo, Certificate, CertificateIssuer, CertificateList,
    CertificatePolicies, CrlDistributionPoints, CrlNumber, CrlReason, DirectoryString, DisplayText, DistributionPoint, DistributionPointName, EdiPartyName,
    ExtendedKeyUsage, Extension, ExtensionReq, Extensions, FreshestCrl, GeneralName, GeneralNames, GeneralSubtree, GeneralizedTime, HardwareModuleName,
    Ia5String, InhibitAnyPolicy, Int, IssuerAltName, IssuingDistributionPoint, KeyUsage, Name, NameConstraints, NoticeReference, ObjectIdentifier, OctetString,
    OtherName, PkiPath, PolicyConstraints, PolicyInformation, PolicyMapping, PolicyMappings, PolicyQualifierInfo, PrintableString, PrivateKeyUsagePeriod,
    RdnSequence, Reasons, RelativeDistinguishedName, RevokedCert, SerialNumber, SignedCertificateTimestampList, SubjectAltName, SubjectDirectoryAttributes,
    SubjectInfoAccessSyntax, SubjectKeyIdentifier, SubjectPublicKeyInfo, TbsCertList, TbsCertificate, TeletexString, Time, TrustAnchorChoice, TrustAnchorInfo,
    Uint, UserNotice, UtcTime, Utf8String, Validity, Version, VisibleString, bool, u128, u16, u32, u64, u8.
    """
    return fill("x509_reencode", kind.encode("ascii"), ctypes.c_uint32(RAW if raw else RFC5280), octets(data, "a value"))


def __getattr__(name: str) -> object:
    """What stood in this module before CRLs and paths had modules of their own."""
    if name in ("CertificateRevocationList", "RevokedCertificate", "load_der_x509_crl"):
        return getattr(importlib.import_module(".crl", __package__), name)
    if name in ("PathFault", "SIGNATURE_FAULT", "Verifier", "check_path"):
        return getattr(importlib.import_module(".path", __package__), name)
    raise AttributeError(name)
