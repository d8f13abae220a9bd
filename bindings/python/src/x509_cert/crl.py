"""CRLs and their entries (RFC 5280 5)."""

from __future__ import annotations

import copy
import ctypes
import datetime
import itertools
from typing import Iterator, overload

from . import _cryptography
from ._arguments import der_of, instance, no_backend, octets, whole, whole_seconds
from ._cryptography import AnyPublicKey
from ._extension import ExtensionType
from ._header import CrlEntryView, CrlView, SignatureView, Span
from ._library import fill, find, indexed, view, walk
from ._numbers import moment, serial_element, whole_number
from ._pem import blocks, refuse_pem
from ._signed import Signed
from .crl_entry_extensions import CertificateIssuer
from .extensions import CRLReason, DuplicateExtension, Extension, Extensions, ReasonFlags
from .name import Name


class RevokedCertificate:
    """An entry of a CRL. Its extensions are all that it has: a reason that is given is one of them (RFC 5280 5.3.1), behind those that are given."""

    def __init__(
        self, serial_number: int, revocation_date_utc: datetime.datetime, reason: ReasonFlags | None, extensions: Extensions | None = None
    ) -> None:
        serial_element(whole(serial_number, "a serial number"))
        whole_seconds(revocation_date_utc, "the revocation date")
        given = Extensions([]) if extensions is None else instance(extensions, Extensions, "the extensions")
        told = _told_reason(given)
        if reason is not None and told is None:
            given = Extensions([*given, Extension(CRLReason.oid, False, CRLReason(reason).data)])
        elif reason is not None and told != reason:
            raise ValueError(f"the extensions say {told}, and not {reason}")
        self._serial_number, self._revocation_date_utc, self._extensions = serial_number, revocation_date_utc, given
        self._reason = told if reason is None else reason

    @property
    def serial_number(self) -> int:
        return self._serial_number

    @property
    def revocation_date_utc(self) -> datetime.datetime:
        return self._revocation_date_utc

    @property
    def reason(self) -> ReasonFlags | None:
        """Why it was revoked, where that is said."""
        return self._reason

    @property
    def extensions(self) -> Extensions:
        return self._extensions

    def __repr__(self) -> str:
        return f"<RevokedCertificate(serial_number={self.serial_number}, {self.revocation_date_utc:%Y-%m-%dT%H:%M:%SZ}, {self.reason})>"


def _told_reason(extensions: Extensions) -> ReasonFlags | None:
    """The reason that extensions of an entry tell; a DuplicateExtension where two do."""
    told = [it for it in extensions if it.oid == CRLReason.oid]
    if len(told) > 1:
        raise DuplicateExtension(CRLReason.oid)
    return CRLReason.from_der(told[0].data).reason if told else None


def _entry(found: CrlEntryView, entries: bytes) -> RevokedCertificate:
    extensions = Extensions.from_der(found.extensions.of(entries))
    return RevokedCertificate(whole_number(found.serial_number.of(entries)), moment(int(found.date)), None, extensions)


class RevokedCertificateBuilder:
    """An entry of a CRL. A builder isn't changed: each method gives a further one."""

    def __init__(self) -> None:
        self._serial_number: int | None = None
        self._revocation_date: datetime.datetime | None = None
        self._extensions: tuple[Extension[ExtensionType], ...] = ()

    def serial_number(self, number: int) -> RevokedCertificateBuilder:
        """A positive number of 159 bits at most, as of a certificate (RFC 5280 4.1.2.2)."""
        if self._serial_number is not None:
            raise ValueError("serial_number was given before")
        if not 0 < whole(number, "a serial number") < 1 << 159:
            raise ValueError("a serial number is positive, and has 159 bits at most")
        made = copy.copy(self)
        made._serial_number = number
        return made

    def revocation_date(self, time: datetime.datetime) -> RevokedCertificateBuilder:
        """When it was revoked: a moment with a time zone, and without fractions of a second."""
        if self._revocation_date is not None:
            raise ValueError("revocation_date was given before")
        whole_seconds(time, "the revocation date")
        made = copy.copy(self)
        made._revocation_date = time
        return made

    def add_extension(self, extval: ExtensionType, critical: bool) -> RevokedCertificateBuilder:
        """With this extension behind the others; a ValueError where there is one of its identifier."""
        oid = instance(extval, ExtensionType, "extval").oid
        if any(oid == it.oid for it in self._extensions):
            raise ValueError(f"there is an extension {oid.dotted_string}")
        made = copy.copy(self)
        made._extensions = (*self._extensions, Extension(oid, critical, extval))
        return made

    def build(self, backend: object = None) -> RevokedCertificate:
        """The entry; a ValueError where something wasn't given."""
        no_backend(backend)
        if self._serial_number is None or self._revocation_date is None:
            raise ValueError("the serial number and the revocation date have to be given")
        return RevokedCertificate(self._serial_number, self._revocation_date, None, Extensions(self._extensions))


class CertificateRevocationList(Signed):
    """A CRL, by its DER: a sequence of its entries."""

    _label = "X509 CRL"

    def __init__(self, data: bytes) -> None:
        self._data = octets(data, "a CRL")
        refuse_pem(self._data, "x509_crl_view", "load_pem_x509_crl")
        self._view = view("x509_crl_view", CrlView, self._data)
        self._entries = self._view.entries.of(self._data)
        self._len = sum(1 for _ in self._walk())
        self._index: ctypes.Array[ctypes.c_uint32] | None = None

    def _walk(self) -> Iterator[CrlEntryView]:
        return walk("x509_crl_entry_next", CrlEntryView, self._entries) if self._entries else iter(())

    @property
    def inner_signature_algorithm_bytes(self) -> bytes:
        """The DER of the algorithm in the signed part, which is to be that of the signature (RFC 5280 5.1.1.2). Whether it is isn't looked at."""
        return self._view.inner_algorithm.of(self._data)

    @property
    def issuer(self) -> Name:
        return Name(self._view.issuer.of(self._data))

    @property
    def last_update_utc(self) -> datetime.datetime:
        """When it was issued."""
        return moment(int(self._view.this_update))

    @property
    def next_update_utc(self) -> datetime.datetime | None:
        """By when the next one will be issued, where that is said."""
        return moment(int(self._view.next_update)) if self._view.has_next_update else None

    @property
    def extensions(self) -> Extensions:
        return Extensions.from_der(self._view.extensions.of(self._data))

    @property
    def tbs_certlist_bytes(self) -> bytes:
        """The bytes that the signature is over, as they stand in the DER."""
        return self._view.signature.signed_part.of(self._data)

    @property
    def _signature(self) -> SignatureView:
        return self._view.signature

    def is_signature_valid(self, public_key: AnyPublicKey) -> bool:
        """Whether the signature is one by the key, by `cryptography`; False also where the algorithm in the signed part is another (RFC 5280 5.1.1.2), or isn't
        one for such keys. A TypeError where the key is of a kind that verifies no signatures."""
        key = _cryptography.key_bytes(public_key, "a public key")
        if not _cryptography.verifies(key):
            raise TypeError("a key of that kind verifies no signatures")
        return self._view.inner_algorithm.of(self._data) == self.signature_algorithm_bytes and self._is_valid(key)

    def to_text(self) -> str:
        """All that it has, as lines for people: each is a label and a text, and no text of the CRL can forge a line or turn its order round."""
        return fill("x509_crl_text", self._data).decode("utf-8")

    def to_json(self) -> str:
        """The lines of `to_text` as JSON (RFC 8259): an array of objects, each with its `depth`, its `label` and its `text`."""
        return fill("x509_crl_json", self._data).decode("utf-8")

    def get_revoked_certificate_by_serial_number(self, serial_number: int) -> RevokedCertificate | None:
        """The first entry with the serial number. Its issuer isn't compared (RFC 5280 5.3.3). The first look-up makes an index, which is kept."""
        try:
            element = serial_element(serial_number)
        except ValueError:
            return None
        if not self._entries:
            return None
        if self._index is None:
            self._index = indexed("x509_crl_index", self._entries, self._len)
        found = find("x509_crl_index_find", CrlEntryView, self._entries, self._index, ctypes.c_size_t(len(self._index)), element)
        return None if found is None else _entry(found, self._entries)

    def issued_entries(self) -> Iterator[tuple[RevokedCertificate, CertificateIssuer | None]]:
        """The entries of an indirect CRL, each with who issued its certificate (RFC 5280 5.3.3): the names of the last entry up to it that has a
        CertificateIssuer, and None where none has it, so that the issuer of the CRL did."""
        at, issuer = ctypes.c_size_t(), Span()
        words = (self._entries, ctypes.byref(at), ctypes.byref(issuer))
        while self._entries and (found := find("x509_crl_issued_next", CrlEntryView, *words)) is not None:
            yield _entry(found, self._entries), CertificateIssuer.from_der(issuer.of(self._entries)) if issuer.is_there() else None

    def __iter__(self) -> Iterator[RevokedCertificate]:
        return (_entry(it, self._entries) for it in self._walk())

    @overload
    def __getitem__(self, at: int) -> RevokedCertificate: ...

    @overload
    def __getitem__(self, at: slice) -> list[RevokedCertificate]: ...

    def __getitem__(self, at: int | slice) -> RevokedCertificate | list[RevokedCertificate]:
        if isinstance(at, slice):
            return list(self)[at]
        if not -self._len <= at < self._len:
            raise IndexError(at)
        return _entry(next(itertools.islice(self._walk(), at % self._len, None)), self._entries)

    def __len__(self) -> int:
        return self._len

    def __repr__(self) -> str:
        return f"<CertificateRevocationList of {self._len} entries>"


def crl_of(given: object, what: str) -> CertificateRevocationList:
    """A CertificateRevocationList, or that of `cryptography` by its DER."""
    data = der_of(given, "CertificateRevocationList")
    return instance(given, CertificateRevocationList, what) if data is None else CertificateRevocationList(data)


def load_der_x509_crl(data: bytes, backend: object = None) -> CertificateRevocationList:
    """The CRL that the bytes are; an X509Error where they are none."""
    no_backend(backend)
    return CertificateRevocationList(data)


def load_pem_x509_crl(data: bytes, backend: object = None) -> CertificateRevocationList:
    """The first CRL in PEM (RFC 7468 6); a ValueError where there is none."""
    no_backend(backend)
    return CertificateRevocationList(blocks(data, ("X509 CRL",))[0])


def load_pem_x509_crls(data: bytes) -> list[CertificateRevocationList]:
    """All CRLs in PEM, in order; a ValueError where there is none."""
    return [CertificateRevocationList(it) for it in blocks(data, ("X509 CRL",))]
