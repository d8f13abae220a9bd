"""Extensions of the entries of CRLs, beside the reason (RFC 5280 5.3.2, 5.3.3)."""

from __future__ import annotations

import ctypes
import datetime
from typing import Any

from ._extension import ExtensionType
from ._general_names import NamesExtension
from ._library import fill, seconds
from ._numbers import moment
from ._writing import seconds_of
from .general_name import GeneralName
from .oid import ExtensionOID


class InvalidityDate(ExtensionType):
    """Since when the key of a revoked certificate is known or suspected to be invalid, of an entry of a CRL (RFC 5280 5.3.2)."""

    oid = ExtensionOID.INVALIDITY_DATE

    def __init__(self, invalidity_date: datetime.datetime) -> None:
        told = ctypes.c_uint64(seconds_of(invalidity_date, "the date"))
        self._write(fill("x509_invalidity_date_encode", told), invalidity_date_utc=invalidity_date)

    @property
    def invalidity_date(self) -> datetime.datetime:
        """The moment without a time zone, as of `cryptography`."""
        return self.invalidity_date_utc.replace(tzinfo=None)

    def _read(self, data: bytes) -> None:
        super()._read(data)
        self.invalidity_date_utc = moment(seconds("x509_invalidity_date", data))


class CertificateIssuer(NamesExtension):
    """Who issued the revoked certificate, of an entry of a CRL that speaks of others' too (RFC 5280 5.3.3)."""

    oid = ExtensionOID.CERTIFICATE_ISSUER

    def get_values_for_type(self, kind: type[GeneralName]) -> list[Any]:
        """What the names of that kind hold."""
        return self.names.get_values_for_type(kind)
