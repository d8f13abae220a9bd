"""The extension that says when a private key is used (RFC 3280 4.2.1.4)."""

from __future__ import annotations

import ctypes
import datetime

from ._extension import ExtensionType
from ._header import PrivateKeyUsagePeriodView
from ._library import fill, view
from ._numbers import moment
from ._writing import seconds_of
from .oid import ExtensionOID


class PrivateKeyUsagePeriod(ExtensionType):
    """When the private key may sign (RFC 3280 4.2.1.4): from the one moment and to the other, of which one is given at least."""

    oid = ExtensionOID.PRIVATE_KEY_USAGE_PERIOD

    def __init__(self, not_before: datetime.datetime | None, not_after: datetime.datetime | None) -> None:
        if not_before is None and not_after is None:
            raise ValueError("a moment has to be given")
        first = (0, 0) if not_before is None else (1, seconds_of(not_before, "the first moment"))
        last = (0, 0) if not_after is None else (1, seconds_of(not_after, "the last moment"))
        if not_before is not None and not_after is not None and not_after < not_before:
            raise ValueError("the last moment is before the first moment")
        told = PrivateKeyUsagePeriodView(*first, *last)
        self._write(fill("x509_private_key_usage_period_encode", ctypes.byref(told)), not_before=not_before, not_after=not_after)

    def _read(self, data: bytes) -> None:
        super()._read(data)
        found = view("x509_private_key_usage_period", PrivateKeyUsagePeriodView, data)
        self.not_before = moment(int(found.not_before)) if found.has_not_before else None
        self.not_after = moment(int(found.not_after)) if found.has_not_after else None
