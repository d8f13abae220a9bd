"""Extensions that hold a NULL, so that they say what they say by being there (RFC 6960 4.2.2.2.1, RFC 6962 3.1)."""

from __future__ import annotations

from ._der import NULL, element
from ._elements import only
from ._extension import ExtensionType
from ._header import MALFORMED
from ._library import X509Error
from .oid import ExtensionOID


class _NullExtension(ExtensionType):
    """An extension that holds a NULL."""

    def __init__(self) -> None:
        self._write(element(NULL))

    def _read(self, data: bytes) -> None:
        super()._read(data)
        if only(data, NULL, type(self).__name__).content:
            raise X509Error(type(self).__name__, MALFORMED)


class PrecertPoison(_NullExtension):
    """What marks a precertificate (RFC 6962 3.1)."""

    oid = ExtensionOID.PRECERT_POISON


class OCSPNoCheck(_NullExtension):
    """What says of a responder's certificate that its revocation isn't looked up (RFC 6960 4.2.2.2.1)."""

    oid = ExtensionOID.OCSP_NO_CHECK
