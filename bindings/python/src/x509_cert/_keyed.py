"""What the types that hold a key have alike."""

from __future__ import annotations

from typing import Any

from . import _cryptography
from .key import PublicKey
from .oid import ObjectIdentifier


class Keyed:
    """The key of a view of the DER `_data`."""

    _data: bytes
    _view: Any

    @property
    def public_key_bytes(self) -> bytes:
        """The DER of the SubjectPublicKeyInfo."""
        return bytes(self._view.subject_public_key_info.of(self._data))

    @property
    def public_key_info(self) -> PublicKey:
        """The key, by its kind and its bits."""
        return PublicKey(self.public_key_bytes)

    def public_key(self) -> Any:
        """The key as `cryptography` reads it, where that is there; else `public_key_info`."""
        return _cryptography.public_key(self.public_key_bytes)

    @property
    def public_key_algorithm_oid(self) -> ObjectIdentifier:
        """The identifier of the key's algorithm."""
        return self.public_key_info.algorithm_oid
