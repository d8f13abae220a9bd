"""The extension of a certificate that says which extensions of TLS its server must offer (RFC 7633)."""

from __future__ import annotations

import enum
from typing import Iterable, Sequence

from ._arguments import whole_list
from ._extension import ListExtension
from ._numbers import natural_numbers
from ._writing import numbers_der
from .oid import ExtensionOID


class TLSFeatureType(enum.Enum):
    """Extensions of TLS that a server must offer, by their numbers (RFC 7633 4.2.1; RFC 6066 8, RFC 6961 2.2)."""

    status_request = 5
    status_request_v2 = 17


class TLSFeature(ListExtension["TLSFeatureType | int"]):
    """Extensions of TLS that a server must offer (RFC 7633): those that have no name here are numbers."""

    oid = ExtensionOID.TLS_FEATURE

    def __init__(self, features: Iterable[TLSFeatureType | int]) -> None:
        numbers = whole_list(_numbered(features), "features")
        if not numbers:
            raise ValueError("features are one at least")
        self._write(numbers_der(numbers, "a feature"), features=[_feature(it) for it in numbers])

    def _read(self, data: bytes) -> None:
        super()._read(data)
        self.features = [_feature(it) for it in natural_numbers(data)]

    def _members(self) -> Sequence[TLSFeatureType | int]:
        return self.features


def _numbered(features: Iterable[TLSFeatureType | int]) -> Iterable[int]:
    """The same with the numbers of those that have a name."""
    if isinstance(features, (bytes, bytearray, memoryview)):
        return features
    return [it.value if isinstance(it, TLSFeatureType) else it for it in features]


def _feature(number: int) -> TLSFeatureType | int:
    return next((it for it in TLSFeatureType if it.value == number), number)
