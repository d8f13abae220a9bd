"""What certificates, CRLs and CSRs have in common: their DER, and a signature."""

from __future__ import annotations

from typing import Any, ClassVar

from . import _cryptography
from ._cryptography import HashOfCryptography
from ._header import SignatureView
from ._pem import Encoding, encoded
from .key import AlgorithmIdentifier
from .oid import ObjectIdentifier


class Signed:
    """A signed object, by its DER."""

    _label: ClassVar[str]
    _data: bytes

    @property
    def _signature(self) -> SignatureView:
        raise NotImplementedError

    def public_bytes(self, encoding: object = Encoding.DER) -> bytes:
        """The DER that it was read from, or that in PEM."""
        return encoded(self._data, self._label, encoding)

    def fingerprint(self, algorithm: str | HashOfCryptography) -> bytes:
        """The digest of the DER, by an algorithm of `hashlib` or a hash of `cryptography`."""
        return _cryptography.digest(algorithm, self._data)

    @property
    def signature(self) -> bytes:
        """The octets of the signature's bits."""
        return self._signature.bits.of(self._data)

    @property
    def signature_algorithm_bytes(self) -> bytes:
        """The DER of the AlgorithmIdentifier of the signature."""
        return self._signature.algorithm.of(self._data)

    @property
    def signature_algorithm(self) -> AlgorithmIdentifier:
        """The algorithm of the signature, by its kind and its parameters."""
        return AlgorithmIdentifier(self.signature_algorithm_bytes)

    @property
    def signature_algorithm_oid(self) -> ObjectIdentifier:
        """The identifier of the algorithm of the signature."""
        return self.signature_algorithm.oid

    @property
    def signature_hash_algorithm(self) -> Any:
        """The hash of the signature: one of `cryptography`, where it is there, else a HashAlgorithm; None where the message is signed as it is.
        UnsupportedAlgorithm of `cryptography`, or else a NotImplementedError, where the algorithm isn't known."""
        return _cryptography.signature_hash(self.signature_algorithm)

    @property
    def signature_algorithm_parameters(self) -> Any:
        """What `cryptography` verifies the signature by, beside the hash: a padding, an ECDSA, or None. An ImportError without it;
        `signature_algorithm.parameters` is their DER."""
        return _cryptography.signature_parameters(self.signature_algorithm)

    def _verify(self, key: bytes) -> None:
        _cryptography.verify(key, *self._signed_parts())

    def _is_valid(self, key: bytes) -> bool:
        return _cryptography.is_valid(key, *self._signed_parts())

    def _signed_parts(self) -> tuple[AlgorithmIdentifier, bytes, bytes, int]:
        """The algorithm, what is signed, the octets of the signature, and how many of their last bits are unused."""
        found = self._signature
        data = self._data
        return AlgorithmIdentifier(found.algorithm.of(data)), found.signed_part.of(data), found.bits.of(data), int(found.unused_bits)

    def __eq__(self, other: object) -> bool:
        return isinstance(other, type(self)) and self._data == other._data

    def __hash__(self) -> int:
        return hash(self._data)
