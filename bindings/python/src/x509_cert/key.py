"""Public keys and signature algorithms (RFC 5280 4.1.1.2, 4.1.2.7)."""

from __future__ import annotations

import enum

from ._arguments import octets
from ._extension import _part
from ._header import AlgorithmView, KeyView, RsaKeyView
from ._library import view
from ._pem import Encoding, encoded
from .oid import ObjectIdentifier


class KeyKind(enum.Enum):
    """The kind of a public key, by the OID of its algorithm, and of an elliptic curve by the name of the curve."""

    other = 0
    rsa = 1
    rsa_pss = 2
    dsa = 3
    ec_p256 = 4
    ec_p384 = 5
    ec_p521 = 6
    ec_other = 7
    ed25519 = 8
    ed448 = 9
    x25519 = 10
    x448 = 11


class SignatureKind(enum.Enum):
    """The kind of a signature algorithm, by its OID."""

    other = 0
    rsa_sha1 = 1
    rsa_sha224 = 2
    rsa_sha256 = 3
    rsa_sha384 = 4
    rsa_sha512 = 5
    rsa_pss = 6
    dsa_sha1 = 7
    dsa_sha224 = 8
    dsa_sha256 = 9
    ecdsa_sha1 = 10
    ecdsa_sha224 = 11
    ecdsa_sha256 = 12
    ecdsa_sha384 = 13
    ecdsa_sha512 = 14
    ed25519 = 15
    ed448 = 16


# elliptic curves: what they are called (RFC 5480 2.1.1.1, SEC 2, RFC 5639 3)
_CURVES = {
    "1.2.840.10045.3.1.1": "secp192r1",
    "1.3.132.0.33": "secp224r1",
    "1.2.840.10045.3.1.7": "secp256r1",
    "1.3.132.0.34": "secp384r1",
    "1.3.132.0.35": "secp521r1",
    "1.3.132.0.10": "secp256k1",
    "1.3.36.3.3.2.8.1.1.7": "brainpoolP256r1",
    "1.3.36.3.3.2.8.1.1.11": "brainpoolP384r1",
    "1.3.36.3.3.2.8.1.1.13": "brainpoolP512r1",
}
_CURVE_KINDS = (KeyKind.ec_p256, KeyKind.ec_p384, KeyKind.ec_p521, KeyKind.ec_other)
_RSA_KINDS = (KeyKind.rsa, KeyKind.rsa_pss)


class PublicKey:
    """A public key, by what its SubjectPublicKeyInfo says: its kind, its algorithm with the DER of the parameters, its bits, and its size. The numbers of an
    RSA key, the curve and the point of one of an elliptic curve are read when they are asked for: each is an X509Error where the key hasn't that form, and None
    where its kind has no such part."""

    def __init__(self, data: bytes) -> None:
        self._data = octets(data, "a public key")
        found = view("x509_key_view", KeyView, self._data)
        self.kind = KeyKind(int(found.kind))
        self.algorithm_oid = ObjectIdentifier.from_content(found.oid.of(self._data))
        self.parameters = _part(found.parameters, self._data)
        self.bits = found.bits.of(self._data)
        self.unused_bits = int(found.unused_bits)
        self._curve = _part(found.curve, self._data)
        self._size = int(found.size)

    def public_bytes(self, encoding: object = Encoding.DER, format: object = None) -> bytes:
        """Its SubjectPublicKeyInfo, the one format that there is here: as DER, or as PEM, a PUBLIC KEY (RFC 7468 13)."""
        if format is not None and str(format) != "PublicFormat.SubjectPublicKeyInfo":
            raise ValueError("a key is written as its SubjectPublicKeyInfo")
        return encoded(self._data, "PUBLIC KEY", encoding)

    @property
    def modulus(self) -> int | None:
        """The modulus of an RSA key (RFC 8017 A.1.1)."""
        return self._rsa_numbers[0] if self.kind in _RSA_KINDS else None

    @property
    def exponent(self) -> int | None:
        """The exponent of an RSA key (RFC 8017 A.1.1)."""
        return self._rsa_numbers[1] if self.kind in _RSA_KINDS else None

    @property
    def _rsa_numbers(self) -> tuple[int, int]:
        found = view("x509_rsa_key_view", RsaKeyView, self.bits)
        return int.from_bytes(found.modulus.of(self.bits), "big"), int.from_bytes(found.public_exponent.of(self.bits), "big")

    @property
    def curve_oid(self) -> ObjectIdentifier | None:
        """The identifier of the curve, where the key names one (RFC 5480 2.1.1)."""
        return None if self._curve is None else ObjectIdentifier.from_content(self._curve)

    @property
    def curve(self) -> str | None:
        """What the curve is called, as secp256r1; its dotted text where it isn't known here."""
        oid = self.curve_oid
        return None if oid is None else _CURVES.get(oid.dotted_string, oid.dotted_string)

    @property
    def point(self) -> bytes | None:
        """The octets of the point of a key of an elliptic curve (SEC 1 2.3.3), or those of a key of RFC 8410."""
        is_point = self.kind in (*_CURVE_KINDS, KeyKind.ed25519, KeyKind.ed448, KeyKind.x25519, KeyKind.x448)
        return self.bits if is_point else None

    @property
    def key_size(self) -> int | None:
        """Its size in bits: of an RSA key that of the modulus, of a DSA key that of the prime, which the parameters have, of an elliptic curve that of a
        coordinate, where the curve has a name that the library knows, and of a key of RFC 8410 that of its octets, as 256 of X25519, of which OpenSSL says 253;
        None where it isn't known, as where the numbers of an RSA key aren't there."""
        return self._size or None

    def __eq__(self, other: object) -> bool:
        return isinstance(other, PublicKey) and self._data == other._data

    def __hash__(self) -> int:
        return hash(self._data)

    def __repr__(self) -> str:
        return f"<PublicKey(kind={self.kind.name}, algorithm_oid={self.algorithm_oid!r})>"


class AlgorithmIdentifier:
    """An algorithm, by its DER: its kind, its OID, and the DER of its parameters."""

    def __init__(self, data: bytes) -> None:
        self._data = octets(data, "an algorithm")
        found = view("x509_algorithm_view", AlgorithmView, self._data)
        self.kind = SignatureKind(int(found.kind))
        self.oid = ObjectIdentifier.from_content(found.oid.of(self._data))
        self.parameters = _part(found.parameters, self._data)

    def public_bytes(self, encoding: object = Encoding.DER) -> bytes:
        """Its DER; there is no PEM of it."""
        return encoded(self._data, None, encoding)

    def __eq__(self, other: object) -> bool:
        return isinstance(other, AlgorithmIdentifier) and self._data == other._data

    def __hash__(self) -> int:
        return hash(self._data)

    def __repr__(self) -> str:
        return f"<AlgorithmIdentifier(kind={self.kind.name}, oid={self.oid!r})>"
