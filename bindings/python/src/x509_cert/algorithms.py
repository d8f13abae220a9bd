"""Signature algorithms: those that are used, as constants, and the hash of each (RFC 3279 2.2, RFC 4055, RFC 5758 3, RFC 8410, RFC 9881)."""

from __future__ import annotations

from typing import NamedTuple

from ._der import NULL, SEQUENCE, context, element, integer
from ._elements import elements, only
from ._header import MALFORMED
from ._library import X509Error
from ._numbers import whole_number
from ._writing import identifier_of
from .key import AlgorithmIdentifier
from .oid import ObjectIdentifier
from .oid import SignatureAlgorithmOID as OID

# the four ways to sign by a hash, and the one without
RSA, PSS, ECDSA, DSA, PURE = "RSA", "RSA-PSS", "ECDSA", "DSA", "pure"


class HashAlgorithm(NamedTuple):
    """A hash, where `cryptography` isn't there, whose objects have these attributes too."""

    name: str
    digest_size: int


# the octets of a digest
_SIZES = {"md5": 16, "sha1": 20} | {f"sha{of}{size}": size // 8 for of in ("", "3-") for size in (224, 256, 384, 512)}

_SHA2 = ("sha224", "sha256", "sha384", "sha512")
_SHA3 = ("sha3-224", "sha3-256", "sha3-384", "sha3-512")

# by which way and by which hash an algorithm signs
_WAYS: dict[ObjectIdentifier, tuple[str, str | None]] = {
    OID.RSA_WITH_MD5: (RSA, "md5"),
    OID.RSA_WITH_SHA1: (RSA, "sha1"),
    # sha1WithRSASignature of OIW, which is the same
    ObjectIdentifier("1.3.14.3.2.29"): (RSA, "sha1"),
    OID.RSASSA_PSS: (PSS, None),
    OID.ECDSA_WITH_SHA1: (ECDSA, "sha1"),
    OID.DSA_WITH_SHA1: (DSA, "sha1"),
    **{getattr(OID, f"{way}_WITH_{it.upper().replace('-', '_')}"): (way, it) for way in (RSA, ECDSA) for it in _SHA2 + _SHA3},
    **{getattr(OID, f"DSA_WITH_{it.upper()}"): (DSA, it) for it in _SHA2},
    **{it: (PURE, None) for it in (OID.ED25519, OID.ED448, OID.ML_DSA_44, OID.ML_DSA_65, OID.ML_DSA_87)},
}
_OF_WAYS = {way: oid for oid, way in reversed(_WAYS.items()) if way[0] in (RSA, ECDSA, DSA)}

# hashes in the parameters of PSS (RFC 4055 2.1), and the mask generation function MGF1 (2.2)
_HASHES = {
    "sha1": ObjectIdentifier("1.3.14.3.2.26"),
    "sha224": ObjectIdentifier("2.16.840.1.101.3.4.2.4"),
    "sha256": ObjectIdentifier("2.16.840.1.101.3.4.2.1"),
    "sha384": ObjectIdentifier("2.16.840.1.101.3.4.2.2"),
    "sha512": ObjectIdentifier("2.16.840.1.101.3.4.2.3"),
    "sha3-224": ObjectIdentifier("2.16.840.1.101.3.4.2.7"),
    "sha3-256": ObjectIdentifier("2.16.840.1.101.3.4.2.8"),
    "sha3-384": ObjectIdentifier("2.16.840.1.101.3.4.2.9"),
    "sha3-512": ObjectIdentifier("2.16.840.1.101.3.4.2.10"),
}
_NAMES = {oid: name for name, oid in _HASHES.items()}
_MGF1 = ObjectIdentifier("1.2.840.113549.1.1.8")


class PssParameters(NamedTuple):
    """The parameters of RSASSA-PSS (RFC 4055 3.1): names of hashes as `hashes` of `cryptography` have them, and the octets of the salt."""

    hash_name: str
    mask_hash_name: str
    salt_length: int


# what stands where there are no parameters
_NULL = element(NULL)


def way_of(algorithm: AlgorithmIdentifier) -> tuple[str, str | None] | None:
    """By which way an algorithm signs, and by which hash, where its identifier says that; None where it isn't known, or has parameters that it can't have (RFC
    4055 5, RFC 5758 3, RFC 8410 3)."""
    way = _WAYS.get(algorithm.oid)
    if way is None or way[0] == PSS:
        return way
    return way if algorithm.parameters is None or (way[0] != PURE and algorithm.parameters == _NULL) else None


def algorithm_of(way: str, hash_name: str) -> AlgorithmIdentifier | None:
    """The algorithm that signs in that way by that hash, but for PSS; None where there is none. Those of RSA have NULL for parameters, and others have none
    (RFC 4055 5, RFC 5758 3)."""
    oid = _OF_WAYS.get((way, hash_name))
    return None if oid is None else _written(oid, _NULL if way == RSA else b"")


def pure_algorithm(oid: ObjectIdentifier) -> AlgorithmIdentifier | None:
    """The algorithm with that identifier, which is that of its keys too, where it signs a message as it is; None where it doesn't."""
    return _written(oid) if _WAYS.get(oid) == (PURE, None) else None


def pss_algorithm(of: PssParameters) -> AlgorithmIdentifier:
    """RSASSA-PSS with these parameters (RFC 4055 3.1), of which those that are defaults are left out; a ValueError where a hash isn't known."""
    hashed, mask = _hash_der(of.hash_name), element(SEQUENCE, identifier_of(_MGF1), _hash_der(of.mask_hash_name))
    parts = [
        b"" if of.hash_name == "sha1" else element(context(0, True), hashed),
        b"" if of.mask_hash_name == "sha1" else element(context(1, True), mask),
        b"" if of.salt_length == 20 else element(context(2, True), integer(of.salt_length)),
    ]
    return _written(OID.RSASSA_PSS, element(SEQUENCE, *parts))


def pss_parameters(given: bytes | None) -> PssParameters | None:
    """The parameters of RSASSA-PSS, of an algorithm or of a key, or the defaults; None where a hash or the mask isn't known, or the trailer is another than 1.
    An X509Error where they aren't of that form."""
    parts = {}
    if given is not None:
        found = elements(only(given, SEQUENCE, "the parameters of RSASSA-PSS").content)
        parts = {it.tag: it.content for it in found}
        if list(parts) != sorted(parts) or len(parts) < len(found) or not set(parts) <= {0xA0, 0xA1, 0xA2, 0xA3}:
            raise X509Error("the parameters of RSASSA-PSS", MALFORMED)
    hashed = _hash_name(parts[0xA0]) if 0xA0 in parts else "sha1"
    mask = _mask_hash_name(parts[0xA1]) if 0xA1 in parts else "sha1"
    salt = whole_number(parts[0xA2]) if 0xA2 in parts else 20
    trailer = whole_number(parts[0xA3]) if 0xA3 in parts else 1
    return None if hashed is None or mask is None or trailer != 1 else PssParameters(hashed, mask, salt)


def is_pss_of_key(given: bytes | None, of_key: bytes | None) -> bool:
    """Whether a signature by RSASSA-PSS with these parameters is one for a key of RSASSA-PSS with those (RFC 4055 1.2, 3.3): the hash, the mask and the trailer
    are the same, and the salt isn't shorter. A key without parameters asks for none."""
    if of_key is None:
        return True
    found, wanted = pss_parameters(given), pss_parameters(of_key)
    if found is None or wanted is None:
        return False
    return found[:2] == wanted[:2] and found.salt_length >= wanted.salt_length


def hash_of(name: str) -> HashAlgorithm:
    return HashAlgorithm(name, _SIZES[name])


def _hash_name(data: bytes) -> str | None:
    found = AlgorithmIdentifier(data)
    return _NAMES.get(found.oid) if found.parameters in (None, _NULL) else None


def _mask_hash_name(data: bytes) -> str | None:
    mask = AlgorithmIdentifier(data)
    return _hash_name(mask.parameters) if mask.oid == _MGF1 and mask.parameters is not None else None


def _hash_der(name: str) -> bytes:
    if name not in _HASHES:
        raise ValueError(f"{name} is no hash of RSASSA-PSS")
    return element(SEQUENCE, identifier_of(_HASHES[name]), _NULL)


def _written(oid: ObjectIdentifier, parameters: bytes = b"") -> AlgorithmIdentifier:
    return AlgorithmIdentifier(element(SEQUENCE, identifier_of(oid), parameters))


def _pss(name: str) -> AlgorithmIdentifier:
    """With one hash, and a salt of its size, as RFC 4055 3.1 recommends."""
    return pss_algorithm(PssParameters(name, name, _SIZES[name]))


class SignatureAlgorithm:
    """Algorithms for builders; those of PSS have one hash and a salt of its size (RFC 4055 3.1)."""

    RSA_SHA256 = _written(OID.RSA_WITH_SHA256, _NULL)
    RSA_SHA384 = _written(OID.RSA_WITH_SHA384, _NULL)
    RSA_SHA512 = _written(OID.RSA_WITH_SHA512, _NULL)
    RSA_PSS_SHA256 = _pss("sha256")
    RSA_PSS_SHA384 = _pss("sha384")
    RSA_PSS_SHA512 = _pss("sha512")
    ECDSA_SHA256 = _written(OID.ECDSA_WITH_SHA256)
    ECDSA_SHA384 = _written(OID.ECDSA_WITH_SHA384)
    ECDSA_SHA512 = _written(OID.ECDSA_WITH_SHA512)
    DSA_SHA256 = _written(OID.DSA_WITH_SHA256)
    ED25519 = _written(OID.ED25519)
    ED448 = _written(OID.ED448)
    ML_DSA_44 = _written(OID.ML_DSA_44)
    ML_DSA_65 = _written(OID.ML_DSA_65)
    ML_DSA_87 = _written(OID.ML_DSA_87)
