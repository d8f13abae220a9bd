"""Keys, hashes and signatures of `cryptography`, which is imported when it is asked for and not before: all else works without it."""

from __future__ import annotations

import hashlib
import importlib
from typing import Any, Callable, Protocol, Union

from ._arguments import octets
from .algorithms import (
    DSA,
    ECDSA,
    PSS,
    PURE,
    RSA,
    HashAlgorithm,
    PssParameters,
    algorithm_of,
    hash_of,
    is_pss_of_key,
    pss_algorithm,
    pss_parameters,
    pure_algorithm,
    way_of,
)
from .key import AlgorithmIdentifier, KeyKind, PublicKey

Signer = Callable[[bytes], bytes]


class PublicKeyOfCryptography(Protocol):
    """A public key of `cryptography`, or what behaves as one."""

    def public_bytes(self, encoding: Any, format: Any) -> bytes: ...


class PrivateKeyOfCryptography(Protocol):
    """A private key of `cryptography`, or what behaves as one, as one that a token holds."""

    @property
    def sign(self) -> Callable[..., bytes]: ...

    @property
    def public_key(self) -> Callable[[], Any]: ...


class HashOfCryptography(Protocol):
    """A hash of `cryptography`, or what has the same attributes."""

    @property
    def name(self) -> str: ...

    @property
    def digest_size(self) -> int: ...


# what is taken for a public key: a SubjectPublicKeyInfo, what the package read of one, or a key of `cryptography`
AnyPublicKey = Union[bytes, PublicKey, PublicKeyOfCryptography]
# what is taken for an algorithm and for what signs
AnyAlgorithm = Union[bytes, AlgorithmIdentifier, PrivateKeyOfCryptography, HashOfCryptography, None]
AnySigner = Union[Signer, HashOfCryptography, None]

_WAY_OF_KINDS = {KeyKind.rsa: RSA, KeyKind.rsa_pss: PSS, KeyKind.dsa: DSA} | {
    kind: ECDSA for kind in (KeyKind.ec_p256, KeyKind.ec_p384, KeyKind.ec_p521, KeyKind.ec_other)
}


def _module(name: str) -> Any:
    """A module of `cryptography`; an ImportError that says what it is for where it isn't there."""
    try:
        return importlib.import_module(f"cryptography.{name}")
    except ImportError as error:
        raise ImportError("keys and signatures are those of the package cryptography, which isn't there") from error


def is_there() -> bool:
    try:
        importlib.import_module("cryptography")
    except ImportError:
        return False
    return True


def unsupported(text: str) -> Exception:
    """What says that an algorithm isn't known: that of `cryptography`, where it is there."""
    if not is_there():
        return NotImplementedError(text)
    made: Exception = _module("exceptions").UnsupportedAlgorithm(text)
    return made


def public_key(info: bytes) -> Any:
    """The key of a SubjectPublicKeyInfo: that of `cryptography`, where it is there, else the package's own view of it."""
    return _module("hazmat.primitives.serialization").load_der_public_key(info) if is_there() else PublicKey(info)


def key_bytes(given: AnyPublicKey, what: str) -> bytes:
    """The SubjectPublicKeyInfo of a key."""
    if isinstance(given, PublicKey):
        return given.public_bytes()
    if isinstance(given, (bytes, bytearray, memoryview)) or not _is_key(given):
        return octets(given, what)  # type: ignore[arg-type]
    serialization = _module("hazmat.primitives.serialization")
    return octets(given.public_bytes(serialization.Encoding.DER, serialization.PublicFormat.SubjectPublicKeyInfo), what)


def _is_key(given: object) -> bool:
    """Whether it is a public key of `cryptography`, or what behaves as one: a certificate or a name has `public_bytes` too, and is none."""
    marks = ("verify", "public_bytes_raw", "public_numbers")
    return not isinstance(given, type) and hasattr(given, "public_bytes") and any(hasattr(given, mark) for mark in marks)


def algorithm_bytes(given: object) -> bytes:
    return given.public_bytes() if isinstance(given, AlgorithmIdentifier) else octets(given, "the algorithm")  # type: ignore[arg-type]


def hash_name(given: object) -> str:
    """The name of a hash as `cryptography` has it, as sha256."""
    name = getattr(given, "name", None)
    if not isinstance(name, str) or not isinstance(getattr(given, "digest_size", None), int):
        raise TypeError(f"a hash is one of cryptography's `hashes`, not a {type(given).__name__}")
    return name


def digest(algorithm: str | HashOfCryptography, data: bytes) -> bytes:
    """The digest by a hash: the name of one of `hashlib`, or one of `cryptography`."""
    if isinstance(algorithm, str):
        return hashlib.new(algorithm, data).digest()
    made: Any = hashlib.new(hash_name(algorithm).replace("-", "_"), data)
    found: bytes = made.digest() if made.digest_size else made.digest(algorithm.digest_size)
    return found


def hash_object(name: str) -> Any:
    """The hash with that name: that of `cryptography`, where it is there."""
    if not is_there():
        return hash_of(name)
    return getattr(_module("hazmat.primitives.hashes"), name.upper().replace("-", "_"))()


def signature_hash(algorithm: AlgorithmIdentifier) -> Any:
    """The hash that an algorithm signs by; None where it signs a message as it is."""
    way = _known(algorithm)
    if way[0] == PSS:
        return hash_object(_known_pss(algorithm).hash_name)
    return None if way[1] is None else hash_object(way[1])


def signature_parameters(algorithm: AlgorithmIdentifier) -> Any:
    """What `cryptography` wants to verify such a signature, beside the hash: a padding, an ECDSA, or None."""
    way, name = _known(algorithm)
    padding = _module("hazmat.primitives.asymmetric.padding")
    if way == PSS:
        of = _known_pss(algorithm)
        return padding.PSS(padding.MGF1(hash_object(of.mask_hash_name)), of.salt_length)
    if way == RSA:
        return padding.PKCS1v15()
    return _module("hazmat.primitives.asymmetric.ec").ECDSA(hash_object(name or "")) if way == ECDSA else None


def _known(algorithm: AlgorithmIdentifier) -> tuple[str, str | None]:
    way = way_of(algorithm)
    if way is None:
        raise unsupported(f"the signature algorithm {algorithm.oid.dotted_string} isn't known")
    return way


def _known_pss(algorithm: AlgorithmIdentifier) -> PssParameters:
    found = pss_parameters(algorithm.parameters)
    if found is None:
        raise unsupported("a hash, the mask or the trailer of RSASSA-PSS isn't known")
    return found


# ---- verifying

# hashes for which two messages can be found with one digest, as signatures must not have
_BROKEN = ("md5", "sha1")


def verify(info: bytes, algorithm: AlgorithmIdentifier, message: bytes, signature: bytes, unused_bits: int = 0) -> None:
    """Verifies a signature of a message with the key of a SubjectPublicKeyInfo. InvalidSignature of `cryptography` where it is none; a ValueError where the
    algorithm isn't one for such keys, or not with the parameters that the key has (RFC 4055 3.3), or its hash is MD5 or SHA-1, as there; a TypeError where no
    algorithm is one for such keys, and UnsupportedAlgorithm where the algorithm isn't known."""
    if not verifies(info):
        raise TypeError("a key of that kind verifies no signatures")
    way = _known(algorithm)[0]
    if not _goes_with(way, PublicKey(info), algorithm):
        raise ValueError("the signature algorithm isn't one for keys of that kind")
    hashed = signature_hash(algorithm)
    if hashed is not None and hashed.name in _BROKEN:
        raise ValueError(f"a signature by {hashed.name} shows nothing: others can be made for it")
    if unused_bits:
        raise _module("exceptions").InvalidSignature
    key = _module("hazmat.primitives.serialization").load_der_public_key(info)
    parameters = signature_parameters(algorithm)
    words = {RSA: (parameters, hashed), PSS: (parameters, hashed), ECDSA: (parameters,), DSA: (hashed,), PURE: ()}[way]
    key.verify(signature, message, *words)


def verifies(info: bytes) -> bool:
    """Whether the key of a SubjectPublicKeyInfo is of a kind that verifies signatures."""
    key = PublicKey(info)
    return key.kind in _WAY_OF_KINDS or pure_algorithm(key.algorithm_oid) is not None


def _goes_with(way: str, key: PublicKey, algorithm: AlgorithmIdentifier) -> bool:
    if way == PURE:
        return key.algorithm_oid == algorithm.oid
    if way == PSS and key.kind is KeyKind.rsa_pss:
        return is_pss_of_key(algorithm.parameters, key.parameters)
    return _WAY_OF_KINDS.get(key.kind) in ((RSA, PSS) if way == PSS else (way,))


def is_valid(info: bytes, algorithm: AlgorithmIdentifier, message: bytes, signature: bytes, unused_bits: int) -> bool:
    """Whether the signature verifies; False also where the algorithm isn't one for such keys, or isn't known."""
    exceptions = _module("exceptions")
    if not verifies(info):
        return False
    try:
        verify(info, algorithm, message, signature, unused_bits)
    except (exceptions.InvalidSignature, exceptions.UnsupportedAlgorithm, ValueError):
        return False
    return True


# ---- signing


def how(algorithm: AnyAlgorithm, signer: AnySigner, private_key: PrivateKeyOfCryptography | None, rsa_padding: Any) -> tuple[bytes, Signer, bytes | None]:
    """The algorithm, what signs, and of a key of `cryptography` its public key. What is given is an algorithm and a function that signs; or such a key and a
    hash, in this order, or by their names."""
    key: Any = private_key
    hashed: Any = algorithm
    if key is None and hasattr(algorithm, "sign") and hasattr(algorithm, "public_key") and not isinstance(algorithm, type):
        key, hashed = algorithm, signer
    elif key is not None and signer is not None:
        raise TypeError("a signer isn't given beside a private key")
    if key is not None:
        return _signing(key, hashed, rsa_padding)
    if rsa_padding is not None:
        raise TypeError("rsa_padding is said of a private key")
    if not callable(signer):
        raise TypeError(f"a signer is a function from bytes to bytes, not a {type(signer).__name__}")
    return algorithm_bytes(algorithm), signer, None


def _signing(key: Any, hashed: Any, rsa_padding: Any) -> tuple[bytes, Signer, bytes]:
    if not hasattr(key, "sign") or not hasattr(key, "public_key"):
        raise TypeError(f"a private key is one of cryptography, not a {type(key).__name__}")
    info = key_bytes(key.public_key(), "a public key")
    found = PublicKey(info)
    way = _WAY_OF_KINDS.get(found.kind)
    if rsa_padding is not None and way != RSA:
        raise TypeError("rsa_padding is said of an RSA key")
    if way is None:
        return _pure_signing(key, found, hashed)
    name = hash_name(hashed)
    if rsa_padding is not None and name not in _BROKEN and not _is_pkcs1(rsa_padding):
        return _pss_signing(key, found, hashed, rsa_padding)
    algorithm = algorithm_of(way, name)
    if algorithm is None or name in _BROKEN:
        raise unsupported(f"no signature is made by a key of that kind and {name}")
    return algorithm.public_bytes(), _signer(key, *_words(way, hashed)), info


def _signer(key: Any, *words: Any) -> Signer:
    def sign(message: bytes) -> bytes:
        signature: bytes = key.sign(message, *words)
        return signature

    return sign


def _words(way: str, hashed: Any) -> tuple[Any, ...]:
    """What a private key is given behind the message."""
    if way == RSA:
        return _module("hazmat.primitives.asymmetric.padding").PKCS1v15(), hashed
    return (_module("hazmat.primitives.asymmetric.ec").ECDSA(hashed) if way == ECDSA else hashed,)


def _pure_signing(key: Any, found: PublicKey, hashed: Any) -> tuple[bytes, Signer, bytes]:
    algorithm = pure_algorithm(found.algorithm_oid)
    if algorithm is None:
        raise TypeError("a key of that kind makes no signatures")
    if hashed is not None:
        raise ValueError("a key of that kind signs a message as it is: its hash is None")
    return algorithm.public_bytes(), _signer(key), found.public_bytes()


def _is_pkcs1(padding: Any) -> bool:
    return isinstance(padding, _module("hazmat.primitives.asymmetric.padding").PKCS1v15)


def _pss_signing(key: Any, found: PublicKey, hashed: Any, padding: Any) -> tuple[bytes, Signer, bytes]:
    module = _module("hazmat.primitives.asymmetric.padding")
    if not isinstance(padding, module.PSS):
        raise TypeError("rsa_padding is PKCS1v15 or PSS")
    name, salt = hash_name(hashed), _salt_length(module.PSS, padding._salt_length, found, hashed.digest_size)
    algorithm = pss_algorithm(PssParameters(name, hash_name(padding.mgf._algorithm), salt))
    return algorithm.public_bytes(), _signer(key, module.PSS(padding.mgf, salt), hashed), found.public_bytes()


def _salt_length(kinds: Any, given: Any, key: PublicKey, size: int) -> int:
    """The octets of the salt, which may be said as that of the digest or the longest (RFC 8017 9.1.1)."""
    if given is kinds.DIGEST_LENGTH:
        return size
    if given is kinds.MAX_LENGTH:
        return ((key.key_size or 0) + 6) // 8 - size - 2
    if not isinstance(given, int):
        raise ValueError("the length of the salt of a signature is a number, DIGEST_LENGTH or MAX_LENGTH")
    return given
