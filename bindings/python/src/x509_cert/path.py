"""Paths of certificates (RFC 5280 6.1)."""

from __future__ import annotations

import datetime
from typing import Callable, Iterable

from . import _cryptography
from ._arguments import octets, seconds
from ._header import PATH_MOMENT, PATH_SIGNATURE, PathCertificateView
from ._library import fill
from .certificate import Certificate, certificate_of, path_fault
from .key import AlgorithmIdentifier


class PathFault(Exception):
    """What is wrong with a path: the place of a certificate in it, from 0, and the reason, of which `validate_path` alone tells those behind the first ten. Of one
    that isn't valid at the moment `is_expired` says whether it was valid before, or isn't valid yet; it is None of other reasons."""

    REASONS = (
        "is no certificate; has another algorithm in its signed part; has another issuer than the certificate above; isn't valid at the moment; "
        "has a signature that isn't accepted; has an extension twice; has a critical extension that isn't known; is no authority; may not sign "
        "certificates; has more below it than its path length allows; has an extension that can't be read; has a name that the constraints above don't allow; "
        "has name constraints that can't be used; has a policy twice; leaves no policy, and one is asked for; maps any-policy; is for another purpose; "
        "has a key for another use; has extensions, and another version than 3"
    ).split("; ")

    def __init__(self, place: int, reason: int, is_expired: bool | None = None) -> None:
        side = {None: "", True: ": it has expired", False: ": it isn't valid yet"}[is_expired]
        super().__init__(f"certificate {place} {self.REASONS[reason - 1]}{side}")
        self.place, self.reason, self.is_expired = place, reason, is_expired

    @property
    def said(self) -> str:
        """What is said of the certificate, as `has expired` or `is no authority`."""
        return {None: self.REASONS[self.reason - 1], True: "has expired", False: "isn't valid yet"}[self.is_expired]


MOMENT_FAULT, SIGNATURE_FAULT = PATH_MOMENT, PATH_SIGNATURE
# what says whether bits are a signature: of the DER of a key and of an algorithm, of a message, and of the bits
Verifier = Callable[[bytes, bytes, bytes, bytes], bool]


def check_path(
    anchor: Certificate | bytes, path: Iterable[Certificate | bytes], moment: datetime.datetime, verify: Verifier | None = None
) -> list[Certificate]:
    """The certificates of a path, topmost first, where it holds at the moment under the subject and the key of the anchor; a PathFault else.

    The anchor and the certificates are a Certificate or its DER each. `verify(public_key, algorithm, message, signature)` says whether the bits are a signature
    of the message: it is given the DER of the key and of the algorithm. Where it isn't given, `cryptography` verifies. Policies, name constraints and
    revocation aren't looked at.
    """
    begun = seconds(moment, "the moment")
    anchor = Certificate(_encoding(anchor, "the anchor"))
    given = _encodings(path)
    fault = path_fault(anchor.public_bytes(), given, begun)
    certificates, _ = _verified(anchor.public_key_bytes, given, [], begun, fault, verify, lambda above, key: key)
    return certificates


def _encodings(path: Iterable[Certificate | bytes]) -> list[bytes]:
    if isinstance(path, (bytes, bytearray, memoryview)):
        raise TypeError("a path is a list of certificates, not the bytes of one")
    given = [_encoding(it, "a certificate") for it in path]
    if not given:
        raise ValueError("a path has a certificate")
    return given


def _encoding(given: Certificate | bytes, what: str) -> bytes:
    """The DER of a certificate, which is one of the package or of `cryptography`, or its DER."""
    if isinstance(given, (bytes, bytearray, memoryview)):
        return octets(given, what)
    return certificate_of(given, what).public_bytes()


def working_key(above: bytes, key: bytes) -> bytes:
    """The DER of a public key as it is used under the one above it (RFC 5280 6.1.4 (d) to (f)): where the parameters of its algorithm are left out or NULL, and
    the key above is of the same algorithm and has parameters, the key with these; else the key as it is. Down a path the key above is itself one as it is used.
    `validate_path` hands its verifier such keys."""
    return fill("x509_working_key", octets(above, "the public key above"), octets(key, "the public key"))


def _verified(
    key: bytes,
    path: list[bytes],
    told: list[PathCertificateView],
    moment: int,
    fault: tuple[int, int] | None,
    verify: Verifier | None,
    below: Callable[[bytes, bytes], bytes],
) -> tuple[list[Certificate], bytes]:
    """The certificates of a path under a key, of which that is the first fault at the moment but those of signatures, and the last key; `told` is what was said
    of each certificate, or nothing, and `below` says how a key is used under another.

    The first fault is that of the lowest place; of one place that with the lowest number.
    """
    verify = _verifies if verify is None else verify
    certificates: list[Certificate] = []
    for place, data in enumerate(path):
        if fault is not None and (place, SIGNATURE_FAULT) > fault:
            break
        certificate = Certificate._found(data, told[place]) if told else Certificate(data)
        signature = certificate._signature
        if int(signature.unused_bits) != 0 or not verify(key, signature.algorithm.of(data), signature.signed_part.of(data), signature.bits.of(data)):
            raise PathFault(place, SIGNATURE_FAULT)
        certificates.append(certificate)
        key = below(key, certificate.public_key_bytes)
    if fault is not None:
        raise PathFault(*fault, _is_expired(path, moment, *fault))
    return certificates, key


def _is_expired(path: list[bytes], moment: int, place: int, reason: int) -> bool | None:
    """Whether the certificate that isn't valid at the moment was valid before; None of another reason."""
    return int(Certificate(path[place])._view.not_before) <= moment if reason == MOMENT_FAULT else None


def _verifies(key: bytes, algorithm: bytes, message: bytes, signature: bytes) -> bool:
    return _cryptography.is_valid(key, AlgorithmIdentifier(algorithm), message, signature, 0)
