"""Paths of certificates that are valid under what is trusted (RFC 5280 6.1, RFC 5937)."""

from __future__ import annotations

import ctypes
import dataclasses
import datetime
from typing import Iterable

from ._arguments import der_of, instance, listed, octets, seconds, some
from ._der import SEQUENCE, element
from ._header import (
    FAULT,
    OK,
    PATH_CONSTRAIN_COMMON_NAMES,
    PATH_EXPLICIT_POLICY,
    PATH_INHIBIT_ANY_POLICY,
    PATH_INHIBIT_POLICY_MAPPING,
    PATH_UNCHAINED,
    PATH_VERSION_1_AUTHORITIES,
    PathAnswerView,
    PathCertificateView,
    PathSettingsView,
)
from ._library import X509Error, fill, status_of
from .certificate import Certificate, certificate_of
from .extensions import KeyUsage
from .name import Name, name_of
from .oid import ExtendedKeyUsageOID, ObjectIdentifier
from .path import Verifier, _encodings, _verified, working_key
from .policies import CertificatePolicies
from .request import TrustAnchor

# the purposes that settings have a bit for, in the order of these
_PURPOSES = (
    ExtendedKeyUsageOID.SERVER_AUTH,
    ExtendedKeyUsageOID.CLIENT_AUTH,
    ExtendedKeyUsageOID.CODE_SIGNING,
    ExtendedKeyUsageOID.EMAIL_PROTECTION,
    ExtendedKeyUsageOID.TIME_STAMPING,
    ExtendedKeyUsageOID.OCSP_SIGNING,
)


@dataclasses.dataclass(frozen=True)
class ValidatedPath:
    """A path that is valid: its certificates, topmost first, and what it gives (RFC 5280 6.1.6), the subject and the DER of the public key of the last one,
    with the parameters that it has from the keys above (`working_key`), and the policies under which it is valid, of those that the caller accepts. Any-policy
    may be one of them."""

    certificates: tuple[Certificate, ...]
    subject: Name
    public_key_bytes: bytes
    policies: tuple[ObjectIdentifier, ...] = ()


def validate_path(
    anchor: Certificate | TrustAnchor | tuple[Name, bytes],
    path: Iterable[Certificate | bytes],
    moment: datetime.datetime,
    verify: Verifier | None = None,
    *,
    name_constraints: bytes | None = None,
    policies: Iterable[ObjectIdentifier] | None = None,
    require_explicit_policy: bool = False,
    inhibit_policy_mapping: bool = False,
    inhibit_any_policy: bool = False,
    purposes: Iterable[ObjectIdentifier] | None = None,
    is_chained: bool = True,
    key_usage: KeyUsage | None = None,
    allows_version_1: bool = False,
    constrain_common_names: bool = False,
) -> ValidatedPath:
    """What a path gives that is valid at the moment under what is trusted, topmost certificate first; a PathFault else.

    The anchor is a certificate, for the paths that its name constraints, its path length and its policies allow, and of which nothing else is looked at; a
    TrustAnchor; or a name and the DER of a public key, for all paths. What an anchor says of policies is merged with what is asked here (RFC 5937 3.2); a
    PolicyConstraints or an InhibitAnyPolicy of its certificate sets the flag whatever its number. The certificates are a Certificate or its DER each.
    `verify(public_key, algorithm, message, signature)` says whether the bits are a signature of the message: it is given the DER of the key, with the
    parameters that it has from the keys above (`working_key`), and of the algorithm. Where it isn't given, `cryptography` verifies. `name_constraints` are the
    initial permitted and excluded subtrees (RFC 5280 6.1.1 (h), (i)), as the DER of a NameConstraints. `policies` are those that the caller accepts (6.1.1
    (c)), any where they aren't given; the path is to be valid under one of them at least where `require_explicit_policy` is true (6.1.1 (f)). The other two say
    that policies may not be mapped (6.1.1 (e)), and that any-policy in a certificate counts for nothing (6.1.1 (g)).

    `purposes` are those of which one is asked for, any of them (4.2.1.12): one purpose has to be allowed by the ExtendedKeyUsage of all certificates that have
    one, or of the last alone where `is_chained` is false. At most one of them is another than those of RFC 5280. Where they aren't given no purpose is asked
    for, and a critical ExtendedKeyUsage isn't processed, so it is a fault. `key_usage` are the usages that the last certificate has to have, where it has that
    extension (4.2.1.3). Where `allows_version_1` is true, those of version 1 are authorities (6.1.4 (k)), which the caller then knows of those given.

    Where `constrain_common_names` is true, names of servers in the last certificate's common names are asked under name constraints, as those of its
    SubjectAlternativeName are (4.2.1.10): a host, a wildcard of hosts or an IP address, each where the SubjectAlternativeName has no DNSName, or no IPAddress
    (RFC 6125 6.4.4). RFC 5280 asks none: it is for callers that take a peer by its common name.

    Beyond what `check_path` looks at, names are compared as they match (RFC 5280 7.1), name constraints hold, policies are followed, and each extension of a
    type that is looked at is to be one that can be read. Whether the last certificate is that of a host or a mailbox isn't asked, and revocation isn't looked
    at: both are the caller's. An X509Error where the anchor or the name constraints can't be followed.
    """
    settings = _settings(
        moment,
        require_explicit_policy,
        inhibit_policy_mapping,
        inhibit_any_policy,
        purposes,
        is_chained,
        key_usage,
        allows_version_1,
        constrain_common_names,
    )
    call, trusted, key = _trusted(anchor)
    given = _encodings(path)
    lens = (ctypes.c_size_t * len(given))(*map(len, given))
    words = (b"".join(given), lens, ctypes.c_size_t(len(given)), _constraints(name_constraints), _accepted(policies))
    told = (PathCertificateView * len(given))()
    answer, status, found = _asked(call, told, *trusted, *words, ctypes.byref(settings), ctypes.c_size_t(ctypes.sizeof(settings)))
    fault = (int(answer.place), int(answer.reason)) if status == FAULT else None
    certificates, key = _verified(key, given, list(told) if fault is None else [], settings.moment, fault, verify, working_key)
    valid = tuple(it.policy_identifier for it in CertificatePolicies.from_der(found))
    return ValidatedPath(tuple(certificates), Name(answer.name.of(given[-1])), key, valid)


def _settings(
    moment: datetime.datetime,
    require_explicit_policy: bool,
    inhibit_policy_mapping: bool,
    inhibit_any_policy: bool,
    purposes: Iterable[ObjectIdentifier] | None,
    is_chained: bool,
    key_usage: KeyUsage | None,
    allows_version_1: bool,
    constrain_common_names: bool,
) -> PathSettingsView:
    """What is asked of a path, as the C library takes it."""
    flags = (
        _flag(require_explicit_policy, PATH_EXPLICIT_POLICY)
        | _flag(inhibit_policy_mapping, PATH_INHIBIT_POLICY_MAPPING)
        | _flag(inhibit_any_policy, PATH_INHIBIT_ANY_POLICY)
        | _flag(not instance(is_chained, bool, "is_chained"), PATH_UNCHAINED)
        | _flag(allows_version_1, PATH_VERSION_1_AUTHORITIES)
        | _flag(constrain_common_names, PATH_CONSTRAIN_COMMON_NAMES)
    )
    usage = 0 if key_usage is None else instance(key_usage, KeyUsage, "key_usage").bits
    settings = PathSettingsView(seconds(moment, "the moment"), flags, usage)
    _ask_for(settings, purposes)
    return settings


def _asked(call: str, told: ctypes.Array[PathCertificateView], *words: object) -> tuple[PathAnswerView, int, bytes]:
    """What a call answers to a path, and the DER of its policies, in a buffer that they fit into. Of a valid one `told` becomes what each certificate says."""
    size = 256
    while True:
        answer, out = PathAnswerView(), (ctypes.c_uint8 * size)()
        status = status_of(call, *words, out, ctypes.c_size_t(size), ctypes.byref(answer), told, ctypes.c_size_t(len(told)))
        if status not in (OK, FAULT):
            raise X509Error(call, status)
        if answer.policies_len <= size:
            return answer, status, ctypes.string_at(out, answer.policies_len)
        size = answer.policies_len


def _flag(given: bool, flag: int) -> int:
    return flag if instance(given, bool, "a setting of a path") else 0


def _ask_for(settings: PathSettingsView, purposes: Iterable[ObjectIdentifier] | None) -> None:
    if purposes is None:
        return
    given = set(some(purposes, ObjectIdentifier, "purposes"))
    settings.purposes = sum(1 << bit for bit, purpose in enumerate(_PURPOSES) if purpose in given)
    others = [it.content for it in given.difference(_PURPOSES)]
    if len(others) > 1 or any(len(it) > ctypes.sizeof(settings.purpose) for it in others):
        raise ValueError("one purpose at most is another than those of RFC 5280, and of no more than 64 octets")
    for other in others:
        settings.purpose_len = len(other)
        settings.purpose[: len(other)] = list(other)


def _accepted(given: Iterable[ObjectIdentifier] | None) -> bytes:
    """The DER of the CertificatePolicies of these policies; no bytes where any are accepted."""
    if given is None:
        return b""
    members = [fill("x509_policy_encode", it.content, b"") for it in listed(given, ObjectIdentifier, "the policies")]
    # no call for builders writes a list of none of them, or of one that is there twice
    return element(SEQUENCE, *members)


def _trusted(anchor: Certificate | TrustAnchor | tuple[Name, bytes]) -> tuple[str, tuple[bytes, ...], bytes]:
    """The call under an anchor, what that is given of it, and its public key."""
    if isinstance(anchor, Certificate) or der_of(anchor, "Certificate") is not None:
        anchor = certificate_of(anchor, "the anchor")
        return "x509_path_validate_views", (anchor.public_bytes(),), anchor.public_key_bytes
    if isinstance(anchor, TrustAnchor):
        return "x509_path_validate_views_under_anchor", (anchor.public_bytes(),), anchor.public_key_bytes
    if not isinstance(anchor, tuple) or len(anchor) != 2:
        raise TypeError("an anchor must be a Certificate, a TrustAnchor, or a pair of a Name and the DER of a public key")
    name, key = name_of(anchor[0], "the name of an anchor"), octets(anchor[1], "the public key of an anchor")
    return "x509_path_validate_views_under_key", (name.public_bytes(), key), key


def _constraints(given: bytes | None) -> bytes:
    """No bytes where none are given, which are no NameConstraints."""
    if given is None:
        return b""
    found = octets(given, "name constraints")
    if not found:
        raise ValueError("no bytes are no name constraints, but None is")
    return found
