"""Paths, found over certificates in any number and order (RFC 5280 6.1)."""

from __future__ import annotations

import ctypes
import dataclasses
import datetime
import functools
import heapq
import itertools
from typing import AbstractSet, Callable, Iterable, Union

from ._arguments import instance, whole
from ._header import ABSENT, FAULT, LIMIT, OK, BadLinkView, FoundPathView, Span
from ._library import X509Error, status_of
from .certificate import Certificate, certificate_of
from .extensions import KeyUsage
from .oid import ObjectIdentifier
from .path import PathFault, Verifier, _encoding, _is_expired, _verifies, working_key
from .revocation import Revocation, RevocationFault, RevocationScope, RevocationStatus, _asked_statuses, _may_be_told
from .validation import ValidatedPath, _accepted, _constraints, _settings, validate_path

# how often is searched again without a link of a path in which a status isn't known
_MOST_DETOURS = 50


@dataclasses.dataclass(frozen=True)
class FoundPath:
    """A path that was found: the anchor that it is under, what it gives as a path that is valid, and, where it was asked, what CRLs say of its certificates,
    topmost first, or of the last one alone."""

    anchor: Certificate
    path: ValidatedPath
    statuses: tuple[RevocationStatus, ...] = ()


class NoPath(Exception):
    """No path leads from the anchors to the certificate. Of those that lead there by their names `path` is the one that came furthest, topmost certificate
    first, under `anchor`, and `fault` is what is wrong with it; each is None where none leads there by its names, so that an issuer isn't known. A fault of the
    certificate itself, which it has in each path, is told before a path is looked for: then `path` is the certificate alone, and `anchor` is None. The fault is
    None too where the name constraints of the anchor, or those that are given, can't be used.

    Where paths are valid but for revocation, `revocation` says which certificate is in the way of `path`, the last of them that was found, and `fault` is None.
    Where `is_limit` is true more would have to be tried than is allowed, and whether there is a path isn't known."""

    def __init__(
        self,
        text: str,
        fault: PathFault | None = None,
        path: tuple[Certificate, ...] | None = None,
        anchor: Certificate | None = None,
        is_limit: bool = False,
        revocation: RevocationFault | None = None,
    ) -> None:
        super().__init__(text)
        self.fault, self.path, self.anchor, self.is_limit, self.revocation = fault, path, anchor, is_limit, revocation


def find_path(
    anchors: Iterable[Certificate],
    candidates: Iterable[Certificate | bytes],
    certificate: Certificate | bytes,
    moment: datetime.datetime,
    verify: Verifier | None = None,
    *,
    name_constraints: bytes | None = None,
    policies: Iterable[ObjectIdentifier] | None = None,
    require_explicit_policy: bool = False,
    inhibit_policy_mapping: bool = False,
    inhibit_any_policy: bool = False,
    purposes: Iterable[ObjectIdentifier] | None = None,
    is_chained: bool = True,
    key_usage: KeyUsage | None = None,
    allows_version_1: bool = False,
    constrain_common_names: bool = False,
    max_depth: int = 8,
    max_signatures: int = 100,
    revocation: Revocation | None = None,
) -> FoundPath:
    """A path from one of the anchors over some of the candidates to the certificate, which `validate_path` accepts at the moment; a NoPath where there is none.

    The candidates are in any order, and more or fewer than are needed: none stands in a path twice, and `max_depth` may stand there, up to 255. No path that is
    valid is shorter than the one that is found. What is asked of it is as of `validate_path`; an anchor is a certificate, as there. Each signature is verified
    once; where more than `max_signatures` of certificates in paths would be needed, the NoPath says so by `is_limit`.

    With `revocation` CRLs are asked too, as `path_revocation_statuses` asks them. A path is found only where each certificate that is asked about is unrevoked,
    or its status isn't known and that is let through. A certificate that is revoked isn't used again below that key, and the search goes on. Whether a status
    is known depends on the path, whose anchor has to be that of the signer of the CRL (RFC 5280 6.3.3 (f)), and whose certificates may be signers: where it
    isn't known the other paths are looked at; where these are so many that not all are, the NoPath says so by `is_limit`.
    """
    policies = None if policies is None else list(policies)
    purposes = None if purposes is None else list(purposes)
    settings = _settings(
        moment,
        require_explicit_policy,
        inhibit_policy_mapping,
        inhibit_any_policy,
        purposes,
        is_chained,
        key_usage,
        allows_version_1,
        constrain_common_names,
    )
    if not 0 <= whole(max_depth, "the depth") <= 255:
        raise ValueError("the depth is a number from 0 to 255")
    known = [_encoding(it, "a candidate") for it in candidates]
    search = _Search(
        [certificate_of(it, "an anchor") for it in anchors],
        known,
        _encoding(certificate, "the certificate"),
        (_constraints(name_constraints), _accepted(policies), ctypes.byref(settings), ctypes.c_size_t(ctypes.sizeof(settings)), ctypes.c_uint32(max_depth)),
    )

    def validated(anchor: Certificate, path: _Path) -> ValidatedPath:
        return validate_path(
            anchor,
            path,
            moment,
            lambda *_: True,
            name_constraints=name_constraints,
            policies=policies,
            require_explicit_policy=require_explicit_policy,
            inhibit_policy_mapping=inhibit_policy_mapping,
            inhibit_any_policy=inhibit_any_policy,
            purposes=purposes,
            is_chained=is_chained,
            key_usage=key_usage,
            allows_version_1=allows_version_1,
            constrain_common_names=constrain_common_names,
        )

    verify = _verifies if verify is None else verify
    asked = None if revocation is None else _Asked(instance(revocation, Revocation, "the revocation"), moment, verify)
    return _Finder(search, settings.moment, verify, whole(max_signatures, "the number of signatures"), validated, asked).found()


_Path = tuple[Certificate, ...]
# the DER of a certificate, and of the key above it as it is used
_Link = tuple[bytes, bytes]
# a part of paths that a search leaves out: a link, or an anchor
_Part = Union[_Link, Certificate]


class _Finder:
    """The rounds of a search: the shortest path that is left is looked at, and where it isn't good the search is told which of its links count for nothing."""

    def __init__(
        self,
        search: _Search,
        moment: int,
        verify: Verifier,
        left: int,
        validated: Callable[[Certificate, _Path], ValidatedPath],
        asked: _Asked | None,
    ) -> None:
        self.search, self.moment, self.verify, self.left, self.validated, self.asked = search, moment, verify, left, validated, asked
        # those whose signatures hold, and those that stand in no path that is good
        self.verified: set[_Link] = set()
        self.refused: set[_Link] = set()
        # the path that each search found, by its length and the number of the search, with what that left out, and its anchor
        self.paths: list[tuple[int, int, frozenset[_Part], Certificate, _Path]] = []
        self.numbers = itertools.count()
        # what was left out, and of that what leaves no path
        self.tried: set[frozenset[_Part]] = set()
        self.leave_none: list[frozenset[_Part]] = []
        self.refusal: NoPath | None = None

    def found(self) -> FoundPath:
        self.search_without(frozenset())
        while self.paths:
            _, _, left_out, anchor, path = heapq.heappop(self.paths)
            links = _links(anchor, path)
            if all(map(self.is_good, path, links)):
                valid = self.validated(anchor, path)
                if self.asked is None:
                    return FoundPath(anchor, valid)
                statuses, faults = self.asked.judged(valid, anchor)
                if not faults:
                    return FoundPath(anchor, valid, statuses)
                told = min(faults, key=lambda it: (not it.status.is_revoked, it.place))
                self.refusal = NoPath(_sentence(told, path), None, path, anchor, revocation=told)
                self.refused.update(links[it.place] for it in faults if self.asked.is_final(it, path))
            if self.refused.isdisjoint(links):
                self.search_without_each(left_out, [anchor, *links])
            else:
                self.search_without(left_out)
        assert self.refusal is not None
        raise self.refusal

    def is_good(self, certificate: Certificate, link: _Link) -> bool:
        """Whether the signature of the certificate is one under the key above it, and nothing else was found against that."""
        if link in self.refused:
            return False
        if link not in self.verified:
            if self.left <= 0:
                raise self.limit("more signatures would have to be verified than is allowed")
            self.left -= 1
            if not _is_signed(certificate, link[1], self.verify):
                self.refused.add(link)
                return False
            self.verified.add(link)
        return True

    def search_without(self, left_out: frozenset[_Part]) -> None:
        """Finds a shortest path without these parts, and without the links that are refused."""
        self.tried.add(left_out)
        answer = self.search.next(self.refused | left_out)
        if answer.status == LIMIT:
            raise self.limit("more would have to be tried than is allowed")
        if answer.status == OK:
            assert answer.anchor is not None
            heapq.heappush(self.paths, (len(answer.path), next(self.numbers), left_out, answer.anchor, tuple(map(Certificate, answer.path))))
            return
        self.leave_none.append(left_out)
        if self.refusal is None:
            self.refusal = self.no_path(answer)

    def search_without_each(self, left_out: frozenset[_Part], parts: list[_Part]) -> None:
        """Does so without one more of the parts of a path, each in turn. So the other paths are found, but for those that have all of these parts and more, in
        which the name and the key of one certificate come again."""
        for part in parts:
            wanted = left_out | {part}
            if wanted in self.tried or any(it <= wanted for it in self.leave_none):
                continue
            if len(self.tried) > _MOST_DETOURS:
                raise self.limit("more paths would have to be tried than is allowed")
            self.search_without(wanted)

    def no_path(self, answer: _Answer) -> NoPath:
        if answer.status == ABSENT:
            return NoPath("no path leads to an anchor by its names")
        path = tuple(map(Certificate, answer.path))
        if answer.reason == 0:
            return NoPath("the name constraints of an anchor or those that are given can't be used", None, path, answer.anchor)
        fault = PathFault(answer.place, answer.reason, _is_expired(answer.path, self.moment, answer.place, answer.reason))
        return NoPath(_sentence(fault, path), fault, path, answer.anchor)

    def limit(self, text: str) -> NoPath:
        """What is told where a limit is used up, with what is known against the last path."""
        last = self.refusal
        return NoPath(text, is_limit=True) if last is None else NoPath(text, None, last.path, last.anchor, True, last.revocation)


class _Asked:
    """What is asked of CRLs. Each signature of a CRL, and of a certificate above its signer, is verified once."""

    def __init__(self, revocation: Revocation, moment: datetime.datetime, verify: Verifier) -> None:
        self.revocation, self.moment, self.verify = revocation, moment, functools.cache(verify)
        # of each anchor which chains to signers are valid
        self.valid: dict[Certificate, dict[_Path, bool]] = {}

    def judged(self, path: ValidatedPath, anchor: Certificate) -> tuple[tuple[RevocationStatus, ...], list[RevocationFault]]:
        """The statuses of the certificates that are asked about, and what is wrong with the path by them."""
        valid = self.valid.setdefault(anchor, {})
        statuses = _asked_statuses(path, anchor, self.revocation, self.moment, self.verify, valid)
        first = len(statuses) - 1 if self.revocation.scope is RevocationScope.leaf else 0
        faults = [RevocationFault(place, it) for place, it in enumerate(statuses) if place >= first and not self.is_let_through(it)]
        return tuple(statuses[first:]), faults

    def is_let_through(self, status: RevocationStatus) -> bool:
        return status.is_unrevoked or (self.revocation.allows_undetermined and not status.is_revoked)

    def is_final(self, fault: RevocationFault, path: _Path) -> bool:
        """Whether it is so in each path over the same certificate and key."""
        return fault.status.is_revoked or not _may_be_told(path[fault.place], self.revocation, self.moment)


def _links(anchor: Certificate, path: _Path) -> list[_Link]:
    links: list[_Link] = []
    key = anchor.public_key_bytes
    for it in path:
        links.append((it.public_bytes(), key))
        key = working_key(key, it.public_key_bytes)
    return links


def _sentence(fault: PathFault | RevocationFault, path: _Path) -> str:
    """What is wrong with a path, of which the last certificate is the one that was asked about."""
    return f"the certificate {fault.said}" if fault.place == len(path) - 1 else str(fault)


def _is_signed(certificate: Certificate, key: bytes, verify: Verifier) -> bool:
    """Whether the signature of the certificate is one under the key."""
    told, data = certificate._signature, certificate.public_bytes()
    return int(told.unused_bits) == 0 and verify(key, told.algorithm.of(data), told.signed_part.of(data), told.bits.of(data))


@dataclasses.dataclass(frozen=True)
class _Answer:
    """What the library answers: its status; a path, topmost certificate first; the anchor above it, which is None where the certificate has its fault in each
    path; and the fault of a path that has one."""

    status: int
    anchor: Certificate | None
    path: list[bytes]
    place: int
    reason: int


class _Search:
    """Searches for a path that holds but for signatures, without parts that are told."""

    def __init__(self, anchors: list[Certificate], candidates: list[bytes], certificate: bytes, asked: tuple[object, ...]) -> None:
        self.data = bytearray()
        self.anchors = [(it, self._put(it.public_bytes())) for it in anchors]
        self.candidates = (Span * len(candidates))(*map(self._put, candidates))
        self.known, self.certificate, self.asked = candidates, certificate, asked
        self.wanted = self._put(certificate)
        self.links: dict[_Link, BadLinkView] = {}

    def _put(self, data: bytes) -> Span:
        place = len(self.data)
        self.data += data
        return Span(place, len(data))

    def _link(self, link: _Link) -> BadLinkView:
        if link not in self.links:
            self.links[link] = BadLinkView(*map(self._put, link))
        return self.links[link]

    def next(self, without: AbstractSet[_Part]) -> _Answer:
        links = [self._link(it) for it in without if isinstance(it, tuple)]
        bad = (BadLinkView * len(links))(*links)
        trusted = [(it, span) for it, span in self.anchors if it not in without]
        anchors = (Span * len(trusted))(*(span for _, span in trusted))
        size = 16
        while True:
            found, path = FoundPathView(), (ctypes.c_size_t * size)()
            status = status_of(
                "x509_path_find",
                bytes(self.data),
                anchors,
                ctypes.c_size_t(len(anchors)),
                self.candidates,
                ctypes.c_size_t(len(self.candidates)),
                ctypes.byref(self.wanted),
                bad,
                ctypes.c_size_t(len(bad)),
                *self.asked,
                path,
                ctypes.c_size_t(size),
                ctypes.byref(found),
            )
            if status not in (OK, FAULT, ABSENT, LIMIT):
                raise X509Error("x509_path_find", status)
            count = int(found.count)
            if count <= size:
                # of a fault that the certificate has in each path the anchor is none of them
                anchor = next((it for it, _ in trusted[int(found.anchor) :]), None)
                return _Answer(status, anchor, [*(self.known[it] for it in path[:count]), self.certificate], int(found.place), int(found.reason))
            size = count
