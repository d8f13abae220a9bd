"""Whether CRLs say that a certificate is revoked (RFC 5280 6.3.3)."""

from __future__ import annotations

import ctypes
import dataclasses
import datetime
import enum
import itertools
from typing import Callable, Iterable, Iterator

from ._arguments import instance, listed, octets, seconds
from ._header import (
    MALFORMED,
    OVERLENGTH,
    REVOCATION_USE_DELTAS,
    REVOCATION_WITHOUT_NEXT_UPDATE,
    RevocationAnswerView,
    RevocationSettingsView,
    SignedCrlView,
    Span,
)
from ._library import X509Error, number, view
from ._numbers import moment as moment_of
from .certificate import Certificate, certificate_of
from .crl import CertificateRevocationList, crl_of
from .extensions import AuthorityKeyIdentifier, DuplicateExtension, ExtensionNotFound, ReasonFlags, SubjectKeyIdentifier, _reasons
from .name import Name
from .path import PathFault, Verifier, _verifies, working_key
from .request import TrustAnchor
from .validation import ValidatedPath, validate_path

# how many chains are looked at above a certificate that may sign CRLs, and how many certificates one has
_MOST_CHAINS, _LONGEST_CHAIN = 64, 8

Anchor = Certificate | TrustAnchor | tuple[Name, bytes]


class RevocationState(enum.Enum):
    """What CRLs say of a certificate: that it isn't revoked; that it is; or neither, since they don't cover all reasons."""

    undetermined = 0
    unrevoked = 1
    revoked = 2


class CrlFault(enum.Enum):
    """Why a CRL says nothing of a certificate (RFC 5280 6.3.3), in the order in which it is asked."""

    #: the moment is before its thisUpdate
    not_yet_valid = 1
    #: the moment is after its nextUpdate, or it has none
    expired = 2
    #: it has a critical extension that isn't known, or can't be read
    critical = 3
    #: the algorithm in its signed part isn't the one outside it
    algorithm = 4
    #: it is a delta CRL, which says nothing but with a complete one
    delta = 5
    #: it has an IssuingDistributionPoint that can't be read
    issuing_point = 6
    #: its issuer isn't the certificate's, nor in the cRLIssuer of a distribution point for which it is an indirect CRL
    issuer = 7
    #: it isn't about such certificates, but about those of authorities alone, say
    scope = 8
    #: it is that of none of the certificate's distribution points, or for none of the reasons there
    point = 9
    #: the signer's name isn't its issuer; of a path, no signer of it counts
    signer = 10
    #: its signature isn't accepted
    signature = 11
    #: an entry has a critical extension that isn't known, or can't be read
    entry = 12
    #: a newer CRL for the same scope takes its place
    replaced = 13


@dataclasses.dataclass(frozen=True)
class RevocationStatus:
    """What CRLs say of a certificate. Of one that is revoked: which CRL says so, by its place from 0, when it was, and why, `unspecified` where the entry gives
    no reason. Of one that is undetermined: the reasons that no CRL covered."""

    state: RevocationState
    crl: int | None = None
    date: datetime.datetime | None = None
    reason: ReasonFlags | None = None
    reasons: frozenset[ReasonFlags | str] = frozenset()
    _tells: Callable[[], tuple[CrlFault | None, ...]] = dataclasses.field(default=tuple, repr=False, compare=False)

    def __getstate__(self) -> dict[str, object]:
        # what was asked isn't pickled: a status that was has no faults
        return {name: it for name, it in self.__dict__.items() if name != "_tells"}

    @property
    def faults(self) -> tuple[CrlFault | None, ...]:
        """Why each of the given CRLs says nothing of the certificate, in their order; None of one that says of a reason or more whether it is revoked. A CRL
        without a fault isn't used only where those before it left no reason that it covers (RFC 5280 6.3.3 (e)). It is found out when it is asked."""
        return self._tells()

    @property
    def is_unrevoked(self) -> bool:
        return self.state is RevocationState.unrevoked

    @property
    def is_revoked(self) -> bool:
        return self.state is RevocationState.revoked


class RevocationScope(enum.Enum):
    """Of which certificates of a path CRLs are asked."""

    #: of the last one alone, that of the peer
    leaf = "leaf"
    #: of each
    path = "path"


class Revocation:
    """What is asked of CRLs where a path is found (`find_path`, `verification`): which CRLs, and about which certificates of the path. One whose status they
    don't tell is refused, but with `allows_undetermined`. The further `certificates`, `without_next_update` and `use_deltas` are as of
    `path_revocation_statuses`. CRLs and certificates of `cryptography` are taken too."""

    def __init__(
        self,
        crls: Iterable[CertificateRevocationList],
        *,
        certificates: Iterable[Certificate] = (),
        scope: RevocationScope = RevocationScope.path,
        allows_undetermined: bool = False,
        without_next_update: bool = False,
        use_deltas: bool = False,
    ) -> None:
        self.crls = tuple(crl_of(it, "a CRL") for it in crls)
        self.certificates = tuple(certificate_of(it, "a certificate of a signer") for it in certificates)
        self.scope = instance(scope, RevocationScope, "the scope")
        self.allows_undetermined = instance(allows_undetermined, bool, "allows_undetermined")
        self.without_next_update = instance(without_next_update, bool, "without_next_update")
        self.use_deltas = instance(use_deltas, bool, "use_deltas")


class RevocationFault(Exception):
    """What is wrong with a path by CRLs: the place of a certificate in it, from 0, and its status. It is revoked, or else nothing says that it isn't."""

    def __init__(self, place: int, status: RevocationStatus) -> None:
        super().__init__(f"certificate {place} {_said_of(status)}")
        self.place, self.status = place, status


    @property
    def said(self) -> str:
        """What is said of the certificate, as `was revoked at 2030-01-01T00:00:00Z: keyCompromise`."""
        return _said_of(self.status)


def _said_of(status: RevocationStatus) -> str:
    if status.date is None:
        return "may be revoked: no CRL says that it isn't"
    why = "" if status.reason in (None, ReasonFlags.unspecified) else f": {str.__str__(status.reason)}"
    return f"was revoked at {status.date:%Y-%m-%dT%H:%M:%SZ}{why}"


@dataclasses.dataclass(frozen=True)
class SignedCrl:
    """A CRL, and its signer: the certificate, the trust anchor, or the name and the DER of the public key, under which it is to be verified. That the signer is
    one whose CRLs count is for the caller to know: it is the issuer of the certificate, or another whose path is valid, and `may_sign_crls` says True of it
    (RFC 5280 6.3.3 (f)). The key of a certificate is taken as it stands there: one that has its parameters from a key above is given as `working_key` says."""

    crl: CertificateRevocationList
    signer: Anchor

    def __post_init__(self) -> None:
        instance(self.crl, CertificateRevocationList, "a CRL")
        _name_and_key(self.signer)


def may_sign_crls(certificate: Certificate) -> bool:
    """Whether the key of the certificate may sign CRLs (RFC 5280 4.2.1.3, 6.3.3 (f)): it has no KeyUsage, or one that can be read, with crl_sign."""
    return number("x509_may_sign_crls", instance(certificate, Certificate, "a certificate").public_bytes()) == 1


def revocation_status(
    certificate: Certificate,
    crls: Iterable[SignedCrl],
    moment: datetime.datetime,
    verify: Verifier | None = None,
    *,
    without_next_update: bool = False,
    use_deltas: bool = False,
) -> RevocationStatus:
    """What CRLs say of a certificate at the moment (RFC 5280 6.3.3), asked in their order; of several for one scope under one key the newest counts, wherever
    it stands.

    A CRL counts where its signature is one by its signer's key, as `verify(public_key, algorithm, message, signature)` says, or else `cryptography`; where the
    signer's name is its issuer; where it is in date, with `without_next_update` also where it doesn't say by when the next one comes; and where it is one for
    the certificate, as the call `x509_revocation_status` of `x509.h` says. With `use_deltas` the newest delta CRL among them that fits a complete one is asked
    before it (5.2.4); its signer has to be that of the complete one (6.3.3 (h)). Only `is_unrevoked` says that the certificate may be used: who withholds a CRL
    makes its status undetermined.
    """
    given = listed(crls, SignedCrl, "the CRLs")
    verify = _verifies if verify is None else verify
    verified = [_is_signed(it, verify) for it in given]
    question = _Question(instance(certificate, Certificate, "a certificate"), given, verified, _settings(moment, without_next_update, use_deltas))
    return dataclasses.replace(question.status(), _tells=question.faults)


def path_revocation_statuses(
    path: ValidatedPath,
    anchor: Anchor,
    crls: Iterable[CertificateRevocationList],
    moment: datetime.datetime,
    verify: Verifier | None = None,
    *,
    certificates: Iterable[Certificate] = (),
    without_next_update: bool = False,
    use_deltas: bool = False,
) -> list[RevocationStatus]:
    """What CRLs say of each certificate of a path, topmost first, that `validate_path` found valid under the anchor at the moment. The path is good where each
    of them `is_unrevoked`.

    The signer of a CRL is found by its issuer's name, and by the identifier of its key where both say one: the anchor, a certificate of the path, or one of the
    further `certificates`, of which the path to the anchor is found here, and has to be valid, and each certificate in it that isn't in the given path
    unrevoked. A signer counts only where `may_sign_crls` says True, so also of an anchor that is a certificate. The status of a further certificate may be told
    by a CRL of its own key; but of signers that tell only each other's status none counts. Who counts doesn't depend on the order of `crls`.
    Of CRLs for the same reasons the latest is asked first, and `crl` is the place in `crls`. `verify`, `without_next_update` and
    `use_deltas` are as of `revocation_status`.
    """
    settings = _settings(moment, without_next_update, use_deltas)
    judge = _Judge(
        instance(path, ValidatedPath, "the path").certificates,
        anchor,
        listed(crls, CertificateRevocationList, "the CRLs"),
        listed(certificates, Certificate, "the certificates"),
        moment,
        settings,
        _verifies if verify is None else verify,
    )
    return judge.statuses()


_Chain = tuple[Certificate, ...]


class _Judge:
    """The statuses of certificates, each by its chain below the anchor, topmost certificate first."""

    def __init__(
        self,
        path: _Chain,
        anchor: Anchor,
        crls: list[CertificateRevocationList],
        others: list[Certificate],
        moment: datetime.datetime,
        settings: RevocationSettingsView,
        verify: Verifier,
        valid: dict[_Chain, bool] | None = None,
    ) -> None:
        self.path, self.anchor, self.crls = path, anchor, crls
        self.valid = {} if valid is None else valid
        self.others = [it for it in dict.fromkeys(others) if it not in path]
        self.moment, self.settings, self.verify = moment, settings, verify
        self.name, _ = _name_and_key(anchor)
        # the latest first
        self.places = sorted(range(len(crls)), key=lambda place: crls[place].last_update_utc, reverse=True)
        self.chains: dict[Certificate, _Chain | None] = {}
        self.issuers: dict[Certificate, list[Certificate]] = {}
        # the CRLs by their places, each with those whose key signed it, and which certificates of these have to be unrevoked
        signed = ((place, signer) for place in self.places for signer in self.signers(crls[place]))
        self.given = [(place, signer, self.further(signer)) for place, signer in signed if self.is_signed(place, signer)]
        self.found: dict[tuple[_Chain, tuple[int, ...]], RevocationStatus] = {}

    def statuses(self) -> list[RevocationStatus]:
        """Those of the path's certificates, topmost first."""
        refused: frozenset[_Chain] = frozenset()
        while True:
            trusted = self.trusted(refused)
            # what was told by some of their CRLs may be otherwise by all of them: who is revoked then tells nothing of another
            revoked = {chain for chain in trusted if not self.status(chain, trusted).is_unrevoked}
            if not revoked:
                return [self.status(self.path[: place + 1], trusted) for place in range(len(self.path))]
            refused |= revoked

    def trusted(self, refused: frozenset[_Chain]) -> frozenset[_Chain]:
        """The further signers that are unrevoked, by CRLs of those that were found so before them and by their own: so no answer rests on itself round others,
        and the order of CRLs has no say."""
        asked = frozenset(chain for _, _, further in self.given for chain in further) - refused
        trusted: frozenset[_Chain] = frozenset()
        while True:
            more = {chain for chain in asked - trusted if self.status(chain, trusted).is_unrevoked}
            if not more:
                return trusted
            trusted |= more

    def status(self, chain: _Chain, trusted: frozenset[_Chain]) -> RevocationStatus:
        """What is said of the last certificate of the chain by the CRLs of these signers, and by its own."""
        used = tuple(at for at, (_, _, further) in enumerate(self.given) if all(it in trusted or it == chain for it in further))
        if (chain, used) not in self.found:
            given = [self.given[at] for at in used]
            crls = [SignedCrl(self.crls[place], self.signer(signer)) for place, signer, _ in given]
            question = _Question(chain[-1], crls, [True] * len(crls), self.settings)
            status = dataclasses.replace(question.status(), _tells=lambda: self.faults(question, [place for place, _, _ in given]))
            self.found[chain, used] = status if status.crl is None else dataclasses.replace(status, crl=given[status.crl][0])
        return self.found[chain, used]

    def faults(self, question: _Question, places: list[int]) -> tuple[CrlFault | None, ...]:
        """Those of all CRLs, of which the ones at these places are asked."""
        asked: dict[int, CrlFault | None] = {}
        for at, place in enumerate(places):
            fault = question.fault(at)
            if place not in asked or fault is None:
                asked[place] = fault
        return tuple(asked[place] if place in asked else self.fault_of(question, place) for place in range(len(self.crls)))

    def fault_of(self, question: _Question, place: int) -> CrlFault:
        """That of a CRL of which no signer counts."""
        named = SignedCrl(self.crls[place], (self.crls[place].issuer, _name_and_key(self.anchor)[1]))
        fault = _Question(question.certificate, [named], [False], question.settings).fault(0)
        if fault is not CrlFault.signature:
            return CrlFault.signer if fault is None else fault
        has_signer = any(True for _ in self.signers(self.crls[place]))
        return CrlFault.signature if has_signer and all(it != place for it, _, _ in self.given) else CrlFault.signer

    def further(self, chain: _Chain) -> list[_Chain]:
        """The chains to the certificates of this one that aren't in the path."""
        chains = (chain[: place + 1] for place in range(len(chain)))
        return [it for it in chains if it != self.path[: len(it)]]

    def holder(self, chain: _Chain) -> Anchor:
        """Whose key it is: that of the last certificate; where there is none, the anchor's."""
        return chain[-1] if chain else self.anchor

    def signer(self, chain: _Chain) -> Anchor:
        """The same, with its key as it is used below the anchor (RFC 5280 6.1.4 (d) to (f))."""
        if not chain:
            return self.anchor
        _, key = _name_and_key(self.anchor)
        for it in chain:
            key = working_key(key, it.public_key_bytes)
        return chain[-1].subject, key

    def signers(self, crl: CertificateRevocationList) -> Iterator[_Chain]:
        """Those whose name is the issuer of the CRL, and whose key has the identifier that it says."""
        wanted = _authority_key_identifier(crl)
        chains: list[_Chain] = [(), *(self.path[: place + 1] for place in range(len(self.path)))]
        for chain in chains:
            if self.may_sign(chain, crl, wanted):
                yield chain
        for it in self.others:
            if _has_name_and_key(it, crl, wanted) and may_sign_crls(it):
                found = self.chain_to(it)
                if found is not None:
                    yield found

    def may_sign(self, chain: _Chain, crl: CertificateRevocationList, wanted: bytes | None) -> bool:
        holder = self.holder(chain)
        if isinstance(holder, Certificate):
            return _has_name_and_key(holder, crl, wanted) and may_sign_crls(holder)
        return self.name.matches(crl.issuer)

    def is_signed(self, place: int, chain: _Chain) -> bool:
        return _is_signed(SignedCrl(self.crls[place], self.signer(chain)), self.verify)

    def chain_to(self, certificate: Certificate) -> _Chain | None:
        """A valid path from the anchor to the certificate, if there is one."""
        if certificate not in self.chains:
            self.chains[certificate] = next((it for it in self.chains_to(certificate) if self.is_valid(it)), None)
        return self.chains[certificate]

    def chains_to(self, certificate: Certificate) -> Iterator[_Chain]:
        """The chains from the anchor to the certificate in which names fit, the shortest first; of very many not all."""
        found: list[_Chain] = [(certificate,)]
        for chain in found:
            issuer = chain[0].issuer
            if issuer.matches(self.name):
                yield chain
            if len(chain) < _LONGEST_CHAIN and len(found) < _MOST_CHAINS:
                above = ((it, *chain) for it in self.issuers_of(chain[0]) if it not in chain)
                found += itertools.islice(above, _MOST_CHAINS - len(found))

    def issuers_of(self, certificate: Certificate) -> list[Certificate]:
        """The certificates that have the name of its issuer."""
        if certificate not in self.issuers:
            name = certificate.issuer
            self.issuers[certificate] = [it for it in (*self.path, *self.others) if it.subject.matches(name)]
        return self.issuers[certificate]

    def is_valid(self, chain: _Chain) -> bool:
        if chain not in self.valid:
            try:
                validate_path(self.anchor, chain, self.moment, self.verify)
                self.valid[chain] = True
            except (PathFault, X509Error):
                self.valid[chain] = False
        return self.valid[chain]


def _asked_statuses(
    path: ValidatedPath,
    anchor: Certificate,
    asked: Revocation,
    moment: datetime.datetime,
    verify: Verifier,
    valid: dict[_Chain, bool],
) -> list[RevocationStatus]:
    """`path_revocation_statuses`, as it is asked; `valid` is what is known of chains under the anchor, and becomes what is found out."""
    settings = _settings(moment, asked.without_next_update, asked.use_deltas)
    return _Judge(path.certificates, anchor, list(asked.crls), list(asked.certificates), moment, settings, verify, valid).statuses()


def _may_be_told(certificate: Certificate, asked: Revocation, moment: datetime.datetime) -> bool:
    """Whether the CRLs say whether the certificate is revoked, if the signer of each counts: if not, they don't in any path."""
    crls = [SignedCrl(it, (it.issuer, certificate.public_key_bytes)) for it in asked.crls]
    question = _Question(certificate, crls, [True] * len(crls), _settings(moment, asked.without_next_update, asked.use_deltas))
    return question.status().state is not RevocationState.undetermined


def _settings(moment: datetime.datetime, without_next_update: bool, use_deltas: bool) -> RevocationSettingsView:
    flags = REVOCATION_WITHOUT_NEXT_UPDATE if instance(without_next_update, bool, "without_next_update") else 0
    flags |= REVOCATION_USE_DELTAS if instance(use_deltas, bool, "use_deltas") else 0
    return RevocationSettingsView(seconds(moment, "the moment"), flags)


class _Question:
    """What is asked of CRLs, of which those count that are verified."""

    def __init__(self, certificate: Certificate, crls: list[SignedCrl], verified: list[bool], settings: RevocationSettingsView) -> None:
        self.certificate, self.settings, self.count = certificate, settings, len(crls)
        parts: list[bytes] = []
        self.given = (SignedCrlView * len(crls))()
        at = 0
        for row, it, is_verified in zip(self.given, crls, verified):
            name, key = _name_and_key(it.signer)
            for field, part in (("crl", it.crl.public_bytes()), ("name", name.public_bytes()), ("key", key)):
                setattr(row, field, Span(at, len(part)))
                parts.append(part)
                at += len(part)
            row.verified = 1 if is_verified is True else 0
        self.joined = b"".join(parts)

    def words(self) -> tuple[object, ...]:
        size = ctypes.c_size_t(ctypes.sizeof(self.settings))
        return self.certificate.public_bytes(), self.joined, self.given, ctypes.c_size_t(self.count), ctypes.byref(self.settings), size

    def status(self) -> RevocationStatus:
        """What those CRLs say that are verified."""
        found = view("x509_revocation_status", RevocationAnswerView, *self.words())
        state = RevocationState(int(found.status))
        if state is RevocationState.revoked:
            return RevocationStatus(state, int(found.crl), moment_of(int(found.date)), ReasonFlags(int(found.reason)))
        return RevocationStatus(state, reasons=_reasons(int(found.reasons)))

    def fault(self, place: int) -> CrlFault | None:
        """That of the CRL at the place; None where it has none."""
        try:
            found = number("x509_crl_fault", *self.words(), ctypes.c_size_t(place))
        except X509Error as error:
            # of a CRL that isn't verified it may be the key alone that is none
            if int(self.given[place].verified) != 1 and error.status in (OVERLENGTH, MALFORMED):
                return CrlFault.signer
            raise
        return CrlFault(found) if found else None

    def faults(self) -> tuple[CrlFault | None, ...]:
        return tuple(map(self.fault, range(self.count)))


def _is_signed(given: SignedCrl, verify: Verifier) -> bool:
    """Whether the signature is one by the signer's key."""
    told, data = given.crl._signature, given.crl.public_bytes()
    if int(told.unused_bits) != 0:
        return False
    return bool(verify(_name_and_key(given.signer)[1], told.algorithm.of(data), told.signed_part.of(data), told.bits.of(data)))


def _name_and_key(signer: Anchor) -> tuple[Name, bytes]:
    """The name and the public key of a signer; a ValueError where it is a trust anchor without a name."""
    if isinstance(signer, Certificate):
        return signer.subject, signer.public_key_bytes
    if isinstance(signer, TrustAnchor):
        if signer.name is None:
            raise ValueError("a trust anchor without a name signs no CRLs")
        return signer.name, signer.public_key_bytes
    if not isinstance(signer, tuple) or len(signer) != 2:
        raise TypeError("a signer is a Certificate, a TrustAnchor, or a Name and the DER of a public key")
    return instance(signer[0], Name, "the name of a signer"), octets(signer[1], "the public key of a signer")


def _has_name_and_key(certificate: Certificate, crl: CertificateRevocationList, wanted: bytes | None) -> bool:
    found = _subject_key_identifier(certificate) if wanted is not None else None
    return certificate.subject.matches(crl.issuer) and (found is None or found == wanted)


def _subject_key_identifier(certificate: Certificate) -> bytes | None:
    try:
        return certificate.extensions.get_extension_for_class(SubjectKeyIdentifier).value.digest
    except (ExtensionNotFound, DuplicateExtension, X509Error):
        return None


def _authority_key_identifier(crl: CertificateRevocationList) -> bytes | None:
    try:
        return crl.extensions.get_extension_for_class(AuthorityKeyIdentifier).value.key_identifier
    except (ExtensionNotFound, DuplicateExtension, X509Error):
        return None
