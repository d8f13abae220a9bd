"""Whether a peer's certificate is to be trusted, in the words of `cryptography.x509.verification`: a path is found under a store of roots (`find_path`), its
signatures are verified, and the certificate has to be that of the server. Where CRLs are at hand they are asked too.

    store = Store(load_pem_x509_certificates(roots))
    verifier = PolicyBuilder().store(store).revocation(Revocation(crls)).build_server_verifier(DNSName("www.example.org"))
    chain = verifier.verify(leaf, intermediates)
"""

from __future__ import annotations

import dataclasses
import datetime
from typing import Iterable

from ._arguments import instance, whole
from .certificate import Certificate, certificate_of
from .extensions import ExtensionNotFound, SubjectAlternativeName
from .finding import NoPath, find_path
from .general_name import GeneralName
from .oid import ExtendedKeyUsageOID, ObjectIdentifier
from .path import PathFault, Verifier
from .peer import ServerName, server_name, text_of_server
from .revocation import Revocation, RevocationFault

__all__ = ["ClientVerifier", "PolicyBuilder", "ServerVerifier", "Store", "VerificationError", "VerifiedClient"]


class VerificationError(Exception):
    """Why a certificate isn't to be trusted. `fault` is what is wrong with the path that came furthest, whose certificates are `path`, topmost first, under the
    root `anchor`; each is None where no path leads to a root by its names, or where the certificate isn't that of the server. Of a certificate that is revoked,
    or that may be, `revocation` says so. These and `is_limit` are as of `NoPath`."""

    def __init__(
        self,
        text: str,
        fault: PathFault | None = None,
        path: tuple[Certificate, ...] | None = None,
        anchor: Certificate | None = None,
        is_limit: bool = False,
        revocation: RevocationFault | None = None,
    ) -> None:
        super().__init__(text)
        self.fault, self.path, self.anchor, self.is_limit, self.revocation = fault, path, anchor, is_limit, revocation


class Store:
    """Certificates that are trusted, each as the anchor of paths: for those that its name constraints, its path length and its policies allow."""

    def __init__(self, certs: Iterable[Certificate]) -> None:
        self.certificates = tuple(certificate_of(it, "a certificate of the store") for it in certs)
        if not self.certificates:
            raise ValueError("a store has a certificate at least")


@dataclasses.dataclass(frozen=True)
class VerifiedClient:
    """A client's names, those of its SubjectAlternativeName, or None where it has none, and its chain, the client's certificate first and the root last."""

    subjects: list[GeneralName] | None
    chain: list[Certificate]


@dataclasses.dataclass(frozen=True)
class _Policy:
    store: Store | None = None
    time: datetime.datetime | None = None
    max_chain_depth: int | None = None
    verify: Verifier | None = None
    revocation: Revocation | None = None


class PolicyBuilder:
    """What is asked of certificates. Each method gives a builder with one thing more, which may be said once."""

    def __init__(self) -> None:
        self._policy = _Policy()

    def _with(self, field: str, value: object) -> PolicyBuilder:
        if getattr(self._policy, field) is not None:
            raise ValueError(f"{field} may be said once")
        made = PolicyBuilder()
        made._policy = dataclasses.replace(self._policy, **{field: value})  # type: ignore[arg-type]
        return made

    def store(self, new_store: Store) -> PolicyBuilder:
        """The roots."""
        return self._with("store", instance(new_store, Store, "the store"))

    def time(self, new_time: datetime.datetime) -> PolicyBuilder:
        """The moment at which the certificates are to be valid, with its time zone; that of the call to `verify` where none is said."""
        return self._with("time", instance(new_time, datetime.datetime, "the time"))

    def max_chain_depth(self, new_max_chain_depth: int) -> PolicyBuilder:
        """How many certificates may stand between the root and that of the peer, up to 255; 8 where nothing is said."""
        return self._with("max_chain_depth", whole(new_max_chain_depth, "the depth"))

    def verify(self, verify: Verifier) -> PolicyBuilder:
        """What verifies signatures, as of `validate_path`; `cryptography` where nothing is said."""
        return self._with("verify", verify)

    def revocation(self, revocation: Revocation) -> PolicyBuilder:
        """What is asked of CRLs; nothing is where nothing is said."""
        return self._with("revocation", instance(revocation, Revocation, "the revocation"))

    def build_server_verifier(self, subject: ServerName) -> ServerVerifier:
        """What verifies the certificate of a server of this name (RFC 9525): its SubjectAlternativeName has to have it, and its ExtendedKeyUsage, where it has
        one, has to allow serverAuth, as those above it have to. An X509Error where the name is none of a server."""
        server_name(text_of_server(subject).decode("utf-8"))
        return ServerVerifier(self._policy, subject)

    def build_client_verifier(self) -> ClientVerifier:
        """What verifies the certificate of a client, of whatever name: its ExtendedKeyUsage, where it has one, has to allow clientAuth."""
        return ClientVerifier(self._policy)


class _Verifier:
    def __init__(self, policy: _Policy) -> None:
        if policy.store is None:
            raise ValueError("a verifier has a store")
        self._policy, self.store = policy, policy.store

    def _chain(self, leaf: Certificate, intermediates: Iterable[Certificate | bytes], purpose: ObjectIdentifier) -> list[Certificate]:
        policy = self._policy
        moment = datetime.datetime.now(datetime.timezone.utc) if policy.time is None else policy.time
        depth = 8 if policy.max_chain_depth is None else policy.max_chain_depth
        try:
            found = find_path(
                self.store.certificates,
                intermediates,
                leaf,
                moment,
                policy.verify,
                purposes=[purpose],
                max_depth=depth,
                revocation=policy.revocation,
            )
        except NoPath as it:
            raise VerificationError(str(it), it.fault, it.path, it.anchor, it.is_limit, it.revocation) from it
        certificates = list(reversed(found.path.certificates))
        return certificates if certificates[-1] == found.anchor else [*certificates, found.anchor]


class ServerVerifier(_Verifier):
    """Verifies certificates of a server. It is made by `PolicyBuilder`."""

    def __init__(self, policy: _Policy, subject: ServerName) -> None:
        super().__init__(policy)
        self.subject = subject

    def verify(self, leaf: Certificate, intermediates: Iterable[Certificate | bytes]) -> list[Certificate]:
        """The chain, the server's certificate first and the root last, where the certificate is that of the server and is to be trusted; a VerificationError
        else. The intermediates are those that came with it, in any order, and more or fewer than are needed; by their DER, of which what is no certificate is
        passed over, or as certificates. Certificates of `cryptography` are taken too.
        CRLs are asked where the policy has a `Revocation`."""
        leaf = certificate_of(leaf, "the certificate")
        if not leaf.matches_name(self.subject):
            raise VerificationError(f"the certificate isn't that of {text_of_server(self.subject).decode('utf-8')}")
        return self._chain(leaf, intermediates, ExtendedKeyUsageOID.SERVER_AUTH)


class ClientVerifier(_Verifier):
    """Verifies certificates of clients. It is made by `PolicyBuilder`."""

    def verify(self, leaf: Certificate, intermediates: Iterable[Certificate | bytes]) -> VerifiedClient:
        """The client's names and its chain where the certificate is to be trusted; a VerificationError else. As of `ServerVerifier`."""
        leaf = certificate_of(leaf, "the certificate")
        chain = self._chain(leaf, intermediates, ExtendedKeyUsageOID.CLIENT_AUTH)
        try:
            named = leaf.extensions.get_extension_for_class(SubjectAlternativeName).value
        except ExtensionNotFound:
            return VerifiedClient(None, chain)
        return VerifiedClient(list(named), chain)
