"""What logs answer (RFC 6962 4): tree heads, entries and proofs, of the JSON of `get-sth`, `get-entries`, `get-proof-by-hash` and `get-sth-consistency`.

The C library takes their bytes apart and verifies the proofs; signatures are verified by `cryptography`. A ValueError says of JSON what is missing or isn't of its
form, an X509Error of bytes in it that they aren't those of such a value. Asking a log is left to the caller.
"""

from __future__ import annotations

import base64
import binascii
import ctypes
import enum
import json
from typing import Any, Union

from . import _cryptography, merkle
from ._arguments import instance, octets, whole
from ._cryptography import AnyPublicKey
from ._header import LogLeafView, LogPrecertificateView, Span
from ._library import fill, view, walk
from .certificate import Certificate
from .extensions import SignedCertificateTimestamp, verify_of_log

# a text or bytes of JSON, or what `json.loads` made of it
AnyJson = Union[str, bytes, bytearray, "dict[str, Any]"]

_MOST = (1 << 64) - 1


class EntryType(enum.IntEnum):
    """What an entry is of (RFC 6962 3.1)."""

    X509_ENTRY = 0
    PRECERT_ENTRY = 1


class Leaf:
    """A leaf of a log's tree, a MerkleTreeLeaf of version 1 (RFC 6962 3.4), by its bytes: `leaf_input`. An X509Error where they are none."""

    def __init__(self, data: bytes) -> None:
        self.data = octets(data, "a leaf")
        found = view("x509_log_leaf_view", LogLeafView, self.data)
        self.milliseconds = int(found.timestamp)
        self.entry_type = EntryType(int(found.entry_type))
        certificate = found.certificate.of(self.data)
        self.extension_bytes = found.extensions.of(self.data)
        is_precertificate = self.entry_type == EntryType.PRECERT_ENTRY
        # the DER of the certificate, of an entry of that type
        self.certificate_bytes: bytes | None = None if is_precertificate else certificate
        # of an entry of a precertificate the DER of its TBSCertificate, as `tbs_precertificate_bytes` of a certificate, and the SHA-256 digest of its
        # issuer's key
        self.tbs_certificate_bytes: bytes | None = certificate if is_precertificate else None
        self.issuer_key_hash: bytes | None = found.issuer_key_hash.of(self.data) if is_precertificate else None

    def leaf_hash(self) -> bytes:
        """The hash by which it is in the tree (RFC 6962 2.1)."""
        return merkle.leaf_hash(self.data)

    def __eq__(self, other: object) -> bool:
        return isinstance(other, Leaf) and self.data == other.data

    def __hash__(self) -> int:
        return hash(self.data)

    def __repr__(self) -> str:
        return f"<Leaf(entry_type={self.entry_type.name}, milliseconds={self.milliseconds})>"


class LogEntry:
    """A leaf with what a log gives beside it (RFC 6962 4.6): `leaf_input` and `extra_data`. An X509Error where one of them isn't what the other asks for."""

    def __init__(self, leaf_input: bytes, extra_data: bytes) -> None:
        self.leaf = Leaf(leaf_input)
        self.extra_data = octets(extra_data, "what is given beside a leaf")
        submitted, chain = self.leaf.certificate_bytes, self.extra_data
        if submitted is None:
            found = view("x509_log_precertificate_view", LogPrecertificateView, self.extra_data)
            submitted, chain = found.precertificate.of(self.extra_data), found.chain.of(self.extra_data)
        # the DER of the certificate, or of the precertificate, that was submitted
        self.submitted_bytes: bytes = submitted
        # the DER of each certificate above, the issuer first
        self.chain_bytes: list[bytes] = [it.of(chain) for it in walk("x509_log_chain_next", Span, chain)]

    def certificate(self) -> Certificate:
        """The certificate, or the precertificate, that was submitted; an X509Error where it is none under RFC 5280, as logs may hold such."""
        return Certificate(self.submitted_bytes)

    def chain(self) -> list[Certificate]:
        """The certificates above, the issuer first; an X509Error where one is none under RFC 5280."""
        return [Certificate(it) for it in self.chain_bytes]

    def __repr__(self) -> str:
        return f"<LogEntry({self.leaf!r}, chain of {len(self.chain_bytes)})>"


class SignedTreeHead:
    """The signed head of a log's tree (RFC 6962 3.5, 4.3), of version 1. The signature is a DigitallySigned (RFC 5246 4.7): an X509Error where it is none."""

    def __init__(self, tree_size: int, milliseconds: int, root_hash: bytes, tree_head_signature: bytes) -> None:
        self.tree_size = _number(tree_size, "the size of the tree")
        self.milliseconds = _number(milliseconds, "the moment of a tree head")
        self.root_hash = octets(root_hash, "the root hash")
        if len(self.root_hash) != 32:
            raise ValueError("the root hash must have 32 bytes")
        self.tree_head_signature = octets(tree_head_signature, "the signature of a tree head")
        # a timestamp ends with a DigitallySigned too (3.2), and the library reads those
        read = SignedCertificateTimestamp(bytes(43) + self.tree_head_signature)
        self.hash_algorithm, self.signature_algorithm, self.signature = read.hash_algorithm, read.signature_algorithm, read.signature

    def signature_input(self) -> bytes:
        """What its signature is over, a TreeHeadSignature (RFC 6962 3.5)."""
        return fill("x509_tree_head_signed_data", ctypes.c_uint64(self.milliseconds), ctypes.c_uint64(self.tree_size), self.root_hash)

    def verify(self, log_key: AnyPublicKey) -> None:
        """Verifies it by `cryptography` with the key of its log. A ValueError where the signature isn't by RSA or ECDSA with SHA-256, as those of logs are
        (RFC 6962 2.1.4); InvalidSignature where it is none."""
        info = _cryptography.key_bytes(log_key, "the key of the log")
        verify_of_log(info, (self.hash_algorithm, self.signature_algorithm), self.signature_input(), self.signature)

    def __eq__(self, other: object) -> bool:
        return isinstance(other, SignedTreeHead) and self._parts() == other._parts()

    def __hash__(self) -> int:
        return hash(self._parts())

    def _parts(self) -> tuple[int, int, bytes, bytes]:
        return self.tree_size, self.milliseconds, self.root_hash, self.tree_head_signature

    def __repr__(self) -> str:
        return f"<SignedTreeHead(tree_size={self.tree_size}, milliseconds={self.milliseconds}, root_hash={self.root_hash.hex()})>"


class AuditProof:
    """Where a leaf is in the tree, and the audit path that shows it (RFC 6962 2.1.1, 4.5)."""

    def __init__(self, leaf_index: int, audit_path: list[bytes]) -> None:
        self.leaf_index = _number(leaf_index, "the index of a leaf")
        self.audit_path = [octets(it, "a hash of an audit path") for it in audit_path]

    def shows(self, leaf_hash: bytes, head: SignedTreeHead) -> bool:
        """Whether the leaf with that hash is in the tree with that head, at the index. The signature of the head isn't looked at."""
        instance(head, SignedTreeHead, "the head")
        return merkle.verify_inclusion(leaf_hash, self.leaf_index, head.tree_size, self.audit_path, head.root_hash)


def tree_head(answer: AnyJson) -> SignedTreeHead:
    """The tree head that `get-sth` answers (RFC 6962 4.3)."""
    found = _object(answer)
    return SignedTreeHead(
        _number_of(found, "tree_size"), _number_of(found, "timestamp"), _octets_of(found, "sha256_root_hash"), _octets_of(found, "tree_head_signature")
    )


def entries(answer: AnyJson) -> list[LogEntry]:
    """The entries that `get-entries` answers (RFC 6962 4.6), in their order; a log may answer fewer than were asked for."""
    members = [_object(it) for it in _list_of(_object(answer), "entries")]
    return [LogEntry(_octets_of(it, "leaf_input"), _octets_of(it, "extra_data")) for it in members]


def audit_proof(answer: AnyJson) -> AuditProof:
    """The proof that `get-proof-by-hash` answers (RFC 6962 4.5)."""
    found = _object(answer)
    return AuditProof(_number_of(found, "leaf_index"), _hashes_of(found, "audit_path"))


def consistency_proof(answer: AnyJson) -> list[bytes]:
    """The hashes that `get-sth-consistency` answers (RFC 6962 4.4)."""
    return _hashes_of(_object(answer), "consistency")


def is_consistent(old: SignedTreeHead, new: SignedTreeHead, proof: list[bytes]) -> bool:
    """Whether the tree with the old head is the beginning of that with the new one, by a consistency proof (RFC 6962 2.1.2). The signatures of the heads
    aren't looked at. Of an old tree without leaves there is no proof."""
    instance(old, SignedTreeHead, "the old head")
    instance(new, SignedTreeHead, "the new head")
    return merkle.verify_consistency(old.tree_size, new.tree_size, old.root_hash, new.root_hash, proof)


def _object(answer: object) -> dict[str, Any]:
    found = json.loads(answer) if isinstance(answer, (str, bytes, bytearray)) else answer
    if not isinstance(found, dict):
        raise ValueError("the answer of a log must be a JSON object")
    return found


def _member_of(found: dict[str, Any], name: str) -> object:
    if name not in found:
        raise ValueError(f"{name} isn't there")
    return found[name]


def _number(given: int, what: str) -> int:
    if not 0 <= whole(given, what) <= _MOST:
        raise ValueError(f"{what} must be from 0 to {_MOST}")
    return given


def _number_of(found: dict[str, Any], name: str) -> int:
    given = _member_of(found, name)
    if isinstance(given, bool) or not isinstance(given, int):
        raise ValueError(f"{name} must be a number without a fraction")
    return _number(given, name)


def _octets(given: object, name: str) -> bytes:
    if not isinstance(given, str):
        raise ValueError(f"{name} must be base64")
    try:
        return base64.b64decode(given, validate=True)
    except (binascii.Error, ValueError) as error:
        raise ValueError(f"{name} must be base64") from error


def _octets_of(found: dict[str, Any], name: str) -> bytes:
    return _octets(_member_of(found, name), name)


def _list_of(found: dict[str, Any], name: str) -> list[Any]:
    given = _member_of(found, name)
    if not isinstance(given, list):
        raise ValueError(f"{name} must be a list")
    return given


def _hashes_of(found: dict[str, Any], name: str) -> list[bytes]:
    hashes = [_octets(it, f"a member of {name}") for it in _list_of(found, name)]
    if any(len(it) != 32 for it in hashes):
        raise ValueError(f"a member of {name} must have 32 bytes")
    return hashes
