"""Proofs of the trees of logs (RFC 6962 2.1), over SHA-256: a hash is 32 bytes."""

from __future__ import annotations

import ctypes
from typing import Iterable

from ._arguments import octets, whole
from ._header import FAILED, OK
from ._library import X509Error, fill, status_of

# the most leaves that a tree has here
_MOST = (1 << 64) - 1


def leaf_hash(entry: bytes) -> bytes:
    """The hash of a leaf: of an octet 0 and the entry, a MerkleTreeLeaf (RFC 6962 3.4), as `leaf_input` of `get-entries` has it."""
    return fill("x509_merkle_leaf_hash", octets(entry, "the entry"))


def verify_inclusion(leaf_hash: bytes, index: int, size: int, path: Iterable[bytes], root: bytes) -> bool:
    """Whether the leaf with that hash, at the index from 0 on, is in the tree of `size` leaves with that root, by its audit path (RFC 6962 2.1.1). No path fits
    an index that the tree hasn't, and none with a hash too few or too many."""
    numbers = _number(index, "the index"), _number(size, "the size")
    return _holds("x509_merkle_inclusion", _hash(leaf_hash, "the hash of the leaf"), *numbers, _hashes(path, "the path"), _hash(root, "the root"))


def verify_consistency(old_size: int, new_size: int, old_root: bytes, new_root: bytes, proof: Iterable[bytes]) -> bool:
    """Whether the first leaves of the tree of `new_size` leaves with the new root are those of the tree of `old_size` leaves with the old root, by a
    consistency proof (RFC 6962 2.1.2). Of two equal sizes the proof is empty, and the roots are one; of an old size of 0 there is no proof."""
    numbers = _number(old_size, "the old size"), _number(new_size, "the new size")
    return _holds("x509_merkle_consistency", *numbers, _hash(old_root, "the old root"), _hash(new_root, "the new root"), _hashes(proof, "the proof"))


def _holds(call: str, *arguments: object) -> bool:
    status = status_of(call, *arguments)
    if status not in (OK, FAILED):
        raise X509Error(call, status)
    return status == OK


def _number(given: int, what: str) -> ctypes.c_uint64:
    if not 0 <= whole(given, what) <= _MOST:
        raise ValueError(f"{what} must be from 0 to {_MOST}")
    return ctypes.c_uint64(given)


def _hash(given: bytes, what: str) -> bytes:
    found = octets(given, what)
    if len(found) != 32:
        raise ValueError(f"{what} must have 32 bytes")
    return found


def _hashes(given: Iterable[bytes], what: str) -> bytes:
    if isinstance(given, (bytes, bytearray, memoryview)):
        raise TypeError(f"{what} is a list of hashes, not bytes")
    return b"".join(_hash(it, f"a hash of {what}") for it in given)
