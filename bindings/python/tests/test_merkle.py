"""Proofs of Merkle trees, beside a recursive model of RFC 6962 2.1: each leaf of random trees, and each first part, also with one bit, index or size otherwise.

usage: X509_LIBRARY=.../libx509.so PYTHONPATH=bindings/python/src python3 -m unittest discover -s bindings/python/tests
"""

from __future__ import annotations

import hashlib
import random
import unittest

from x509_cert import merkle


def digest(octets: bytes) -> bytes:
    return hashlib.sha256(octets).digest()


def split(size: int) -> int:
    """The largest power of two that is smaller."""
    return 1 << (size - 1).bit_length() - 1


def tree_hash(leaves: list[bytes]) -> bytes:
    if len(leaves) < 2:
        return digest(b"\x00" + leaves[0]) if leaves else digest(b"")
    at = split(len(leaves))
    return digest(b"\x01" + tree_hash(leaves[:at]) + tree_hash(leaves[at:]))


def audit_path(index: int, leaves: list[bytes]) -> list[bytes]:
    if len(leaves) == 1:
        return []
    at = split(len(leaves))
    if index < at:
        return [*audit_path(index, leaves[:at]), tree_hash(leaves[at:])]
    return [*audit_path(index - at, leaves[at:]), tree_hash(leaves[:at])]


def subproof(size: int, leaves: list[bytes], is_whole: bool) -> list[bytes]:
    if size == len(leaves):
        return [] if is_whole else [tree_hash(leaves)]
    at = split(len(leaves))
    if size <= at:
        return [*subproof(size, leaves[:at], is_whole), tree_hash(leaves[at:])]
    return [*subproof(size - at, leaves[at:], False), tree_hash(leaves[:at])]


def spoilt(hashes: list[bytes], bit: int) -> list[bytes]:
    """The hashes with one bit otherwise."""
    octets = bytearray(b"".join(hashes))
    octets[bit // 8] ^= 1 << bit % 8
    return [bytes(octets[at : at + 32]) for at in range(0, len(octets), 32)]


class Proofs(unittest.TestCase):
    def setUp(self) -> None:
        self.random = random.Random(6962)

    def trees(self, count: int, most: int) -> list[list[bytes]]:
        return [[self.random.randbytes(self.random.randrange(5)) for _ in range(self.random.randint(1, most))] for _ in range(count)]

    def test_of_certificate_transparency(self) -> None:
        """The tree that the tests of its implementations share."""
        leaves = [bytes.fromhex(it) for it in ("", "00", "10", "2021", "3031", "40414243", "5051525354555657", "606162636465666768696a6b6c6d6e6f")]
        root = bytes.fromhex("5dc9da79a70659a9ad559cb701ded9a2ab9d823aad2f4960cfe370eff4604328")
        self.assertEqual(tree_hash(leaves), root)
        for index, leaf in enumerate(leaves):
            self.assertTrue(merkle.verify_inclusion(merkle.leaf_hash(leaf), index, 8, audit_path(index, leaves), root))

    def test_inclusion(self) -> None:
        for leaves in self.trees(500, 40):
            size, root = len(leaves), tree_hash(leaves)
            index = self.random.randrange(size)
            leaf, path = merkle.leaf_hash(leaves[index]), audit_path(index, leaves)
            self.assertEqual(leaf, digest(b"\x00" + leaves[index]))
            self.assertTrue(merkle.verify_inclusion(leaf, index, size, path, root))
            self.assertFalse(merkle.verify_inclusion(leaf, index, size, [*path, root], root))
            self.assertFalse(merkle.verify_inclusion(leaf, size, size, path, root))
            self.assertFalse(merkle.verify_inclusion(leaf, index, size, path, spoilt([root], self.random.randrange(256))[0]))
            if path:
                self.assertFalse(merkle.verify_inclusion(leaf, index, size, path[:-1], root))
                self.assertFalse(merkle.verify_inclusion(leaf, index, size, spoilt(path, self.random.randrange(256 * len(path))), root))
            other = self.random.randrange(size)
            if leaves[other] != leaves[index]:
                self.assertFalse(merkle.verify_inclusion(leaf, other, size, audit_path(other, leaves), root))

    def test_consistency(self) -> None:
        for leaves in self.trees(500, 40):
            size, root = len(leaves), tree_hash(leaves)
            old = self.random.randint(1, size)
            old_root, proof = tree_hash(leaves[:old]), subproof(old, leaves, True)
            self.assertTrue(merkle.verify_consistency(old, size, old_root, root, proof))
            self.assertFalse(merkle.verify_consistency(old, size, old_root, root, [*proof, root]))
            self.assertFalse(merkle.verify_consistency(0, size, old_root, root, proof))
            self.assertFalse(merkle.verify_consistency(size + 1, size, old_root, root, proof))
            self.assertFalse(merkle.verify_consistency(old, size, spoilt([old_root], self.random.randrange(256))[0], root, proof))
            if proof:
                self.assertFalse(merkle.verify_consistency(old, size, old_root, root, spoilt(proof, self.random.randrange(256 * len(proof)))))

    def test_arguments(self) -> None:
        leaf = bytes(32)
        for wrong in (-1, 1 << 64):
            with self.assertRaisesRegex(ValueError, "^the index must be from 0 to 18446744073709551615$"):
                merkle.verify_inclusion(leaf, wrong, 1, [], leaf)
        with self.assertRaisesRegex(ValueError, "^the hash of the leaf must have 32 bytes$"):
            merkle.verify_inclusion(b"", 0, 1, [], leaf)
        with self.assertRaisesRegex(TypeError, "^the proof is a list of hashes, not bytes$"):
            merkle.verify_consistency(1, 2, leaf, leaf, leaf)
        with self.assertRaisesRegex(TypeError, "^the old size must be an int, not a bool$"):
            merkle.verify_consistency(True, 2, leaf, leaf, [])


if __name__ == "__main__":
    unittest.main()
