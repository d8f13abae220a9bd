//! Proofs of the trees of logs (RFC 6962 2.1), over SHA-256.
use crate::error::Error;
use crate::ffi;

/// A hash of SHA-256.
pub type Hash = [u8; 32];

/// The hash of a leaf: of an octet 0 and the entry, a MerkleTreeLeaf (RFC 6962 3.4).
///
/// # Errors
/// [`Error::Memory`].
pub fn leaf_hash(entry: &[u8]) -> Result<Hash, Error> {
    let octets = ffi::MERKLE_LEAF_HASH.of(entry)?;
    Hash::try_from(octets.as_slice()).map_err(|_| Error::Unexpected)
}

/// Whether the leaf with that hash, at the index from 0 on, is in the tree of `size` leaves with that root, by its audit path (RFC 6962 2.1.1). No path fits an
/// index that the tree hasn't, and none with a hash too few or too many.
///
/// # Errors
/// [`Error::Memory`].
pub fn verify_inclusion(
    leaf_hash: &Hash,
    index: u64,
    size: u64,
    path: &[Hash],
    root: &Hash,
) -> Result<bool, Error> {
    ffi::merkle_inclusion(leaf_hash, index, size, &path.concat(), root)
}

/// Whether the first leaves of the tree of `new_size` leaves with the new root are those of the tree of `old_size` leaves with the old root, by a consistency
/// proof (RFC 6962 2.1.2). Of two equal sizes the proof is empty, and the roots are one; of an old size of 0 there is no proof.
///
/// # Errors
/// [`Error::Memory`].
pub fn verify_consistency(
    old_size: u64,
    new_size: u64,
    old_root: &Hash,
    new_root: &Hash,
    proof: &[Hash],
) -> Result<bool, Error> {
    ffi::merkle_consistency(old_size, new_size, old_root, new_root, &proof.concat())
}
