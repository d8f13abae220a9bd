//! What logs give (RFC 6962 3, 4): the entries of their trees, what comes beside these, and tree heads.
use crate::error::Error;
use crate::ffi;
use crate::merkle::Hash;

/// What a leaf is of (RFC 6962 3.1), as a log has it.
#[derive(Clone, Copy, Debug, PartialEq, Eq, Hash)]
pub enum LogEntry<'a> {
    /// A certificate, by its DER, which the log has checked, and nothing here.
    Certificate(&'a [u8]),

    /// A precertificate.
    Precertificate {
        /// The SHA-256 digest of the key of the certificate's issuer, a SubjectPublicKeyInfo.
        issuer_key_hash: &'a [u8],

        /// The DER of the TBSCertificate, as [`CertificateRef::logged_part`](crate::CertificateRef::logged_part) gives it.
        tbs_certificate: &'a [u8],
    },
}

/// A leaf of a log's tree, a MerkleTreeLeaf of version 1 (RFC 6962 3.4). [`merkle::leaf_hash`](crate::merkle::leaf_hash) of its octets is its hash.
#[derive(Clone, Copy, Debug, PartialEq, Eq, Hash)]
pub struct Leaf<'a> {
    /// The milliseconds since 1970-01-01T00:00:00Z.
    pub milliseconds: u64,

    /// What it is of.
    pub entry: LogEntry<'a>,

    /// The octets of extensions, of which version 1 has none.
    pub extensions: &'a [u8],
}

impl<'a> Leaf<'a> {
    /// The leaf that the octets are, all of them: `leaf_input` of `get-entries` (RFC 6962 4.6).
    ///
    /// # Errors
    /// [`Error::Malformed`] where they are none of version 1, of a certificate or a precertificate; [`Error::Memory`].
    pub fn from_bytes(data: &'a [u8]) -> Result<Leaf<'a>, Error> {
        let view = ffi::LOG_LEAF.of(data)?;
        let certificate = view.certificate.of(data)?;
        let entry = match view.entry_type {
            0 => LogEntry::Certificate(certificate),
            1 => LogEntry::Precertificate {
                issuer_key_hash: view.issuer_key_hash.of(data)?,
                tbs_certificate: certificate,
            },
            _ => return Err(Error::Unexpected),
        };
        Ok(Leaf {
            milliseconds: view.timestamp,
            entry,
            extensions: view.extensions.of(data)?,
        })
    }
}

/// What a log gives beside the entry of a precertificate, a PrecertChainEntry (RFC 6962 3.1).
#[derive(Clone, Debug, PartialEq, Eq, Hash)]
pub struct PrecertificateChain<'a> {
    /// The DER of the precertificate that was submitted.
    pub precertificate: &'a [u8],

    /// The certificates above it, each by its DER: the issuer of the precertificate first.
    pub chain: Vec<&'a [u8]>,
}

impl<'a> PrecertificateChain<'a> {
    /// What the octets are, all of them: `extra_data` of `get-entries` (RFC 6962 4.6), where the leaf is of a precertificate.
    ///
    /// # Errors
    /// [`Error::Malformed`] where they are no such thing; [`Error::Memory`].
    pub fn from_bytes(data: &'a [u8]) -> Result<PrecertificateChain<'a>, Error> {
        let view = ffi::LOG_PRECERTIFICATE.of(data)?;
        Ok(PrecertificateChain {
            precertificate: view.precertificate.of(data)?,
            chain: certificate_chain(view.chain.of(data)?)?,
        })
    }
}

/// The certificates of a chain, each by its DER (RFC 6962 3.1): `extra_data` of `get-entries` (4.6), where the leaf is of a certificate; its issuer first.
///
/// # Errors
/// [`Error::Malformed`] where the octets are no chain.
pub fn certificate_chain(data: &[u8]) -> Result<Vec<&[u8]>, Error> {
    ffi::LOG_CHAIN
        .over(data)
        .map(|found| found.and_then(|span| span.of(data)))
        .collect()
}

/// What the signature of a tree head is over, a TreeHeadSignature of version 1 (RFC 6962 3.5): of a moment in milliseconds, the size of the tree and its root
/// hash, as `get-sth` has them (4.3). It is to be verified with the log's key.
///
/// # Errors
/// [`Error::Memory`].
pub fn tree_head_signed_data(
    milliseconds: u64,
    tree_size: u64,
    root_hash: &Hash,
) -> Result<Vec<u8>, Error> {
    ffi::tree_head_signed_data(milliseconds, tree_size, root_hash)
}
