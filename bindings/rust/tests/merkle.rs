//! Proofs of the tree of eight leaves that the tests of Certificate Transparency's implementations share, after RFC 6962 2.1.
use x509_rattle::merkle::{leaf_hash, verify_consistency, verify_inclusion, Hash};

/// The hash of the leaf 5, the octets 40 41 42 43, and the roots of the first three leaves and of all.
const LEAF: &str = "4271a26be0d8a84f0bd54c8c302e7cb3a3b5d1fa6780a40bcce2873477dab658";
const ROOT_3: &str = "aeb6bcfe274b70a14fb067a5e5578264db0fa9b51af5e0ba159158f329e06e77";
const ROOT_8: &str = "5dc9da79a70659a9ad559cb701ded9a2ab9d823aad2f4960cfe370eff4604328";

/// The audit path of that leaf, and the proof that the first three leaves are the beginning.
const PATH: [&str; 3] = [
    "bc1a0643b12e4d2d7c77918f44e0f4f79a838b6cf9ec5b5c283e1f4d88599e6b",
    "ca854ea128ed050b41b35ffc1b87b8eb2bde461e9e3b5596ece6b9d5975a0ae0",
    "d37ee418976dd95753c1c73862b9398fa2a2cf9b4ff0fdfe8b30cd95209614b7",
];
const PROOF: [&str; 4] = [
    "0298d122906dcfc10892cb53a73992fc5b9f493ea4c9badb27b791b4127a7fe7",
    "07506a85fd9dd2f120eb694f86011e5bb4662e5c415a62917033d4a9624487e7",
    "fac54203e7cc696cf0dfcb42c92a1d9dbaf70ad9e621f4bd8d98662f00e3c125",
    "6b47aaf29ee3c2af9af889bc1fb9254dabd31177f16232dd6aab035ca39bf6e4",
];

fn hash(text: &str) -> Hash {
    let octet = |at: usize| u8::from_str_radix(&text[2 * at..2 * at + 2], 16).expect("hex");
    let mut found = Hash::default();
    for (at, it) in found.iter_mut().enumerate() {
        *it = octet(at);
    }
    found
}

fn hashes(texts: &[&str]) -> Vec<Hash> {
    texts.iter().map(|it| hash(it)).collect()
}

#[test]
fn inclusion() {
    let (leaf, root, path) = (hash(LEAF), hash(ROOT_8), hashes(&PATH));
    assert_eq!(leaf_hash(&[0x40, 0x41, 0x42, 0x43]), Ok(leaf));
    assert_eq!(verify_inclusion(&leaf, 5, 8, &path, &root), Ok(true));
    for (index, size) in [(4, 8), (5, 16), (8, 8), (5, 0), (u64::MAX, u64::MAX)] {
        assert_eq!(
            verify_inclusion(&leaf, index, size, &path, &root),
            Ok(false)
        );
    }
    assert_eq!(verify_inclusion(&leaf, 5, 8, &path[1..], &root), Ok(false));
    assert_eq!(verify_inclusion(&leaf, 0, 1, &[], &leaf), Ok(true));
    for at in 0..path.len() {
        let mut spoilt = path.clone();
        spoilt[at][31] ^= 1;
        assert_eq!(verify_inclusion(&leaf, 5, 8, &spoilt, &root), Ok(false));
    }
}

#[test]
fn consistency() {
    let (old, new, proof) = (hash(ROOT_3), hash(ROOT_8), hashes(&PROOF));
    assert_eq!(verify_consistency(3, 8, &old, &new, &proof), Ok(true));
    assert_eq!(verify_consistency(8, 8, &new, &new, &[]), Ok(true));
    for (first, second) in [(2, 8), (3, 16), (8, 3), (0, 8)] {
        assert_eq!(
            verify_consistency(first, second, &old, &new, &proof),
            Ok(false)
        );
    }
    assert_eq!(verify_consistency(3, 8, &new, &new, &proof), Ok(false));
    assert_eq!(verify_consistency(3, 8, &old, &old, &proof), Ok(false));
    assert_eq!(verify_consistency(3, 8, &old, &new, &proof[1..]), Ok(false));
}
