//! Finds a path by webpki so many times, for counts of instructions: `time_finding.py` builds it, over Debian's sources of webpki 0.22, and runs it.
//!
//! FOLDER is as `finding.c` has it. WHAT is
//!
//!   webpki       `verify_is_valid_tls_server_cert` of the leaf under the roots, of which trust anchors are made once; what it needs of the leaf and of the
//!                candidates is decoded each time, and nothing else, and the signatures of the path are verified
//!   webpki-all   the same, and the trust anchors are made of the roots each time too
//!
//! usage: finding FOLDER WHAT COUNT
const ALGORITHMS: &[&webpki::SignatureAlgorithm] = &[&webpki::ECDSA_P256_SHA256];
/// 2026-11-30T00:00:00Z
const MOMENT: u64 = 1_795_996_800;

/// The certificates of a file, each with its length in four octets in front.
fn read(folder: &str, name: &str) -> Vec<Vec<u8>> {
    let octets = std::fs::read(format!("{folder}/{name}")).expect("a file");
    let (mut found, mut rest) = (Vec::new(), &octets[..]);
    while !rest.is_empty() {
        let (size, behind) = rest.split_at(4);
        let (one, others) =
            behind.split_at(u32::from_be_bytes(size.try_into().expect("four octets")) as usize);
        found.push(one.to_vec());
        rest = others;
    }
    found
}

fn anchors(roots: &[Vec<u8>]) -> Vec<webpki::TrustAnchor<'_>> {
    roots
        .iter()
        .map(|it| webpki::TrustAnchor::try_from_cert_der(it).expect("a root"))
        .collect()
}

fn find(anchors: &[webpki::TrustAnchor<'_>], candidates: &[&[u8]], leaf: &[u8]) {
    let moment = webpki::Time::from_seconds_since_unix_epoch(MOMENT);
    let leaf = webpki::EndEntityCert::try_from(leaf).expect("a certificate");
    leaf.verify_is_valid_tls_server_cert(
        ALGORITHMS,
        &webpki::TlsServerTrustAnchors(anchors),
        candidates,
        moment,
    )
    .expect("a path");
}

fn main() {
    let words: Vec<String> = std::env::args().collect();
    let [_, folder, what, count] = &words[..] else {
        panic!("usage: finding FOLDER WHAT COUNT")
    };
    let (roots, candidates, leaf) = (
        read(folder, "roots.bin"),
        read(folder, "candidates.bin"),
        read(folder, "leaf.bin"),
    );
    let candidates: Vec<&[u8]> = candidates.iter().map(|it| &it[..]).collect();
    let known = anchors(&roots);
    for _ in 0..count.parse().expect("a number") {
        let (candidates, leaf) = std::hint::black_box((&candidates, &leaf[0]));
        if what == "webpki-all" {
            find(&anchors(std::hint::black_box(&roots)), candidates, leaf);
        } else {
            find(&known, candidates, leaf);
        }
    }
}
