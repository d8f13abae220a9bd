//! Validates paths by webpki, for counts of instructions: `time_validating.py` builds it, over Debian's sources of webpki 0.22, and runs it. CASE is a file of
//! `validating_inputs.py`. WHAT is asked so many times, and then the last answer is printed: "yes", or "no" and why. It is
//!
//!   path  `verify_is_valid_tls_server_cert` under a trust anchor that is made once; the path is given as DER, the issuer of the last certificate first
//!
//! usage: validating CASE WHAT COUNT
const ALGORITHMS: &[&webpki::SignatureAlgorithm] = &[&webpki::ECDSA_P256_SHA256];
/// 2026-11-30T00:00:00Z
const MOMENT: u64 = 1_795_996_800;

/// The anchor and the path of a case, topmost first.
fn read(name: &str) -> (Vec<u8>, Vec<Vec<u8>>) {
    let octets = std::fs::read(name).expect("a file");
    let (mut anchor, mut path, mut rest) = (Vec::new(), Vec::new(), &octets[..]);
    while !rest.is_empty() {
        let (head, behind) = rest.split_at(5);
        let size = u32::from_be_bytes(head[1..].try_into().expect("four octets")) as usize;
        let (one, others) = behind.split_at(size);
        match head[0] {
            b'a' => anchor = one.to_vec(),
            b'c' => path.push(one.to_vec()),
            _ => (),
        }
        rest = others;
    }
    (anchor, path)
}

fn ask(
    anchors: &[webpki::TrustAnchor<'_>],
    above: &[&[u8]],
    last: &[u8],
) -> Result<(), webpki::Error> {
    let moment = webpki::Time::from_seconds_since_unix_epoch(MOMENT);
    webpki::EndEntityCert::try_from(last)?.verify_is_valid_tls_server_cert(
        ALGORITHMS,
        &webpki::TlsServerTrustAnchors(anchors),
        above,
        moment,
    )
}

fn main() {
    let words: Vec<String> = std::env::args().collect();
    let [_, case, what, count] = &words[..] else {
        panic!("usage: validating CASE WHAT COUNT")
    };
    assert_eq!(what, "path", "nothing else can be asked");
    let (anchor, mut path) = read(case);
    let last = path.pop().expect("a certificate");
    let above: Vec<&[u8]> = path.iter().rev().map(|it| &it[..]).collect();
    let anchors = [webpki::TrustAnchor::try_from_cert_der(&anchor).expect("an anchor")];
    let mut found = Ok(());
    for _ in 0..count.parse().expect("a number") {
        found = std::hint::black_box(ask(&anchors, &above, std::hint::black_box(&last)));
    }
    match found {
        Ok(()) => println!("yes"),
        Err(why) => println!("no: {why:?}"),
    }
}
