//! Entries and tree heads of logs, and precertificates that a precertificate signing certificate signed (RFC 6962), by hand.
use x509_rattle::log::{
    certificate_chain, tree_head_signed_data, Leaf, LogEntry, PrecertificateChain,
};
use x509_rattle::{Certificate, CertificateRef, Error};

const MOMENT: &[u8] = b"\x00\x00\x01\x8b\xcf\xe5\x68\x7b";

#[test]
fn leaves() {
    let leaf = [
        b"\x00\x00",
        MOMENT,
        b"\x00\x00\x00\x00\x02\xab\xac\x00\x01\xee",
    ]
    .concat();
    let wanted = Leaf {
        milliseconds: 1_700_000_000_123,
        entry: LogEntry::Certificate(b"\xab\xac"),
        extensions: b"\xee",
    };
    assert_eq!(Leaf::from_bytes(&leaf), Ok(wanted));
    let key_hash = [7; 32];
    let tail = b"\x00\x00\x03\xab\xac\xad\x00\x00";
    let precertificate = [&b"\x00\x00"[..], MOMENT, b"\x00\x01", &key_hash, tail].concat();
    let wanted = Leaf {
        milliseconds: 1_700_000_000_123,
        entry: LogEntry::Precertificate {
            issuer_key_hash: &key_hash,
            tbs_certificate: b"\xab\xac\xad",
        },
        extensions: b"",
    };
    assert_eq!(Leaf::from_bytes(&precertificate), Ok(wanted));
    for whole in [leaf, precertificate] {
        for len in 0..whole.len() {
            assert_eq!(Leaf::from_bytes(&whole[..len]), Err(Error::Malformed));
        }
        let longer = [&whole[..], b"\x00"].concat();
        assert_eq!(Leaf::from_bytes(&longer), Err(Error::Malformed));
    }
}

#[test]
fn chains() {
    let chain = b"\x00\x00\x09\x00\x00\x01\xab\x00\x00\x02\xac\xad";
    assert_eq!(
        certificate_chain(chain),
        Ok(vec![&b"\xab"[..], &b"\xac\xad"[..]])
    );
    assert_eq!(certificate_chain(b"\x00\x00\x00"), Ok(Vec::new()));
    let submitted = [&b"\x00\x00\x01\xaa"[..], chain].concat();
    let found = PrecertificateChain::from_bytes(&submitted).expect("a precertificate and a chain");
    assert_eq!(found.precertificate, b"\xaa");
    assert_eq!(found.chain, [&b"\xab"[..], &b"\xac\xad"[..]]);
    for len in 0..submitted.len() {
        assert_eq!(
            PrecertificateChain::from_bytes(&submitted[..len]),
            Err(Error::Malformed)
        );
    }
    for wrong in [
        &b""[..],
        b"\x00\x00",
        b"\x00\x00\x03\x00\x00\x00",
        b"\x00\x00\x03\x00\x00\x01",
        b"\x00\x00\x00\x00",
    ] {
        assert_eq!(certificate_chain(wrong), Err(Error::Malformed));
    }
}

#[test]
fn tree_heads() {
    let wanted = [
        b"\x00\x01",
        MOMENT,
        b"\x00\x00\x00\x00\x00\x00\x00\x03",
        &[9; 32],
    ]
    .concat();
    assert_eq!(
        tree_head_signed_data(1_700_000_000_123, 3, &[9; 32]),
        Ok(wanted)
    );
}

/// The fields of a TBSCertificate before the extensions, which the authority CN=R issued, and CN=S; and algorithm and signature.
const FRONT: &[u8] = b"\xa0\x03\x02\x01\x02\x02\x01\x2a\x30\x05\x06\x03\x2a\x03\x04\x30\x0c\x31\x0a\x30\x08\x06\x03\x55\x04\x03\x0c\x01";
const BEHIND: &[u8] = b"\x30\x1e\x17\x0d260101000000Z\x17\x0d270101000000Z\x30\x00\x30\x0b\x30\x05\x06\x03\x2a\x03\x04\x03\x02\x00\x61";
const SIGNED: &[u8] = b"\x30\x05\x06\x03\x2a\x03\x04\x03\x02\x00\xaa";
const POISON: &[u8] =
    b"\x30\x13\x06\x0a\x2b\x06\x01\x04\x01\xd6\x79\x02\x04\x03\x01\x01\xff\x04\x02\x05\x00";
const OWN: &[u8] = b"\x30\x0c\x06\x03\x55\x1d\x23\x04\x05\x30\x03\x80\x01\x0a";
const ABOVE: &[u8] = b"\x30\x0e\x06\x03\x55\x1d\x23\x04\x07\x30\x05\x80\x03\x0b\x0b\x0b";

fn element(tag: u8, content: &[u8]) -> Vec<u8> {
    let len = content.len() as u8;
    let head = if len < 128 {
        vec![tag, len]
    } else {
        vec![tag, 0x81, len]
    };
    [&head[..], content].concat()
}

fn part(issuer: u8, extensions: &[&[u8]]) -> Vec<u8> {
    let list = element(0xA3, &element(0x30, &extensions.concat()));
    element(0x30, &[FRONT, &[issuer], BEHIND, &list].concat())
}

fn certificate(issuer: u8, extensions: &[&[u8]]) -> Certificate {
    let der = element(0x30, &[&part(issuer, extensions)[..], SIGNED].concat());
    Certificate::from_der(der).expect("a certificate")
}

#[test]
fn reissued() {
    let signing = certificate(b'S', &[ABOVE]);
    let unidentified = certificate(b'S', &[POISON]);
    let cut = |precertificate: &Certificate, signing: &Certificate| {
        let above: CertificateRef<'_> = signing.to_ref();
        assert_eq!(
            precertificate
                .to_ref()
                .logged_precertificate_signed_by(above),
            precertificate.logged_precertificate_signed_by(above)
        );
        precertificate.logged_precertificate_signed_by(above)
    };
    for (members, wanted) in [
        (vec![OWN, POISON], part(b'S', &[ABOVE])),
        (vec![POISON, OWN], part(b'S', &[ABOVE])),
    ] {
        assert_eq!(cut(&certificate(b'R', &members), &signing), Ok(wanted));
    }
    let precertificate = certificate(b'R', &[OWN, POISON]);
    assert_eq!(cut(&precertificate, &unidentified), Err(Error::Absent));
    assert_eq!(cut(&signing, &signing), Err(Error::Absent));
    let twice = certificate(b'S', &[ABOVE, ABOVE]);
    assert_eq!(cut(&precertificate, &twice), Err(Error::Repeated));
}
