//! A small authority: a root (RSA), an intermediate (P-256), a server (Ed25519) by its CSR, and CRLs of the intermediate. Profiles make AKI, SKI, constraints
//! and usages; the program openssl has the keys, and signs.
//!
//! It writes root.der, intermediate.der, request.der and server.der into the folder, with the CRLs before.der, which is empty, and after.der, which revokes the
//! server, and beside them the keys.
//!
//! usage: authority FOLDER
use std::error::Error as StdError;
use std::fs;
use std::io;
use std::path::{Path, PathBuf};
use std::process::Command;
use x509_rattle::extension::{CrlReason, SubjectAltName};
use x509_rattle::{
    algorithm, time_from_text, Certificate, CertificateBuilder, CertificateProfile, Crl,
    CrlBuilder, Csr, CsrBuilder, GeneralName, Name, SerialNumber, Signer, Validity,
};

type Made<T> = Result<T, Box<dyn StdError>>;

/// What openssl prints where it ends well.
fn openssl(folder: &Path, words: &[&str]) -> io::Result<Vec<u8>> {
    let ended = Command::new("openssl")
        .current_dir(folder)
        .args(words)
        .output()?;
    if !ended.status.success() {
        let said = String::from_utf8_lossy(&ended.stderr);
        let said = format!("openssl {words:?}: {said}");
        return Err(io::Error::new(io::ErrorKind::Other, said));
    }
    Ok(ended.stdout)
}

/// A key in a file of the folder, by which openssl signs, with SHA-256 or, as Ed25519 does, without a hash.
struct Key {
    folder: PathBuf,
    file: String,
    algorithm: &'static [u8],
    public: Vec<u8>,
}

impl Key {
    fn new(folder: &Path, name: &str, algorithm: &'static [u8], kind: &[&str]) -> io::Result<Key> {
        let file = format!("{name}.key");
        openssl(folder, &[&["genpkey", "-out", &file], kind].concat())?;
        let words = ["pkey", "-in", &file, "-pubout", "-outform", "DER"];
        let public = openssl(folder, &words)?;
        Ok(Key {
            folder: folder.to_owned(),
            file,
            algorithm,
            public,
        })
    }
}

impl Signer for Key {
    type Error = io::Error;

    fn algorithm(&self) -> &[u8] {
        self.algorithm
    }

    fn subject_public_key_info(&self) -> &[u8] {
        &self.public
    }

    fn sign(&self, message: &[u8]) -> io::Result<Vec<u8>> {
        let file = format!("{}.message", self.file);
        fs::write(self.folder.join(&file), message)?;
        let words = [
            "pkeyutl", "-sign", "-rawin", "-inkey", &self.file, "-in", &file,
        ];
        let digest: &[&str] = match self.algorithm {
            algorithm::ED25519 => &[],
            _ => &["-digest", "sha256"],
        };
        let signature = openssl(&self.folder, &[&words, digest].concat());
        fs::remove_file(self.folder.join(&file))?;
        signature
    }
}

/// An authority: its name, and its key.
struct Authority {
    name: Name,
    key: Key,
}

/// The first and the last second of all that is made.
fn validity() -> Made<Validity> {
    Ok(Validity {
        not_before: time_from_text("2026-01-01T00:00:00Z")?,
        not_after: time_from_text("2035-12-31T23:59:59Z")?,
    })
}

fn name(common_name: &str) -> Made<Name> {
    let mut builder = Name::builder();
    builder
        .country_name("US")
        .organization_name("Test")
        .common_name(common_name);
    Ok(builder.build()?)
}

/// The certificate of an authority. Its serial number is to be one that nobody can guess, of a random source; here it is a small one.
fn certify(
    issuer: &Authority,
    serial_number: u64,
    subject: &Authority,
    profile: &CertificateProfile<'_>,
) -> Made<Certificate> {
    let serial_number = SerialNumber::try_from(serial_number)?;
    let (name, key) = (&subject.name, &subject.key.public);
    let builder = CertificateBuilder::new(serial_number, &issuer.name, validity()?, name, key);
    Ok(builder.build_as(profile, &issuer.key)?)
}

/// A CSR for a server with that host name.
fn request(key: &Key, host: &str) -> Made<Csr> {
    let subject = Name::builder().common_name(host).build()?;
    let mut builder = CsrBuilder::new(&subject);
    builder.add_extension(false, &SubjectAltName(vec![GeneralName::DnsName(host)]))?;
    Ok(builder.build(key)?)
}

/// The certificate of a server, for the subject, the key and the names of a CSR, once that is known to be signed by its own key.
fn certify_server(
    issuer: &Authority,
    serial_number: u64,
    folder: &Path,
    csr: &Csr,
) -> Made<Certificate> {
    fs::write(folder.join("request.der"), csr.as_der())?;
    openssl(
        folder,
        &[
            "req",
            "-inform",
            "DER",
            "-in",
            "request.der",
            "-verify",
            "-noout",
        ],
    )?;
    let subject = csr.subject().to_owned();
    let mut builder = CertificateBuilder::new(
        SerialNumber::try_from(serial_number)?,
        &issuer.name,
        validity()?,
        &subject,
        csr.subject_public_key_info(),
    );
    for extension in csr.extensions()? {
        let extension = extension?;
        builder.add_extension_der(extension.oid(), extension.critical(), extension.value())?;
    }
    let profile = CertificateProfile::Subscriber {
        client_auth: false,
        key_encipherment: false,
        key_agreement: false,
        data_encipherment: false,
    };
    Ok(builder.build_as(&profile, &issuer.key)?)
}

/// A CRL with that number, in which these certificates are revoked.
fn list(issuer: &Certificate, key: &Key, number: u8, revoked: &[&Certificate]) -> Made<Crl> {
    let Validity {
        not_before: now,
        not_after: next,
    } = validity()?;
    let mut builder = CrlBuilder::new(issuer.to_ref(), &[number], now);
    builder.next_update(next);
    for certificate in revoked {
        builder.add_entry(
            certificate.serial_number(),
            now,
            Some(CrlReason::KeyCompromise),
        )?;
    }
    Ok(builder.build(key)?)
}

/// Makes all of it in the folder.
pub fn make(folder: &Path) -> Made<()> {
    let rsa = ["-algorithm", "RSA", "-pkeyopt", "rsa_keygen_bits:2048"];
    let p256 = ["-algorithm", "EC", "-pkeyopt", "ec_paramgen_curve:P-256"];
    let root = Authority {
        name: name("Root")?,
        key: Key::new(folder, "root", algorithm::RSA_SHA256, &rsa)?,
    };
    let middle = Authority {
        name: name("Intermediate")?,
        key: Key::new(folder, "intermediate", algorithm::ECDSA_SHA256, &p256)?,
    };
    let server_key = Key::new(
        folder,
        "server",
        algorithm::ED25519,
        &["-algorithm", "ED25519"],
    )?;

    let of_root = CertificateProfile::Root {
        signs_ocsp_responses: false,
    };
    let of_middle = CertificateProfile::Subordinate {
        path_len_constraint: Some(0),
        signs_ocsp_responses: false,
        client_auth: false,
    };
    let root_certificate = certify(&root, 1, &root, &of_root)?;
    let middle_certificate = certify(&root, 2, &middle, &of_middle)?;
    let csr = request(&server_key, "www.example.org")?;
    let server = certify_server(&middle, 3, folder, &csr)?;
    let before = list(&middle_certificate, &middle.key, 1, &[])?;
    let after = list(&middle_certificate, &middle.key, 2, &[&server])?;
    for (name, der) in [
        ("root", root_certificate.as_der()),
        ("intermediate", middle_certificate.as_der()),
        ("server", server.as_der()),
        ("before", before.as_der()),
        ("after", after.as_der()),
    ] {
        fs::write(folder.join(format!("{name}.der")), der)?;
    }
    Ok(())
}

fn main() -> Made<()> {
    let folder = std::env::args_os()
        .nth(1)
        .ok_or("usage: authority FOLDER")?;
    make(Path::new(&folder))
}
