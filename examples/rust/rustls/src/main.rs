//! A TLS client by rustls that asks this library whether to trust a server: `verify_server` stands in the place of rustls's own verification of certificates,
//! and ring verifies all signatures.
//!
//! It prints `trusted` and how many certificates the path has, or why the server isn't trusted, in the words of `examples/c/tls_client.c`; but `refused` with a
//! text. It ends with 0 where the server is trusted and the handshake is done, and with 1 else.
//!
//! usage: tls-client HOST PORT ROOTS [MOMENT [CRLS]], with files of the roots and of CRLs in PEM; it connects to 127.0.0.1, and asks for HOST; the moment in
//! seconds since 1970-01-01T00:00:00Z, now where there is none
mod pem;
mod signatures;
mod verifier;

use rustls::{ClientConfig, ClientConnection, RootCertStore, ServerName};
use std::convert::TryFrom;
use std::net::TcpStream;
use std::process::ExitCode;
use std::sync::Arc;
use std::time::{Duration, SystemTime, UNIX_EPOCH};
use std::{env, fs};
use verifier::ByPath;
use x509_rattle::{Certificate, Crl};

type Refused = Box<dyn std::error::Error>;

const USAGE: &str = "usage: tls-client HOST PORT ROOTS [MOMENT [CRLS]]";

/// The objects of a file of PEM, one at least.
fn read<T>(
    file: &str,
    label: &str,
    decode: fn(Vec<u8>) -> Result<T, x509_rattle::Error>,
) -> Result<Vec<T>, Refused> {
    let text = fs::read_to_string(file)?;
    let found = pem::blocks(&text, label).ok_or_else(|| format!("{file} can't be read"))?;
    let found: Vec<T> = found.into_iter().map(decode).collect::<Result<_, _>>()?;
    if found.is_empty() {
        return Err(format!("{file} has no {label}").into());
    }
    Ok(found)
}

fn moment(text: &str) -> Result<SystemTime, Refused> {
    let since = Duration::from_secs(text.parse()?);
    Ok(UNIX_EPOCH.checked_add(since).ok_or(USAGE)?)
}

/// Connects, and says whether the handshake is done, once what there is to say of the server is printed.
fn run(words: &[String]) -> Result<bool, Refused> {
    let (host, port, roots, more) = match words {
        [host, port, roots, more @ ..] if more.len() <= 2 => (host, port, roots, more),
        _ => return Err(USAGE.into()),
    };
    let verifier = Arc::new(ByPath::new(
        read(roots, "CERTIFICATE", Certificate::from_der)?,
        more.first().map(|it| moment(it)).transpose()?,
        match more.get(1) {
            Some(file) => read(file, "X509 CRL", Crl::from_der)?,
            None => Vec::new(),
        },
    ));
    let mut config = ClientConfig::builder()
        .with_safe_defaults()
        .with_root_certificates(RootCertStore::empty())
        .with_no_client_auth();
    config
        .dangerous()
        .set_certificate_verifier(verifier.clone());
    let name = ServerName::try_from(host.as_str())?;
    let mut connection = ClientConnection::new(Arc::new(config), name)?;
    let mut socket = TcpStream::connect(("127.0.0.1", port.parse()?))?;
    let mut done = Ok((0, 0));
    while connection.is_handshaking() && done.is_ok() {
        done = connection.complete_io(&mut socket);
    }
    println!("{}", verifier.said().as_deref().unwrap_or("no handshake"));
    Ok(done.is_ok())
}

fn main() -> ExitCode {
    let words: Vec<String> = env::args().skip(1).collect();
    match run(&words) {
        Ok(true) => ExitCode::SUCCESS,
        Ok(false) => ExitCode::FAILURE,
        Err(error) => {
            eprintln!("tls-client: {error}");
            ExitCode::FAILURE
        }
    }
}
