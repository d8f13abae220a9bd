//! The authority of the examples, asked about by openssl, which also has its keys: left out, with a line that says so, where openssl isn't installed.
use std::fs;
use std::path::Path;
use std::process::{Command, Output};
use x509_rattle::{Certificate, Crl};

#[allow(dead_code)]
#[path = "../examples/authority.rs"]
mod authority;

/// 2030-01-01T00:00:00Z
const MOMENT: &str = "1893456000";

type Made<T> = Result<T, Box<dyn std::error::Error>>;

fn openssl(folder: &Path, words: &[&str]) -> Made<Output> {
    let ended = Command::new("openssl")
        .current_dir(folder)
        .args(words)
        .output();
    Ok(ended?)
}

/// The same object as PEM.
fn armour(folder: &Path, kind: &str, name: &str) -> Made<()> {
    let [from, to] = ["der", "pem"].map(|it| format!("{name}.{it}"));
    let ended = openssl(folder, &[kind, "-inform", "DER", "-in", &from, "-out", &to])?;
    assert!(ended.status.success(), "{ended:?}");
    Ok(())
}

fn verify(folder: &Path, words: &[&str]) -> Made<(bool, String)> {
    let fixed = [
        "verify",
        "-x509_strict",
        "-attime",
        MOMENT,
        "-CAfile",
        "root.pem",
    ];
    let rest = ["-untrusted", "intermediate.pem", "server.pem"];
    let ended = openssl(folder, &[&fixed, words, &rest].concat())?;
    let said = [ended.stdout, ended.stderr].concat();
    Ok((ended.status.success(), String::from_utf8(said)?))
}

fn chain(folder: &Path) -> Made<()> {
    authority::make(folder)?;
    for (kind, name) in [
        ("x509", "root"),
        ("x509", "intermediate"),
        ("x509", "server"),
        ("req", "request"),
        ("crl", "before"),
        ("crl", "after"),
    ] {
        armour(folder, kind, name)?;
    }
    let taken = (true, "server.pem: OK\n".to_owned());
    let of_host = ["-verify_hostname", "www.example.org"];
    assert_eq!(verify(folder, &of_host)?, taken);
    let not_of_host = ["-verify_hostname", "www.example.com"];
    assert!(!verify(folder, &not_of_host)?.0);
    assert_eq!(
        verify(folder, &["-crl_check", "-CRLfile", "before.pem"])?,
        taken
    );
    let (is_taken, said) = verify(folder, &["-crl_check", "-CRLfile", "after.pem"])?;
    assert!(!is_taken && said.contains("certificate revoked"), "{said}");
    let said = openssl(folder, &["req", "-in", "request.pem", "-verify", "-noout"])?;
    assert!(said.status.success(), "{said:?}");

    let read = |name: &str| fs::read(folder.join(format!("{name}.der")));
    let [middle, server] = [read("intermediate")?, read("server")?].map(Certificate::from_der);
    let (middle, server) = (middle?, server?);
    assert_eq!(server.issuer(), middle.subject());
    let after = Crl::from_der(read("after")?)?;
    assert_eq!(after.issuer(), middle.subject());
    assert!(after
        .revocation(server.serial_number().as_bytes())?
        .is_some());
    assert_eq!(after.revocation(middle.serial_number().as_bytes())?, None);
    Ok(())
}

#[test]
fn openssl_takes_the_chain_until_it_is_revoked() {
    if Command::new("openssl").arg("version").output().is_err() {
        eprintln!("left out, since openssl isn't installed: an authority");
        return;
    }
    let folder = std::env::temp_dir().join(format!("x509-rattle-{}", std::process::id()));
    fs::create_dir(&folder).expect("a folder");
    let ended = chain(&folder);
    fs::remove_dir_all(&folder).expect("it was made here");
    ended.expect("a chain");
}
