//! What `X509_LIBRARY` may name, as the build script takes it.
use std::fs;
use std::path::{Path, PathBuf};

#[allow(dead_code)]
#[path = "../build.rs"]
mod build;

/// A folder of empty files, which is removed with it.
struct Folder(PathBuf);

impl Folder {
    fn new(files: &[&str]) -> Folder {
        let name = format!("x509-rattle-{}-{}", std::process::id(), files.join("-"));
        let folder = std::env::temp_dir().join(name);
        fs::create_dir(&folder).expect("a folder");
        for file in files {
            fs::write(folder.join(file), b"").expect("a file");
        }
        Folder(folder)
    }

    /// The kind and the names of the library that is taken where this is named.
    fn taken(&self, named: &Path) -> Option<(&'static str, &'static [&'static str])> {
        let found = build::library(named)?;
        assert_eq!(found.folder, self.0);
        Some((found.kind, found.names))
    }
}

impl Drop for Folder {
    fn drop(&mut self) {
        // a folder that is left takes no harm
        let _ = fs::remove_dir_all(&self.0);
    }
}

const STATIC: Option<(&str, &[&str])> = Some(("static", &["x509"]));
const PARTS: Option<(&str, &[&str])> = Some(("static", &["x509_c", "libc_c"]));
const SHARED: Option<(&str, &[&str])> = Some(("dylib", &["x509"]));

#[test]
fn folders() {
    for (files, taken) in [
        (&["libx509.a", "libx509.so"][..], STATIC),
        (&["libx509_c.a", "liblibc_c.a", "libx509.so"], PARTS),
        (&["libx509_c.a", "libx509.so"], SHARED),
        (&["libx509_c.a"], None),
        (&[], None),
    ] {
        let folder = Folder::new(files);
        assert_eq!(folder.taken(&folder.0), taken, "{files:?}");
    }
}

#[test]
fn files() {
    let folder = Folder::new(&["libx509.a", "libx509.so", "libx509.so.0", "x509.h"]);
    for (named, taken) in [
        ("libx509.a", STATIC),
        ("libx509.so", SHARED),
        ("libx509.so.0", SHARED),
        ("x509.h", STATIC),
    ] {
        assert_eq!(folder.taken(&folder.0.join(named)), taken, "{named}");
    }
    assert_eq!(folder.taken(&folder.0.join("none")), None);
}
