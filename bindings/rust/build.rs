//! Finds the C library: where `X509_LIBRARY` names its folder or a file there, or else by `pkg-config`.
//!
//! The variable means the same to the package for Python: of a folder each takes the library that it can use, here the static one and only where there is none
//! the shared one; of a file that is a shared library, that; and an empty text is as none.
use std::env;
use std::path::Path;
use std::process::{exit, Command};

const MISSING: &str = "the C library x509 isn't found.
Install it, from the archive of a release, by libx509-rattle-dev on Debian, or by `tools/build/install_c.sh PREFIX` of the sources, and say where it is \
by one of
  X509_LIBRARY=PREFIX/lib              a folder of libx509.a, of libx509_c.a and liblibc_c.a, or of libx509.so; or a file there
  PKG_CONFIG_PATH=PREFIX/lib/pkgconfig a folder of x509.pc, for the program pkg-config";

/// The names of the archives that stand in the folder.
fn archives(folder: &Path) -> Option<&'static [&'static str]> {
    let forms: [&[&str]; 2] = [&["x509"], &["x509_c", "libc_c"]];
    let is_there = |name: &&str| folder.join(format!("lib{name}.a")).is_file();
    forms.into_iter().find(|names| names.iter().all(is_there))
}

/// A library to be linked.
#[derive(Debug, PartialEq, Eq)]
pub struct Library<'a> {
    pub folder: &'a Path,
    pub kind: &'static str,
    pub names: &'static [&'static str],
}

/// Whether a file is a shared library by its name, as libx509.so or libx509.so.0.
fn is_shared(file: &Path) -> bool {
    let name = file.file_name().unwrap_or_default().to_string_lossy();
    name.ends_with(".so") || name.contains(".so.")
}

/// The library of a folder, or at a file of it.
pub fn library(named: &Path) -> Option<Library<'_>> {
    let folder = match named.parent() {
        Some(folder) if named.is_file() => folder,
        _ => named,
    };
    let of = |kind, names| Library {
        folder,
        kind,
        names,
    };
    let shared = || {
        let is_there = folder.join("libx509.so").is_file();
        is_there.then(|| of("dylib", &["x509"]))
    };
    if named.is_file() && is_shared(named) {
        return shared();
    }
    let found = archives(folder).map(|names| of("static", names));
    found.or_else(shared)
}

fn link(library: &Library<'_>) {
    println!(
        "cargo:rustc-link-search=native={}",
        library.folder.display()
    );
    for name in library.names {
        println!("cargo:rustc-link-lib={}={name}", library.kind);
    }
}

/// The folder of the library, as `pkg-config` says.
fn installed() -> Option<String> {
    let program = env::var_os("PKG_CONFIG").unwrap_or_else(|| "pkg-config".into());
    let asked = Command::new(program)
        .args(["--variable=libdir", "x509"])
        .output()
        .ok()?;
    let folder = String::from_utf8(asked.stdout).ok()?.trim().to_owned();
    (asked.status.success() && !folder.is_empty()).then_some(folder)
}

fn main() {
    for name in [
        "X509_LIBRARY",
        "PKG_CONFIG",
        "PKG_CONFIG_PATH",
        "PKG_CONFIG_LIBDIR",
    ] {
        println!("cargo:rerun-if-env-changed={name}");
    }
    if env::var_os("DOCS_RS").is_some() {
        return;
    }
    let named = env::var_os("X509_LIBRARY").filter(|it| !it.is_empty());
    if let Some(named) = named {
        if let Some(library) = library(Path::new(&named)) {
            return link(&library);
        }
        eprintln!(
            "X509_LIBRARY is {}, where no such library stands: {MISSING}",
            named.to_string_lossy()
        );
        exit(1);
    }
    let folder = match installed() {
        Some(folder) => folder,
        None => {
            eprintln!("{MISSING}");
            exit(1);
        }
    };
    let folder = Path::new(&folder);
    link(&library(folder).unwrap_or(Library {
        folder,
        kind: "dylib",
        names: &["x509"],
    }));
}
