"""Builds the programs that ask other libraries, without a network, where these are installed as Debian has them."""
import os
import pathlib
import re
import shutil
import subprocess

INCLUDE = pathlib.Path(__file__).resolve().parents[2] / "include"
SOURCES = pathlib.Path("/usr/share/cargo/registry")
# Go without a collector, and without stops in between, so that counts repeat
GO = {"GO111MODULE": "off", "GOFLAGS": "", "GOPROXY": "off", "GOGC": "off", "GOMAXPROCS": "1", "GODEBUG": "asyncpreemptoff=1"}
MANIFEST = """[package]
name = "asking"
version = "0.0.0"
edition = "2021"

[[bin]]
name = "asking"
path = "{}"

[dependencies]
webpki = {{ version = "0.22", features = ["std"] }}

[profile.release]
lto = true
codegen-units = 1
"""
# The functions that check a signature, as callgrind names them, and those that make keys, none of which calls another.
SIGNATURE = {
    "openssl": r"^ASN1_item_verify_ex\b",
    "mbedtls": r"^mbedtls_(pk_verify_ext|md)\b",
    "go": r"^crypto/x509\.checkSignature$",
    "webpki": r"^<ring::.*::EcdsaVerificationAlgorithm as ring::signature::VerificationAlgorithm>::verify$",
}
KEY = {"openssl": r"^OSSL_DECODER_(CTX_new_for_pkey|from_data|CTX_free)\b", "mbedtls": r"^mbedtls_pk_parse_subpubkey\b", "go": r"^crypto/x509\.parsePublicKey$"}


def signatures(peer):
    """Finds the names of the functions that check a signature; webpki's makes the key too."""
    return re.compile(SIGNATURE[peer])


def signatures_and_keys(peer):
    """Finds these, and the names of those that make keys."""
    return re.compile("|".join(it[peer] for it in (SIGNATURE, KEY) if peer in it))


def built_c(source, out, *libraries):
    """Compiles a program by $CC; None where that fails, as without the headers of a library."""
    words = [os.environ.get("CC", "cc"), "-std=c11", "-D_GNU_SOURCE", "-O2", "-Wall", "-Wextra", "-Werror", "-I", INCLUDE, source, *libraries, "-o", out]
    return out if subprocess.run(words, check=False).returncode == 0 else None


def built_go(source, out):
    """Builds a program in Go; None where Go isn't installed."""
    if shutil.which("go") is None:
        return None
    subprocess.run(["go", "build", "-o", out, source], check=True, env={**os.environ, **GO})
    return out


def built_rust(source, folder):
    """Builds a program in Rust over Debian's sources of webpki, in a folder; None where they, or cargo, aren't installed."""
    if shutil.which("cargo") is None or not [*SOURCES.glob("webpki-0.22.*")]:
        return None
    (folder / "Cargo.toml").write_text(MANIFEST.format(source), encoding="utf-8")
    configured = ["--config", 'source.crates-io.replace-with="debian"', "--config", f'source.debian.directory="{SOURCES}"']
    words = ["cargo", "build", "-q", "--release", "--offline", "--manifest-path", folder / "Cargo.toml", "--target-dir", folder / "target", *configured]
    subprocess.run(words, check=True)
    return folder / "target" / "release" / "asking"
