#!/usr/bin/env python3
"""Counts the instructions of finding a path, by valgrind's callgrind, beside what OpenSSL, Go and webpki take.

LIBRARY is `libx509.so`, as `tools/build/link_c_library.sh` makes it. There are 150 roots, 10 candidates and a certificate of a server, made by Python's
`cryptography` with keys of P-256: one of the candidates is the issuer of the certificate, and a root its; the others lead nowhere. A program makes each call
once and 11 times; a tenth of the difference is what is printed: all of it, and without the checks of signatures. The library makes none. Of the others what is
spent in, and below, the function that makes one is counted by callgrind, and left out: OpenSSL's ASN1_item_verify_ex, Go's checkSignature in crypto/x509, and
ring's VerificationAlgorithm::verify for ECDSA, which decodes the key too. Each makes two, of the certificate and of its issuer.

The library is given the DER of all, the roots too. The others have a row for that, and one where the roots are decoded before, in a store, a pool or a list
of anchors that is made once.

The programs are `finding.c`, compiled here by $CC over libcrypto 3 with its headers, `finding.go`, and `finding.rs`, by cargo over Debian's librust-webpki-dev,
both built without a network. Go runs without its collector, so that none of its work is counted. What isn't installed is left out, with a line that says so.
"""
import argparse
import datetime
import pathlib
import sys
import tempfile

from cryptography import x509
from cryptography.hazmat.primitives import hashes, serialization
from cryptography.hazmat.primitives.asymmetric import ec

sys.path.insert(0, str(pathlib.Path(__file__).resolve().parents[1]))
sys.dont_write_bytecode = True
from common.callgrind import counted
from common.peers import GO, built_c, built_go, built_rust, signatures

HERE = pathlib.Path(__file__).resolve().parent
DER = serialization.Encoding.DER
BEGINS, ENDS = datetime.datetime(2026, 1, 1), datetime.datetime(2027, 12, 1)
# what is asked of which program, and whose checks of signatures are left out
C, RUST, GOLANG = "finding.c", "finding.rs", "finding.go"
PEER = {C: "openssl", GOLANG: "go", RUST: "webpki"}
ROWS = [
    (C, "find", "x509_path_find, from the DER of all 161"),
    (RUST, "webpki", "webpki, verify_is_valid_tls_server_cert from the DER of the 11, under trust anchors that are made of the roots before"),
    (RUST, "webpki-all", "webpki, the same from the DER of all 161"),
    (GOLANG, "go", "Go, Verify with ParseCertificate of the 11, under a pool of decoded roots"),
    (GOLANG, "go-all", "Go, the same with ParseCertificate of all 161"),
    (C, "openssl", "openssl, X509_verify_cert with d2i_X509 of the 11, under a store of decoded roots"),
    (C, "openssl-all", "openssl, the same with d2i_X509 of all 161"),
    (C, "decode", "openssl, d2i_X509 of the 11 alone"),
]


class Party:
    def __init__(self, name):
        self.key = ec.generate_private_key(ec.SECP256R1())
        self.name = x509.Name([x509.NameAttribute(x509.NameOID.ORGANIZATION_NAME, "Authorities"), x509.NameAttribute(x509.NameOID.COMMON_NAME, name)])

    def issue(self, subject, *extensions):
        made = x509.CertificateBuilder(self.name, subject.name, subject.key.public_key(), x509.random_serial_number(), BEGINS, ENDS)
        identifiers = x509.SubjectKeyIdentifier.from_public_key(subject.key.public_key()), x509.AuthorityKeyIdentifier.from_issuer_public_key(self.key.public_key())
        for it in (*extensions, *identifiers):
            made = made.add_extension(it, isinstance(it, (x509.BasicConstraints, x509.KeyUsage)))
        return made.sign(self.key, hashes.SHA256()).public_bytes(DER)


def authority():
    names = "digital_signature content_commitment key_encipherment data_encipherment key_agreement encipher_only decipher_only".split()
    return x509.BasicConstraints(True, None), x509.KeyUsage(key_cert_sign=True, crl_sign=True, **dict.fromkeys(names, False))


def put(path, certificates):
    path.write_bytes(b"".join(len(it).to_bytes(4, "big") + it for it in certificates))


def make(folder):
    roots = [Party(f"Root {at}") for at in range(150)]
    issuers, server = [Party(f"Issuer {at}") for at in range(10)], Party("www.example.org")
    put(folder / "roots.bin", [it.issue(it, *authority()) for it in roots])
    put(folder / "candidates.bin", [roots[7 * at].issue(it, *authority()) for at, it in enumerate(issuers)])
    names = x509.SubjectAlternativeName([x509.DNSName("www.example.org"), x509.DNSName("example.org")])
    put(folder / "leaf.bin", [issuers[6].issue(server, x509.BasicConstraints(False, None), names, x509.ExtendedKeyUsage([x509.ExtendedKeyUsageOID.SERVER_AUTH]))])


def build(folder, library):
    """The programs that can be built, with their words, by their sources."""
    compiled = built_c(HERE / C, folder / "finding_c", "-lcrypto", "-ldl")
    if compiled is None:
        sys.exit(f"{C} isn't compiled: that takes libcrypto 3 with its headers")
    programs = {C: [compiled, library]}
    for source, program, what in (
        (GOLANG, built_go(HERE / GOLANG, folder / "finding_go"), "go isn't installed: Go"),
        (RUST, built_rust(HERE / RUST, folder), "cargo or Debian's librust-webpki-dev isn't installed: webpki"),
    ):
        if program is None:
            print(f"left out, since {what}")
        else:
            programs[source] = [program]
    return programs


def main():
    parser = argparse.ArgumentParser(description=__doc__, formatter_class=argparse.RawDescriptionHelpFormatter)
    parser.add_argument("library")
    library = pathlib.Path(parser.parse_args().library).resolve()
    with tempfile.TemporaryDirectory() as name:
        folder = pathlib.Path(name)
        make(folder)
        programs = build(folder, library)
        print(f"{'all of it':>12} {'without':>12} signatures")
        for source, what, text in ROWS:
            if source in programs:
                words, left_out = [*programs[source], folder, what], signatures(PEER[source])
                once, more = (counted([*words, str(count)], folder, left_out, GO) for count in (1, 11))
                whole, checked = ((more[at] - once[at]) // 10 for at in range(2))
                print(f"{whole:>12,} {whole - checked:>12,} {text}", flush=True)


if __name__ == "__main__":
    main()
