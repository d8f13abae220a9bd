#!/usr/bin/env python3
"""Gathers what may be certificates, CRLs and CSRs from files, folders and archives, each once, for `compare_objects.py`.

Archives are .deb packages, tar archives, zip and jar files and compressed files, also one in another. In each file that is looked for: the whole file
where it begins as a SEQUENCE does, PEM, base64 as it stands in XML, in LDIF and in the strings of sources, arrays of octets in C, octal as NSS has it,
and objects inside of other bytes, as in PKCS #7, in keystores and in what was captured of TLS.

It reads no DER but the length in front of an object inside of other bytes, where the object has to end. Whether something is an object at all, openssl
and x509_show say. It writes each into FOLDER as DIGEST.der, by its SHA-256, and their list as `index.tsv`: the digest, the source that was named, the file
in it, and how it stood there.

Packages for it come by `apt-get download NAME` and `apt-get source --download-only --tar-only NAME`. What docs/PERFORMANCE.md tells of was gathered, with
`--without /fuzz`, from 44 packages of Debian 12: ca-certificates, testssl.sh (stores of Apple, Java, Microsoft and Mozilla), python3-cryptography-vectors with
NIST's PKITS, and sources of apache2, botan, bouncycastle, cfssl, certificate-transparency, curl, edk2, erlang, fwupd, gnupg2, gnutls28, golang-1.19,
go-rootcerts, krb5, lasso (metadata of SAML), libtasn1, mbedtls, nodejs, nss, openjdk-17, opensc, openssl, oscrypto, php8.2, poco, postgresql-15, python3.11,
python3-certifi, python-cryptography, python3-twisted, qtbase, ruby3.1, rustls, simplesamlphp, smallstep's certificates and cli, strongswan, webpki, wolfssl
and xmlsec1. Then: compare_objects.py crates/x509_show/out/x509_show FOLDER --linter crates/x509_linter/out/x509_linter --alone FILE
"""
import argparse
import base64
import bz2
import gzip
import hashlib
import io
import lzma
import pathlib
import re
import sys
import tarfile
import zipfile
import zlib

DEPTH = 5
LARGEST = 1 << 27
WORDS = rb"(?:X509 |TRUSTED |NEW )?(?:CERTIFICATE(?: REQUEST)?|CRL)"
PEM = re.compile(rb"-----BEGIN (" + WORDS + rb")-----(.{20,200000}?)-----END ", re.DOTALL)
BASE64 = re.compile(rb"(?<![A-Za-z0-9+/])MI[A-Za-z0-9+/]{38,}(?:(?:\\[nr]|[\s\"'+,\\])+[A-Za-z0-9+/]{4,})*={0,2}")
ARRAY = re.compile(rb"0[xX]30\s*,\s*0[xX]8[123]\s*,\s*(?:0[xX][0-9A-Fa-f]{1,2}\s*,?\s*){100,}")
OCTAL = re.compile(rb"\\060\\20[123](?:(?:\\[0-7]{3})+\s+){3,}")
HEX = re.compile(rb"(?<![0-9A-Fa-f])308[123][0-9A-Fa-f]{200,}")
# An object inside of other bytes: a SEQUENCE with two or three octets of length, whose first member is one too, and begins as that of a certificate, a CRL
# or a CSR does: with [0], an INTEGER or a SEQUENCE.
INSIDE = re.compile(rb"\x30(?=(?:\x82(..)|\x83(...))\x30(?:[\x08-\x7f]|\x81.|\x82..|\x83...)[\xa0\x02\x30])", re.DOTALL)


def members_of_ar(data):
    """The members of an ar archive, as a .deb is."""
    at = 8
    while at + 60 <= len(data):
        name, size = data[at : at + 16].decode("latin-1").strip(), int(data[at + 48 : at + 58])
        yield name, data[at + 60 : at + 60 + size]
        at += 60 + size + size % 2


def members_of_tar(data):
    with tarfile.open(fileobj=io.BytesIO(data)) as archive:
        for member in archive:
            if member.isfile() and member.size <= LARGEST:
                yield member.name, archive.extractfile(member).read()


def members_of_zip(data):
    with zipfile.ZipFile(io.BytesIO(data)) as archive:
        for member in archive.infolist():
            if not member.is_dir() and not member.flag_bits & 1 and member.file_size <= LARGEST:
                yield member.filename, archive.read(member)


def is_tar(data):
    """Whether the sum in the first block of a tar archive is right, as an old archive has no other mark."""
    try:
        tarfile.TarInfo.frombuf(data[:512], "utf-8", "surrogateescape")
    except tarfile.TarError:
        return False
    return True


def members(data):
    """The files in an archive; None where the bytes are none."""
    if data.startswith(b"!<arch>\n"):
        return members_of_ar(data)
    for magic, opened in ((b"\x1f\x8b", gzip.decompress), (b"BZh", bz2.decompress), (b"\xfd7zXZ\0", lzma.decompress)):
        if data.startswith(magic):
            return iter([("", opened(data))])
    if is_tar(data):
        return members_of_tar(data)
    return members_of_zip(data) if data.startswith(b"PK\x03\x04") else None


def files_in(name, data, depth=DEPTH):
    """The files in a file: those of an archive, and of archives in it, else itself."""
    try:
        found = members(data) if depth else None
        if found is None:
            yield name, data
            return
        for inner, content in found:
            yield from files_in(f"{name}/{inner}" if inner else name, content, depth - 1)
    except (EOFError, OSError, ValueError, LookupError, NotImplementedError, lzma.LZMAError, zlib.error, tarfile.TarError, zipfile.BadZipFile) as error:
        print(f"left out, since it isn't read to its end: {name}: {error}", file=sys.stderr)


def inside(data):
    """The objects inside of bytes: where each stands, and its octets."""
    for found in INSIDE.finditer(data):
        octets = found[1] or found[2]
        end = found.start() + 2 + len(octets) + int.from_bytes(octets, "big")
        if end <= len(data):
            yield found.start(), data[found.start() : end]


def octets_of_base64(text):
    """The octets of a text in base64, in pieces as sources have them; no octets where it is none."""
    pieces = re.split(rb"[^A-Za-z0-9+/=]+", re.sub(rb"\\[nrt]", b" ", text))
    digits = b"".join(it for it in pieces if it != b"+").rstrip(b"=")
    digits = digits[: len(digits) - (len(digits) % 4 == 1)]
    try:
        return base64.b64decode(digits + b"=" * (-len(digits) % 4), validate=True)
    except ValueError:
        return b""


def texts_in(data):
    """For each object that stands as a text how it does so, and its octets, behind which others may stand."""
    for found in BASE64.finditer(data):
        yield "base64", octets_of_base64(found[0])
    for found in ARRAY.finditer(data):
        yield "array", bytes(int(it, 16) for it in re.findall(rb"0[xX]([0-9A-Fa-f]{1,2})", found[0]))
    for found in OCTAL.finditer(data):
        yield "octal", bytes(int(it, 8) & 0xFF for it in re.findall(rb"\\([0-7]{3})", found[0]))
    for found in HEX.finditer(data):
        yield "hex", bytes.fromhex(found[0][: len(found[0]) // 2 * 2].decode())


def objects_in(data):
    """For each object that may be in a file how it stands there, and its octets."""
    if data[:1] == b"\x30" and len(data) > 30:
        yield "file", data
    for found in PEM.finditer(data):
        if octets := octets_of_base64(found[2]):
            cut = next((it for at, it in inside(octets) if at == 0), octets)
            yield "PEM " + found[1].decode(), cut if found[1].startswith(b"TRUSTED") else octets
    for how, octets in texts_in(data):
        for _, octets in inside(octets):
            yield how, octets
    for at, octets in inside(data):
        if at or len(octets) < len(data):
            yield "inside", octets


def gather(sources, folder, without):
    """Writes each object once, and counts them by source and by how they stood there. Files with a name that has one of the texts are left out."""
    (folder / "objects").mkdir(parents=True, exist_ok=True)
    seen, counts = set(), {}
    with open(folder / "index.tsv", "w", encoding="utf-8") as index:
        for source in sources:
            files = [source] if source.is_file() else sorted(it for it in source.rglob("*") if it.is_file())
            for file in files:
                for name, data in files_in(str(file.relative_to(source.parent)), file.read_bytes()):
                    if any(it in name for it in without):
                        continue
                    for how, octets in objects_in(data):
                        digest = hashlib.sha256(octets).hexdigest()
                        if digest not in seen:
                            seen.add(digest)
                            (folder / "objects" / f"{digest}.der").write_bytes(octets)
                            counts[source.name, how] = counts.get((source.name, how), 0) + 1
                            print(digest, source.name, name.replace("\t", " ").replace("\n", " "), how, sep="\t", file=index, flush=True)
    for (source, how), count in counts.items():
        print(f"{source}: {count} ({how})")
    print(f"gathered: {len(seen)} that may be objects")


if __name__ == "__main__":
    parser = argparse.ArgumentParser(description=__doc__, formatter_class=argparse.RawDescriptionHelpFormatter)
    parser.add_argument("folder", metavar="FOLDER", type=pathlib.Path, help="where the objects are written")
    parser.add_argument("sources", metavar="SOURCE", nargs="+", type=pathlib.Path, help="a file, an archive or a folder")
    parser.add_argument("--without", metavar="TEXT", action="append", default=[], help="leave out files in whose names this stands")
    given = parser.parse_args()
    gather(given.sources, given.folder, given.without)
