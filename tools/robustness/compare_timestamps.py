#!/usr/bin/env python3
"""Compares which timestamps (SCTs; RFC 6962 3.2, 3.3) the package for Python says that logs have signed with what OpenSSL's SCT_validate says, on made cases.

PACKAGE is the folder that holds the package `x509_cert`, and LIBRARY is `libx509.so`. A case is a certificate with the SCTs of several logs, whose keys are of
EC and RSA, or its precertificate with the same SCTs beside it: signed by the issuer, or by a precertificate signing certificate. The SCTs are as they should
be; or of another certificate, issuer, moment or type of entry; of an unknown log; of another version; of other algorithms, or named as such; spoilt, cut, or
with octets behind them; the list is missing, there twice, empty, in BER, or none; the certificate has a poison besides. `cryptography` makes and signs them, and
a log signs the TBSCertificate of the same certificate made without a list, so that nothing here comes of the library. Both are asked which SCTs hold;
`openssl_timestamps.c` asks OpenSSL, compiled here by $CC, over libcrypto 3 with its headers. Where the answers differ and it isn't known why, that is a fault.
It prints how many answers there were of each kind, and the known differences. With --show the program `x509_show` is asked for the octets of each SCT of a
certificate, which `cryptography` verifies: of those that hold, and `undecodable` of those of another version.
"""
import argparse
import base64
import collections
import datetime
import hashlib
import os
import pathlib
import random
import subprocess
import sys
import tempfile

from cryptography import x509
from cryptography.exceptions import InvalidSignature
from cryptography.hazmat.primitives import hashes, serialization
from cryptography.hazmat.primitives.asymmetric import ec, padding, rsa

sys.path.insert(0, str(pathlib.Path(__file__).resolve().parents[1]))
from common.der import octet_string

HERE = pathlib.Path(__file__).resolve().parent
DATES = (datetime.datetime(2026, 1, 1), datetime.datetime(2026, 3, 1))
LIST = x509.ObjectIdentifier("1.3.6.1.4.1.11129.2.4.2")
POISON = x509.ObjectIdentifier("1.3.6.1.4.1.11129.2.4.3")
SIGNING = x509.ObjectIdentifier("1.3.6.1.4.1.11129.2.4.4")
DER = serialization.Encoding.DER
# milliseconds since 1970-01-01T00:00:00Z, until which logs may have signed
NOW = 1_780_000_000_000
HOLDS, FAILS, NO_LOG, NO_VERSION, NO_LIST, NO_CERTIFICATE = "holds", "doesn't hold", "unknown log", "unknown version", "no list", "no certificate"
THEIRS = {"valid": HOLDS, "invalid": FAILS, "unverified": FAILS, **{it: it for it in (NO_LOG, NO_VERSION, NO_LIST, NO_CERTIFICATE)}}


def public_info(key):
    return key.public_key().public_bytes(DER, serialization.PublicFormat.SubjectPublicKeyInfo)


def digest(octets):
    return hashlib.sha256(octets).digest()


def vector(size, octets):
    """A vector of TLS, whose length stands in so many octets in front."""
    return len(octets).to_bytes(size, "big") + octets


def in_ber(octets):
    """An OCTET STRING, whose length has more octets than it needs (X.690 10.1)."""
    return b"\x04\x83" + vector(3, octets)


def new_ec():
    return ec.generate_private_key(ec.SECP256R1())


def new_rsa():
    return rsa.generate_private_key(65537, 2048)


class Log:
    def __init__(self, key):
        self.key, self.info = key, public_info(key)
        self.id = digest(self.info)
        self.is_rsa = isinstance(key, rsa.RSAPrivateKey)

    def sign(self, message):
        return self.key.sign(message, padding.PKCS1v15(), hashes.SHA256()) if self.is_rsa else self.key.sign(message, ec.ECDSA(hashes.SHA256()))

    def verify(self, message, signature):
        key = self.key.public_key()
        try:
            if self.is_rsa:
                key.verify(signature, message, padding.PKCS1v15(), hashes.SHA256())
            else:
                key.verify(signature, message, ec.ECDSA(hashes.SHA256()))
        except InvalidSignature:
            return False
        return True


def name(text):
    return x509.Name([x509.NameAttribute(x509.NameOID.COMMON_NAME, text)])


class Issuer:
    """One that issues certificates, by its name and key."""

    def __init__(self, text, key, *purposes, above=None):
        self.name, self.key = name(text), key
        self.identifier = x509.AuthorityKeyIdentifier.from_issuer_public_key(key.public_key())
        above = above or self
        made = x509.CertificateBuilder(above.name, self.name, key.public_key(), 1, *DATES).add_extension(x509.BasicConstraints(True, None), True)
        made = made.add_extension(above.identifier, False)
        if purposes:
            made = made.add_extension(x509.ExtendedKeyUsage(purposes), True)
        self.der = made.sign(above.key, hashes.SHA256()).public_bytes(DER)


LOGS = [Log(new_ec()), Log(new_ec()), Log(new_rsa())]
STRANGER = Log(new_ec())
KNOWN = {it.id: it for it in LOGS}
ISSUERS = [Issuer("one", new_ec()), Issuer("two", new_rsa())]
# for each issuer one that signs precertificates in its place (RFC 6962 3.1)
SIGNERS = [Issuer("signs precertificates", new_ec(), SIGNING, above=it) for it in ISSUERS]
SUBJECTS = [new_ec(), new_rsa()]


class Case:
    """A certificate and its issuer, the SCTs, and what is special about each of them in words."""

    def __init__(self, chance):
        self.chance, self.words = chance, []
        self.serial = chance.randrange(1, 1 << 120)
        self.place = chance.randrange(len(ISSUERS))
        self.issuer = ISSUERS[self.place]
        self.key = chance.choice(SUBJECTS)
        self.others = self.extensions()
        self.at = chance.randrange(len(self.others) + 1)
        if not self.others:
            self.words.append("no other extension")  # then a log has a certificate without extensions (RFC 5280 4.1)
        # what a log has of it
        self.part = self.make(self.issuer).tbs_certificate_bytes
        self.kinds, self.timestamps = [], []
        for _ in range(chance.choice([1, 1, 2, 3, 5])):
            self.add()
        self.is_precertificate = not chance.randrange(4)
        self.signer = None
        if self.is_precertificate:
            self.words.append("a precertificate")
            if self.one_in(2):
                self.words.append("of a precertificate signing certificate")
                self.signer = SIGNERS[self.place]
        self.given = self.issuer
        if self.one_in(12):
            self.words.append("another issuer")
            self.given = ISSUERS[1 - self.place]
        self.finish()

    def one_in(self, count):
        return not self.chance.randrange(count)

    def extensions(self):
        """Some extensions, in some order: those of the certificate but for its SCTs or its poison. None stands for the identifier of the issuer's key."""
        listed = [
            (x509.BasicConstraints(False, None), True),
            (x509.SubjectAlternativeName([x509.DNSName(f"h{self.serial % 1000}.example")]), False),
            (x509.ExtendedKeyUsage([x509.ExtendedKeyUsageOID.SERVER_AUTH]), False),
            (x509.UnrecognizedExtension(x509.ObjectIdentifier("1.2.3.4"), self.chance.randbytes(self.chance.choice([0, 5, 200]))), self.one_in(2)),
            None,
        ]
        return self.chance.sample(listed, self.chance.choice([0, 1, 2, 4, 5]))

    def make(self, issuer, *marks):
        """The certificate of that issuer, with these extensions among the others."""
        made = x509.CertificateBuilder(issuer.name, name("subject"), self.key.public_key(), self.serial, *DATES)
        others = [(issuer.identifier, False) if it is None else it for it in self.others]
        for it, is_critical in [*others[: self.at], *marks, *others[self.at :]]:
            made = made.add_extension(it, is_critical)
        return made.sign(issuer.key, hashes.SHA256())

    # -- SCTs

    def entry(self, part=None, issuer=None):
        return b"\x00\x01" + digest(public_info((issuer or self.issuer).key)) + vector(3, part or self.part)

    def signed(self, log, entry=None, moment=None, algorithm=None, extensions=b"", signed_moment=None, kind=b"\x00"):
        """An SCT of a log, over the entry, at the moment."""
        moment = NOW - 1000 * self.chance.randrange(1 << 30) if moment is None else moment
        message = b"\x00" + kind + (signed_moment or moment).to_bytes(8, "big") + (entry or self.entry()) + vector(2, extensions)
        return b"\x00" + log.id + moment.to_bytes(8, "big") + vector(2, extensions) + (algorithm or self.algorithm(log)) + vector(2, log.sign(message))

    @staticmethod
    def algorithm(log):
        return b"\x04\x01" if log.is_rsa else b"\x04\x03"

    def spoilt(self, octets, front=0):
        at = self.chance.randrange(8 * front, 8 * len(octets))
        made = bytearray(octets)
        made[at // 8] ^= 1 << at % 8
        return bytes(made)

    def add(self):
        log = self.chance.choice(LOGS)
        makers = {
            "as it should be": lambda: self.signed(log),
            "with extensions": lambda: self.signed(log, extensions=self.chance.randbytes(self.chance.choice([1, 7, 300]))),
            "of 1970": lambda: self.signed(log, moment=0),
            "of the last moment": lambda: self.signed(log, moment=NOW),
            "of the future": lambda: self.signed(log, moment=self.chance.choice([NOW + 1, (1 << 64) - 1])),
            "of another moment": lambda: self.signed(log, moment=NOW - 5, signed_moment=NOW - 6),
            "of another part": lambda: self.signed(log, entry=self.entry(part=self.spoilt(self.part))),
            "of another issuer": lambda: self.signed(log, entry=self.entry(issuer=ISSUERS[1 - self.place])),
            "of a certificate beside it": lambda: self.signed(log, entry=b"\x00\x00" + vector(3, self.make(self.issuer).public_bytes(DER))),
            "of a tree head": lambda: self.signed(log, kind=b"\x01"),
            "of an unknown log": lambda: self.signed(STRANGER),
            "of another log's ID": lambda: b"\x00" + LOGS[0].id + self.signed(LOGS[1])[33:],
            "of another version": lambda: bytes([self.chance.choice([1, 2, 255])]) + self.signed(log)[1:],
            "of another form": lambda: b"\x01" + self.chance.randbytes(self.chance.randrange(9)),
            "with a bit otherwise in its signature": lambda: self.spoilt(self.signed(log, moment=NOW), 47),
            "with a bit otherwise": lambda: self.spoilt(self.signed(log, moment=NOW)[:47]) + self.signed(log, moment=NOW)[47:],
            "named as of the other algorithm": lambda: self.signed(log, algorithm=b"\x04\x03" if log.is_rsa else b"\x04\x01"),
            "named as of another hash": lambda: self.signed(log, algorithm=bytes([self.chance.choice([0, 2, 5, 6])]) + self.algorithm(log)[1:]),
            "named as by DSA": lambda: self.signed(log, algorithm=b"\x04\x02"),
            "of an unknown algorithm": lambda: self.signed(log, algorithm=self.chance.choice([b"\x04\x09", b"\x09\x03", b"\xff\xff"])),
            "with octets behind it": lambda: self.signed(log) + self.chance.randbytes(self.chance.choice([1, 3])),
            "cut off": lambda: self.signed(log)[: self.chance.randrange(1, 100)],
            "without octets": lambda: b"",
        }
        weights = [12, 6] + [1] * (len(makers) - 2)
        kind = self.chance.choices([*makers], weights)[0]
        made = makers[kind]()
        self.kinds.append(self.kind_of(log, made) if kind == "with a bit otherwise" else kind)
        self.timestamps.append(made)

    def kind_of(self, log, made):
        """The kind of an SCT with a bit otherwise in front of its signature, by where that stands: its algorithms in 43 and 44, its length behind these."""
        if made[43:45] == self.algorithm(log):
            is_shorter = int.from_bytes(made[45:47], "big") < len(made) - 47
            return "with octets behind it" if is_shorter and made[41:43] == b"\x00\x00" else "with a bit otherwise"
        if made[43] != 4:
            return "named as of another hash"
        return "named as of the other algorithm" if made[44] in (1, 3) else "named as by DSA"

    def list_value(self):
        """What the extension holds."""
        whole = vector(2, b"".join(vector(2, it) for it in self.timestamps))
        kinds = ["an empty list", "a list with a wrong length", "a list without an OCTET STRING", "a list with an octet behind it", "a list in BER"]
        spoilt = self.chance.choice([""] * 15 + kinds)
        if spoilt:
            self.words.append(spoilt)
        if spoilt == "an empty list":
            self.kinds, self.timestamps, whole = [], [], b"\x00\x00"
        if spoilt == "a list with a wrong length":
            whole = bytes([whole[0], whole[1] ^ 1]) + whole[2:]
        if spoilt == "a list with an octet behind it":
            return octet_string(whole) + b"\x00"
        if spoilt == "a list in BER":
            return in_ber(whole)
        return whole if spoilt == "a list without an OCTET STRING" else octet_string(whole)

    def finish(self):
        poison = (x509.PrecertPoison(), True)
        self.value = self.list_value()
        listed = (x509.UnrecognizedExtension(LIST, self.value), self.one_in(8))
        if self.is_precertificate:
            self.certificate = self.make(self.signer or self.issuer, poison).public_bytes(DER)
            return
        marks = [listed]
        if self.one_in(20):
            self.words.append("a poison too")
            marks.append(poison)
        if self.one_in(20):
            self.words.append("no list")
            marks.remove(listed)
        made = self.make(self.issuer, *marks).public_bytes(DER)
        if self.one_in(20) and listed in marks:
            self.words.append("two lists")
            # `cryptography` writes no extension twice: another OID of the same length is changed behind it
            twin = x509.UnrecognizedExtension(x509.ObjectIdentifier("1.3.6.1.4.1.11129.2.4.7"), self.value)
            made = self.make(self.issuer, *marks, (twin, False)).public_bytes(DER)
            made = made.replace(bytes.fromhex("2b06010401d679020407"), bytes.fromhex("2b06010401d679020402"))
        self.certificate = made


def logs_file():
    """The logs, as CTLOG_STORE_load_file takes them."""
    lines = ["enabled_logs=" + ",".join(f"log{at}" for at in range(len(LOGS)))]
    for at, log in enumerate(LOGS):
        lines += [f"[log{at}]", f"description = log{at}", f"key = {base64.b64encode(log.info).decode()}"]
    return "\n".join(lines) + "\n"


def openssl(program, case, folder):
    """What OpenSSL says of each SCT."""
    (folder / "certificate.der").write_bytes(case.certificate)
    (folder / "issuer.der").write_bytes(case.given.der)
    (folder / "list.der").unlink(missing_ok=True)
    if case.is_precertificate:
        (folder / "list.der").write_bytes(case.value)
    ended = subprocess.run([program, folder, str(NOW)], capture_output=True, text=True, check=False)
    if ended.returncode:
        raise RuntimeError(f"openssl can't be asked: {ended.stderr}")
    return [THEIRS[it] for it in ended.stdout.splitlines()]


def ours(package, case):
    """What the package says of each SCT."""
    read = package.load_der_x509_certificate
    try:
        certificate, issuer = read(case.certificate), read(case.given.der)
    except package.X509Error:
        return [NO_CERTIFICATE]
    listed, part = package.PrecertificateSignedCertificateTimestamps, None
    if case.is_precertificate:
        signer = case.signer
        part = certificate.tbs_precertificate_bytes if signer is None else certificate.tbs_precertificate_bytes_signed_by(read(signer.der))
    try:
        found = listed.from_der(case.value) if case.is_precertificate else certificate.extensions.get_extension_for_class(listed).value
    except (package.X509Error, package.ExtensionNotFound, package.DuplicateExtension):
        return [NO_LIST]
    return [said_of(package, case, octets, certificate, issuer, part) for octets in found.serialized]


def said_of(package, case, octets, certificate, issuer, part):
    """What the package says of an SCT of the certificate; or of the precertificate, whose part is given."""
    if octets[:1] != b"\x00":
        return NO_VERSION
    it = package.SignedCertificateTimestamp(octets)
    log = KNOWN.get(it.log_id)
    if log is None:
        return NO_LOG
    if part is not None:
        # the package verifies no SCT of a precertificate: it gives what the log has of it, and the rest is put together here (RFC 6962 3.2)
        message = b"\x00\x00" + it.milliseconds.to_bytes(8, "big") + case.entry(part, case.given) + vector(2, it.extension_bytes)
        is_named = (it.hash_algorithm, it.signature_algorithm) == (4, 1 if log.is_rsa else 3)
        return HOLDS if is_named and log.verify(message, it.signature) else FAILS
    try:
        it.verify(log.info, certificate, issuer)
    except (InvalidSignature, ValueError):
        return FAILS
    return HOLDS


def is_shown_otherwise(program, case, mine, folder):
    """What is wrong with what x509_show prints of the SCTs of a certificate, of which the package says this; None where nothing is."""
    words = [program, "--sct-input", folder / "issuer.der", folder / "certificate.der"]
    ended = subprocess.run(words, capture_output=True, text=True, check=False)
    lines = ended.stdout.splitlines()
    if mine == [NO_LIST]:
        # the package reads no list with an SCT of version 1 that can't be decoded; the program has a line for it
        return None if ended.returncode == 2 or "undecodable" in lines else f"x509_show prints {lines}"
    if ended.returncode or len(lines) != len(mine):
        return f"x509_show ends with {ended.returncode}: {ended.stdout}{ended.stderr}"
    for said, line in zip(mine, lines):
        if said == NO_VERSION and line != "undecodable":
            return f"x509_show prints {line} of an SCT of another version"
        if said == HOLDS:
            log, octets, signature = map(bytes.fromhex, line.split(" "))
            if not KNOWN[log].verify(octets, signature):
                return f"x509_show prints other octets than were signed: {line}"
    return None


def known_of(case, kind, mine, theirs):
    """Why the answers about an SCT differ, where it is known."""
    if case.signer is not None and (mine, theirs) == (HOLDS, FAILS):
        return "SCT_validate isn't told of the precertificate signing certificate, whose issuer the log's entry names (RFC 6962 3.2)"
    if kind == "of the future" and (mine, theirs) == (HOLDS, FAILS):
        return "the package has no clock: that an SCT isn't of the future is for the caller to see (RFC 6962 3.3)"
    if kind == "named as of the other algorithm" and (mine, theirs) == (FAILS, HOLDS):
        return "OpenSSL verifies by the log's key, whatever algorithm the signature names (RFC 5246 4.7)"
    return None


def known_of_list(case, mine, theirs):
    """Why but one of the two reads the list, where it is known."""
    if theirs == [NO_LIST] and {"named as of another hash", "named as by DSA"} & {*case.kinds}:
        return "OpenSSL reads no list with an SCT that isn't by RSA or ECDSA with SHA-256 (RFC 6962 2.1.4)"
    if theirs == [NO_LIST] and "without octets" in case.kinds:
        return "OpenSSL reads no list with an SCT without octets, which the package passes over (RFC 6962 3.3)"
    if mine == [NO_LIST] and "with octets behind it" in case.kinds:
        return "OpenSSL passes over octets behind an SCT, and the package reads no such list (RFC 6962 3.3)"
    if mine == [NO_LIST] and "a list with an octet behind it" in case.words:
        return "OpenSSL passes over octets behind the list in its extension, which holds one value and no more (RFC 5280 4.1)"
    if mine == [NO_LIST] and "a list in BER" in case.words:
        return "OpenSSL reads a length in more octets than it needs, which is no DER (X.690 10.1; RFC 5280 4.2)"
    return None


def compared(case, mine, theirs):
    """For each answer that word, or why it is known to differ, or what differs."""
    if len(mine) != len(case.kinds) or len(theirs) != len(case.kinds) or NO_LIST in (*mine, *theirs):
        if mine == theirs:
            yield "alike", mine[0] if mine else "no SCTs"
        else:
            why = known_of_list(case, mine, theirs)
            yield ("known", why) if why else ("fault", f"{mine}, and openssl {theirs}")
        return
    for kind, my, their in zip(case.kinds, mine, theirs):
        why = None if my == their else known_of(case, kind, my, their)
        if my == their:
            yield "alike", my
        elif why:
            yield "known", why
        else:
            yield "fault", f"an SCT {kind}: {my}, and openssl {their}"


def compile_program(folder):
    program = folder / "openssl_timestamps"
    words = [os.environ.get("CC", "cc"), "-std=c11", "-O1", HERE / "openssl_timestamps.c", "-lcrypto", "-o", program]
    subprocess.run(words, check=True)
    return program


def main():
    parser = argparse.ArgumentParser(description=__doc__, formatter_class=argparse.RawDescriptionHelpFormatter)
    parser.add_argument("package", metavar="PACKAGE", type=pathlib.Path)
    parser.add_argument("library", metavar="LIBRARY", type=pathlib.Path)
    parser.add_argument("--cases", type=int, default=1000)
    parser.add_argument("--seed", type=int, default=1)
    parser.add_argument("--show", metavar="PROGRAM", type=pathlib.Path, help="as crates/x509_show/out/x509_show")
    asked = parser.parse_args()
    os.environ["X509_LIBRARY"] = str(asked.library.resolve())
    sys.path.insert(0, str(asked.package.resolve()))
    import x509_cert as package

    counts, faults = collections.Counter(), 0
    with tempfile.TemporaryDirectory() as name_of:
        folder = pathlib.Path(name_of)
        program = compile_program(folder)
        (folder / "logs.cnf").write_text(logs_file())
        for number in range(asked.cases):
            case = Case(random.Random(f"{asked.seed} {number}"))
            mine = ours(package, case)
            found = [*compared(case, mine, openssl(program, case, folder))]
            if asked.show is not None and not case.is_precertificate:
                wrong = is_shown_otherwise(asked.show.resolve(), case, mine, folder)
                found.append(("fault", wrong) if wrong else ("alike", "shown"))
            for how, what in found:
                if how == "fault":
                    faults += 1
                    print(f"failed: case {number}: {what}: {'; '.join([*case.words, *case.kinds])}")
                else:
                    counts[how, what] += 1
    for how in ("alike", "known"):
        for (said, what), count in counts.most_common():
            if said == how:
                print(f"{what}: {count} alike" if how == "alike" else f"differ, since {what}: {count}")
    print(f"{'failed' if faults else 'passed'}: {asked.cases} cases, {faults} answers differ and it isn't known why")
    return 1 if faults else 0


if __name__ == "__main__":
    sys.exit(main())
