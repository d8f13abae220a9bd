#!/usr/bin/env python3
"""Compares what the package for Python says of certificates by CRLs (RFC 5280 6.3.3) with what `openssl verify` says, on made cases.

PACKAGE is the folder that holds the package `x509_cert`, and LIBRARY is `libx509.so`. A case is a certificate, with or without distribution points, and CRLs of
its issuer or of another signer: in date or not, whole or for some reasons, of this distribution point or of another, indirect, with deltas, with unknown
critical extensions, signed by the right key or not. They are made by `cryptography` and signed; both are asked whether the certificate is revoked, isn't, or
neither is told. Where the answers differ and it isn't known why, that is a fault. It prints how many answers there were of each kind, and the known
differences.
"""
import argparse
import collections
import datetime
import os
import pathlib
import random
import re
import subprocess
import sys
import tempfile

from cryptography import x509
from cryptography.hazmat.primitives import hashes, serialization
from cryptography.hazmat.primitives.asymmetric import ec

UTC = datetime.timezone.utc
NOW = datetime.datetime(2030, 1, 1, tzinfo=UTC)
DAY = datetime.timedelta(days=1)
REVOKED, UNREVOKED, UNDETERMINED = "revoked", "unrevoked", "undetermined"
HERE, THERE = "http://crl.example/here", "http://crl.example/there"
REASONS = [it for it in x509.ReasonFlags if it.name not in ("unspecified", "remove_from_crl")]
UNKNOWN = x509.UnrecognizedExtension(x509.ObjectIdentifier("1.2.3.4"), b"\x05\x00")
# errors of openssl that are of one CRL: a signature, a date, a critical extension
OF_ONE = {8, 11, 12, 36}
KEYS = {name: ec.generate_private_key(ec.SECP256R1()) for name in ("root", "other", "leaf", "wrong")}
PEM = serialization.Encoding.PEM


def name(text):
    return x509.Name([x509.NameAttribute(x509.NameOID.COMMON_NAME, text)])


def certificate(subject, serial, is_ca, *extensions):
    """A certificate that the root has issued."""
    made = x509.CertificateBuilder(name("root"), name(subject), KEYS[subject].public_key(), serial, NOW - 900 * DAY, NOW + 900 * DAY)
    made = made.add_extension(x509.BasicConstraints(is_ca, None), critical=True)
    if is_ca:
        usages = dict.fromkeys(
            ("digital_signature", "content_commitment", "key_encipherment", "data_encipherment", "key_agreement", "encipher_only", "decipher_only"), False
        )
        made = made.add_extension(x509.KeyUsage(key_cert_sign=True, crl_sign=True, **usages), critical=True)
    for it in extensions:
        made = made.add_extension(it, critical=False)
    return made.sign(KEYS["root"], hashes.SHA256())


ROOT, OTHER = certificate("root", 1, True), certificate("other", 2, True)


class Case:
    """A certificate and CRLs, with the signer of each, and what is special about them in words."""

    def __init__(self, chance):
        self.chance, self.words, self.serial = chance, [], chance.randrange(3, 1 << 40)
        self.point = self.pick("no point", "no point", "point", "point", "point for some reasons", "indirect point")
        self.leaf = certificate("leaf", self.serial, False, *self.points())
        self.crls = []
        self.number = chance.randrange(1, 1000)
        self.base()
        if self.one_in(3):
            self.second()
        if self.one_in(3):
            self.delta()
        if self.one_in(4):
            chance.shuffle(self.crls)

    def pick(self, *words):
        found = self.chance.choice(words)
        if found:
            self.words.append(found)
        return found

    def one_in(self, count):
        return not self.chance.randrange(count)

    def some(self):
        return frozenset(self.chance.sample(REASONS, self.chance.randrange(1, 5)))

    def points(self):
        if self.point == "no point":
            return []
        reasons = self.some() if self.point == "point for some reasons" else None
        issuer = [x509.DirectoryName(name("other"))] if self.point == "indirect point" else None
        return [x509.CRLDistributionPoints([x509.DistributionPoint([x509.UniformResourceIdentifier(HERE)], None, reasons, issuer)])]

    def entry(self, issuer, serial, reason):
        made = x509.RevokedCertificateBuilder(serial, NOW - 9 * DAY)
        if reason is not None:
            made = made.add_extension(x509.CRLReason(reason), critical=False)
        if issuer is not None:
            made = made.add_extension(x509.CertificateIssuer([x509.DirectoryName(name(issuer))]), critical=True)
        if self.one_in(40):
            self.words.append("an entry with an unknown critical extension")
            made = made.add_extension(UNKNOWN, critical=True)
        return made.build()

    def entries(self, is_indirect, removes=False):
        found = []
        issuers = ("root", "root", "nobody") if is_indirect else (None,)
        for _ in range(self.chance.randrange(3)):
            found.append(self.entry(self.chance.choice(issuers), self.chance.randrange(3, 1 << 40), None))
        if self.one_in(2):
            reason = self.chance.choice([None, x509.ReasonFlags.key_compromise, x509.ReasonFlags.superseded, x509.ReasonFlags.certificate_hold])
            if removes and self.one_in(2):
                reason = x509.ReasonFlags.remove_from_crl
            self.words.append("an entry of it" if reason is None else f"an entry of it: {reason.name}")
            found.append(self.entry(self.chance.choice(issuers), self.serial, reason))
            self.chance.shuffle(found)
        return found

    def make(self, signer, entries, *extensions, age=2):
        dates = self.pick(*[""] * 12, "expired", "not yet valid")
        this, following = {"expired": (NOW - 9 * DAY, NOW - DAY), "not yet valid": (NOW + DAY, NOW + 9 * DAY)}.get(dates, (NOW - age * DAY, NOW + 9 * DAY))
        made = x509.CertificateRevocationListBuilder(name(signer), this, following, [], entries)
        for it, is_critical in extensions:
            made = made.add_extension(it, critical=is_critical)
        if self.one_in(30):
            self.words.append("an unknown critical extension")
            made = made.add_extension(UNKNOWN, critical=True)
        key = self.pick(*[""] * 20, "signed by another key")
        crl = made.sign(KEYS["wrong" if key else signer], hashes.SHA256())
        self.crls.append((crl, OTHER if signer == "other" else ROOT))

    def scope(self, signer):
        """An IssuingDistributionPoint, or none."""
        kind = self.pick("", "", "of the point", "of another point", "for users", "for authorities", "for some reasons")
        is_indirect = signer == "other" and not self.one_in(6)
        if is_indirect:
            self.words.append("an indirect CRL")
        if not kind and not is_indirect:
            return None
        place = {"of the point": HERE, "of another point": THERE}.get(kind)
        full = None if place is None else [x509.UniformResourceIdentifier(place)]
        some = self.some() if kind == "for some reasons" else None
        return x509.IssuingDistributionPoint(full, None, kind == "for users", kind == "for authorities", some, is_indirect, False)

    def whole(self, signer):
        self.list = self.scope(signer)
        self.signer = signer
        lists = [] if self.list is None else [(self.list, True)]
        # openssl looks at a delta CRL only where the certificate or the CRL says that there may be one
        freshest = x509.FreshestCRL([x509.DistributionPoint([x509.UniformResourceIdentifier(HERE)], None, None, None)])
        self.make(signer, self.entries(self.list is not None and self.list.indirect_crl), (x509.CRLNumber(self.number), False), (freshest, False), *lists)

    def base(self):
        self.whole("other" if self.point == "indirect point" and not self.one_in(6) else "root")

    def second(self):
        self.words.append("and a second CRL")
        self.whole(self.signer)

    def delta(self):
        """A delta to the last of the whole CRLs, perhaps to another base, another scope, or an older one."""
        self.words.append("and a delta")
        base = self.number + self.chance.choice([0, 0, 0, -1, 1])
        number = self.number + self.chance.choice([1, 1, 1, 0, 5])
        if base > self.number:
            self.words.append("to a later base")
        if number <= self.number:
            self.words.append("that isn't later")
        found = self.list
        if self.one_in(8):
            self.words.append("of another scope")
            found = x509.IssuingDistributionPoint([x509.UniformResourceIdentifier(THERE)], None, False, False, None, False, False)
        if found is not None and found.only_some_reasons is not None:
            self.words.append("for some reasons too")
        lists = [] if found is None else [(found, True)]
        is_indirect = found is not None and found.indirect_crl
        self.make(self.signer, self.entries(is_indirect, True), (x509.CRLNumber(number), False), (x509.DeltaCRLIndicator(base), True), *lists, age=1)


def openssl(case, folder):
    """What openssl says, and its errors."""
    (folder / "root.pem").write_bytes(ROOT.public_bytes(PEM))
    (folder / "others.pem").write_bytes(OTHER.public_bytes(PEM))
    (folder / "leaf.pem").write_bytes(case.leaf.public_bytes(PEM))
    (folder / "crls.pem").write_bytes(b"".join(crl.public_bytes(PEM) for crl, _ in case.crls))
    words = [
        "-CAfile",
        "root.pem",
        "-untrusted",
        "others.pem",
        "-crl_check",
        "-extended_crl",
        "-use_deltas",
        "-attime",
        str(int(NOW.timestamp())),
        "-CRLfile",
        "crls.pem",
        "leaf.pem",
    ]
    ended = subprocess.run(["openssl", "verify", *words], cwd=folder, capture_output=True, text=True, check=False)
    errors = {int(it) for it in re.findall(r"^error (\d+) at \d+ depth", ended.stderr, re.M)}
    # X509_V_ERR_CERT_REVOKED; where another error comes with it, the CRL that says so isn't good
    return (REVOKED if errors == {23} else UNREVOKED if ended.returncode == 0 else UNDETERMINED), errors


def ours(package, case):
    read = package.load_der_x509_certificate
    der = serialization.Encoding.DER
    leaf = read(case.leaf.public_bytes(der))
    crls = [package.SignedCrl(package.load_der_x509_crl(crl.public_bytes(der)), read(signer.public_bytes(der))) for crl, signer in case.crls]
    return package.revocation_status(leaf, crls, NOW, use_deltas=True).state.name


def known(case, mine, theirs, errors):
    """Why the answers differ, where it is known."""
    if case.point == "point for some reasons" and theirs == UNDETERMINED:
        return "for the reasons that no point has its issuer's CRLs are asked, whatever the points say (RFC 5280 6.3.3, last paragraph)"
    if len(case.crls) > 1 and theirs == UNDETERMINED and errors <= OF_ONE:
        return "openssl asks one of several CRLs, and ends with its fault"
    if "and a delta" in case.words and {"expired", "not yet valid", "an unknown critical extension"} & {*case.words}:
        return "openssl takes a complete CRL and a delta of which one is out of date or has an unknown critical extension"
    if "for some reasons too" in case.words:
        return "openssl, as its release 3.0.19, takes a delta CRL for some reasons for a complete CRL"
    return None


def main():
    parser = argparse.ArgumentParser(description=__doc__, formatter_class=argparse.RawDescriptionHelpFormatter)
    parser.add_argument("package", metavar="PACKAGE", type=pathlib.Path)
    parser.add_argument("library", metavar="LIBRARY", type=pathlib.Path)
    parser.add_argument("--cases", type=int, default=1000)
    parser.add_argument("--seed", type=int, default=1)
    asked = parser.parse_args()
    os.environ["X509_LIBRARY"] = str(asked.library.resolve())
    sys.path.insert(0, str(asked.package.resolve()))
    import x509_cert as package

    alike, known_ones, faults = collections.Counter(), collections.Counter(), 0
    with tempfile.TemporaryDirectory() as name_of:
        folder = pathlib.Path(name_of)
        for number in range(asked.cases):
            case = Case(random.Random(f"{asked.seed} {number}"))
            mine = ours(package, case)
            theirs, errors = openssl(case, folder)
            why = None if mine == theirs else known(case, mine, theirs, errors)
            if mine == theirs:
                alike[mine] += 1
            elif why:
                known_ones[why] += 1
            else:
                faults += 1
                print(f"failed: case {number}: {mine}, and openssl {theirs} {sorted(errors)}: {'; '.join(case.words)}")
    for said, count in alike.most_common():
        print(f"{said}: {count} alike")
    for why, count in known_ones.most_common():
        print(f"differ, since {why}: {count}")
    print(f"{'failed' if faults else 'passed'}: {asked.cases} cases, {faults} differ and it isn't known why")
    return 1 if faults else 0


if __name__ == "__main__":
    sys.exit(main())
