#!/usr/bin/env python3
"""Compares the paths that the package for Python finds (`find_path`) with those that trying every path by `validate_path` gives, with `openssl verify`, and
with Go's Certificate.Verify, on made forests.

PACKAGE is the folder that holds the package `x509_cert`, and LIBRARY is `libx509.so`. A forest has 2 to 12 authorities that certify one another: trees, twins
of one name with other keys, cross-certificates, loops, certificates that issue themselves, keys that are rolled over, some that are expired, that are no
authorities, that may not sign, with a path length, with name constraints, with purposes, with another key identifier, or with a signature that doesn't hold; a
certificate at the end; some roots are anchors. What is found has to be valid, and no shorter path may be; and where none is found trying every path has to find
none. Which of both faults it is, an issuer that isn't known or a path that isn't valid, is compared too. Where the search ends at a limit nothing is compared;
of all forests that may be 2 in 100.

Half of the forests have CRLs too: of some authorities none, some that have expired or whose signature doesn't hold, and some of a key of their own, for which
there is a certificate. Then what is found has to be valid, each certificate that is asked about unrevoked, or let through. No shorter path may be so; and where none
is found no path at all, unless one of its certificates is revoked in another path.

Keys are those of a scheme of this tool, in which a signature is a digest of the key that made it and of what is signed, so that making a forest takes no time.
With --openssl some forests are made with keys of `cryptography` too, and asked of `openssl verify`: it tries one path, and so may refuse what is found; what it
takes and is not found is a fault. With --go such forests are asked of Go's Verify, which tries every path, by go_paths.go, built here without a network: as
long a path has to be found. Where it isn't, Go has to answer by the shortest of the valid paths that none of the rows of GO_REFUSES refuses, each with the
section of a standard by which the path is valid, or has to have come to its limit; any other difference is a fault.
"""
import argparse
import collections
import datetime
import hashlib
import os
import pathlib
import random
import shutil
import subprocess
import sys
import tempfile
from typing import Callable, NamedTuple

HERE = pathlib.Path(__file__).resolve().parent
UTC = datetime.timezone.utc
NOW = datetime.datetime(2030, 1, 1, tzinfo=UTC)
DAY = datetime.timedelta(days=1)
# an AlgorithmIdentifier of no scheme that there is
ALGORITHM = bytes.fromhex("300606042a030405")
HOSTS = "www.example.org", "www.example.com"
# what is answered in place of whether a path leads there by its names: the certificate has a fault that it has in each path
OF_LEAF = "of leaf"
SPOILT = "expired", "no authority", "may not sign", "another key identifier", "a signature that doesn't hold", "a path length", "name constraints", "a purpose"


def key_of(number):
    """The DER of a public key of the scheme."""
    bits = hashlib.sha256(f"key {number}".encode()).digest()
    string = b"\x03\x21\x00" + bits
    return bytes([0x30, len(ALGORITHM) + len(string)]) + ALGORITHM + string


def signature_of(key, message):
    return hashlib.sha256(key + message).digest()


def is_signature(key, algorithm, message, signature):
    return algorithm == ALGORITHM and signature == signature_of(key, message)


class Party:
    """A name with a key: a number, by which the key is made, and a private key of `cryptography` where there are such."""

    def __init__(self, name, number, private=None):
        self.name, self.number, self.private = name, number, private


class Made(NamedTuple):
    """How a certificate was made: what is otherwise than it should be, or None; by whom, and for whom; and its path length, if it has one."""

    what: str | None
    issuer: Party
    subject: Party
    path_len: int | None


class Forest:
    """Certificates, by their DER, with what is special about them in words."""

    def __init__(self, ours, chance, is_real=False):
        self.ours, self.chance, self.is_real, self.words, self.made, self.issued = ours, chance, is_real, [], {}, []
        self.count = 0
        names = [f"A{place}" for place in range(chance.randrange(2, 13))]
        self.parties = [self.party(it) for it in names]
        for _ in range(chance.choice((0, 0, 1, 2))):
            # a twin of one name with another key
            self.parties.append(self.party(chance.choice(names)))
        self.roots = chance.sample(self.parties, chance.randrange(1, min(4, len(self.parties)) + 1))
        self.anchors = [self.issue(it, it) for it in self.roots if not self.one_in(8)] or [self.issue(self.roots[0], self.roots[0])]
        others = [it for it in self.parties if it not in self.roots] or self.parties
        reached = list(self.roots)
        self.candidates = []
        for it in others:
            for _ in range(chance.choice((1, 1, 1, 2, 3))):
                self.candidates.append(self.issue(chance.choice(reached), it))
            reached.append(it)
        for _ in range(chance.choice((0, 1, 2, 4))):
            # cross-certificates, loops, and some that issue themselves
            self.candidates.append(self.issue(chance.choice(self.parties), chance.choice(self.parties)))
        last = chance.choice(reached)
        if self.one_in(6):
            last = self.roll_over(last)
        chance.shuffle(self.candidates)
        if self.candidates and self.one_in(6):
            # one is missing
            self.candidates.pop()
        self.leaf = self.issue(last, self.party("Leaf"), is_leaf=True)
        if self.one_in(5):
            self.candidates.append(self.leaf)
        self.depth = chance.choice((8, 8, 8, 3, 1))
        self.purpose = chance.choice((True, True, False))
        self.crls = [it for party in self.parties if not self.one_in(8) for it in self.lists(party)] if self.one_in(2) and not is_real else None
        chance.shuffle(self.crls or [])
        self.signers = [it for it in self.candidates if self.one_in(2)]
        self.asks_leaf_alone, self.allows_undetermined = self.one_in(4), self.one_in(4)

    def roll_over(self, party):
        """A new key of an authority, which its old one certifies; a certificate of the old one has a path length of 0, for which that doesn't count."""
        new = self.party(party.name)
        self.candidates.append(self.issue(party, new))
        self.candidates.append(self.issue(self.chance.choice(self.roots), party, path_len=0))
        return new

    def one_in(self, count):
        return not self.chance.randrange(count)

    def party(self, name):
        self.count += 1
        if not self.is_real:
            return Party(name, self.count)
        from cryptography.hazmat.primitives.asymmetric import ec

        return Party(name, self.count, ec.generate_private_key(ec.SECP256R1()))

    def key(self, party):
        if party.private is None:
            return key_of(party.number)
        from cryptography.hazmat.primitives import serialization

        return party.private.public_key().public_bytes(serialization.Encoding.DER, serialization.PublicFormat.SubjectPublicKeyInfo)

    def issue(self, issuer, subject, is_leaf=False, path_len=None):
        """A certificate, which is as it should be, or has one thing that is otherwise."""
        ours, chance = self.ours, self.chance
        what = chance.choice(SPOILT) if self.one_in(5) else None
        if what:
            self.words.append(what)
        begins, ends = (NOW - 9 * DAY, NOW - DAY) if what == "expired" else (NOW - DAY, NOW + DAY)
        of = ours.Name.from_rfc4514_string
        serial = self.serial()
        self.issued.append((issuer, serial))
        made = ours.CertificateBuilder().serial_number(serial).issuer_name(of(f"CN={issuer.name}")).subject_name(of(f"CN={subject.name}"))
        made = made.not_valid_before(begins).not_valid_after(ends).public_key(self.key(subject))
        is_ca = not is_leaf and what != "no authority"
        path_len = (chance.randrange(3) if what == "a path length" else path_len) if is_ca else None
        made = made.add_extension(ours.BasicConstraints(is_ca, path_len), critical=True)
        if not is_leaf:
            made = made.add_extension(usage(ours, what != "may not sign"), critical=True)
        else:
            made = made.add_extension(ours.SubjectAlternativeName([ours.DNSName(chance.choice(HOSTS))]), critical=False)
        identifier = hashlib.sha1(self.key(issuer) + (b"!" if what == "another key identifier" else b"")).digest()
        made = made.add_extension(ours.AuthorityKeyIdentifier(identifier, None, None), critical=False)
        made = made.add_extension(ours.SubjectKeyIdentifier(hashlib.sha1(self.key(subject)).digest()), critical=False)
        if what == "name constraints" and not is_leaf:
            made = made.add_extension(ours.NameConstraints([ours.DNSName(chance.choice(("example.org", "example.com")))], None), critical=True)
        if what == "a purpose" or (is_leaf and self.one_in(2)):
            purpose = ours.ExtendedKeyUsageOID.CLIENT_AUTH if what == "a purpose" else ours.ExtendedKeyUsageOID.SERVER_AUTH
            made = made.add_extension(ours.ExtendedKeyUsage([purpose]), critical=False)
        octets = self.signed(made, issuer, what == "a signature that doesn't hold").public_bytes()
        self.made[octets] = Made(what, issuer, subject, path_len)
        return octets

    def lists(self, issuer):
        """A CRL of the issuer, by its key or by one of the same name that is for CRLs alone and has a certificate among the candidates; now and then two."""
        ours = self.ours
        revoked = [serial for by, serial in self.issued if by is issuer and self.one_in(6)]
        signer = issuer
        if self.one_in(5):
            signer = self.party(issuer.name)
            self.candidates.append(self.issue(self.chance.choice((*self.roots, issuer)), signer))
        for _ in range(2 if self.one_in(8) else 1):
            begins, ends = (NOW - 9 * DAY, NOW - DAY) if self.one_in(10) else (NOW - self.chance.choice((1, 2)) * DAY, NOW + DAY)
            made = ours.CertificateRevocationListBuilder().issuer_name(ours.Name.from_rfc4514_string(f"CN={issuer.name}")).last_update(begins).next_update(ends)
            made = made.add_extension(ours.CRLNumber(self.serial()), critical=False)
            made = made.add_extension(ours.AuthorityKeyIdentifier(hashlib.sha1(self.key(signer)).digest(), None, None), critical=False)
            for serial in revoked if not self.one_in(8) else ():
                made = made.add_revoked_certificate(ours.RevokedCertificate(serial, NOW - DAY, None))
            yield self.signed(made, signer, self.one_in(10))

    def revocation(self):
        """What is asked of CRLs, if anything is."""
        if self.crls is None:
            return None
        scope = self.ours.RevocationScope.leaf if self.asks_leaf_alone else self.ours.RevocationScope.path
        certificates = map(self.ours.load_der_x509_certificate, self.signers)
        return self.ours.Revocation(self.crls, certificates=certificates, scope=scope, allows_undetermined=self.allows_undetermined)

    def signed(self, made, issuer, is_false):
        if issuer.private is None:
            key = key_of(0 if is_false else issuer.number)
            return made.sign(ALGORITHM, lambda part: signature_of(key, part))
        from cryptography.hazmat.primitives import hashes
        from cryptography.hazmat.primitives.asymmetric import ec

        private = ec.generate_private_key(ec.SECP256R1()) if is_false else issuer.private
        algorithm = bytes.fromhex("300a06082a8648ce3d040302")
        return made.sign(algorithm, lambda part: private.sign(part, ec.ECDSA(hashes.SHA256())))

    def serial(self):
        self.count += 1
        return self.count


def usage(ours, signs):
    return ours.KeyUsage(not signs, False, False, False, False, signs, signs, False, False)


class Reference:
    """Every path, tried."""

    def __init__(self, ours, forest, verify):
        self.ours, self.forest, self.verify = ours, forest, verify
        read = ours.load_der_x509_certificate
        self.anchors = [read(it) for it in forest.anchors]
        # none stands in a path twice, so equal ones count once
        self.candidates = [read(it) for it in dict.fromkeys(forest.candidates) if it != forest.leaf]
        self.leaf = read(forest.leaf)

    def linked(self):
        """Each path that leads from an anchor to the certificate by its names, the shorter before the longer."""
        level = [(self.leaf,)]
        for _ in range(self.forest.depth + 1):
            above = []
            for path in level:
                issuer = path[0].issuer
                yield from ((anchor, path) for anchor in self.anchors if anchor.subject == issuer)
                above += [(it, *path) for it in self.candidates if it.subject == issuer and it not in path]
            level = above

    def valid(self, settings):
        """Each path that is valid, with its anchor, the shorter before the longer."""
        for anchor, path in self.linked():
            try:
                yield anchor, self.ours.validate_path(anchor, path, NOW, self.verify, **settings)
            except self.ours.PathFault:
                continue

    def shortest(self, settings):
        """How long a shortest valid path is, or None; and whether any leads there by its names."""
        found = next((len(path.certificates) for _, path in self.valid(settings)), None)
        return found, found is not None or any(True for _ in self.linked())

    def statuses(self, anchor, path):
        certificates = map(self.ours.load_der_x509_certificate, self.forest.signers)
        return self.ours.path_revocation_statuses(path, anchor, self.forest.crls, NOW, self.verify, certificates=certificates)

    def is_let_through(self, statuses):
        """Whether CRLs are in no path's way that say this of its certificates."""
        asked = statuses[-1:] if self.forest.asks_leaf_alone else statuses
        return all(it.is_unrevoked or (self.forest.allows_undetermined and not it.is_revoked) for it in asked)

    def lengths(self, settings):
        """How long each path is that CRLs aren't in the way of; and each of these in which nothing is revoked in another path either, and which doesn't go round
        to a name and a key that it has had."""
        good, revoked, every = [], set(), []
        for anchor, path in self.valid(settings):
            key, links, statuses = anchor.public_key_bytes, [], self.statuses(anchor, path)
            for it in path.certificates:
                links.append((it, key))
                key = self.ours.working_key(key, it.public_key_bytes)
            first = len(links) - 1 if self.forest.asks_leaf_alone else 0
            revoked.update(link for link, status in list(zip(links, statuses))[first:] if status.is_revoked)
            every.append({anchor, *links})
            if self.is_let_through(statuses):
                good.append({anchor, *links})
        clean = [it for it in good if revoked.isdisjoint(it) and not any(other < it for other in every)]
        return [len(it) - 1 for it in good], [len(it) - 1 for it in clean]

    def shortest_by_go(self, settings):
        """How long a shortest valid path is that Go doesn't refuse, or None; and why it refuses the shorter ones."""
        refused = set()
        for anchor, path in self.valid(settings):
            octets = [it.public_bytes() for it in path.certificates]
            why = next((it for it in GO_REFUSES if it.is_refused(self.forest, anchor.public_bytes(), octets)), None)
            if why is None:
                return len(octets), refused
            refused.add(why)
        return None, refused


class Refusal(NamedTuple):
    """A valid path that Go refuses."""

    what: str
    section: str
    is_refused: Callable


def anchor_is(what):
    """The anchor's certificate is otherwise than it should be."""
    return lambda forest, anchor, path: forest.made[anchor].what == what


def has_purpose(forest, anchor, path):
    return forest.purpose and forest.made[anchor].what == "a purpose"


def counts_self_issued(forest, anchor, path):
    """More certificates follow an authority than its path length says, the self-issued ones too."""
    above = [anchor, *path[:-1]]
    lengths = [forest.made[it].path_len for it in above]
    return any(it is not None and len(above) - 1 - place > it for place, it in enumerate(lengths))


# how many signatures Go verifies in a search
GO_LIMIT = 100
ANCHOR = "RFC 5280 6.1.1 (d), RFC 5937 3"
GO_REFUSES = [
    Refusal("the anchor's certificate has expired", ANCHOR, anchor_is("expired")),
    Refusal("the anchor's certificate is that of no authority", ANCHOR, anchor_is("no authority")),
    Refusal("the anchor's certificate may not sign others", ANCHOR, anchor_is("may not sign")),
    Refusal("the anchor's certificate is for another purpose", ANCHOR, has_purpose),
    Refusal("self-issued certificates count for a path length", "RFC 5280 6.1.4 (l)", counts_self_issued),
]


def asked(ours, forest, verify):
    """What the package finds: how long the path is, or None; whether any leads there by its names, or OF_LEAF; and what is wrong with what was found."""
    settings = {"purposes": [ours.ExtendedKeyUsageOID.SERVER_AUTH]} if forest.purpose else {}
    try:
        anchors = [ours.load_der_x509_certificate(it) for it in forest.anchors]
        words = {**settings, "max_depth": forest.depth, "revocation": forest.revocation()}
        found = ours.find_path(anchors, forest.candidates, forest.leaf, NOW, verify, **words)
    except ours.NoPath as refused:
        if refused.is_limit:
            return None, None, None
        if refused.revocation is not None:
            return None, True, wrong_revocation(ours, forest, verify, settings, refused)
        wrong = None
        if refused.fault is not None and refused.anchor is None:
            return None, OF_LEAF, wrong_of_leaf(ours, forest, settings, refused.fault)
        if refused.fault is not None:
            try:
                ours.validate_path(refused.anchor, refused.path, NOW, verify, **settings)
                wrong = "the path of the fault is valid"
            except ours.PathFault as fault:
                # a signature that isn't accepted may stand below the fault that was told
                if (fault.place, fault.reason) != (refused.fault.place, refused.fault.reason) and fault.reason != 5 and refused.fault.reason != 5:
                    wrong = f"the fault of the path is {fault}, and not {refused.fault}"
        return None, refused.fault is not None, wrong
    path = [it.public_bytes() for it in found.path.certificates]
    again = ours.validate_path(found.anchor, path, NOW, verify, **settings)
    if again != found.path or path[-1] != forest.leaf or len(set(path)) != len(path) or not set(path[:-1]) <= set(forest.candidates):
        return len(path), True, "what was found isn't a path over the candidates"
    if found.anchor.public_bytes() not in forest.anchors:
        return len(path), True, "what was found is under no anchor"
    if forest.crls is not None and not is_as_told(Reference(ours, forest, verify), found):
        return len(path), True, "CRLs are in the way of what was found"
    return len(path), True, None


def wrong_of_leaf(ours, forest, settings, told):
    """What is wrong with a fault that the certificate has in each path: it has it under a name and a key that are trusted for whatever they issue."""
    leaf = ours.load_der_x509_certificate(forest.leaf)
    try:
        ours.validate_path((leaf.issuer, leaf.public_key_bytes), [leaf], NOW, lambda *_: True, **settings)
    except ours.PathFault as fault:
        return None if (fault.place, fault.reason) == (told.place, told.reason) else f"the fault of the certificate is {fault}, and not {told}"
    return f"the certificate has no fault, and not {told}"


def is_as_told(reference, found):
    """Whether CRLs are in no way of the path that was found, and say of it what is told."""
    statuses = reference.statuses(found.anchor, found.path)
    asked = statuses[-1:] if reference.forest.asks_leaf_alone else statuses
    return reference.is_let_through(statuses) and [it.state for it in found.statuses] == [it.state for it in asked]


def wrong_revocation(ours, forest, verify, settings, refused):
    """What is wrong with what is told of the last path, whose certificate CRLs refuse."""
    reference, told = Reference(ours, forest, verify), refused.revocation
    path = ours.validate_path(refused.anchor, refused.path, NOW, verify, **settings)
    statuses = reference.statuses(refused.anchor, path)
    if statuses[told.place].state != told.status.state or reference.is_let_through(statuses):
        return "CRLs aren't in the way of the path as it is told"
    return None


def compare_with_crls(reference, settings, found, is_linked):
    """What is wrong with the length that was found beside CRLs, or with none; and how it was answered."""
    good, clean = reference.lengths(settings)
    kind = "unrevoked" if found else "refused beside CRLs" if is_linked else "no issuer beside CRLs"
    if found is None:
        return f"none found, and not {min(clean)}" if clean else None, kind
    if found < min(good, default=found + 1) or found > min(clean, default=found):
        return f"found {found}, and not of {sorted(good)}, {sorted(clean)}", kind
    return None, kind


def compare(ours, forest, verify):
    """What is wrong, in words, or None; how it was answered; and how long a shortest valid path is, or None."""
    settings = {"purposes": [ours.ExtendedKeyUsageOID.SERVER_AUTH]} if forest.purpose else {}
    reference = Reference(ours, forest, verify)
    wanted, is_linked = reference.shortest(settings)
    found, was_linked, wrong = asked(ours, forest, verify)
    if was_linked is OF_LEAF:
        was_linked = is_linked
    if forest.crls is not None and was_linked is not None:
        other, kind = compare_with_crls(reference, settings, found, is_linked)
        return wrong or other or (None if was_linked == is_linked else f"by names {was_linked}, and not {is_linked}"), kind, wanted
    kind = "found" if wanted else "refused" if is_linked else "no issuer"
    if was_linked is None:
        # more than 1,000 paths lead there by their names, or more signatures than 100 are needed
        return None, "limit", wanted
    if wrong is None and (found, was_linked) != (wanted, is_linked):
        wrong = f"found {found}, {was_linked}, and not {wanted}, {is_linked}"
    return wrong, kind, wanted


def openssl(ours, forest, folder):
    """Whether `openssl verify` takes the certificate."""

    def put(name, certificates):
        path = folder / name
        path.write_text("".join(ours.load_der_x509_certificate(it).public_bytes(ours.Encoding.PEM).decode() for it in certificates), encoding="ascii")
        return str(path)

    words = ["openssl", "verify", "-no-CApath", "-no-CAstore", "-attime", str(int(NOW.timestamp())), "-verify_depth", str(forest.depth), "-CAfile"]
    words += [put("anchors.pem", forest.anchors), "-partial_chain", "-x509_strict"]
    if forest.candidates:
        words += ["-untrusted", put("candidates.pem", forest.candidates)]
    if forest.purpose:
        words += ["-purpose", "sslserver"]
    run = subprocess.run([*words, put("leaf.pem", [forest.leaf])], capture_output=True, text=True, check=False)
    return run.returncode == 0, run.stderr


def verified_by_go(forest):
    """How many signatures Go verifies at least, up to one more than its limit: of the last certificate under each of its issuer's name, but those whose name
    and key stand below; and the same above those that are good."""
    count = 0

    def climb(chain):
        nonlocal count
        below = forest.made[chain[-1]]
        for it in dict.fromkeys((*forest.anchors, *forest.candidates)):
            made = forest.made[it]
            if count > GO_LIMIT or made.subject.name != below.issuer.name or made.subject in [forest.made[one].subject for one in chain]:
                continue
            count += 1
            is_good = made.what in (None, "another key identifier", "a purpose", "a path length") and (made.path_len is None or len(chain) - 1 <= made.path_len)
            if it not in forest.anchors and is_good and made.subject is below.issuer and below.what != "a signature that doesn't hold":
                climb([*chain, it])

    climb([forest.leaf])
    return count


def build_go(folder):
    """The program that asks Go, or None where it can't be built."""
    if shutil.which("go") is None:
        print("left out, since go isn't installed: forests beside Go")
        return None
    program = folder / "go_paths"
    words = ["go", "build", "-o", program, HERE / "go_paths.go"]
    subprocess.run(words, check=True, env={**os.environ, "GO111MODULE": "off", "GOFLAGS": "", "GOPROXY": "off"})
    return program


def go(program, forests):
    """What Go says of each forest: how long the shortest path is, or why there is none."""
    lines = []
    for it in forests:
        lines += [f"root {one.hex()}" for one in it.anchors]
        lines += [f"other {one.hex()}" for one in it.candidates]
        lines.append(f"{'server' if it.purpose else 'any'} {it.leaf.hex()}")
    ended = subprocess.run([program, str(int(NOW.timestamp()))], input="\n".join(lines), capture_output=True, text=True, check=True)
    return ended.stdout.splitlines()


def beside_go(ours, forest, wanted, said):
    """Whether an answer of Go is as it should be; and in words how it differs from what is wanted."""
    # Go has no limit for the depth, but one for the signatures that it verifies
    found = int(said) if said.isdigit() and int(said) <= forest.depth + 1 else None
    if found == wanted:
        return True, "the same"
    settings = {"purposes": [ours.ExtendedKeyUsageOID.SERVER_AUTH]} if forest.purpose else {}
    allowed, refused = Reference(ours, forest, None).shortest_by_go(settings)
    if found == allowed and refused:
        return True, f"{'a longer path' if found else 'refused'}: {'; '.join(sorted(f'{it.what} ({it.section})' for it in refused))}"
    if "limit reached" in said or verified_by_go(forest) > GO_LIMIT:
        return True, f"a limit of Go's own: it verifies {GO_LIMIT} signatures, and gives the paths that it has found until then"
    return False, f"{said}, and not {wanted}, nor {allowed}"


def main():
    parser = argparse.ArgumentParser(description=__doc__, formatter_class=argparse.RawDescriptionHelpFormatter)
    parser.add_argument("package")
    parser.add_argument("library")
    parser.add_argument("--forests", type=int, default=5000)
    parser.add_argument("--openssl", type=int, default=0, metavar="FORESTS", help="how many are made with keys of cryptography, and asked of openssl too")
    parser.add_argument("--go", type=int, default=0, metavar="FORESTS", help="how many are made with keys of cryptography, and asked of Go too")
    parser.add_argument("--seed", type=int, default=1)
    given = parser.parse_args()
    os.environ["X509_LIBRARY"] = str(pathlib.Path(given.library).resolve())
    sys.path.insert(0, given.package)
    import x509_cert as ours

    kinds, faults = collections.Counter(), 0
    for number in range(given.forests):
        forest = Forest(ours, random.Random(f"{given.seed} {number}"))
        wrong, kind, _ = compare(ours, forest, is_signature)
        kinds[kind] += 1
        if wrong:
            faults += 1
            print(f"forest {number} ({', '.join(forest.words)}): {wrong}")
    beside, asked_of_go = collections.Counter(), []
    with tempfile.TemporaryDirectory() as folder:
        program = build_go(pathlib.Path(folder)) if given.go else None
        for number in range(max(given.openssl, given.go)):
            forest = Forest(ours, random.Random(f"{given.seed} real {number}"), True)
            wrong, kind, wanted = compare(ours, forest, None)
            faults += bool(wrong)
            if wrong:
                print(f"forest {number} with keys: {wrong}")
            if number < given.openssl:
                is_taken, said = openssl(ours, forest, pathlib.Path(folder))
                same = is_taken == (kind == "found")
                if is_taken and kind in ("refused", "no issuer"):
                    faults += 1
                words = "the same" if same else f"{kind}, by openssl {'taken' if is_taken else 'refused'}: {' '.join(said.split())[-90:]}"
                beside[f"of {given.openssl} beside openssl: {words}"] += 1
            if number < given.go and kind != "limit":
                asked_of_go.append((number, forest, wanted))
        answers = go(program, [forest for _, forest, _ in asked_of_go]) if program else []
        for (number, forest, wanted), said in zip(asked_of_go, answers, strict=program is not None):
            is_right, words = beside_go(ours, forest, wanted, said)
            if not is_right:
                faults += 1
                print(f"forest {number} with keys ({', '.join(forest.words)}), by Go: {words}")
            beside[f"of {len(asked_of_go)} beside Go: {words if is_right else 'not known why'}"] += 1
    print(f"{given.forests} forests: {', '.join(f'{kinds[it]} {it}' for it in sorted(kinds))}; {faults} answered otherwise than by trying every path")
    for text, count in sorted(beside.items()):
        print(f"{count} {text}")
    return int(bool(faults) or 50 * kinds["limit"] > given.forests)


if __name__ == "__main__":
    sys.exit(main())
