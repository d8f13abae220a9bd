#!/usr/bin/env python3
"""Looks whether each type that x509_check could check has its check: of each impl of `Content`, `Newtype` and `Decode` in a crate that x509_check stands on,
the impl of `CheckContent`, `NewtypeCheck` and `Check` for that type in x509_check; and whether each check has its type. Looks too whether each of those types
has its byte order and may be a member of sets: `ValueOrd` or `NewtypeOrd`, `SetOrd` and `SetMember`.
"""
import argparse
import collections
import pathlib
import re
import sys

sys.path.insert(0, str(pathlib.Path(__file__).resolve().parents[1]))
from common.crates import TOP, crates_below, path_of

CHECKS = {"Content": "CheckContent", "Newtype": "NewtypeCheck", "Decode": "Check"}
# Values of attributes: they are decoded from an element that was taken out of its set, and have no check yet.
WITHOUT = {("Decode", "ChallengePassword")}
ORDERS = {"Content": "ValueOrd", "Newtype": "NewtypeOrd", "Encode": "ValueOrd"}
# Types without a byte order, which docs/DIFFERENCES.md names.
WITHOUT_ORDER = {
    "AccessDescription", "AuthorityInfoAccessSyntax", "AuthorityKeyIdentifier", "CertPathControls", "CertificateIssuer", "CertificatePolicies",
    "ChallengePassword", "CrlDistributionPoints", "CtPrecertificatePoison", "DirectoryString", "DisplayText", "DistributionPoint",
    "DistributionPointName", "EdiPartyName", "ExtensionReq", "FreshestCrl", "GeneralName", "GeneralSubtree", "IssuerAltName",
    "IssuingDistributionPoint", "NameConstraints", "NoticeReference", "PolicyInformation", "PolicyQualifierInfo", "SubjectAltName",
    "SubjectDirectoryAttributes", "SubjectInfoAccessSyntax", "TrustAnchorChoice", "TrustAnchorInfo", "UserNotice",
}
# Lists and sets are named in the types that they stand in, which then have the order of their members.
NO_MEMBERS = {"SequenceOf", "SetOfVec"}
IMPL = re.compile(r"^impl(?:<.*?>)? (\w+) for (\w+)", re.M)


def impls_of(crate):
    """How often each trait has an impl for each type in a crate; a blanket impl, for a bare parameter, isn't counted."""
    found = collections.Counter()
    for file in sorted((TOP / "crates" / crate / "src").rglob("*.rt")):
        found.update((trait, kind) for trait, kind in IMPL.findall(file.read_text(encoding="utf-8")) if len(kind) > 1)
    return found


def faults(types, checks):
    for trait, check in CHECKS.items():
        for kind in sorted({name for of, name in types if of == trait} | {name for of, name in checks if of == check}):
            has, wanted = checks[check, kind], types[trait, kind]
            if (trait, kind) in WITHOUT:
                if has:
                    yield f"{kind} has a {check} now: take it out of WITHOUT"
            elif has < wanted:
                yield f"{kind} is {trait}, and has no {check} in x509_check"
            elif has > wanted:
                yield f"{kind} has a {check} in x509_check, and is no {trait}"


def order_faults(types):
    for trait, order in ORDERS.items():
        for kind in sorted({name for of, name in types if of == trait}):
            for wanted in [order] if kind in NO_MEMBERS else [order, "SetOrd", "SetMember"]:
                has = types[wanted, kind]
                if kind in WITHOUT_ORDER:
                    if has:
                        yield f"{kind} has a {wanted} now: take it out of WITHOUT_ORDER"
                elif has < types[trait, kind]:
                    yield f"{kind} is {trait}, and has no {wanted}"


def main():
    argparse.ArgumentParser(description=__doc__, formatter_class=argparse.RawDescriptionHelpFormatter).parse_args()
    named = crates_below()
    types = sum((impls_of(crate) for crate in path_of("x509_check", named) - {"x509_check"}), collections.Counter())
    found = list(faults(types, impls_of("x509_check"))) + list(order_faults(types))
    count = sum(types[it] for it in types if it[0] in CHECKS) - len(WITHOUT)
    print("\n".join(found) or f"{count} types have their checks in x509_check, and all but {len(WITHOUT_ORDER)} their byte order")
    return int(bool(found) or not count)


if __name__ == "__main__":
    sys.exit(main())
