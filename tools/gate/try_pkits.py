#!/usr/bin/env python3
"""Asks `validate_path` and `path_revocation_statuses` of the package for Python about NIST's path validation tests (PKITS, in the public domain), compares
their answers with what they are to be, and prints for each section how many are right. Signatures are verified by `cryptography`; where that isn't installed,
all are taken for good, and CRLs aren't asked: a case whose only fault is a CRL's has to be valid then. So it asks `find_path` over all certificates of the
case, in whatever order, beside its CRLs: it has to find a path where the case is valid, and none else.

tools/data/pkits.json.gz has the anchor and, of each case, the path (topmost first), its CRLs, all its certificates, whether it is valid (`want` is 0, and else
the number of what `openssl verify` says of it), and what is asked of policies. A path is good where it is valid and each of its certificates is unrevoked.
"""
import argparse
import collections
import datetime
import gzip
import json
import pathlib
import sys

try:
    from cryptography.exceptions import InvalidSignature, UnsupportedAlgorithm
    from cryptography.hazmat.primitives import hashes, serialization
    from cryptography.hazmat.primitives.asymmetric import dsa, padding, rsa
except ImportError:  # signatures are left out then
    hashes = None

from x509_cert import (
    AlgorithmIdentifier,
    CertificatePoliciesOID,
    NoPath,
    ObjectIdentifier,
    PathFault,
    Revocation,
    SignatureKind,
    X509Error,
    find_path,
    load_der_x509_certificate,
    load_der_x509_crl,
    path_revocation_statuses,
    validate_path,
)

CASES = pathlib.Path(__file__).resolve().parents[1] / "data" / "pkits.json.gz"
MOMENT = datetime.datetime(2020, 1, 1, tzinfo=datetime.timezone.utc)

# What `openssl verify` says of CRLs (X509_V_ERR_..): there is none, its signature, it has expired, revoked, its signer has no cRLSign, a critical
# extension, its scope, the path of its signer.
OF_CRLS = {3, 8, 12, 23, 35, 36, 44, 54}

# That a signature is bad.
OF_SIGNATURES = {7}

# Valid for NIST, and refused here: a date of 1950, as the library's times begin with 1970.
REFUSED = {"4.2.3"}

# What a case asks of policies, in the words of `openssl verify`.
ASKED = {"-explicit_policy": "require_explicit_policy", "-inhibit_map": "inhibit_policy_mapping", "-inhibit_any": "inhibit_any_policy"}

HASHES = {
    SignatureKind.rsa_sha1: "SHA1",
    SignatureKind.rsa_sha256: "SHA256",
    SignatureKind.dsa_sha1: "SHA1",
    SignatureKind.dsa_sha256: "SHA256",
}


def verify(key, algorithm, message, signature):
    """Whether `cryptography` takes the bits for a signature of the message, for the key alone: what parameters it has from others is for the package to know."""
    name = HASHES.get(AlgorithmIdentifier(algorithm).kind)
    if name is None:
        return False
    digest = getattr(hashes, name)
    try:
        public = serialization.load_der_public_key(key)
        if isinstance(public, rsa.RSAPublicKey):
            public.verify(signature, message, padding.PKCS1v15(), digest())
        elif isinstance(public, dsa.DSAPublicKey):
            public.verify(signature, message, digest())
        else:
            return False
    except (InvalidSignature, UnsupportedAlgorithm, ValueError):
        return False
    return True


def accept_all(_key, _algorithm, _message, _signature):
    return True


def asked(words):
    """The keyword arguments of the settings."""
    found, words = {}, iter(words.split())
    for word in words:
        if word == "-policy":
            oid = next(words)
            found.setdefault("policies", []).append(CertificatePoliciesOID.ANY_POLICY if oid == "anyPolicy" else ObjectIdentifier(oid))
        else:
            found[ASKED[word]] = True
    return found


def readable(load, texts):
    """Those that can be read."""
    for text in texts:
        try:
            yield load(bytes.fromhex(text))
        except X509Error:
            continue


def fault_of(anchor, case):
    """What is wrong with the path, or nothing."""
    path = [bytes.fromhex(it) for it in case["path"]]
    verifier = verify if hashes else accept_all
    try:
        found = validate_path(anchor, path, MOMENT, verifier, **asked(case["settings"]))
    except PathFault as fault:
        return str(fault)
    if hashes is None:
        return None
    crls, others = readable(load_der_x509_crl, case["crls"]), readable(load_der_x509_certificate, case["certs"])
    statuses = path_revocation_statuses(found, anchor, crls, MOMENT, verifier, certificates=others, use_deltas=True)
    for place, status in enumerate(statuses):
        if not status.is_unrevoked:
            return f"certificate {place} is {status.state.name}"
    return None


def fault_found(anchor, case):
    """Why no path is found over the certificates of the case, or nothing."""
    candidates = [bytes.fromhex(it) for it in sorted({*case["certs"], *case["path"]})]
    verifier = verify if hashes else accept_all
    crls, others = readable(load_der_x509_crl, case["crls"]), readable(load_der_x509_certificate, case["certs"])
    revocation = Revocation(crls, certificates=others, use_deltas=True) if hashes else None
    leaf = bytes.fromhex(case["path"][-1])
    try:
        find_path([anchor], candidates, leaf, MOMENT, verifier, revocation=revocation, **asked(case["settings"]))
    except (NoPath, X509Error) as refused:
        return str(refused)
    return None


def section(case):
    """Such as "4.13" of "4.13.2"."""
    return ".".join(case["number"].split(".")[:2])


def told(case, fault):
    """What is wrong with the answer, or nothing."""
    is_valid = case["want"] == 0 or (hashes is None and case["want"] in OF_CRLS | OF_SIGNATURES)
    is_accepted = fault is None
    if is_accepted == (is_valid and case["number"] not in REFUSED):
        return None
    return f"{case['number']} {case['title']}: {fault or 'accepted'}"


def ask(cases):
    anchor = load_der_x509_certificate(bytes.fromhex(cases["anchor"]))
    right, every, wrong = collections.Counter(), collections.Counter(), []
    searched = [told(case, fault_found(anchor, case)) for case in cases["cases"]]
    for case in cases["cases"]:
        fault = told(case, fault_of(anchor, case))
        every[section(case)] += 1
        if fault:
            wrong.append(fault)
        elif case["number"] not in REFUSED:
            right[section(case)] += 1
    if hashes is None:
        print("left out, since Python's cryptography isn't installed: the signatures and the CRLs of PKITS")
    for name, count in every.items():
        print(f"PKITS {name}: {right[name]} of {count}")
    for fault in wrong:
        print("failed: PKITS,", fault)
    for fault in filter(None, searched):
        print("failed: PKITS, searched for,", fault)
    print(f"{'failed' if wrong else 'passed'}: PKITS, {sum(right.values())} of {sum(every.values())} paths are judged as NIST says")
    print(f"{'failed' if any(searched) else 'passed'}: PKITS, {searched.count(None)} of {len(searched)} paths are found or not as NIST says")
    return int(bool(wrong) or any(searched))


def main():
    argparse.ArgumentParser(description=__doc__, formatter_class=argparse.RawDescriptionHelpFormatter).parse_args()
    with gzip.open(CASES, "rt", encoding="ascii") as file:
        return ask(json.load(file))


if __name__ == "__main__":
    sys.exit(main())
