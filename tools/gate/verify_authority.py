#!/usr/bin/env python3
"""Asks `cryptography` about what an authority of the examples has made: root.der, intermediate.der, server.der, request.der, before.der and after.der in
FOLDER. Its verifier takes the chain for www.example.org and for no other name, the CRLs and the CSR are signed as they should be, and the second CRL alone
has the server.
"""
import argparse
import datetime
import pathlib
import sys

from cryptography import x509
from cryptography.x509.verification import PolicyBuilder, Store, VerificationError

NOW = datetime.datetime(2030, 1, 1)


def wrong_in(folder):
    """What isn't as it should be, in words."""
    read = {name: (folder / f"{name}.der").read_bytes() for name in ("root", "intermediate", "server", "request", "before", "after")}
    root, middle, server = (x509.load_der_x509_certificate(read[name]) for name in ("root", "intermediate", "server"))
    policy = PolicyBuilder().store(Store([root])).time(NOW)
    if policy.build_server_verifier(x509.DNSName("www.example.org")).verify(server, [middle]) != [server, middle, root]:
        yield "the chain is another one"
    try:
        policy.build_server_verifier(x509.DNSName("www.example.com")).verify(server, [middle])
        yield "the chain is taken for another name"
    except VerificationError:
        pass
    for name, number in (("before", 1), ("after", 2)):
        crl = x509.load_der_x509_crl(read[name])
        if not crl.is_signature_valid(middle.public_key()) or crl.issuer != middle.subject:
            yield f"{name}.der isn't the intermediate's"
        if crl.extensions.get_extension_for_class(x509.CRLNumber).value.crl_number != number:
            yield f"{name}.der has another number"
        entry = crl.get_revoked_certificate_by_serial_number(server.serial_number)
        if (entry is not None) != (name == "after"):
            yield f"{name}.der has the server or hasn't"
        if entry is not None and entry.extensions.get_extension_for_class(x509.CRLReason).value.reason != x509.ReasonFlags.key_compromise:
            yield "the server is revoked for another reason"
    csr = x509.load_der_x509_csr(read["request"])
    if not csr.is_signature_valid or csr.public_key() != server.public_key() or csr.subject != server.subject:
        yield "the CSR isn't the server's"


def main():
    parser = argparse.ArgumentParser(description=__doc__, formatter_class=argparse.RawDescriptionHelpFormatter)
    parser.add_argument("folder", metavar="FOLDER", type=pathlib.Path)
    wrong = list(wrong_in(parser.parse_args().folder))
    print("\n".join(wrong) or "cryptography takes the chain, the CRLs and the CSR")
    return int(bool(wrong))


if __name__ == "__main__":
    sys.exit(main())
