#!/usr/bin/env python3
"""A TLS client that asks this library whether to trust a server.

Python's `ssl` speaks TLS, with its own verification of certificates off: once the handshake is done, and before anything is sent, a path is found over what the
server sent, under the certificates of a file of roots, its signatures are verified by `cryptography`, and the server's certificate has to name the host. With a
file of CRLs no certificate of the path may be revoked: else another path is looked for. A certificate of which no CRL speaks is let through.

It prints `trusted` and how many certificates the path has; or why the server isn't trusted: `not the host`; `unknown issuer`; `limit`; `fault PLACE REASON`,
with `leaf` as the place of the server's certificate, and else the place from the top, from 0, and with the reason by its number in x509.h; `revoked PLACE`,
with the place from the top, from 0, in the path that was found last, where there is no other; `refused STATUS`; or `no handshake`. It ends with 0 where the
server is trusted, and with 1 else. `examples/c/tls_client.c` says the same.

usage: X509_LIBRARY=.../libx509.so PYTHONPATH=bindings/python/src python3 examples/python/tls_client.py HOST PORT ROOTS [MOMENT [CRLS]], with files of the roots
and the CRLs in PEM; it connects to 127.0.0.1, and asks for HOST; the moment in seconds since 1970-01-01T00:00:00Z, now where there is none
"""

from __future__ import annotations

import argparse
import datetime
import pathlib
import socket
import ssl
import sys

import x509_cert as x509
from x509_cert import verification

# the status of include/x509.h for a value that can't be used
VALUE = 5
# the most seconds that are waited for the server
PATIENCE = 30


def sent_by(server: ssl.SSLSocket) -> list[bytes]:
    """The certificates that a server sent, its own first, as DER."""
    if hasattr(server, "get_unverified_chain"):
        # public from Python 3.13 on
        return list(server.get_unverified_chain())
    # Before that there is no public call that gives more than the server's own certificate. This one is private, of Python 3.10 to 3.12; what it gives are
    # objects of the module `_ssl`, which write themselves as PEM.
    chain = getattr(server, "_sslobj").get_unverified_chain()
    return [ssl.PEM_cert_to_DER_cert(it.public_bytes()) for it in chain or ()]


def failure(refused: verification.VerificationError) -> str:
    """Why a server isn't trusted."""
    if refused.is_limit:
        return "limit"
    if refused.path is None:
        return "unknown issuer"
    if refused.revocation is not None:
        return f"revoked {refused.revocation.place}"
    if refused.fault is None:
        # the name constraints of a root can't be used
        return f"refused {VALUE}"
    place = "leaf" if refused.fault.place == len(refused.path) - 1 else refused.fault.place
    return f"fault {place} {refused.fault.reason}"


def verdict(verifier: verification.ServerVerifier, host: str, sent: list[bytes]) -> str:
    """Whether the server is trusted, in a line."""
    server = x509.load_der_x509_certificate(sent[0])
    if not server.matches_name(host):
        return "not the host"
    try:
        chain = verifier.verify(server, sent[1:])
    except verification.VerificationError as refused:
        return failure(refused)
    # the root stands above the path, but where it is the server's certificate
    return f"trusted {max(1, len(chain) - 1)}"


def talk(policy: verification.PolicyBuilder, host: str, port: int) -> str:
    """Connects to the server, and says whether it is trusted. A client of yours sends what it has to send where this one says that it is."""
    context = ssl.SSLContext(ssl.PROTOCOL_TLS_CLIENT)
    context.check_hostname = False
    context.verify_mode = ssl.CERT_NONE
    try:
        verifier = policy.build_server_verifier(host)
        with socket.create_connection(("127.0.0.1", port), PATIENCE) as plain, context.wrap_socket(plain, server_hostname=host) as server:
            sent = sent_by(server)
            return verdict(verifier, host, sent) if sent else "no handshake"
    except x509.X509Error as error:
        return f"refused {error.status}"
    except OSError:
        return "no handshake"


def asked_of(roots: pathlib.Path, moment: int | None, crls: pathlib.Path | None) -> verification.PolicyBuilder:
    """What is asked of a server but its name."""
    policy = verification.PolicyBuilder().store(verification.Store(x509.load_pem_x509_certificates(roots.read_bytes())))
    if moment is not None:
        policy = policy.time(datetime.datetime.fromtimestamp(moment, datetime.timezone.utc))
    if crls is None:
        return policy
    return policy.revocation(x509.Revocation(x509.load_pem_x509_crls(crls.read_bytes()), allows_undetermined=True))


def main() -> int:
    parser = argparse.ArgumentParser(description=__doc__.splitlines()[0])
    parser.add_argument("host")
    parser.add_argument("port", type=int)
    parser.add_argument("roots", type=pathlib.Path)
    parser.add_argument("moment", type=int, nargs="?")
    parser.add_argument("crls", type=pathlib.Path, nargs="?")
    given = parser.parse_args()
    try:
        policy = asked_of(given.roots, given.moment, given.crls)
    except (OSError, ValueError, OverflowError) as error:
        print(f"tls_client.py: {error}", file=sys.stderr)
        return 1
    said = talk(policy, given.host, given.port)
    print(said)
    return 0 if said.startswith("trusted") else 1


if __name__ == "__main__":
    sys.exit(main())
