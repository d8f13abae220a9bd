#!/usr/bin/env python3
"""Runs a TLS client that trusts servers by this library (examples/c/tls_client.c, examples/rust/rustls) against `openssl s_server` on the loopback address.

CLIENT is the program, with the words that are in front of it, as those of valgrind. The servers have certificates that `cryptography` makes: a good chain,
one out of order, one with a certificate that isn't needed, one cross-signed by an authority that isn't known, one where an intermediate is missing, one that is
expired, one for clients, one of an authority that may not certify the name, one with a signature that doesn't hold, and one of another host. With CRLs: one
that is revoked, and authorities that are, with another path round them and without one; CRLs that don't count, as they are signed by another key, are out of
date, or are those of an authority that may not sign CRLs.
"""
import argparse
import datetime
import pathlib
import socket
import subprocess
import sys
import tempfile
import time

from cryptography import x509
from cryptography.hazmat.primitives import hashes, serialization
from cryptography.hazmat.primitives.asymmetric import ec

NOW = datetime.datetime(2030, 1, 1, tzinfo=datetime.timezone.utc)
DAY = datetime.timedelta(days=1)
HOST = "www.example.org"
PEM = serialization.Encoding.PEM
PURPOSES = {"server": x509.ExtendedKeyUsageOID.SERVER_AUTH, "client": x509.ExtendedKeyUsageOID.CLIENT_AUTH}


class Party:
    """A name with a key."""

    def __init__(self, name):
        self.name, self.key = x509.Name([x509.NameAttribute(x509.NameOID.COMMON_NAME, name)]), ec.generate_private_key(ec.SECP256R1())

    def issue(self, subject, *extensions, ends=NOW + DAY, by=None):
        made = x509.CertificateBuilder(self.name, subject.name, subject.key.public_key(), x509.random_serial_number(), NOW - 9 * DAY, ends)
        for it in extensions:
            made = made.add_extension(it, critical=isinstance(it, (x509.BasicConstraints, x509.NameConstraints)))
        return made.sign((by or self).key, hashes.SHA256())

    def authority(self, subject, *extensions, **more):
        return self.issue(subject, x509.BasicConstraints(True, None), *extensions, **more)

    def crl(self, *revoked, ends=NOW + DAY, by=None):
        made = x509.CertificateRevocationListBuilder(self.name, NOW - 3 * DAY, ends)
        for it in revoked:
            entry = x509.RevokedCertificateBuilder(it.serial_number, NOW - 4 * DAY)
            made = made.add_revoked_certificate(entry.build())
        return made.sign((by or self).key, hashes.SHA256())


def of_server(issuer, subject, host=HOST, purpose="server", **more):
    return issuer.issue(subject, x509.SubjectAlternativeName([x509.DNSName(host)]), x509.ExtendedKeyUsage([PURPOSES[purpose]]), **more)


def key_usage(**asked):
    others = ("digital_signature", "content_commitment", "key_encipherment", "data_encipherment", "key_agreement", "encipher_only", "decipher_only")
    return x509.KeyUsage(**{name: False for name in others}, **asked)


def cases():
    """Each case: its name, what the server has and sends, its key, the host that is asked for, the CRLs, and what is to be said."""
    root, unknown, upper, lower, server = (Party(it) for it in ("Root", "Unknown", "Upper", "Lower", "Server"))
    second, other = Party("Second"), Party("Other")
    roots = [root.authority(root), second.authority(second)]
    one, two = root.authority(upper), upper.authority(lower)
    good = of_server(lower, server)
    excluded = root.authority(upper, x509.NameConstraints(None, [x509.DNSName("example.org")]))
    false = root.authority(upper, by=unknown)
    # may sign certificates, and no CRLs
    limited = root.authority(upper, key_usage(key_cert_sign=True, crl_sign=False))
    # by another root, by the same root anew, and by another authority
    crossed, again, longer = second.authority(upper), root.authority(upper), [root.authority(other), other.authority(upper)]
    made = [
        ("a good chain", good, [two, one], HOST, [], "trusted 3"),
        ("out of order", good, [one, two], HOST, [], "trusted 3"),
        ("the host in capitals", good, [one, two], HOST.upper(), [], "trusted 3"),
        ("more than is needed", good, [unknown.authority(upper), root.authority(unknown), two, one, roots[0]], HOST, [], "trusted 3"),
        ("cross-signed", good, [two, unknown.authority(upper), unknown.authority(lower), one], HOST, [], "trusted 3"),
        ("one is missing", good, [two], HOST, [], "unknown issuer"),
        ("none is sent", good, [], HOST, [], "unknown issuer"),
        ("expired", of_server(lower, server, ends=NOW - DAY), [two, one], HOST, [], "fault leaf 4"),
        ("an authority that is expired", good, [two, root.authority(upper, ends=NOW - DAY)], HOST, [], "fault 0 4"),
        ("another host", good, [two, one], "www.example.com", [], "not the host"),
        ("for clients", of_server(lower, server, purpose="client"), [two, one], HOST, [], "fault leaf 17"),
        ("an excluded name", good, [two, excluded], HOST, [], "fault leaf 12"),
        ("a signature that doesn't hold", good, [two, false], HOST, [], "fault 0 5"),
        ("the same beside one that does", good, [two, false, one], HOST, [], "trusted 3"),
        ("no authority", good, [upper.issue(lower), one], HOST, [], "fault 1 8"),
        ("CRLs of all, which revoke others", good, [two, one], HOST, [root.crl(two), upper.crl(one, good), lower.crl(two)], "trusted 3"),
        ("a CRL of an authority above", good, [two, one], HOST, [root.crl(two, good)], "trusted 3"),
        ("revoked", good, [two, one], HOST, [lower.crl(good)], "revoked 2"),
        ("revoked, and another path to its authority", good, [two, one, crossed], HOST, [root.crl(), lower.crl(one, good)], "revoked 2"),
        ("an authority that is revoked", good, [two, one], HOST, [root.crl(one)], "revoked 0"),
        ("a lower authority that is revoked", good, [two, one], HOST, [root.crl(), upper.crl(two)], "revoked 1"),
        ("an authority that is revoked, under two roots", good, [two, one, crossed], HOST, [root.crl(one)], "trusted 3"),
        ("the same, revoked by both", good, [two, one, crossed], HOST, [root.crl(one), second.crl(crossed)], "revoked 0"),
        ("an authority that is revoked, certified anew", good, [two, one, again], HOST, [root.crl(one)], "trusted 3"),
        ("a longer path round an authority that is revoked", good, [two, one, *longer], HOST, [root.crl(one)], "trusted 4"),
        ("the same, revoked at another place", good, [two, one, *longer], HOST, [root.crl(one), other.crl(longer[1])], "revoked 1"),
        ("revoked, beside a signature that doesn't hold", good, [two, false, one], HOST, [root.crl(one)], "revoked 0"),
        ("a CRL that another signed", good, [two, one], HOST, [root.crl(one, by=unknown), lower.crl(two, good, by=upper)], "trusted 3"),
        ("the CRL of another", good, [two, one], HOST, [unknown.crl(one, two, good)], "trusted 3"),
        ("a CRL that is out of date", good, [two, one], HOST, [root.crl(one, ends=NOW - DAY)], "trusted 3"),
        ("a CRL of an authority that may not sign any", good, [two, limited], HOST, [upper.crl(two)], "trusted 3"),
    ]
    return roots, server, made


def write(path, objects):
    path.write_bytes(b"".join(it.public_bytes(PEM) for it in objects))
    return str(path)


def serve(folder, leaf, sent, key):
    """Starts a server at a port that is free, and waits until it listens."""
    with socket.socket() as free:
        free.bind(("127.0.0.1", 0))
        port = free.getsockname()[1]
    words = ["openssl", "s_server", "-accept", f"127.0.0.1:{port}", "-cert", write(folder / "leaf.pem", [leaf]), "-key", key, "-quiet"]
    if sent:
        words += ["-cert_chain", write(folder / "chain.pem", sent)]
    server = subprocess.Popen(words, stdin=subprocess.PIPE, stdout=subprocess.DEVNULL, stderr=subprocess.DEVNULL)
    for _ in range(100):
        with socket.socket() as tried:
            if tried.connect_ex(("127.0.0.1", port)) == 0:
                return server, port
        time.sleep(0.05)
    server.kill()
    sys.exit("openssl s_server doesn't listen")


def main():
    parser = argparse.ArgumentParser(description=__doc__, formatter_class=argparse.RawDescriptionHelpFormatter)
    parser.add_argument("client", nargs=argparse.REMAINDER)
    client = parser.parse_args().client
    failed, (roots, party, made) = 0, cases()
    with tempfile.TemporaryDirectory() as name:
        folder = pathlib.Path(name)
        key = folder / "key.pem"
        key.write_bytes(party.key.private_bytes(PEM, serialization.PrivateFormat.PKCS8, serialization.NoEncryption()))
        anchors = write(folder / "roots.pem", roots)
        for what, leaf, sent, host, crls, wanted in made:
            server, port = serve(folder, leaf, sent, str(key))
            words = [*client, host, str(port), anchors, str(int(NOW.timestamp()))]
            if crls:
                words.append(write(folder / "crls.pem", crls))
            try:
                run = subprocess.run(words, capture_output=True, text=True, timeout=60, check=False)
            finally:
                server.kill()
                server.wait()
            status = 0 if wanted.startswith("trusted") else 1
            if (run.stdout, run.returncode) != (wanted + "\n", status):
                failed += 1
                print(f"failed: {what}: {run.stdout.strip()}, status {run.returncode}, and not {wanted}, status {status}\n{run.stderr}")
    print(f"{len(made) - failed} of {len(made)} servers are trusted or refused as they should be")
    return int(failed > 0)


if __name__ == "__main__":
    sys.exit(main())
