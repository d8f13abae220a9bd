"""The programs of examples/python that stand on the package: what they say of certificates and of values. That of an authority is tested with the builders.

usage: X509_LIBRARY=.../libx509.so PYTHONPATH=bindings/python/src python3 -m unittest discover -s bindings/python/tests
"""

from __future__ import annotations

import contextlib
import datetime
import glob
import importlib.util
import os
import pathlib
import socket
import ssl
import subprocess
import sys
import tempfile
import threading
import types
import unittest
import warnings
from typing import Any

import x509_cert as ours

try:
    from cryptography import x509 as theirs
    from cryptography.hazmat.primitives import hashes
    from cryptography.hazmat.primitives.asymmetric import ec, rsa
    from cryptography.hazmat.primitives.serialization import Encoding, NoEncryption, PrivateFormat, PublicFormat
except ImportError:  # the test that asks it is left out then
    theirs = None  # type: ignore[assignment]

TOP = pathlib.Path(__file__).resolve().parents[3]
CERTIFICATE = TOP / "examples/data/certificate.der"
NOW, DAY = datetime.datetime(2030, 1, 1, tzinfo=datetime.timezone.utc), datetime.timedelta(days=1)


def example(name: str) -> types.ModuleType:
    spec = importlib.util.spec_from_file_location(f"example_{name}", TOP / f"examples/python/{name}.py")
    assert spec is not None and spec.loader is not None
    made = importlib.util.module_from_spec(spec)
    spec.loader.exec_module(made)
    return made


def ran(name: str, *words: str) -> tuple[int, str, str]:
    program = [sys.executable, "-B", str(TOP / f"examples/python/{name}.py"), *words]
    ended = subprocess.run(program, capture_output=True, encoding="utf-8", env=os.environ | {"PYTHONIOENCODING": "utf-8"})
    return ended.returncode, ended.stdout, ended.stderr


class Facts(unittest.TestCase):
    # of examples/data/make.py, which makes the certificate
    SAID = """\
version: 3
serial number: 12:34:56:78:90:AB:CD:EF
issuer: CN=www.example.org,O=Beispiel\\, Söhne & Co,C=DE
  2.5.4.6: DE
  2.5.4.10: Beispiel, Söhne & Co
  2.5.4.3: www.example.org
subject: CN=www.example.org,O=Beispiel\\, Söhne & Co,C=DE
  2.5.4.6: DE
  2.5.4.10: Beispiel, Söhne & Co
  2.5.4.3: www.example.org
not before: 2026-01-02T03:04:05Z
not after: 2055-06-07T08:09:10Z
key: 1.2.840.10045.2.1, 256 bits
curve: 1.2.840.10045.3.1.7
"""
    HELD = """\
extension 2.5.29.15, critical
  digitalSignature keyEncipherment
extension 2.5.29.17
  dns www.example.org
  dns example.org
  email post@example.org
  ip 192.0.2.7
"""

    def test_example(self) -> None:
        status, said, _ = ran("facts", str(CERTIFICATE))
        self.assertEqual(status, 0)
        self.assertTrue(said.startswith(self.SAID), said)
        self.assertTrue(said.endswith(self.HELD), said)
        # ECDSA with SHA-256 (RFC 5758 3.2)
        self.assertIn("\nsignature: 1.2.840.10045.4.3.2, ", said)

    def test_refused(self) -> None:
        for name in (str(TOP / "examples/data/list.der"), str(TOP / "README.md"), str(TOP / "none")):
            status, said, why = ran("facts", name)
            self.assertEqual((status, said), (1, ""))
            self.assertTrue(why.startswith(f"{name}: ") and "Traceback" not in why, why)

    def test_spoilt(self) -> None:
        """Of each certificate that is read something is said, and of others a ValueError."""
        program, data = example("facts"), CERTIFICATE.read_bytes()
        count = 0
        for at in range(len(data)):
            for octet in {0x00, 0x0A, 0xFF, data[at] ^ 1} - {data[at]}:
                try:
                    lines = list(program.facts(program.load(data[:at] + bytes([octet]) + data[at + 1 :])))
                except ValueError:
                    continue
                self.assertFalse(any(program.HIDDEN.search(it) for it in lines))
                count += 1
        self.assertGreater(count, 300)

    @unittest.skipIf(theirs is None or not glob.glob("/etc/ssl/certs/*.pem"), "cryptography isn't installed, or the system has no store of certificates")
    def test_store(self) -> None:
        program = example("facts")
        for file in sorted(glob.glob("/etc/ssl/certs/*.pem")):
            data = pathlib.Path(file).read_bytes()
            with self.subTest(file), warnings.catch_warnings():
                warnings.simplefilter("ignore")
                their = theirs.load_pem_x509_certificate(data)
                lines = list(program.facts(program.load(data)))
                self.assertEqual([it for it in self.expected(their) if it not in lines], [])
                critical = [f"extension {it.oid.dotted_string}, critical" for it in their.extensions if it.critical]
                self.assertEqual([it for it in lines if it.endswith(", critical")], critical)

    def expected(self, their: Any) -> list[str]:
        key = their.public_key()
        found = [f"version: {their.version.value + 1}", f"signature: {their.signature_algorithm_oid.dotted_string}, {len(their.signature)} octets"]
        found += [f"not before: {their.not_valid_before_utc:%Y-%m-%dT%H:%M:%SZ}", f"not after: {their.not_valid_after_utc:%Y-%m-%dT%H:%M:%SZ}"]
        if isinstance(key, rsa.RSAPublicKey):
            numbers = key.public_numbers()
            found += [f"key: 1.2.840.113549.1.1.1, {key.key_size} bits"]
            # the first bit of one of whole octets is 1, so that a 00 stands in front of it (X.690 8.3)
            found += [f"modulus: 00:{numbers.n.to_bytes(key.key_size // 8, 'big').hex(':').upper()}"] if key.key_size % 8 == 0 else []
            found += ["exponent: 01:00:01"] if numbers.e == 65537 else []
        if isinstance(key, ec.EllipticCurvePublicKey):
            oid = {"secp256r1": "1.2.840.10045.3.1.7", "secp384r1": "1.3.132.0.34"}[key.curve.name]
            found += [f"curve: {oid}", f"point: {key.public_bytes(Encoding.X962, PublicFormat.UncompressedPoint).hex()}"]
        for it in their.extensions:
            if isinstance(it.value, theirs.SubjectKeyIdentifier):
                found.append(f"  {it.value.digest.hex()}")
            if isinstance(it.value, theirs.BasicConstraints):
                found.append(f"  authority {str(it.value.ca).lower()}, path length {'none' if it.value.path_length is None else it.value.path_length}")
            if isinstance(it.value, theirs.CertificatePolicies):
                found += [f"  policy {one.policy_identifier.dotted_string}" for one in it.value]
                found += [f"  practice statement {one}" for policy in it.value for one in policy.policy_qualifiers or () if isinstance(one, str)]
        return found


class Names(unittest.TestCase):
    def test_values(self) -> None:
        # RFC 4514 2.4, by hand
        text = "CN=a\\,O=Evil,O=Haus\\, Hof \\+ Söhne,C=US"
        status, said, _ = ran("name", "C", "US", "O", "Haus, Hof + Söhne", "CN", "a,O=Evil")
        self.assertEqual((status, said.splitlines()[0]), (0, text))
        name = ours.Name(bytes.fromhex(said.splitlines()[1]))
        self.assertEqual([it.value for it in name], ["US", "Haus, Hof + Söhne", "a,O=Evil"])

    def test_refused(self) -> None:
        for words in (("C", "USA"), ("X", "a"), ("C",)):
            status, said, why = ran("name", *words)
            self.assertEqual((status, said), (1, ""))
            self.assertTrue(why and "Traceback" not in why, why)


@unittest.skipIf(theirs is None, "the package cryptography isn't there")
class Tls(unittest.TestCase):
    """The TLS client, against a server of Python's `ssl`, to which nothing is sent behind the handshake."""

    def setUp(self) -> None:
        held = tempfile.TemporaryDirectory()
        self.addCleanup(held.cleanup)
        self.folder = pathlib.Path(held.name)
        self.keys = {it: ec.generate_private_key(ec.SECP256R1()) for it in ("CN=Root", "CN=Upper", "CN=Leaf")}
        authority, host = theirs.BasicConstraints(True, None), theirs.SubjectAlternativeName([theirs.DNSName("www.example.org")])
        rows = ("CN=Root", "CN=Root", authority), ("CN=Root", "CN=Upper", authority), ("CN=Upper", "CN=Leaf", host)
        self.root, self.upper, self.leaf = (self.issue(*it) for it in rows)
        self.roots = self.put("roots.pem", self.root.public_bytes(Encoding.PEM))

    def put(self, name: str, *parts: bytes) -> str:
        (self.folder / name).write_bytes(b"".join(parts))
        return str(self.folder / name)

    def issue(self, issuer: str, subject: str, extension: Any) -> Any:
        names = map(theirs.Name.from_rfc4514_string, (issuer, subject))
        builder = theirs.CertificateBuilder(*names, self.keys[subject].public_key(), theirs.random_serial_number(), NOW - DAY, NOW + DAY)
        return builder.add_extension(extension, True).sign(self.keys[issuer], hashes.SHA256())

    def crl(self, name: str, *revoked: Any) -> str:
        builder = theirs.CertificateRevocationListBuilder(theirs.Name.from_rfc4514_string("CN=Upper"), NOW - DAY, NOW + DAY)
        for it in revoked:
            builder = builder.add_revoked_certificate(theirs.RevokedCertificateBuilder(it.serial_number, NOW - DAY).build())
        return self.put(name, builder.sign(self.keys["CN=Upper"], hashes.SHA256()).public_bytes(Encoding.PEM))

    def asked(self, sent: list[Any], *words: str) -> tuple[int, str, bytes]:
        """The status of the client, what it prints, and what the server reads."""
        key = self.keys["CN=Leaf"].private_bytes(Encoding.PEM, PrivateFormat.PKCS8, NoEncryption())
        context = ssl.SSLContext(ssl.PROTOCOL_TLS_SERVER)
        context.load_cert_chain(self.put("server.pem", *(it.public_bytes(Encoding.PEM) for it in sent)), self.put("key.pem", key))
        read: list[bytes] = []
        with socket.create_server(("127.0.0.1", 0)) as listening:

            def serve() -> None:
                plain, _ = listening.accept()
                with contextlib.suppress(OSError), plain, context.wrap_socket(plain, server_side=True, suppress_ragged_eofs=True) as server:
                    read.append(server.recv(100))

            thread = threading.Thread(target=serve)
            thread.start()
            host, *others = words or ("www.example.org",)
            status, said, why = ran("tls_client", host, str(listening.getsockname()[1]), self.roots, str(int(NOW.timestamp())), *others)
            thread.join(20)
        self.assertEqual(why, "")
        return status, said, b"".join(read)

    def test_servers(self) -> None:
        good, clean, revoked = [self.leaf, self.upper], self.crl("clean.pem"), self.crl("revoked.pem", self.leaf)
        for sent, words, wanted in (
            (good, ["www.example.org"], "trusted 2"),
            (good, ["www.example.com"], "not the host"),
            (good[:1], ["www.example.org"], "unknown issuer"),
            (good, ["www.example.org", clean], "trusted 2"),
            (good, ["www.example.org", revoked], "revoked 1"),
        ):
            with self.subTest(wanted):
                self.assertEqual(self.asked(sent, *words), (0 if wanted.startswith("trusted") else 1, f"{wanted}\n", b""))

    def test_refused(self) -> None:
        with socket.create_server(("127.0.0.1", 0)) as listening:
            port = str(listening.getsockname()[1])
        for host, said in (("www.example.org", "no handshake"), ("a b", "refused 5")):
            self.assertEqual(ran("tls_client", host, port, self.roots)[:2], (1, f"{said}\n"))
        for words in (["www.example.org", port, str(self.folder / "none")], ["www.example.org", port, str(CERTIFICATE)]):
            status, said, why = ran("tls_client", *words)
            self.assertEqual((status, said, "Traceback" in why, bool(why)), (1, "", False, True))


if __name__ == "__main__":
    unittest.main()
