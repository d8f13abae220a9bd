"""Without `cryptography` the package is imported and works: keys, hashes and algorithms are its own, and what only that package can do says so.

usage: X509_LIBRARY=.../libx509.so PYTHONPATH=bindings/python/src python3 -m unittest discover -s bindings/python/tests
"""

from __future__ import annotations

import os
import pathlib
import subprocess
import sys
import unittest

TOP = pathlib.Path(__file__).resolve().parents[3]

# a run in which no module of `cryptography` is found
ALONE = """
import contextlib, datetime, hashlib, importlib.abc, io, pathlib, sys

class Hidden(importlib.abc.MetaPathFinder):
    def find_spec(self, name, path, target=None):
        if name.partition(".")[0] == "cryptography":
            raise ModuleNotFoundError(name)

sys.meta_path.insert(0, Hidden())
import x509_cert as x509
from x509_cert.__main__ import main

def refused(kind, call):
    try:
        call()
    except kind as error:
        assert type(error) is kind, error
        return str(error)
    raise AssertionError(kind)

data = pathlib.Path("examples/data")
certificate = x509.load_der_x509_certificate((data / "certificate.der").read_bytes())
crl = x509.load_der_x509_crl((data / "list.der").read_bytes())
csr = x509.load_der_x509_csr((data / "request.der").read_bytes())
for it in (certificate, csr):
    key = it.public_key()
    assert type(key) is x509.PublicKey and key == it.public_key_info
for it in (certificate, crl, csr):
    hashed = it.signature_hash_algorithm
    assert hashed == x509.HashAlgorithm("sha256", 32), hashed
    assert it.fingerprint(hashed) == hashlib.sha256(it.public_bytes()).digest()
    assert "cryptography" in refused(ImportError, lambda: it.signature_algorithm_parameters)
assert "cryptography" in refused(ImportError, lambda: certificate.verify_directly_issued_by(certificate) if certificate.issuer == certificate.subject
                                 else certificate._verify(certificate.public_key_bytes))
assert "cryptography" in refused(ImportError, lambda: crl.is_signature_valid(certificate.public_key()))
assert "cryptography" in refused(ImportError, lambda: csr.is_signature_valid)
now = certificate.not_valid_before_utc
assert x509.check_path(certificate, [certificate], now, lambda *_: True) == [certificate]
assert "cryptography" in refused(ImportError, lambda: x509.check_path(certificate, [certificate], now))
oid = certificate.signature_algorithm_oid.content
other = x509.load_der_x509_certificate(certificate.public_bytes().replace(oid, oid[:-1] + b"\\x63"))
refused(NotImplementedError, lambda: other.signature_hash_algorithm)
name = x509.Name([x509.NameAttribute(x509.NameOID.COMMON_NAME, "a")])
builder = x509.CertificateBuilder().serial_number(5).issuer_name(name).subject_name(name).public_key(certificate.public_key())
builder = builder.not_valid_before(now).not_valid_after(now)
builder = builder.add_extension(x509.SubjectKeyIdentifier.from_public_key(certificate.public_key()), critical=False)
made = builder.sign(x509.SignatureAlgorithm.ED25519, lambda part: bytes(64))
assert made.signature_hash_algorithm is None and made.public_key_bytes == certificate.public_key_bytes
assert x509.load_pem_x509_certificate(made.public_bytes(x509.Encoding.PEM)) == made
asked = x509.Revocation([crl], allows_undetermined=True)
assert x509.find_path([certificate], [], certificate, now, lambda *_: True, revocation=asked).path.certificates == (certificate,)
assert "cryptography" in refused(ImportError, lambda: x509.find_path([certificate], [], certificate, now))
said, name = io.StringIO(), "examples/data/certificate.der"
with contextlib.redirect_stdout(said), contextlib.redirect_stderr(said):
    assert main(["show", name]) == 0
    assert main(["verify", "--roots", name, "--time", now.isoformat(), name]) == 2
assert said.getvalue().removeprefix(certificate.to_text()).startswith("x509-cert: keys and signatures are those of the package cryptography"), said.getvalue()
for bad in (None, 5, object(), lambda part: bytes(64)):
    refused(TypeError, lambda: builder.sign(bad, None))
assert not [it for it in sys.modules if it.partition(".")[0] == "cryptography"]
print("done")
"""


class Alone(unittest.TestCase):
    def test_without_cryptography(self) -> None:
        ended = subprocess.run([sys.executable, "-B", "-c", ALONE], cwd=TOP, env=os.environ, capture_output=True, text=True)
        self.assertEqual((ended.stdout, ended.stderr, ended.returncode), ("done\n", "", 0))

    def test_cryptography_is_not_imported_before_it_is_asked_for(self) -> None:
        asked = "import sys, x509_cert; print([it for it in sys.modules if it.startswith('cryptography')])"
        ended = subprocess.run([sys.executable, "-B", "-c", asked], cwd=TOP, env=os.environ, capture_output=True, text=True)
        self.assertEqual((ended.stdout, ended.stderr), ("[]\n", ""))

    def test_the_library_by_its_folder(self) -> None:
        """X509_LIBRARY names the file, its folder, or a static library beside it, and nothing else."""
        library = os.environ.get("X509_LIBRARY")
        if not library:
            self.skipTest("the system finds the library")
        file = pathlib.Path(library) / "libx509.so" if pathlib.Path(library).is_dir() else pathlib.Path(library)
        asked = "import x509_cert; print(x509_cert.library_version())"
        for named, status in ((file, 0), (file.parent, 0), (file.parent / "libx509.a", 0), (TOP / "none.so", 1), (TOP / "none.a", 1)):
            if status == 0 and file.name != "libx509.so" and named != file:
                continue
            ended = subprocess.run([sys.executable, "-B", "-c", asked], env=os.environ | {"X509_LIBRARY": str(named)}, capture_output=True, text=True)
            self.assertEqual((ended.returncode, ended.stdout), (status, "" if status else "(0, 1, 0)\n"))


if __name__ == "__main__":
    unittest.main()
