"""The types: `mypy --strict` takes the package and a program over it, which also runs, and refuses what is of another type. All that is imported is exported.

usage: X509_LIBRARY=.../libx509.so PYTHONPATH=bindings/python/src python3 -m unittest discover -s bindings/python/tests
"""

from __future__ import annotations

import ast
import os
import pathlib
import shutil
import subprocess
import sys
import tempfile
import unittest

import x509_cert as ours

try:
    import cryptography
except ImportError:  # the test that asks it is left out then
    cryptography = None  # type: ignore[assignment]

HERE = pathlib.Path(__file__).resolve().parent
SOURCE = HERE.parent / "src"

# each line is of another type than is taken
WRONG = """\
import x509_cert as x509
x509.CRLNumber("5")
x509.DNSName(b"a")
x509.SubjectAlternativeName([x509.ObjectIdentifier("1.2.3")])
x509.CertificateBuilder().serial_number("5")
x509.CertificateBuilder().subject_name("CN=a")
x509.load_der_x509_certificate("a")
x509.UserNotice("a", None)
x509.ExtendedKeyUsage([])[0].none
"""


@unittest.skipIf(shutil.which("mypy") is None, "mypy isn't installed")
class Types(unittest.TestCase):
    def mypy(self, *words: str) -> tuple[int, str]:
        with tempfile.TemporaryDirectory() as folder:
            fixed = ["mypy", "--strict", "--no-warn-unused-ignores", "--ignore-missing-imports", "--no-error-summary", "--cache-dir", folder]
            ended = subprocess.run([*fixed, *words], capture_output=True, text=True, env=os.environ | {"MYPYPATH": str(SOURCE)}, cwd=folder)
        return ended.returncode, ended.stdout

    def test_package_and_program(self) -> None:
        self.assertEqual(self.mypy(str(SOURCE / "x509_cert"), str(HERE / "typed.py")), (0, ""))

    def test_refused(self) -> None:
        status, said = self.mypy("-c", WRONG)
        lines = {int(line.split(":")[1]) for line in said.splitlines() if ": error:" in line}
        self.assertEqual((status, lines), (1, set(range(2, WRONG.count("\n") + 1))), said)


class Exports(unittest.TestCase):
    def test_all_that_is_imported(self) -> None:
        parts = ast.parse((SOURCE / "x509_cert/__init__.py").read_text(encoding="utf-8")).body
        imported = {it.asname or it.name for part in parts if isinstance(part, ast.ImportFrom) for it in part.names}
        self.assertEqual(set(ours.__all__) | {"annotations"}, imported | {"annotations"})
        self.assertEqual(len(ours.__all__), len(set(ours.__all__)))
        self.assertTrue(all(hasattr(ours, name) for name in ours.__all__))

    def test_former_modules(self) -> None:
        """CRLs and paths are still found in the module that they stood in."""
        import x509_cert.builder
        import x509_cert.certificate
        import x509_cert.extensions

        for name in ("CertificateRevocationList", "RevokedCertificate", "load_der_x509_crl", "PathFault", "Verifier", "check_path"):
            self.assertIs(getattr(x509_cert.certificate, name), getattr(ours, name))
        self.assertIs(x509_cert.extensions.PrecertPoison, ours.PrecertPoison)
        self.assertIs(x509_cert.builder.Signer, ours.Signer)
        with self.assertRaises(AttributeError):
            x509_cert.certificate.none

    @unittest.skipIf(cryptography is None, "cryptography isn't installed")
    def test_program_runs(self) -> None:
        ended = subprocess.run([sys.executable, "-B", str(HERE / "typed.py")], capture_output=True, text=True, env=os.environ)
        self.assertEqual((ended.stdout, ended.stderr), ("done\n", ""))


if __name__ == "__main__":
    unittest.main()
