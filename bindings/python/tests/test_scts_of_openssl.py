"""Timestamps of certificates beside OpenSSL's SCT_validate: what the one calls signed the other does too, over certificates and timestamps with a bit otherwise.

The certificates are made ones of `test_timestamps.py`, and, where OPENSSL_SOURCES names the sources of OpenSSL, those of its test data with their logs. Strict DER
refuses some spoilt certificates that OpenSSL reads; nothing else may differ.

usage: X509_LIBRARY=.../libx509.so PYTHONPATH=bindings/python/src [OPENSSL_SOURCES=FOLDER] python3 -m unittest discover -s bindings/python/tests
"""

from __future__ import annotations

import base64
import configparser
import ctypes
import ctypes.util
import hashlib
import os
import pathlib
import random
import tempfile
import unittest

import x509_cert as x509

try:
    from cryptography.exceptions import InvalidSignature
    from cryptography.hazmat.primitives import serialization
    from cryptography.hazmat.primitives.asymmetric import ec, rsa
    from test_timestamps import Authority, Log, precertificate_entry
except ImportError as error:
    raise unittest.SkipTest("cryptography isn't there") from error

# SCT_set_log_entry_type of openssl/ct.h
PRECERT_ENTRY = 1
LATEST = (1 << 64) - 1


class Libcrypto:
    """The calls of OpenSSL's libcrypto on timestamps."""

    RESULTS = {
        ctypes.c_void_p: ("d2i_X509", "CTLOG_STORE_new", "CT_POLICY_EVAL_CTX_new", "o2i_SCT"),
        ctypes.c_int: ("CTLOG_STORE_load_file", "CT_POLICY_EVAL_CTX_set1_cert", "CT_POLICY_EVAL_CTX_set1_issuer", "SCT_set_log_entry_type", "SCT_validate", "i2d_re_X509_tbs"),
        None: ("X509_free", "CTLOG_STORE_free", "CT_POLICY_EVAL_CTX_free", "SCT_free", "CT_POLICY_EVAL_CTX_set_shared_CTLOG_STORE", "CT_POLICY_EVAL_CTX_set_time"),
    }

    def __init__(self) -> None:
        found = ctypes.util.find_library("crypto")
        if found is None:
            raise unittest.SkipTest("libcrypto isn't there")
        library = ctypes.CDLL(found)
        for result, names in self.RESULTS.items():
            for name in names:
                if not hasattr(library, name):
                    raise unittest.SkipTest(f"{found} has no {name}")
                call = getattr(library, name)
                call.restype = result
                setattr(self, name, call)

    def read(self, call: object, data: bytes) -> ctypes.c_void_p | None:
        """What a call reads of all the bytes; None where it is none."""
        at = ctypes.c_char_p(data)
        found = call(None, ctypes.byref(at), ctypes.c_long(len(data)))  # type: ignore[operator]
        return ctypes.c_void_p(found) if found else None


    def keeps(self, data: bytes) -> bool:
        """Whether OpenSSL encodes the signed part of the certificate that it reads as it stands there: of values of types that it doesn't know it makes others."""
        certificate = self.read(self.d2i_X509, data)  # type: ignore[attr-defined]
        if certificate is None:
            return False
        try:
            out = ctypes.create_string_buffer(2 * len(data))
            count = self.i2d_re_X509_tbs(certificate, ctypes.byref(ctypes.cast(out, ctypes.c_char_p)))  # type: ignore[attr-defined]
            return 0 < count <= len(out) and out.raw[:count] in data
        finally:
            self.X509_free(certificate)  # type: ignore[attr-defined]


class Logs:
    """Logs by their keys, in a store of OpenSSL."""

    def __init__(self, calls: Libcrypto, infos: list[bytes]) -> None:
        self.calls, self.store = calls, ctypes.c_void_p(calls.CTLOG_STORE_new())
        self.keys = {hashlib.sha256(it).digest(): it for it in infos}
        names = [f"log{at}" for at in range(len(infos))]
        lines = ["enabled_logs=" + ",".join(names)]
        for name, info in zip(names, infos):
            lines += [f"[{name}]", f"description = {name}", f"key = {base64.b64encode(info).decode()}"]
        with tempfile.NamedTemporaryFile("w", suffix=".cnf") as file:
            file.write("\n".join(lines) + "\n")
            file.flush()
            if calls.CTLOG_STORE_load_file(self.store, ctypes.c_char_p(file.name.encode())) != 1:
                raise AssertionError("OpenSSL doesn't take the logs")

    def says(self, timestamp: bytes, certificate: bytes, issuer: bytes) -> bool | None:
        """Whether OpenSSL calls the timestamp within the certificate valid; None where it reads one of the certificates not at all, or as another."""
        calls = self.calls
        if not calls.keeps(certificate) or not calls.keeps(issuer):
            return None
        context = ctypes.c_void_p(calls.CT_POLICY_EVAL_CTX_new())
        sct, read = calls.read(calls.o2i_SCT, timestamp), [calls.read(calls.d2i_X509, it) for it in (certificate, issuer)]
        try:
            if None in read:
                return None
            if sct is None:
                return False
            calls.CT_POLICY_EVAL_CTX_set_shared_CTLOG_STORE(context, self.store)
            calls.CT_POLICY_EVAL_CTX_set_time(context, ctypes.c_uint64(LATEST))
            taken = (calls.CT_POLICY_EVAL_CTX_set1_cert(context, read[0]), calls.CT_POLICY_EVAL_CTX_set1_issuer(context, read[1]))
            if taken != (1, 1) or calls.SCT_set_log_entry_type(sct, PRECERT_ENTRY) != 1:
                return False
            return calls.SCT_validate(sct, context) == 1
        finally:
            calls.SCT_free(sct)
            for it in read:
                calls.X509_free(it)
            calls.CT_POLICY_EVAL_CTX_free(context)

    def ours(self, timestamp: bytes, certificate: bytes, issuer: bytes) -> bool | None:
        """Whether the package calls it signed; None where one of the certificates isn't one in strict DER."""
        try:
            read = x509.Certificate(certificate), x509.Certificate(issuer)
        except x509.X509Error:
            return None
        try:
            it = x509.SignedCertificateTimestamp(timestamp)
            key = self.keys.get(it.log_id)
            if key is None:
                return False
            it.verify(key, *read)
        except (InvalidSignature, x509.X509Error, ValueError):
            return False
        return True


def spoilt(octets: bytes, bit: int) -> bytes:
    made = bytearray(octets)
    made[bit // 8] ^= 1 << bit % 8
    return bytes(made)


def algorithm_of(timestamp: bytes) -> range:
    """The two octets that say by which algorithms a timestamp is signed: OpenSSL doesn't look at them (RFC 5246 4.7)."""
    place = 43 + int.from_bytes(timestamp[41:43], "big")
    return range(place, place + 2)


def timestamps_of(certificate: bytes) -> list[bytes]:
    found = x509.Certificate(certificate).extensions.get_extension_for_class(x509.PrecertificateSignedCertificateTimestamps)
    return found.value.serialized


class Validated(unittest.TestCase):
    def setUp(self) -> None:
        self.calls, self.random = Libcrypto(), random.Random(6962)

    def compare(self, logs: Logs, certificate: bytes, issuer: bytes, count: int) -> None:
        """Each timestamp is signed, and with one bit otherwise somewhere the two say the same."""
        for timestamp in timestamps_of(certificate):
            given = [timestamp, certificate, issuer]
            self.assertEqual((logs.ours(*given), logs.says(*given)), (True, True))
            for place in range(3):
                for _ in range(count):
                    wrong, bit = list(given), self.random.randrange(8 * len(given[place]))
                    if place == 0 and bit // 8 in algorithm_of(timestamp):
                        continue
                    wrong[place] = spoilt(given[place], bit)
                    ours = logs.ours(*wrong)
                    if place == 2 and ours is not None and x509.Certificate(wrong[2]).public_key_bytes != x509.Certificate(issuer).public_key_bytes:
                        # OpenSSL hashes the key as it encodes it itself, and not as it stands (RFC 6962 3.2)
                        self.assertFalse(ours)
                        continue
                    theirs = logs.says(*wrong)
                    if None not in (ours, theirs):
                        self.assertEqual(ours, theirs, [it.hex() for it in wrong])

    def test_made(self) -> None:
        authority = Authority()
        made = [Log(ec.generate_private_key(ec.SECP256R1())), Log(rsa.generate_private_key(65537, 2048))]
        entry = precertificate_entry(authority.timestamped(b"").tbs_precertificate_bytes, authority)
        certificate = authority.timestamped(made[0].timestamp(entry), made[1].timestamp(entry, b"\xab"))
        logs = Logs(self.calls, [it.info for it in made])
        encoding = serialization.Encoding.DER
        self.compare(logs, certificate.public_bytes(encoding), authority.certificate.public_bytes(encoding), 400)

    @unittest.skipUnless("OPENSSL_SOURCES" in os.environ, "OPENSSL_SOURCES names no sources of OpenSSL")
    def test_data_of_openssl(self) -> None:
        data = pathlib.Path(os.environ["OPENSSL_SOURCES"], "test")
        listed = configparser.ConfigParser()
        listed.read_string("[all]\n" + (data / "ct" / "log_list.cnf").read_text(encoding="utf-8"))
        logs = Logs(self.calls, [base64.b64decode(listed[it]["key"]) for it in listed if "key" in listed[it]])
        for name in ("embeddedSCTs1", "embeddedSCTs3"):
            read = [x509.load_pem_x509_certificate((data / "certs" / f"{name}{it}.pem").read_bytes()).public_bytes() for it in ("", "_issuer")]
            self.assertTrue(timestamps_of(read[0]))
            self.compare(logs, read[0], read[1], 400)


if __name__ == "__main__":
    unittest.main()
