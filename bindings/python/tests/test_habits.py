"""The habits of `cryptography.x509`, in reading and in building: what it says of the same bytes, and what it makes of the same values, is what the package
does.

usage: X509_LIBRARY=.../libx509.so PYTHONPATH=bindings/python/src python3 -m unittest discover -s bindings/python/tests
"""

from __future__ import annotations

import datetime
import glob
import hashlib
import inspect
import pathlib
import unittest
import warnings
from typing import Any

import x509_cert as ours

try:
    from cryptography import x509 as theirs
    from cryptography.exceptions import InvalidSignature, UnsupportedAlgorithm
    from cryptography.hazmat._oid import _OID_NAMES
    from cryptography.hazmat.primitives import hashes, serialization
    from cryptography.hazmat.primitives.asymmetric import dsa, ec, ed448, ed25519, padding, rsa, x25519
    from cryptography.hazmat.primitives.serialization import Encoding, PublicFormat
except ImportError:  # the tests that ask it are left out then
    theirs = None  # type: ignore[assignment]

DATA = pathlib.Path(__file__).resolve().parents[3] / "examples/data"
NOW = datetime.datetime(2030, 1, 1, tzinfo=datetime.timezone.utc)
THEN = datetime.datetime(2031, 1, 1, tzinfo=datetime.timezone.utc)


def info(key: Any) -> bytes:
    return key.public_bytes(Encoding.DER, PublicFormat.SubjectPublicKeyInfo)


def raised(call: Any) -> Any:
    """What a call answers, or the type of what it raises."""
    try:
        return call()
    except (ValueError, TypeError, UnsupportedAlgorithm, InvalidSignature) as error:
        return "refused", isinstance(error, ValueError), isinstance(error, UnsupportedAlgorithm), isinstance(error, InvalidSignature)


def parameters(given: Any) -> Any:
    """The parameters of a signature, as plain values."""
    if isinstance(given, padding.PSS):
        return "PSS", given.mgf._algorithm.name, given._salt_length
    return (type(given).__name__, given.algorithm.name) if isinstance(given, ec.ECDSA) else type(given).__name__


@unittest.skipIf(theirs is None, "cryptography isn't installed")
class Reading(unittest.TestCase):
    keys: dict[str, Any]

    @classmethod
    def setUpClass(cls) -> None:
        cls.keys = {
            "rsa": rsa.generate_private_key(65537, 2048),
            "dsa": dsa.generate_private_key(2048),
            "p256": ec.generate_private_key(ec.SECP256R1()),
            "p384": ec.generate_private_key(ec.SECP384R1()),
            "p521": ec.generate_private_key(ec.SECP521R1()),
            "k256": ec.generate_private_key(ec.SECP256K1()),
            "ed25519": ed25519.Ed25519PrivateKey.generate(),
            "ed448": ed448.Ed448PrivateKey.generate(),
        }

    def certificates(self) -> list[bytes]:
        """Those of the system's store, and one for each way to sign."""
        found = [(DATA / "certificate.der").read_bytes(), *(one.public_bytes(Encoding.DER) for one in self.made())]
        for file in sorted(glob.glob("/etc/ssl/certs/*.pem")):
            with open(file, "rb") as it, warnings.catch_warnings():
                warnings.simplefilter("ignore")
                found.append(theirs.load_pem_x509_certificate(it.read()).public_bytes(Encoding.DER))
        return list(dict.fromkeys(found))

    def made(self) -> list[Any]:
        name = theirs.Name([theirs.NameAttribute(theirs.NameOID.COMMON_NAME, "a")])
        made = []
        for key, hashed, pads in self.ways():
            builder = theirs.CertificateBuilder().issuer_name(name).subject_name(name).public_key(key.public_key()).serial_number(5)
            builder = builder.not_valid_before(NOW).not_valid_after(THEN)
            made.append(builder.sign(key, hashed, **({} if pads is None else {"rsa_padding": pads})))
        return made

    def ways(self) -> list[tuple[Any, Any, Any]]:
        """Private keys with a hash, and for RSA a padding."""
        sha2 = [hashes.SHA224(), hashes.SHA256(), hashes.SHA384(), hashes.SHA512()]
        sha3 = [hashes.SHA3_224(), hashes.SHA3_256(), hashes.SHA3_384(), hashes.SHA3_512()]
        pads = [None, padding.PKCS1v15()]
        found = [(self.keys["rsa"], it, pad) for it in sha2 + sha3 for pad in pads]
        for one, mask in ((hashes.SHA256(), hashes.SHA256()), (hashes.SHA512(), hashes.SHA384()), (hashes.SHA384(), hashes.SHA224())):
            lengths = (20, 32, 0, padding.PSS.DIGEST_LENGTH, padding.PSS.MAX_LENGTH)
            found += [(self.keys["rsa"], one, padding.PSS(padding.MGF1(mask), length)) for length in lengths]
        found += [(self.keys[name], it, None) for name in ("p256", "p384", "p521", "k256") for it in sha2 + sha3]
        # it writes DSA with SHA-384 and SHA-512, and doesn't read them
        found += [(self.keys["dsa"], it, None) for it in sha2[:2]]
        return [*found, (self.keys["ed25519"], None, None), (self.keys["ed448"], None, None)]

    def test_of_certificates(self) -> None:
        data = self.certificates()
        self.assertGreater(len(data), 50)
        for one in data:
            our = ours.load_der_x509_certificate(one)
            with self.subTest(our.subject), warnings.catch_warnings():
                warnings.simplefilter("ignore")
                their = theirs.load_der_x509_certificate(one)
                self.assertEqual(our.version.value, their.version.value)
                self.assertEqual((our.version.name, our.version.number), (their.version.name, their.version.value + 1))
                self.assertEqual(our.public_key(), their.public_key())
                self.assertEqual(our.signature_algorithm_oid.dotted_string, their.signature_algorithm_oid.dotted_string)
                self.assertEqual(our.signature_algorithm_oid._name, their.signature_algorithm_oid._name)
                hashed, their_hash = our.signature_hash_algorithm, their.signature_hash_algorithm
                self.assertEqual(getattr(hashed, "name", None), getattr(their_hash, "name", None))
                self.assertIs(type(hashed), type(their_hash))
                self.assertEqual(parameters(our.signature_algorithm_parameters), parameters(their.signature_algorithm_parameters))
                self.signed_by_itself(our, their)
                self.written(our, their)
                for extension, other in zip(our.extensions, their.extensions, strict=True):
                    self.assertEqual(extension.oid._name, other.oid._name)

    def signed_by_itself(self, our: ours.Certificate, their: Any) -> None:
        self.assertEqual(raised(lambda: our.verify_directly_issued_by(our)), raised(lambda: their.verify_directly_issued_by(their)))

    def written(self, our: ours.Certificate, their: Any) -> None:
        self.assertEqual(our.public_bytes(Encoding.PEM), their.public_bytes(Encoding.PEM))
        self.assertEqual(our.public_bytes(ours.Encoding.PEM), their.public_bytes(Encoding.PEM))
        self.assertEqual(our.public_bytes(ours.Encoding.DER), their.public_bytes(Encoding.DER))
        self.assertEqual(our.public_bytes(Encoding.DER), our.public_bytes())
        for it in (hashes.SHA1(), hashes.SHA256(), hashes.SHA3_256(), hashes.SHA512_256(), hashes.BLAKE2b(64)):
            self.assertEqual(our.fingerprint(it), their.fingerprint(it))

    def test_signatures(self) -> None:
        """Each way of signing verifies, and with a changed bit, another key, another name or another algorithm it doesn't."""
        other = theirs.Name([theirs.NameAttribute(theirs.NameOID.COMMON_NAME, "b")])
        wrong = self.made_by(self.keys["p256"], other)
        stranger = self.made_by(ec.generate_private_key(ec.SECP256R1()))
        encrypting = self.made_by(self.keys["p256"], public=x25519.X25519PrivateKey.generate().public_key())
        for their in self.made():
            our = ours.load_der_x509_certificate(their.public_bytes(Encoding.DER))
            with self.subTest(their.signature_algorithm_oid.dotted_string):
                self.assertIsNone(our.verify_directly_issued_by(our))
                spoilt = bytearray(our.public_bytes())
                spoilt[-1] ^= 1
                with self.assertRaises(InvalidSignature):
                    ours.load_der_x509_certificate(spoilt).verify_directly_issued_by(our)
                for issuer in (wrong, stranger, encrypting):
                    ours_ = raised(lambda: our.verify_directly_issued_by(ours.load_der_x509_certificate(issuer.public_bytes(Encoding.DER))))
                    self.assertEqual(ours_, raised(lambda: their.verify_directly_issued_by(issuer)))
                    self.assertEqual(ours_[0], "refused")
        with self.assertRaises(TypeError):
            our.verify_directly_issued_by(our.public_bytes())

    def test_spoilt(self) -> None:
        """What can't be read or isn't known is said by the errors that are named, whichever octet is another."""
        named = (ours.X509Error, UnsupportedAlgorithm, InvalidSignature, ValueError)
        # of a key of a kind that verifies nothing
        no_verifier = "a key of that kind verifies no signatures"
        key, public = self.keys["p256"], self.keys["p256"].public_key()
        pss = padding.PSS(padding.MGF1(hashes.SHA256()), 32)
        name = theirs.Name([])
        builder = theirs.CertificateSigningRequestBuilder().subject_name(name)
        crl = theirs.CertificateRevocationListBuilder().issuer_name(name).last_update(NOW).next_update(THEN)
        of_rsa = builder.sign(self.keys["rsa"], hashes.SHA256(), rsa_padding=pss).public_bytes(Encoding.DER)
        for data, load in (
            (of_rsa, ours.load_der_x509_csr),
            (builder.sign(key, hashes.SHA256()).public_bytes(Encoding.DER), ours.load_der_x509_csr),
            (crl.sign(key, hashes.SHA256()).public_bytes(Encoding.DER), ours.load_der_x509_crl),
            (self.made_by(key).public_bytes(Encoding.DER), ours.load_der_x509_certificate),
        ):
            changes = [(at, octet) for at in range(len(data)) for octet in {0, 1, 0x30, 0xFF, data[at] ^ 1} - {data[at]}]
            for at, octet in changes[:: 1 + len(changes) // 3000]:
                try:
                    found = load(data[:at] + bytes([octet]) + data[at + 1 :])
                except ours.X509Error:
                    continue
                for asked in (
                    lambda: found.signature_hash_algorithm,
                    lambda: found.signature_algorithm_parameters,
                    lambda: found.public_key(),
                    lambda: found.public_key_info.key_size,
                    lambda: found.public_key_info.curve,
                    lambda: self.assertIs(found.is_signature_valid, False) if load is ours.load_der_x509_csr else None,
                    lambda: self.assertIs(found.is_signature_valid(public), False) if load is ours.load_der_x509_crl else None,
                    lambda: found.verify_directly_issued_by(found) if load is ours.load_der_x509_certificate else None,
                ):
                    try:
                        asked()
                    except AttributeError as error:
                        # a CRL has no key
                        self.assertIn("public_key", str(error))
                    except TypeError as error:
                        self.assertEqual(str(error), no_verifier)
                    except named:
                        continue

    def test_dsa_with_longer_hashes(self) -> None:
        """RFC 5758 3.1 leaves them out, and others have them (NIST's register); `cryptography` signs so."""
        for hashed in (hashes.SHA384(), hashes.SHA512()):
            their = theirs.CertificateSigningRequestBuilder().subject_name(theirs.Name([])).sign(self.keys["dsa"], hashed)
            our = ours.load_der_x509_csr(their.public_bytes(Encoding.DER))
            self.assertEqual((our.is_signature_valid, our.signature_hash_algorithm.name), (True, hashed.name))
            again = ours.CertificateSigningRequestBuilder().subject_name(ours.Name([])).sign(self.keys["dsa"], hashed)
            self.assertEqual((again.signature_algorithm, again.is_signature_valid), (our.signature_algorithm, True))

    def made_by(self, key: Any, subject: Any = None, public: Any = None) -> Any:
        name = theirs.Name([theirs.NameAttribute(theirs.NameOID.COMMON_NAME, "a")])
        builder = theirs.CertificateBuilder().issuer_name(name).subject_name(subject or name).public_key(public or key.public_key())
        return builder.serial_number(5).not_valid_before(NOW).not_valid_after(THEN).sign(key, hashes.SHA256())

    def test_another_algorithm_inside(self) -> None:
        """RFC 5280 4.1.1.2: SHA-384 in place of SHA-256 outside the signed part."""
        data = self.made_by(self.keys["p256"]).public_bytes(Encoding.DER)
        at = data.rindex(bytes.fromhex("06082a8648ce3d040302"))
        changed = data[:at] + bytes.fromhex("06082a8648ce3d040303") + data[at + 10 :]
        our, their = ours.load_der_x509_certificate(changed), theirs.load_der_x509_certificate(changed)
        for refused in (lambda: our.verify_directly_issued_by(our), lambda: their.verify_directly_issued_by(their)):
            with self.assertRaises(ValueError):
                refused()

    def test_unknown_algorithms(self) -> None:
        data = (DATA / "certificate.der").read_bytes()
        our = ours.load_der_x509_certificate(data)
        # the last octet of the identifier, inside and outside: 1.2.840.113549.1.1.11 becomes .99
        oid = our.signature_algorithm_oid.content
        changed = ours.load_der_x509_certificate(data.replace(oid, oid[:-1] + b"\x63"))
        with self.assertRaises(UnsupportedAlgorithm):
            changed.signature_hash_algorithm
        with self.assertRaises(UnsupportedAlgorithm):
            changed.signature_algorithm_parameters
        with self.assertRaises(UnsupportedAlgorithm):
            (
                changed.verify_directly_issued_by(our)
                if changed.issuer == our.subject
                else our._verify(changed.public_key_bytes) or changed._verify(our.public_key_bytes)
            )

    def test_of_crls(self) -> None:
        name = theirs.Name([theirs.NameAttribute(theirs.NameOID.COMMON_NAME, "a")])
        other = ec.generate_private_key(ec.SECP256R1()).public_key()
        for key, hashed, pads in self.ways():
            builder = theirs.CertificateRevocationListBuilder().issuer_name(name).last_update(NOW).next_update(THEN)
            for number in (1, 2, 3):
                entry = theirs.RevokedCertificateBuilder().serial_number(number).revocation_date(NOW).build()
                builder = builder.add_revoked_certificate(entry)
            their = builder.sign(key, hashed, **({} if pads is None else {"rsa_padding": pads}))
            our = ours.load_der_x509_crl(their.public_bytes(Encoding.DER))
            with self.subTest(their.signature_algorithm_oid.dotted_string):
                self.assertEqual(our.public_bytes(Encoding.PEM), their.public_bytes(Encoding.PEM))
                self.assertEqual(getattr(our.signature_hash_algorithm, "name", None), getattr(their.signature_hash_algorithm, "name", None))
                self.assertEqual(parameters(our.signature_algorithm_parameters), parameters(their.signature_algorithm_parameters))
                self.assertEqual(our.fingerprint(hashes.SHA256()), their.fingerprint(hashes.SHA256()))
                public = key.public_key()
                for given in (public, info(public), ours.PublicKey(info(public))):
                    self.assertIs(our.is_signature_valid(given), True)
                self.assertEqual((our.is_signature_valid(other), their.is_signature_valid(other)), (False, False))
                spoilt = bytearray(our.public_bytes())
                spoilt[-1] ^= 1
                self.assertIs(ours.load_der_x509_crl(spoilt).is_signature_valid(public), False)
                self.assertEqual([it.serial_number for it in our[1:]], [it.serial_number for it in their[1:]])
                self.assertEqual([it.serial_number for it in our[::-2]], [3, 1])
        for crl in (our, their):
            with self.assertRaises(TypeError):
                crl.is_signature_valid(x25519.X25519PrivateKey.generate().public_key())
            with self.assertRaises(TypeError):
                crl.is_signature_valid(None)

    def test_of_csrs(self) -> None:
        name = theirs.Name([theirs.NameAttribute(theirs.NameOID.COMMON_NAME, "a")])
        for key, hashed, pads in self.ways():
            builder = theirs.CertificateSigningRequestBuilder().subject_name(name).add_attribute(theirs.oid.AttributeOID.CHALLENGE_PASSWORD, b"word")
            their = builder.sign(key, hashed, **({} if pads is None else {"rsa_padding": pads}))
            our = ours.load_der_x509_csr(their.public_bytes(Encoding.DER))
            with self.subTest(their.signature_algorithm_oid.dotted_string):
                self.assertEqual(our.public_bytes(Encoding.PEM), their.public_bytes(Encoding.PEM))
                self.assertEqual(our.public_key(), their.public_key())
                self.assertEqual(getattr(our.signature_hash_algorithm, "name", None), getattr(their.signature_hash_algorithm, "name", None))
                self.assertEqual(parameters(our.signature_algorithm_parameters), parameters(their.signature_algorithm_parameters))
                self.assertIs(our.is_signature_valid, True)
                spoilt = bytearray(our.public_bytes())
                spoilt[-1] ^= 1
                self.assertIs(ours.load_der_x509_csr(spoilt).is_signature_valid, False)
                found = our.attributes.get_attribute_for_oid(ours.AttributeOID.CHALLENGE_PASSWORD)
                self.assertEqual([it._type for it in our.attributes], [it._type for it in their.attributes])
                self.assertEqual(found.value, their.attributes.get_attribute_for_oid(theirs.oid.AttributeOID.CHALLENGE_PASSWORD).value)
        with self.assertRaises(ours.AttributeNotFound):
            our.attributes.get_attribute_for_oid(ours.AttributeOID.UNSTRUCTURED_NAME)

    def test_names_of_identifiers(self) -> None:
        for oid, name in _OID_NAMES.items():
            self.assertEqual(ours.ObjectIdentifier(oid.dotted_string)._name, name)
        self.assertEqual(ours.ObjectIdentifier("1.2.3")._name, theirs.ObjectIdentifier("1.2.3")._name)
        count = 0
        for kind in (it for name, it in inspect.getmembers(ours) if name.endswith("OID")):
            their = getattr(theirs, kind.__name__, None) or getattr(theirs.oid, kind.__name__, None)
            self.assertIsNotNone(their, kind)
            for name, oid in vars(kind).items():
                if isinstance(oid, ours.ObjectIdentifier):
                    self.assertNotEqual(oid._name, "Unknown OID" if hasattr(their, name) and getattr(their, name)._name != "Unknown OID" else None)
                    if hasattr(their, name):
                        self.assertEqual(oid.dotted_string, getattr(their, name).dotted_string)
                        count += 1
        self.assertGreater(count, 100)

    def test_keys(self) -> None:
        """The numbers of a key, as `cryptography` says them."""
        for key in self.keys.values():
            public, found = key.public_key(), ours.PublicKey(info(key.public_key()))
            self.assertEqual(found.public_bytes(Encoding.PEM), public.public_bytes(Encoding.PEM, PublicFormat.SubjectPublicKeyInfo))
            self.assertEqual(found.public_bytes(Encoding.PEM, PublicFormat.SubjectPublicKeyInfo), found.public_bytes(ours.Encoding.PEM))
            if isinstance(public, rsa.RSAPublicKey):
                numbers = public.public_numbers()
                self.assertEqual((found.modulus, found.exponent, found.key_size), (numbers.n, numbers.e, public.key_size))
                self.assertEqual((found.curve, found.curve_oid, found.point), (None, None, None))
            elif isinstance(public, ec.EllipticCurvePublicKey):
                point = public.public_bytes(Encoding.X962, PublicFormat.UncompressedPoint)
                self.assertEqual((found.curve, found.key_size, found.point), (public.curve.name, public.key_size, point))
                self.assertEqual((found.modulus, found.exponent), (None, None))
            elif isinstance(public, dsa.DSAPublicKey):
                self.assertEqual((found.key_size, found.modulus, found.point), (public.key_size, None, None))
            else:
                self.assertEqual((found.point, found.curve), (public.public_bytes_raw(), None))
                self.assertEqual(found.key_size, 8 * len(public.public_bytes_raw()))
        with self.assertRaises(ValueError):
            found.public_bytes(Encoding.DER, PublicFormat.PKCS1)

    def test_keys_that_are_none(self) -> None:
        """RFC 8017 A.1.1: bits that aren't two numbers are no RSA key, and it is said when they are asked for."""
        front = bytes.fromhex("300d06092a864886f70d0101010500")
        for bits in ("", "0500", "3000", "3003020105", "3006020105020103" "00", "30090201050201030201" "07", "3006020105020182", "300602010502ff03"):
            content = b"\x00" + bytes.fromhex(bits)
            whole = front + bytes([3, len(content)]) + content
            key = ours.PublicKey(bytes([0x30, len(whole)]) + whole)
            self.assertIsNone(key.key_size)
            for asked in ("modulus", "exponent"):
                with self.subTest(bits, asked=asked), self.assertRaises(ours.X509Error):
                    getattr(key, asked)


@unittest.skipIf(theirs is None, "cryptography isn't installed")
class Building(unittest.TestCase):
    """The builders with keys of `cryptography`: the bytes that are signed are those that its own builders make of the same values."""

    setUpClass = Reading.__dict__["setUpClass"]
    ways = Reading.ways

    def both(self, kind: str) -> tuple[Any, Any]:
        return getattr(ours, kind)(), getattr(theirs, kind)()

    def names(self, text: str) -> tuple[Any, Any]:
        return tuple(it.Name([it.NameAttribute(it.NameOID.COMMON_NAME, text)]) for it in (ours, theirs))

    def test_certificates(self) -> None:
        for key, hashed, pads in self.ways():
            made = []
            for x509, name, other in zip((ours, theirs), self.names("a"), self.names("b")):
                public = key.public_key()
                builder = x509.CertificateBuilder().serial_number(5).issuer_name(name).subject_name(other).public_key(public)
                builder = builder.not_valid_before(NOW).not_valid_after(THEN)
                builder = builder.add_extension(x509.BasicConstraints(ca=True, path_length=None), critical=True)
                builder = builder.add_extension(x509.SubjectKeyIdentifier.from_public_key(public), critical=False)
                builder = builder.add_extension(x509.AuthorityKeyIdentifier.from_issuer_public_key(public), critical=False)
                words = {} if pads is None else {"rsa_padding": pads}
                made.append(builder.sign(key, hashed, **words))
                named = builder.sign(private_key=key, algorithm=hashed, **words)
                self.assertEqual(named.tbs_certificate_bytes, made[-1].tbs_certificate_bytes)
            with self.subTest(made[1].signature_algorithm_oid.dotted_string):
                self.assertEqual(made[0].tbs_certificate_bytes, made[1].tbs_certificate_bytes)
                self.verified(made[0], key)

    def verified(self, made: ours.Certificate, key: Any) -> None:
        """`cryptography` takes the signature."""
        name = theirs.Name([theirs.NameAttribute(theirs.NameOID.COMMON_NAME, "a")])
        issuer = theirs.CertificateBuilder().serial_number(1).issuer_name(name).subject_name(name).public_key(key.public_key())
        issuer = issuer.not_valid_before(NOW).not_valid_after(THEN)
        hashed = None if isinstance(key, (ed25519.Ed25519PrivateKey, ed448.Ed448PrivateKey)) else hashes.SHA256()
        theirs.load_der_x509_certificate(made.public_bytes()).verify_directly_issued_by(issuer.sign(key, hashed))

    def test_crls(self) -> None:
        for key, hashed, pads in self.ways():
            made = []
            for x509, name in zip((ours, theirs), self.names("a")):
                builder = x509.CertificateRevocationListBuilder().issuer_name(name).last_update(NOW).next_update(THEN)
                builder = builder.add_extension(x509.CRLNumber(7), critical=False)
                builder = builder.add_extension(x509.AuthorityKeyIdentifier.from_issuer_public_key(key.public_key()), critical=False)
                entry = x509.RevokedCertificateBuilder().serial_number(3).revocation_date(NOW)
                entry = entry.add_extension(x509.CRLReason(x509.ReasonFlags.key_compromise), critical=False)
                entry = entry.add_extension(x509.InvalidityDate(NOW if x509 is ours else NOW.replace(tzinfo=None)), critical=False)
                builder = builder.add_revoked_certificate(entry.build())
                made.append(builder.sign(key, hashed, **({} if pads is None else {"rsa_padding": pads})))
            with self.subTest(made[1].signature_algorithm_oid.dotted_string):
                self.assertEqual(made[0].tbs_certlist_bytes, made[1].tbs_certlist_bytes)
                self.assertTrue(theirs.load_der_x509_crl(made[0].public_bytes()).is_signature_valid(key.public_key()))

    def test_issuers_of_crls(self) -> None:
        key = self.keys["p256"]
        name, _ = self.names("a")
        builder = ours.CertificateRevocationListBuilder().issuer_name(name).last_update(NOW).crl_number(1)
        # the private key that signs has the identifier (RFC 5280 4.2.1.2), and a signer has none
        made = builder.sign(key, hashes.SHA256())
        aki = made.extensions.get_extension_for_class(ours.AuthorityKeyIdentifier).value
        self.assertEqual(aki, ours.AuthorityKeyIdentifier.from_issuer_public_key(key.public_key()))
        self.assertEqual((made.issuer, made.next_update_utc, len(made.extensions)), (name, None, 2))
        ED25519 = ours.SignatureAlgorithm.ED25519
        given = builder.add_extension(ours.AuthorityKeyIdentifier(b"abc", None, None), critical=False)
        by_signer = given.sign(ED25519, lambda part: bytes(64))
        self.assertEqual(by_signer.extensions.get_extension_for_class(ours.AuthorityKeyIdentifier).value.key_identifier, b"abc")
        self.assertEqual(given.sign(key, hashes.SHA256()).extensions[1].data, by_signer.extensions[1].data)
        # it is what the issuer's certificate with that name and identifier makes of it
        issuer = ours.CertificateBuilder().serial_number(5).issuer_name(name).subject_name(name).public_key(key.public_key())
        issuer = issuer.not_valid_before(NOW).not_valid_after(THEN).add_extension(ours.SubjectKeyIdentifier(b"abc"), critical=False)
        by_certificate = ours.CertificateRevocationListBuilder().issuer(issuer.sign(key, hashes.SHA256())).last_update(NOW).crl_number(1)
        self.assertEqual(by_certificate.sign(ED25519, lambda part: bytes(64)), by_signer)
        for refused in (
            lambda: builder.sign(ED25519, lambda part: bytes(64)),
            lambda: builder.tbs_certlist_bytes(ED25519),
            lambda: builder.issuer(issuer.sign(key, hashes.SHA256())),
            lambda: by_certificate.issuer_name(name),
            lambda: builder.issuer_name(name),
            lambda: builder.add_extension(ours.CRLNumber(5), critical=False),
            lambda: given.add_extension(ours.AuthorityKeyIdentifier(b"abc", None, None), critical=False),
            lambda: builder.add_extension(ours.AuthorityKeyIdentifier(b"abc", None, None), critical=True),
            lambda: builder.add_extension(ours.AuthorityKeyIdentifier(None, None, None), critical=False),
            lambda: builder.add_extension(ours.AuthorityKeyIdentifier(b"abc", [ours.DNSName("a")], 5), critical=False),
            lambda: builder.add_extension(ours.UnrecognizedExtension(ours.ExtensionOID.CRL_NUMBER, b"\x02\x01\x05"), critical=False),
            lambda: by_certificate.add_extension(ours.CRLNumber(5), critical=False),
        ):
            with self.assertRaises((ValueError, TypeError)):
                refused()

    def test_csrs(self) -> None:
        for key, hashed, pads in self.ways():
            made = []
            for x509, name in zip((ours, theirs), self.names("a")):
                builder = x509.CertificateSigningRequestBuilder().subject_name(name)
                builder = builder.add_extension(x509.SubjectAlternativeName([x509.DNSName("a.example")]), critical=False)
                made.append(builder.sign(key, hashed, **({} if pads is None else {"rsa_padding": pads})))
            with self.subTest(made[1].signature_algorithm_oid.dotted_string):
                self.assertEqual(made[0].tbs_certrequest_bytes, made[1].tbs_certrequest_bytes)
                self.assertTrue(theirs.load_der_x509_csr(made[0].public_bytes()).is_signature_valid)

    def test_profiles(self) -> None:
        """The methods for certificates of a kind take keys too, and do just what they do with an algorithm and a signer."""
        key = self.keys["ed25519"]
        name, algorithm = ours.Name.from_rfc4514_string("CN=R,O=O,C=DE"), ours.SignatureAlgorithm.ED25519
        builder = ours.CertificateBuilder().serial_number(5).public_key(key.public_key()).not_valid_before(NOW).not_valid_after(THEN)
        under = builder.subject_name(ours.Name.from_rfc4514_string("CN=a.example")).issuer_name(name)
        hardware = ours.OtherName(ours.ObjectIdentifier("1.3.6.1.5.5.7.8.4"), bytes.fromhex("300706022a03040105"))
        for made, words in (
            (builder.subject_name(name).sign_root, {}),
            (under.sign_subordinate, {"issuer_public_key": key.public_key(), "path_length": 0}),
            (under.sign_subscriber, {"issuer_public_key": key.public_key()}),
            (under.sign_device, {"issuer_public_key": key.public_key(), "names": [hardware]}),
        ):
            with self.subTest(made.__name__):
                expected = made(algorithm, key.sign, **words)
                self.assertEqual(made(key, None, **words), expected)
                self.assertEqual(made(private_key=key, algorithm=None, **words), expected)
                by_bytes = {name: info(it) if name == "issuer_public_key" else it for name, it in words.items()}
                self.assertEqual(made(algorithm.public_bytes(), key.sign, **by_bytes), expected)

    def test_keys_of_ml_dsa(self) -> None:
        """RFC 9881, of which `cryptography` has the keys and no certificates."""
        try:
            from cryptography.hazmat.primitives.asymmetric import mldsa

            keys = [kind.generate() for kind in (mldsa.MLDSA44PrivateKey, mldsa.MLDSA65PrivateKey, mldsa.MLDSA87PrivateKey)]
        except (ImportError, UnsupportedAlgorithm):
            self.skipTest("cryptography has no ML-DSA")
        name, _ = self.names("a")
        builder = ours.CertificateBuilder().serial_number(5).issuer_name(name).subject_name(name).not_valid_before(NOW).not_valid_after(THEN)
        for key, size in zip(keys, (44, 65, 87)):
            made = builder.public_key(key.public_key()).sign(key, None)
            self.assertEqual(made.signature_algorithm, getattr(ours.SignatureAlgorithm, f"ML_DSA_{size}"))
            self.assertEqual((made.public_key(), made.signature_hash_algorithm), (key.public_key(), None))
            key.public_key().verify(made.signature, made.tbs_certificate_bytes)
            made.verify_directly_issued_by(made)
            for other in (it for it in keys if it is not key):
                with self.assertRaises((ValueError, InvalidSignature)):
                    made.verify_directly_issued_by(builder.public_key(other.public_key()).sign(other, None))

    def test_what_is_refused(self) -> None:
        name, _ = self.names("a")
        builder = ours.CertificateBuilder().serial_number(5).issuer_name(name).subject_name(name).not_valid_before(NOW).not_valid_after(THEN)
        builder = builder.public_key(self.keys["p256"].public_key())
        csr = ours.CertificateSigningRequestBuilder().subject_name(name).public_key(self.keys["p384"].public_key())
        pss = padding.PSS(padding.MGF1(hashes.SHA256()), padding.PSS.AUTO)
        for refused in (
            lambda: builder.sign(self.keys["ed25519"], hashes.SHA256()),
            lambda: builder.sign(self.keys["p256"], None),
            lambda: builder.sign(self.keys["p256"], "sha256"),
            lambda: builder.sign(self.keys["rsa"], hashes.SHA256(), rsa_padding=pss),
            lambda: builder.sign(self.keys["rsa"], hashes.SHA256(), rsa_padding=padding.OAEP(padding.MGF1(hashes.SHA256()), hashes.SHA256(), None)),
            lambda: builder.sign(self.keys["p256"], hashes.SHA256(), rsa_padding=padding.PKCS1v15()),
            lambda: builder.sign(ours.SignatureAlgorithm.ED25519, lambda part: bytes(64), rsa_padding=padding.PKCS1v15()),
            lambda: builder.sign(x25519.X25519PrivateKey.generate(), None),
            lambda: builder.sign(self.keys["p256"].public_key(), hashes.SHA256()),
            lambda: builder.sign(hashes.SHA256(), lambda part: bytes(64), private_key=self.keys["p256"]),
            lambda: builder.sign(),
            lambda: csr.sign(self.keys["p256"], hashes.SHA256()),
            lambda: builder.public_key(ours.load_der_x509_certificate((DATA / "certificate.der").read_bytes())),
            lambda: ours.SubjectKeyIdentifier.from_public_key(name),
            lambda: ours.SubjectKeyIdentifier.from_public_key(b"\x30\x00"),
        ):
            with self.assertRaises((ValueError, TypeError)):
                refused()
        sha1 = padding.PSS(padding.MGF1(hashes.SHA256()), 20)
        for words in ((self.keys["p256"], hashes.SHA1()), (self.keys["rsa"], hashes.MD5()), (self.keys["p256"], hashes.BLAKE2b(64))):
            with self.assertRaises(UnsupportedAlgorithm):
                builder.sign(*words)
        with self.assertRaises(UnsupportedAlgorithm):
            builder.sign(self.keys["rsa"], hashes.SHA1(), rsa_padding=sha1)

    def test_paths(self) -> None:
        """A path is of certificates, of their DER, or of both, and `cryptography` verifies where nobody else does."""
        root_key, middle_key, key = self.keys["p256"], self.keys["rsa"], self.keys["ed25519"]
        name = ours.Name.from_rfc4514_string("CN=R,O=O,C=DE")
        middle_name = ours.Name.from_rfc4514_string("CN=M,C=DE")
        builder = ours.CertificateBuilder().not_valid_before(NOW).not_valid_after(THEN)
        root = builder.serial_number(1).subject_name(name).public_key(root_key.public_key()).sign_root(root_key, hashes.SHA256())
        under = builder.serial_number(2).issuer_name(name).subject_name(middle_name).public_key(middle_key.public_key())
        middle = under.sign_subordinate(root_key, hashes.SHA256(), root_key.public_key())
        leaf = builder.serial_number(3).issuer_name(middle_name).subject_name(ours.Name.from_rfc4514_string("CN=a.example"))
        leaf = leaf.public_key(key.public_key()).sign_subscriber(middle_key, hashes.SHA256(), middle_key.public_key())
        for anchor in (root, root.public_bytes(), bytearray(root.public_bytes())):
            for path in ([middle, leaf], (middle.public_bytes(), leaf), iter([middle, memoryview(leaf.public_bytes())])):
                self.assertEqual(ours.check_path(anchor, path, NOW), [middle, leaf])
        spoilt = bytearray(leaf.public_bytes())
        spoilt[-1] ^= 1
        for path, place in (([middle, bytes(spoilt)], 1), ([leaf, middle], 0)):
            with self.assertRaises(ours.PathFault) as refused:
                ours.check_path(root, path, NOW)
            self.assertEqual(refused.exception.place, place)
        for bad in (root.public_bytes(), [None], 5):
            with self.assertRaises(TypeError):
                ours.check_path(root, bad, NOW)
        with self.assertRaises(TypeError):
            ours.check_path(None, [root], NOW)
        with self.assertRaises(ValueError):
            ours.check_path(root, [], NOW)

    def test_random_serial_numbers(self) -> None:
        found = {ours.random_serial_number() for _ in range(100)}
        self.assertEqual(len(found), 100)
        self.assertTrue(all(0 < it < 1 << 159 for it in found))
        self.assertTrue(any(it >> 158 for it in found) and any(not it >> 158 for it in found))
        ours.CertificateBuilder().serial_number(ours.random_serial_number())

    def test_algorithms(self) -> None:
        """The constants are what `cryptography` writes, with the salt of PSS as long as the digest."""
        found = {}
        name, _ = self.names("a")
        builder = ours.CertificateBuilder().serial_number(5).issuer_name(name).subject_name(name).not_valid_before(NOW).not_valid_after(THEN)
        builder = builder.public_key(self.keys["p256"].public_key())
        for size, hashed in ((256, hashes.SHA256()), (384, hashes.SHA384()), (512, hashes.SHA512())):
            pss = padding.PSS(padding.MGF1(hashed), padding.PSS.DIGEST_LENGTH)
            for way, key, words in (("RSA", "rsa", {}), ("RSA_PSS", "rsa", {"rsa_padding": pss}), ("ECDSA", "p256", {})):
                found[f"{way}_SHA{size}"] = self.their_algorithm(self.keys[key], hashed, words)
        found |= {"DSA_SHA256": self.their_algorithm(self.keys["dsa"], hashes.SHA256(), {})}
        found |= {it.upper(): self.their_algorithm(self.keys[it], None, {}) for it in ("ed25519", "ed448")}
        # RFC 9881 2: the identifiers of NIST's register, without parameters
        found |= {f"ML_DSA_{size}": bytes.fromhex(f"300b060960864801650304031{last}") for size, last in ((44, 1), (65, 2), (87, 3))}
        constants = {name: it.public_bytes() for name, it in vars(ours.SignatureAlgorithm).items() if isinstance(it, ours.AlgorithmIdentifier)}
        self.assertEqual(constants, found)
        for it in constants.values():
            self.assertEqual(builder.tbs_certificate_bytes(it), builder.tbs_certificate_bytes(ours.AlgorithmIdentifier(it)))

    def their_algorithm(self, key: Any, hashed: Any, words: dict[str, Any]) -> bytes:
        """The AlgorithmIdentifier that stands in a CSR of `cryptography` between the signed part and the signature."""
        their = theirs.CertificateSigningRequestBuilder().subject_name(self.names("a")[1]).sign(key, hashed, **words)
        return ours.load_der_x509_csr(their.public_bytes(Encoding.DER)).signature_algorithm_bytes


class Sequences(unittest.TestCase):
    """Lists are counted, gone over and indexed, from the front, from the end and by slices."""

    def test_lists(self) -> None:
        a, b, c = ours.DNSName("a"), ours.DNSName("b"), ours.DNSName("c")
        one, other = ours.ObjectIdentifier("1.2.3"), ours.ObjectIdentifier("1.2.4")
        points = [ours.DistributionPoint([ours.UniformResourceIdentifier(f"http://{it}.example")], None, None, None) for it in "ab"]
        descriptions = [ours.AccessDescription(it, a) for it in (one, other)]
        policies = [ours.PolicyInformation(it, None) for it in (one, other)]
        attributes = [ours.DirectoryAttribute(it, [b"\x05\x00"]) for it in (one, other)]
        features = [ours.TLSFeatureType.status_request, ours.TLSFeatureType.status_request_v2]
        for made, members in (
            (ours.SubjectAlternativeName([a, b, c]), [a, b, c]),
            (ours.IssuerAlternativeName([a, b, c]), [a, b, c]),
            (ours.CertificateIssuer([a, b]), [a, b]),
            (ours.GeneralNames([a, b]), [a, b]),
            (ours.ExtendedKeyUsage([one, other]), [one, other]),
            (ours.AuthorityInformationAccess(descriptions), descriptions),
            (ours.SubjectInformationAccess(descriptions), descriptions),
            (ours.CRLDistributionPoints(points), points),
            (ours.FreshestCRL(points), points),
            (ours.CertificatePolicies(policies), policies),
            (ours.PolicyMappings([(one, other), (other, one)]), [(one, other), (other, one)]),
            (ours.TLSFeature(features), features),
            (ours.SubjectDirectoryAttributes(attributes), attributes),
        ):
            with self.subTest(type(made).__name__):
                self.assertEqual((len(made), list(made)), (len(members), members))
                self.assertEqual([made[at] for at in range(-len(members), len(members))], members + members)
                self.assertEqual((made[1:], made[::-1], made[5:]), (members[1:], members[::-1], []))
                self.assertIn(members[1], made)
                for at in (len(members), -len(members) - 1):
                    with self.assertRaises(IndexError):
                        made[at]

    def test_reasons(self) -> None:
        """Those of a point are the reasons of entries, and the names of their bits too (RFC 5280 4.2.1.13)."""
        flags = ours.ReasonFlags
        place = [ours.UniformResourceIdentifier("http://a.example")]
        made = ours.DistributionPoint(place, None, frozenset([flags.key_compromise, flags.aa_compromise]), None)
        (read,) = ours.CRLDistributionPoints([made])
        for point in (made, read):
            self.assertEqual(point.reasons, frozenset([flags.key_compromise, flags.aa_compromise]))
            self.assertEqual(point.reasons, frozenset(["keyCompromise", "aACompromise"]))
            self.assertTrue(all(isinstance(it, flags) for it in point.reasons))
            self.assertEqual((point.full_name, place), (place, point.full_name))
        self.assertEqual(ours.DistributionPoint(place, None, {"keyCompromise", "aACompromise"}, None), made)
        # the bit that isn't used has no reason, and is still read
        unused = ours.CRLDistributionPoints.from_der(bytes.fromhex("3006300481020780"))
        self.assertEqual(unused[0].reasons, frozenset(["unused"]))
        for number, text, reason in ((1, "keyCompromise", flags.key_compromise), (8, "removeFromCRL", flags.remove_from_crl)):
            self.assertIs(flags(number), reason)
            self.assertIs(flags(text), reason)
            self.assertEqual((reason.value, reason), (number, text))
            self.assertEqual((str(reason), f"{reason}", repr(reason)), (f"ReasonFlags.{reason.name}",) * 2 + (f"<ReasonFlags.{reason.name}: {number}>",))
        for bad in (7, "key_compromise", "", None):
            with self.assertRaises(ValueError):
                flags(bad)
        if theirs is not None:
            self.assertEqual({it.name: str.__str__(it) for it in flags}, {it.name: it.value for it in theirs.ReasonFlags})
            self.assertEqual(hash(flags.superseded), hash("superseded"))

    def test_extensions(self) -> None:
        one = ours.Extension(ours.ExtensionOID.CRL_NUMBER, False, ours.CRLNumber(5))
        self.assertEqual((one, hash(one)), (ours.Extension(one.oid, False, one.data), hash(ours.Extension(one.oid, False, one.data))))
        for other in (ours.Extension(one.oid, True, one.data), ours.Extension(one.oid, False, b""), one.data, ours.Extension(OID, False, one.data)):
            self.assertNotEqual(one, other)
        self.assertEqual(ours.CRLNumber(5).public_bytes(), b"\x02\x01\x05")

    def test_digests(self) -> None:
        data = (DATA / "certificate.der").read_bytes()
        for it in (ours.load_der_x509_certificate(data), ours.load_der_x509_crl((DATA / "list.der").read_bytes())):
            for given in ("sha256", ours.HashAlgorithm("sha256", 32)):
                self.assertEqual(it.fingerprint(given), hashlib.sha256(it.public_bytes()).digest())
            for bad in (5, None, b"sha256", ours.NameOID):
                with self.assertRaises(TypeError):
                    it.fingerprint(bad)
            with self.assertRaises(ValueError):
                it.fingerprint("none")


OID = ours.ObjectIdentifier("1.2.3")

if __name__ == "__main__":
    unittest.main()
