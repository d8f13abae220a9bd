#!/usr/bin/env python3
"""Checks a path of certificates, topmost first, at a moment, under the subject and the key of an anchor's certificate. The library checks all but the
signatures, and says what is to be verified of each certificate; here Python's `cryptography` verifies that. Policies, name constraints and revocation
aren't looked at, nor for whom and for which use the last certificate is: `validate_path` of the package looks at the first two.

It prints `holds`; or `fault PLACE REASON`, the lowest place that has a fault, from 0, and the first of its faults in the order of x509.h; or
`refused STATUS`. It ends with 0 where the path holds, and with 1 else.

usage: X509_LIBRARY=.../libx509.so PYTHONPATH=bindings/python/src python3 examples/python/path.py MOMENT ANCHOR CERTIFICATE.., the moment in seconds since
1970-01-01T00:00:00Z, the last files of DER
"""

from __future__ import annotations

import datetime
import itertools
import re
import sys
from typing import Any

import x509_cert as x509
from cryptography.exceptions import InvalidSignature, UnsupportedAlgorithm
from cryptography.hazmat.primitives import hashes
from cryptography.hazmat.primitives.asymmetric import ec, ed25519, padding, rsa
from cryptography.hazmat.primitives.serialization import Encoding, PublicFormat, load_der_public_key

# the reasons by their numbers, which are from 1 on
REASONS = "? Decode Algorithm Issuer Moment Signature Repeated Critical NotCa KeyUsage PathLen".split()
# A certificate has fewer bytes than that many chunks (X509_OVERLENGTH).
CHUNK, CHUNKS = 65_536, 4_096
# the statuses of include/x509.h for a moment after 9999, and for a path without a certificate
VALUE, ABSENT = 5, 6
# 9999-12-31T23:59:59Z
LAST = 253_402_300_799


# How DER spells an AlgorithmIdentifier: of a digest; of RSA with the padding of PKCS #1 v1.5 (RFC 4055 5) and of PSS, of which the digest is also that of
# the mask, and the salt as long as it (RFC 4055 3.1); of ECDSA (RFC 5758 3.2); of Ed25519 (RFC 8410 3).
def sha(last: str) -> bytes:
    return bytes.fromhex(f"300D06096086480165030402{last}0500")


def pkcs1(last: str) -> bytes:
    return bytes.fromhex(f"300D06092A864886F70D0101{last}0500")


def pss(last: str, salt: str) -> bytes:
    mask = bytes.fromhex("A11C301A06092A864886F70D010108") + sha(last)
    return bytes.fromhex("304106092A864886F70D01010A3034A00F") + sha(last) + mask + bytes.fromhex(f"A2030201{salt}")


def ecdsa(last: str) -> bytes:
    return bytes.fromhex(f"300A06082A8648CE3D0403{last}")


ED25519 = bytes.fromhex("300506032B6570")
RSA, EC, ED = rsa.RSAPublicKey, ec.EllipticCurvePublicKey, ed25519.Ed25519PublicKey
SHA256, SHA384, SHA512 = hashes.SHA256(), hashes.SHA384(), hashes.SHA512()
# The algorithms that are taken: the type of the keys and the fewest bits that these may have, and what `verify` wants behind the message. A signature by
# another one, as by SHA-1, isn't accepted.
ALGORITHMS: dict[bytes, tuple[type, int, list[Any]]] = {
    pkcs1("0B"): (RSA, 2048, [padding.PKCS1v15(), SHA256]),
    pkcs1("0C"): (RSA, 2048, [padding.PKCS1v15(), SHA384]),
    pkcs1("0D"): (RSA, 2048, [padding.PKCS1v15(), SHA512]),
    pss("01", "20"): (RSA, 2048, [padding.PSS(padding.MGF1(SHA256), 32), SHA256]),
    pss("02", "30"): (RSA, 2048, [padding.PSS(padding.MGF1(SHA384), 48), SHA384]),
    pss("03", "40"): (RSA, 2048, [padding.PSS(padding.MGF1(SHA512), 64), SHA512]),
    ecdsa("02"): (EC, 256, [ec.ECDSA(SHA256)]),
    ecdsa("03"): (EC, 256, [ec.ECDSA(SHA384)]),
    ecdsa("04"): (EC, 256, [ec.ECDSA(SHA512)]),
    ED25519: (ED, 0, []),
}


def read_key(info: bytes) -> Any:
    """The key of a whole SubjectPublicKeyInfo, if it is written as the same bytes. A key for PSS alone (RFC 4055 1.2) isn't: it is read as one of RSA."""
    key = load_der_public_key(info)
    if key.public_bytes(Encoding.DER, PublicFormat.SubjectPublicKeyInfo) != info:
        raise ValueError("another spelling of a key")
    return key


def accepts(info: bytes, identifier: bytes, message: bytes, bits: bytes) -> bool:
    """Whether the bits are a signature of the message, by the algorithm with that AlgorithmIdentifier, for the key with that SubjectPublicKeyInfo."""
    if identifier not in ALGORITHMS:
        return False
    kind, size, arguments = ALGORITHMS[identifier]
    try:
        key = read_key(info)
        if not isinstance(key, kind) or getattr(key, "key_size", 0) < size:
            return False
        key.verify(bits, message, *arguments)
    except (InvalidSignature, UnsupportedAlgorithm, ValueError):
        return False
    return True


def check(anchor: bytes, path: list[bytes], seconds: int) -> tuple[int, int] | None:
    """The place of the first fault of a path, and the number of its reason; None where it holds."""
    try:
        x509.check_path(anchor, path, datetime.datetime.fromtimestamp(seconds, datetime.timezone.utc), accepts)
    except x509.PathFault as fault:
        return fault.place, fault.reason
    return None


def read(name: str) -> bytes:
    """The bytes of a file. Of one that is longer than any certificate some, which are too many too."""
    with open(name, "rb") as file:
        return b"".join(itertools.islice(iter(lambda: file.read(CHUNK), b""), CHUNKS))


def refusal(path: list[bytes], seconds: int) -> int | None:
    """The status for what can't be asked."""
    return ABSENT if not path else VALUE if seconds > LAST else None


def main() -> int:
    if len(sys.argv) < 3 or not re.fullmatch("[0-9]{1,19}", sys.argv[1]):
        print("usage: path.py MOMENT ANCHOR CERTIFICATE..", file=sys.stderr)
        return 1
    try:
        seconds, (anchor, *path) = int(sys.argv[1]), map(read, sys.argv[2:])
        refused = refusal(path, seconds)
        fault = check(anchor, path, seconds) if refused is None else None
    except x509.X509Error as error:
        refused, fault = error.status, None
    except OSError as error:
        print(error, file=sys.stderr)
        return 1
    if refused is not None:
        print("refused", refused)
        return 1
    print("holds" if fault is None else f"fault {fault[0]} {REASONS[fault[1]]}")
    return 0 if fault is None else 1


if __name__ == "__main__":
    sys.exit(main())
