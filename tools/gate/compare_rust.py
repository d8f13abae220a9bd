#!/usr/bin/env python3
"""Compares what the crate for Rust says of the certificates of the system's store with what `cryptography` says of them: version, serial number, dates,
names, key with its size and parts, signature, and extensions, policies with their qualifiers. FACTS is the program of `bindings/rust/examples/told.rs`. The
crate refuses values that aren't DER, as a KeyUsage that ends with zero bits (X.690 11.2.2); these are counted, and have to be such that `cryptography` writes
them otherwise.
"""
import argparse
import glob
import pathlib
import subprocess
import sys
import tempfile
import warnings

from cryptography import x509
from cryptography.hazmat.primitives import serialization
from cryptography.hazmat.primitives.asymmetric import ec, rsa

TOP = pathlib.Path(__file__).resolve().parents[2]
STORE = "/etc/ssl/certs/*.pem"
USES = {
    "digital_signature": "digitalSignature",
    "content_commitment": "nonRepudiation",
    "key_encipherment": "keyEncipherment",
    "data_encipherment": "dataEncipherment",
    "key_agreement": "keyAgreement",
    "key_cert_sign": "keyCertSign",
    "crl_sign": "cRLSign",
    "encipher_only": "encipherOnly",
    "decipher_only": "decipherOnly",
}


def certificates():
    """The DER of each certificate of the store, and of the example."""
    found = {(TOP / "examples" / "data" / "certificate.der").read_bytes()}
    for file in glob.glob(STORE):
        try:
            found.add(x509.load_pem_x509_certificate(pathlib.Path(file).read_bytes()).public_bytes(serialization.Encoding.DER))
        except ValueError:
            continue
    return sorted(found)


def integer(number):
    return number.to_bytes((number + (number < 0)).bit_length() // 8 + 1, "big", signed=True).hex()


def name(it):
    return " ".join(f"{part.oid.dotted_string}:{part.value.encode('utf-8').hex()}" for part in it)


def general_name(it):
    kind = type(it).__name__
    if kind == "IPAddress":
        return f"{kind}:{it.value.packed.hex()}"
    if kind == "DirectoryName":
        return f"{kind}:{it.value.public_bytes().hex()}"
    if kind == "RegisteredID":
        return f"{kind}:{it.value.dotted_string}"
    if kind == "OtherName":
        return f"{kind}:{it.type_id.dotted_string}:{it.value.hex()}"
    return f"{kind}:{it.value.encode('ascii').hex()}"


def key_usage(it):
    asked = [its for its in USES if its not in ("encipher_only", "decipher_only") or it.key_agreement]
    return " ".join(USES[its] for its in asked if getattr(it, its))


def authority_key(it):
    parts = [None if it.key_identifier is None else it.key_identifier.hex()]
    parts.append(None if it.authority_cert_serial_number is None else integer(it.authority_cert_serial_number))
    return " ".join(part or "none" for part in parts) + " " + " ".join(map(general_name, it.authority_cert_issuer or ()))


def names_in(it):
    return " ".join(map(general_name, it))


def qualifier(it):
    if isinstance(it, str):
        return "cps:" + it.encode("ascii").hex()
    reference = it.notice_reference
    told = [] if reference is None else [reference.organization.encode().hex(), *map(integer, reference.notice_numbers)]
    return f"notice:{','.join(told)}:{'none' if it.explicit_text is None else it.explicit_text.encode().hex()}"


def policy(it):
    return " ".join([it.policy_identifier.dotted_string, *map(qualifier, it.policy_qualifiers or ())])


def key_parts(key):
    """The size of a key, and its numbers or its curve and its point."""
    if isinstance(key, rsa.RSAPublicKey):
        numbers = key.public_numbers()
        return f"{key.key_size} {integer(numbers.n)} {integer(numbers.e)}"
    if isinstance(key, ec.EllipticCurvePublicKey):
        point = key.public_bytes(serialization.Encoding.X962, serialization.PublicFormat.UncompressedPoint)
        return f"{key.key_size} {CURVES[key.curve.name]} {point.hex()}"
    return "other"


CURVES = {"secp256r1": "1.2.840.10045.3.1.7", "secp384r1": "1.3.132.0.34", "secp521r1": "1.3.132.0.35"}
TELL = {
    x509.KeyUsage: key_usage,
    x509.ExtendedKeyUsage: lambda it: " ".join(oid.dotted_string for oid in it),
    x509.BasicConstraints: lambda it: f"{str(it.ca).lower()} {'none' if it.path_length is None else it.path_length}",
    x509.SubjectKeyIdentifier: lambda it: it.digest.hex(),
    x509.AuthorityKeyIdentifier: authority_key,
    x509.SubjectAlternativeName: names_in,
    x509.IssuerAlternativeName: names_in,
    x509.AuthorityInformationAccess: lambda it: " ".join(f"{part.access_method.dotted_string}:{general_name(part.access_location)}" for part in it),
    x509.CertificatePolicies: lambda it: " ".join(map(policy, it)),
    **dict.fromkeys((x509.CRLDistributionPoints, x509.NameConstraints, x509.PolicyConstraints, x509.InhibitAnyPolicy), lambda it: "read"),
}


def facts(data):
    """The lines that are wanted."""
    it = x509.load_der_x509_certificate(data)
    key = it.public_key().public_bytes(serialization.Encoding.DER, serialization.PublicFormat.SubjectPublicKeyInfo)
    yield f"version {it.version.value + 1}"
    yield f"serial {integer(it.serial_number)}"
    yield f"not_before {int(it.not_valid_before_utc.timestamp())}"
    yield f"not_after {int(it.not_valid_after_utc.timestamp())}"
    yield f"subject {name(it.subject)}"
    yield f"issuer {name(it.issuer)}"
    yield f"key {key.hex()}"
    yield f"parts {key_parts(it.public_key())}"
    yield f"signature {it.signature.hex()}"
    yield f"signed {len(it.tbs_certificate_bytes)}"
    for extension in it.extensions:
        tell = TELL.get(type(extension.value))
        yield f"{extension.oid.dotted_string} {str(extension.critical).lower()} {'unread' if tell is None else tell(extension.value)}"


def is_no_der(data, line):
    """Whether what `cryptography` writes of the value of the line's extension, as an OCTET STRING, stands nowhere in the certificate."""
    oid = x509.ObjectIdentifier(line.split(" ", 1)[0])
    written = x509.load_der_x509_certificate(data).extensions.get_extension_for_oid(oid).value.public_bytes()
    return (bytes([4, len(written)]) if len(written) < 128 else b"") + written not in data


def main():
    parser = argparse.ArgumentParser(description=__doc__, formatter_class=argparse.RawDescriptionHelpFormatter)
    parser.add_argument("facts", metavar="FACTS", help="the program")
    program = parser.parse_args().facts
    warnings.simplefilter("ignore")
    found, wrong, refused = certificates(), [], 0
    with tempfile.TemporaryDirectory() as folder:
        for number, data in enumerate(found):
            file = pathlib.Path(folder, f"{number}.der")
            file.write_bytes(data)
            said = subprocess.run([program, str(file)], capture_output=True, text=True, check=False)
            ours, theirs = said.stdout.splitlines()[1:], list(facts(data))
            if said.returncode != 0 or len(ours) != len(theirs):
                wrong.append(f"{x509.load_der_x509_certificate(data).subject.rfc4514_string()}: status {said.returncode}, {len(ours)} lines, {said.stderr}")
                continue
            for one, other in zip(ours, theirs):
                if one.endswith(" refused") and is_no_der(data, one):
                    refused += 1
                elif one.rstrip() != other.rstrip():
                    wrong.append(f"{one}\n    {other}")
    print("\n".join(wrong) or f"{len(found)} certificates say the same in Rust and in cryptography, but for {refused} values that are not DER and are refused")
    return int(bool(wrong) or not found)


if __name__ == "__main__":
    sys.exit(main())
