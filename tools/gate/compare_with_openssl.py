#!/usr/bin/env python3
"""Compares what x509_show prints of certificates, CRLs and CSRs with what openssl prints, field by field.

Octets of an extension that aren't in DER x509_show calls undecodable, and openssl may read them, as a key usage with zeros behind the last bit that is
set (X.690 11.2.2), which two certificates of the store have. These are counted apart, by a reason that is looked for in the octets.

Subject, issuer, serial number, dates, algorithms, the size of the key where x509_show prints one, and of extensions whether they are critical, key usage,
extended key usage, basic constraints, key identifiers, alternative names, policies and the names of CRL distribution points. Qualifiers of policies aren't
compared, and of a directory name or an other name among general names only that it stands there. Taken for the same are other names of usages, purposes,
algorithms, extensions and reasons, OIDs that one names and the other doesn't, the order of an RDN's attributes, the sign of a serial number, commas in names.
No size of a key is compared where RSA's numbers are negative or padded or a curve has no name, and no payload of which openssl prints the octets.

The certificates are those in PEM in the files below the folders, each once; without folders, the system's store. The CRLs and the CSRs are made by openssl
(`objects_of_openssl.py`). Of a CRL the issuer, the dates, the algorithm and the extensions are compared, and of each entry the serial number, the
date, the reason and the invalidity date; of a CSR the subject, the key, the challenge password and the extensions asked for.
"""
import argparse
import base64
import datetime
import hashlib
import ipaddress
import itertools
import json
import pathlib
import re
import subprocess
import sys

from objects_of_openssl import made

STORE = ("/etc/ssl/certs", "/usr/share/ca-certificates")
PEM = re.compile(rb"-----BEGIN (?:TRUSTED )?CERTIFICATE-----([A-Za-z0-9+/=\s]+)-----END (?:TRUSTED )?CERTIFICATE-----")
# Words of openssl, and the standards' for the same.
USAGES = {
    "Digital Signature": "digitalSignature",
    "Non Repudiation": "nonRepudiation",
    "Key Encipherment": "keyEncipherment",
    "Data Encipherment": "dataEncipherment",
    "Key Agreement": "keyAgreement",
    "Certificate Sign": "keyCertSign",
    "CRL Sign": "cRLSign",
    "Encipher Only": "encipherOnly",
    "Decipher Only": "decipherOnly",
}
PURPOSES = {
    "TLS Web Server Authentication": "serverAuth",
    "TLS Web Client Authentication": "clientAuth",
    "Code Signing": "codeSigning",
    "E-mail Protection": "emailProtection",
    "Time Stamping": "timeStamping",
    "OCSP Signing": "OCSPSigning",
    "Any Extended Key Usage": "anyExtendedKeyUsage",
}
ALGORITHMS = {
    "ED25519": "id-Ed25519",
    "ED448": "id-Ed448",
    "X25519": "id-X25519",
    "X448": "id-X448",
    "rsassaPss": "id-RSASSA-PSS",
    "rsaesOaep": "id-RSAES-OAEP",
    "dsaEncryption": "id-dsa",
    "dsaWithSHA1": "id-dsa-with-sha1",
    "dsa_with_SHA224": "id-dsa-with-sha224",
    "dsa_with_SHA256": "id-dsa-with-sha256",
    # openssl has no names for these before 3.5
    "2.16.840.1.101.3.4.3.17": "id-ml-dsa-44",
    "2.16.840.1.101.3.4.3.18": "id-ml-dsa-65",
    "2.16.840.1.101.3.4.3.19": "id-ml-dsa-87",
}
EXTENSIONS = {
    "X509v3 Key Usage": "keyUsage",
    "X509v3 Extended Key Usage": "extKeyUsage",
    "X509v3 Basic Constraints": "basicConstraints",
    "X509v3 Subject Key Identifier": "subjectKeyIdentifier",
    "X509v3 Authority Key Identifier": "authorityKeyIdentifier",
    "X509v3 Subject Alternative Name": "subjectAltName",
    "X509v3 Issuer Alternative Name": "issuerAltName",
    "X509v3 Certificate Policies": "certificatePolicies",
    "X509v3 CRL Distribution Points": "cRLDistributionPoints",
    "X509v3 Name Constraints": "nameConstraints",
    "X509v3 Policy Constraints": "policyConstraints",
    "X509v3 Policy Mappings": "policyMappings",
    "X509v3 Inhibit Any Policy": "inhibitAnyPolicy",
    "X509v3 Issuing Distribution Point": "issuingDistributionPoint",
    "X509v3 CRL Number": "cRLNumber",
    "X509v3 Delta CRL Indicator": "deltaCRLIndicator",
    "X509v3 Freshest CRL": "freshestCRL",
    "X509v3 Private Key Usage Period": "privateKeyUsagePeriod",
    "X509v3 Subject Directory Attributes": "subjectDirectoryAttributes",
    "Authority Information Access": "authorityInfoAccess",
    "Subject Information Access": "subjectInfoAccess",
    "CT Precertificate SCTs": "signedCertificateTimestamps",
    "CT Precertificate Poison": "precertificatePoison",
    "OCSP No Check": "ocspNoCheck",
    "TLS Feature": "tlsFeature",
}
# The line of openssl of a curve of which x509_show knows the size.
SIZED = re.compile(r"ASN1 OID: (prime192v1|secp224r1|prime256v1|secp384r1|secp521r1|secp256k1|brainpoolP(256|384|512)r1)$", re.MULTILINE)
REASONS = {
    "Unspecified": "unspecified",
    "Key Compromise": "keyCompromise",
    "CA Compromise": "cACompromise",
    "Affiliation Changed": "affiliationChanged",
    "Superseded": "superseded",
    "Cessation Of Operation": "cessationOfOperation",
    "Certificate Hold": "certificateHold",
    "Remove From CRL": "removeFromCRL",
    "Unused": "unused",
    "Privilege Withdrawn": "privilegeWithdrawn",
    "AA Compromise": "aACompromise",
}
# Keys of attributes in which the two differ by more than case.
KEYS = {"gn": "givenname", "sn": "surname", "street": "streetaddress", "l": "localityname"}
KINDS = {
    "DNS": "DNS name",
    "IP Address": "IP address",
    "email": "email",
    "URI": "URI",
    "DirName": "directory name",
    "Registered ID": "registered ID",
    "othername": "other name",
}


def certificates(folders):
    """Each certificate in PEM below the folders, in DER, with its file."""
    seen = set()
    for folder in folders:
        for file in sorted(it for it in pathlib.Path(folder).rglob("*") if it.is_file()):
            for text in PEM.findall(file.read_bytes()):
                try:
                    data = base64.b64decode(text)
                except ValueError:
                    continue
                if (digest := hashlib.sha256(data).digest()) not in seen:
                    seen.add(digest)
                    yield file, data


def openssl(data, *words, kind="x509"):
    """The lines that openssl prints of a certificate, or of another kind of object; None where it takes it for none."""
    run = subprocess.run(["openssl", kind, "-inform", "DER", "-noout", *words], input=data, capture_output=True, check=False)
    return run.stdout.decode("utf-8", "replace").splitlines() if run.returncode == 0 else None


def oids():
    """The OIDs of which openssl knows a name, by its long and its short name."""
    found = {}
    for line in subprocess.run(["openssl", "list", "-objects"], capture_output=True, check=True).stdout.decode().splitlines():
        if named := re.fullmatch(r"(\S+) = (?:(.+), )?([\d.]+)", line):
            found.update({it: named[3] for it in named.group(1, 2) if it and not it[0].isdigit()})
    return found


OIDS = oids()


def said_as(theirs, mine, table):
    """What openssl names so, in the words of a table, or, where x509_show prints the OID, as its arcs."""
    return OIDS.get(theirs, theirs) if mine[:1].isdigit() else table.get(theirs, theirs)


def attributes(text):
    """The RDNs of a name's text (RFC 4514): of each the keys and values of its attributes, the values without escapes."""
    found = []
    for mark, piece in re.findall(r"(^|[,+])((?:\\.|[^,+\\])*)", text, flags=re.DOTALL):
        key, _, value = piece.partition("=")
        octets = re.sub(
            rb"\\([0-9A-Fa-f]{2})|\\(.)",
            lambda it: bytes.fromhex(it[1].decode()) if it[1] else it[2],
            value.encode(),
            flags=re.DOTALL,
        )
        if mark != "+":
            found.append([])
        found[-1].append((key, octets.decode("utf-8", "replace")))
    return found


def same_name(shown, readable, dumped):
    """Whether a name's text says what openssl prints, readable and as the DER of each value, which stands for types without a key.

    The attributes of an RDN stand in x509_show's text as they are encoded, and in openssl's the other way round."""
    mine, *others = (attributes(it) for it in (shown, readable, dumped))
    theirs, elements = ([it for rdn in rdns for it in reversed(rdn)] for rdns in others)
    if [len(it) for it in mine] != [len(it) for it in others[0]]:
        return False
    for (key, value), (other_key, other), (oid, element) in zip((it for rdn in mine for it in rdn), theirs, elements, strict=True):
        if value.startswith("#") and key[:1].isdigit():
            if (key, value.lower()) != (oid, element.lower()):
                return False
        elif value != other or KEYS.get(key.lower(), key.lower()) != KEYS.get(other_key.lower(), other_key.lower()):
            return False
    return True


def names_of(text):
    """The general names in a line of openssl, as kinds and texts."""
    if text == "<EMPTY>":
        return []
    found = []
    for piece in re.split(r", (?=(?:DNS|IP Address|email|URI|DirName|Registered ID|othername|X400Name|EdiPartyName):)", text):
        kind, _, value = piece.strip().partition(":")
        kind = KINDS.get(kind, kind)
        if kind == "IP address" and not value.startswith("<invalid"):
            value = str(ipaddress.ip_address(value))
        found.append((kind, "" if kind in ("directory name", "other name") else value))
    return found


def is_written(shown, extension, text):
    """Whether openssl writes the names of an extension so, which it does without escapes: a name that holds a comma may look like two."""
    words, parts = {kind: word for word, kind in KINDS.items()}, []
    # A directory name or an other name that holds `DNS:` may look like anything, and any other like no second name.
    is_odd = any("DNS:" in it or b"DNS:".hex() in it for _, _, it in shown.extensions[extension][1])
    for kind, it in shown.names(extension):
        value = re.escape(it)
        if kind in ("directory name", "other name"):
            value = ".*" if is_odd else f"(?:(?!, (?:{'|'.join(KINDS)}):).)*"
        elif kind == "registered ID":
            value = "|".join(re.escape(name) for name, oid in [(it, it), *OIDS.items()] if oid == it)
        elif kind == "IP address" and not re.search(r"[.:]", it):
            value = "<invalid.*>"
        parts.append(f"{words[kind]}:(?:{value})")
    return re.fullmatch(", ".join(parts), text, flags=re.DOTALL) is not None


class Shown:
    """What x509_show prints of an object, whose extensions stand so deep."""

    def __init__(self, lines, depth=0):
        self.lines, self.depth, self.fields, self.extensions, at = lines, depth, {}, {}, None
        for line in lines:
            if line["depth"] == depth and line["label"] == "extension":
                name, comma, _ = line["text"].partition(", critical")
                at = self.extensions.setdefault(name, (bool(comma), []))[1]
            elif line["depth"] <= depth:
                self.fields.setdefault(line["label"], line["text"])
                at = None
            elif at is not None:
                at.append((line["depth"], line["label"], line["text"]))

    def texts(self, extension, label):
        return [text for _, key, text in self.extensions[extension][1] if key == label]

    def undecodable(self, extension):
        """The octets of an extension that is undecodable as a whole."""
        return [bytes.fromhex(text) for depth, key, text in self.extensions[extension][1] if key == "undecodable" and depth == self.depth + 1]

    def names(self, extension):
        found = []
        for _, kind, text in self.extensions[extension][1]:
            if kind in KINDS.values():
                found.append((kind, "" if kind in ("directory name", "other name") else text))
        return found


def extensions_of(lines, margin=12):
    """The extensions in openssl's text, behind such a margin: by name, whether each is critical, and its lines."""
    found, at, begun = {}, None, False
    for line in lines:
        if line.startswith("    Signature Algorithm: "):
            begun = False
        elif line.lower() in (" " * (margin - 4) + it for it in ("x509v3 extensions:", "crl extensions:", "requested extensions:")):
            begun = True
        head = re.fullmatch(" " * margin + r"(\S.*?): ?(critical)?", line)
        if begun and head:
            at = found.setdefault(head[1], (bool(head[2]), []))[1]
        elif line.startswith(" " * (margin + 4)) and at is not None:
            at.append(line.strip())
        elif line and not line.startswith(" " * margin):
            at = None
    return found


def parts_of(lines):
    """The lines of a distribution point, also those that openssl begins behind a name, as it ends none behind a directory name."""
    return [part for line in lines for part in re.split(r" {8,}(?=\S)", line)]


def names_in(lines):
    """The general names in those of openssl's lines that are of names alone."""
    return [it for line in lines if line.partition(":")[0] in KINDS for it in names_of(line)]


def number(octets):
    """The number whose content octets in two's complement stand in hex, with colons between."""
    return int.from_bytes(bytes.fromhex(octets.replace(":", "")), "big", signed=True)


def why_undecodable(name, payload, lines):
    """Why the octets of an extension that x509_show calls undecodable are no DER of its type; None where nothing is known against them."""
    if any("X400Name:<unsupported>" in it for it in lines):
        return "an x400Address, of which the library has no type"
    if name == "subjectAltName" and any(ord(it) > 0x7F for line in lines for it in line):
        return "an octet above 7F in an IA5String (X.680 41)"
    if name == "keyUsage" and payload[:1] == b"\x03" and payload[-1] >> payload[2] & 1 == 0:
        return "zeros behind the last bit that is set (X.690 11.2.2)"
    if name == "basicConstraints" and b"\x01\x01\x00" in payload:
        return "a FALSE that is the default (X.690 11.5)"
    if name == "basicConstraints" and re.search(rb"\x02(\x02[\x01-\x7f]|[\x03-\x7f])", payload):
        return "a path length above 255, of which the library has no number"
    if name == "inhibitAnyPolicy" and payload[:1] == b"\x02" and payload[2] & 0x80:
        return "a negative number (RFC 5280 4.2.1.14)"
    if name == "signedCertificateTimestamps" and any(re.fullmatch("Version +: unknown", it) for it in lines):
        return "a timestamp of a version that neither knows"
    if name == "basicConstraints" and re.search(rb"\x02\x01[\x80-\xff]$", payload):
        return "a negative path length (RFC 5280 4.2.1.9)"
    if max((line.count(".") for line in lines if "Registered ID:" in line), default=0) > 39:
        return "an OID of more octets than the library holds"
    if name == "nameConstraints" and b"\x80\x01\x00" in payload:
        return "a minimum of 0, which is the default (X.690 11.5)"
    if name == "basicConstraints" and re.search(rb"\x01\x01[\x01-\xfe]", payload):
        return "a TRUE that isn't FF (X.690 11.1)"
    printed = "".join(chr(it) if 0x20 <= it < 0x7F or it in (10, 13) else "." for it in payload)
    # Of timestamps x509_show prints the octets behind the header of the OCTET STRING.
    if lines and (lines[0].endswith(printed.splitlines()[0].strip()) or lines[0] in ("<Parsing Error>", "<Not Supported>")):
        return "openssl doesn't decode them either"
    return None


def issuing_point(shown, lines, text):
    """What the two say of an issuing distribution point: its names, its reasons, and what else it has."""
    name = "issuingDistributionPoint"
    reasons = [REASONS.get(it, it) for it in lines[lines.index("Only Some Reasons:") + 1].split(", ")] if "Only Some Reasons:" in lines else []
    says = [it for it in ("Only User Certificates", "Only CA Certificates", "Only Attribute Certificates", "Indirect CRL") if it in text]
    mine = [f"Only {it[0].upper()}{it[1:-1].replace('certificate', 'Certificate')}s" for it in shown.texts(name, "only contains")]
    mine += ["Indirect CRL"] * (shown.texts(name, "indirect CRL") == ["yes"])
    return (shown.names(name), shown.texts(name, "reason"), mine), (names_in(lines), reasons, says)


def compared(shown, name, lines):
    """What the two say of an extension."""
    text = ", ".join(lines)
    if name == "keyUsage":
        # of no usage openssl prints the octets, 03 01 00
        return shown.texts(name, "usage"), [] if text == "..." else [USAGES.get(it, it) for it in text.split(", ")]
    if name == "extKeyUsage":
        mine = shown.texts(name, "purpose")
        return mine, [said_as(it, one, PURPOSES) for it, one in itertools.zip_longest(text.split(", "), mine, fillvalue="")]
    if name == "basicConstraints":
        says = ["CA:TRUE" if it == "yes" else "CA:FALSE" for it in shown.texts(name, "certification authority")]
        return sorted([*says, *(f"pathlen:{it}" for it in shown.texts(name, "path length"))]), sorted(text.split(", "))
    if name == "subjectKeyIdentifier":
        return shown.texts(name, "key identifier"), [it.replace(":", "").lower() for it in lines]
    if name == "authorityKeyIdentifier":
        key = [it.removeprefix("keyid:").replace(":", "").lower() for it in lines if not it.startswith(("DirName:", "serial:", "DNS:", "URI:"))]
        key = [] if lines == ["0."] else key  # the two octets of one without fields
        serial = [int(it.removeprefix("serial:").replace(":", ""), 16) for it in lines if it.startswith("serial:")]
        # openssl prints a number below 0 without its sign
        return (shown.texts(name, "key identifier"), [abs(number(it)) for it in shown.texts(name, "serial")]), (key, serial)
    if name in ("subjectAltName", "issuerAltName"):
        if text[:1] == "0":
            return None  # the octets, as openssl prints them where a name has a NUL, or an other name a value that doesn't go with its OID
        return shown.names(name), shown.names(name) if is_written(shown, name, text) else names_of(text)
    if name == "certificatePolicies":
        policies = [it.removeprefix("Policy: ") for it in lines if it.startswith("Policy: ")]
        if not policies:
            return None  # openssl doesn't decode them, as it refuses the whole where a qualifier isn't one
        mine = shown.texts(name, "policy")
        return mine, [said_as(it, one, {"X509v3 Any Policy": "anyPolicy"}) for it, one in itertools.zip_longest(policies, mine, fillvalue="")]
    if name == "cRLDistributionPoints":
        return shown.names(name), names_in(parts_of(lines))
    if name == "issuingDistributionPoint":
        return issuing_point(shown, parts_of(lines), text)
    if name in ("cRLNumber", "deltaCRLIndicator"):
        label = "CRL number" if name == "cRLNumber" else "base CRL number"
        return [int(it, 0) for it in shown.texts(name, label)], [int(text, 0)]
    return None


def pairs_of_extensions(shown, theirs):
    """What the two say of each extension, and which payloads aren't in DER."""
    pairs, undecodable = [("number of extensions", len(shown.extensions), len(theirs))], []
    for long_name, (critical, said) in theirs.items():
        name = next((it for it in (EXTENSIONS.get(long_name), OIDS.get(long_name), long_name) if it in shown.extensions), None)
        if name is None:
            pairs.append(("extension", list(shown.extensions), long_name))
            continue
        pairs.append((f"{name} critical", shown.extensions[name][0], critical))
        if payloads := shown.undecodable(name):
            why = why_undecodable(name, payloads[0], said)
            undecodable.append((name, why))
            pairs.append((f"{name} in DER", why is None, False))
        elif both := compared(shown, name, said):
            pairs.append((name, *both))
    return pairs, undecodable


def is_sized(shown, text):
    """Whether x509_show has to print a size of the key.

    openssl takes an INTEGER of RSA that is negative for one without a sign, and one with a superfluous octet (X.690 8.3.2)."""
    if shown.fields["key algorithm"] in ("rsaEncryption", "id-RSASSA-PSS"):
        key, exponent = shown.fields["key"], int(re.search(r"Exponent: (\d+)", text)[1])
        octets = exponent.to_bytes((exponent.bit_length() + 7) // 8, "big")
        is_wrong = re.match(r"30(?:81..|82....|[0-7].)02(?:81..|82....|[0-7].)(?:[89a-f]|00[0-7])", key) or (
            octets[0] & 0x80 and key.endswith(f"02{len(octets):02x}{octets.hex()}")
        )
        return not is_wrong
    return shown.fields["key algorithm"] in ("id-Ed25519", "id-Ed448") or SIZED.search(text) is not None


def pairs_of_algorithms(shown, text):
    """What the two say of the algorithm of the signature, in the signed part where openssl prints it, and behind it, and where there is one, of the key.

    x509_show prints the size of keys of RSA, of DSA with parameters, of RFC 8410, and on the curves that it knows by name."""
    pairs, algorithms = [], re.findall(r"^ *Signature Algorithm: (.*\S)", text, flags=re.MULTILINE)
    for label, algorithm in zip(("algorithm", "signature algorithm")[2 - len(algorithms) :], algorithms):
        mine = shown.fields[label]
        pairs.append((label, mine, said_as(algorithm, mine, ALGORITHMS)))
    if key := re.search(r"Public Key Algorithm: (.*\S)", text):
        mine = shown.fields["key algorithm"]
        pairs.append(("key algorithm", mine, said_as(key[1], mine, ALGORITHMS)))
    size = re.search(r"Public-Key: \((\d+) bit\)", text)
    if size and ("key size" in shown.fields or is_sized(shown, text)):
        pairs.append(("key size", shown.fields.get("key size"), f"{size[1]} bits"))
    return pairs


def pair_of_names(name, shown, readable, dumped):
    """What the two say of a name."""
    same = same_name(shown.fields[name], readable, dumped)
    return name, shown.fields[name], shown.fields[name] if same else readable


def said_of(data, kind, shown, names, *words):
    """What openssl says of an object: the fields that the words ask for, the names among them where x509_show prints a value as DER, and the lines of its
    text; None where it takes it for none."""
    asked = [f"-{name}" for name in names]
    lines = openssl(data, *asked, *words, "-nameopt", "RFC2253,-esc_msb,utf8", "-text", kind=kind)
    if lines is None:
        return None
    dumped = []
    if any("=#" in shown.fields[name] for name in names):
        dumped = openssl(data, *asked, "-nameopt", "RFC2253,oid,dump_all,dump_der", kind=kind)
    # Each line of the text begins with a blank, but for its titles.
    fields = dict(line.split("=", 1) for line in lines if re.match(r"\w+=", line))
    return fields, {**fields, **dict(line.split("=", 1) for line in dumped)}, lines


def printed(program, data):
    """The lines that x509_show prints of an object, from its JSON; None where it refuses it."""
    run = subprocess.run([program, "--json"], input=data, capture_output=True, check=False)
    if run.returncode == 2 and b": not a" in run.stderr:
        return None
    run.check_returncode()
    return json.loads(run.stdout)


def differences(lines, data):
    """How many fields were compared, in which the two differ, and which payloads aren't in DER; None where openssl takes it for no certificate."""
    shown = Shown(lines)
    if (said := said_of(data, "x509", shown, ("subject", "issuer"), "-serial", "-dates", "-dateopt", "iso_8601")) is None:
        return None
    fields, dumped, text = said
    pairs = [pair_of_names(name, shown, fields[name], dumped[name]) for name in ("subject", "issuer")]
    pairs.append(("serial", number(shown.fields["serial"]), int(fields["serial"], 16)))
    for label, key in (("not before", "notBefore"), ("not after", "notAfter")):
        pairs.append((label, shown.fields[label], fields[key].removesuffix("Z") + " UTC"))
    pairs += pairs_of_algorithms(shown, "\n".join(text))
    said, undecodable = pairs_of_extensions(shown, extensions_of(text))
    pairs += said
    return len(pairs), [it for it in pairs if it[1] != it[2]], undecodable


def entries_shown(lines):
    """The entries of a CRL in what x509_show prints: the serial number, and the date, the reason and the invalidity date where they are there."""
    found = []
    for line in lines:
        if line["depth"] == 0 and line["label"] == "revoked":
            found.append({"serial": number(line["text"])})
        elif line["depth"] > 0 and found and line["label"] in ("revocation date", "reason", "invalidity date"):
            found[-1][line["label"]] = line["text"]
        elif line["label"] == "undecodable" and (code := re.fullmatch("0a..(.*)", line["text"])):
            # a reason that isn't one of those of RFC 5280 5.3.1
            found[-1]["reason"] = str(int(code[1], 16))
    return found


def moment(text):
    """A date of openssl's text as x509_show prints it."""
    return datetime.datetime.strptime(text, "%b %d %H:%M:%S %Y GMT").strftime("%Y-%m-%d %H:%M:%S UTC")


def entries_said(lines):
    """The same in what openssl prints."""
    found, title = [], ""
    for line in lines:
        if serial := re.fullmatch(r" {4}Serial Number: (-?[0-9A-F]+)", line):
            found.append({"serial": int(serial[1], 16)})
        elif date := re.fullmatch(r" {8}Revocation Date: (.*)", line):
            found[-1]["revocation date"] = moment(date[1])
        elif found and "Reason Code" in title:
            found[-1]["reason"] = REASONS.get(line.strip(), line.strip())
        elif found and "Invalidity Date" in title:
            found[-1]["invalidity date"] = moment(line.strip())
        title = line
    return found


def crl_differences(lines, data):
    """The same of a CRL."""
    shown = Shown(lines)
    if (said := said_of(data, "crl", shown, ("issuer",), "-lastupdate", "-nextupdate", "-dateopt", "iso_8601")) is None:
        return None
    fields, dumped, text = said
    pairs = [("type", shown.fields["type"], "CRL"), pair_of_names("issuer", shown, fields["issuer"], dumped["issuer"])]
    version = re.search(r"Version (?:(\d+)|unknown \((\d+)\))", "\n".join(text))
    pairs.append(("version", shown.fields["version"], f"v{version[1] or int(version[2]) + 1}"))
    for label, key in (("this update", "lastUpdate"), ("next update", "nextUpdate")):
        date = fields[key].removesuffix("Z") + " UTC"
        pairs.append((label, shown.fields.get(label), None if date == "NONE UTC" else date))
    revoked = next((at for at, line in enumerate(text) if line.startswith("Revoked Certificates:")), len(text))
    # Both of the lines that openssl prints of an algorithm say the one behind the signed part.
    pairs += pairs_of_algorithms(shown, [it for it in text if it.startswith("    Signature Algorithm: ")][-1])
    said, undecodable = pairs_of_extensions(shown, extensions_of(text[:revoked]))
    mine, theirs = entries_shown(shown.lines), entries_said(text)
    pairs += [*said, ("number of entries", len(mine), len(theirs))]
    for one, other in zip(mine, theirs):
        pairs += [(f"entry {one['serial']}: {key}", one.get(key), other.get(key)) for key in sorted(one | other)]
    return len(pairs), [it for it in pairs if it[1] != it[2]], undecodable


def request_differences(lines, data):
    """The same of a CSR."""
    shown = Shown(lines, depth=1)
    if (said := said_of(data, "req", shown, ("subject",))) is None:
        return None
    fields, dumped, lines_said = said
    text = "\n".join(lines_said)
    pairs = [("type", shown.fields["type"], "CSR"), pair_of_names("subject", shown, fields["subject"], dumped["subject"])]
    pairs.append(("version", shown.fields["version"], "v" + re.search(r"Version: (\d)", text)[1]))
    pairs += pairs_of_algorithms(shown, text)
    password = re.search(r"challengePassword +:(.*)", text)
    if password is None or password[1] != "unable to print attribute":
        pairs.append(("challenge password", shown.fields.get("challenge password"), password and password[1]))
    asked = next((at for at, line in enumerate(lines_said) if line.strip() == "Requested Extensions:"), len(lines_said))
    if not any(line["text"] == "extensionRequest" for line in lines) and any(line["text"] == "1.3.6.1.4.1.311.2.1.14" for line in lines):
        asked = len(lines_said)  # openssl takes an attribute of Microsoft's for that of RFC 2985 too
    if b"\x01\x01\x00\x04" in bytes.fromhex(shown.fields.get("undecodable", "")):
        return len(pairs), [it for it in pairs if it[1] != it[2]], [("extensionRequest", "a FALSE that is the default (X.690 11.5)")]
    said, undecodable = pairs_of_extensions(shown, extensions_of(lines_said[asked:], margin=16))
    pairs += said
    return len(pairs), [it for it in pairs if it[1] != it[2]], undecodable


KINDS_OF_OBJECTS = {"certificate": ("x509", differences), "CRL": ("crl", crl_differences), "CSR": ("req", request_differences)}


def compare(program, kind, objects, whose):
    """Compares objects of a kind, each with its name, and answers whether one differs, or there is none of those that openssl makes."""
    count = fields = differ = apart = 0
    for name, data in objects:
        lines = printed(program, data)
        both = lines and KINDS_OF_OBJECTS[kind][1](lines, data)
        here, found, undecodable = both or (1, [("whether it is one", lines is not None, lines is None)], [])
        count += 1
        fields += here
        differ += bool(found)
        apart += len(undecodable)
        for field, mine, theirs in found:
            print(f"differs: {name}: {field}: x509_show says {mine!r}, and openssl {theirs!r}")
    failed = bool(differ or (not count and kind != "certificate"))
    said = f"{count} {kind}s {whose}, {fields} fields; {differ} {kind}s differ, {apart} payloads aren't in DER"
    print(f"{'failed' if failed else 'passed'}: x509_show beside openssl, {said}")
    return failed


def main(program, folders):
    failed = compare(program, "certificate", certificates(folders), "of the system" if folders is STORE else "of the folders")
    for kind in ("CRL", "CSR"):
        failed = compare(program, kind, made(KINDS_OF_OBJECTS[kind][0]), "of openssl") or failed
    return int(failed)


if __name__ == "__main__":
    parser = argparse.ArgumentParser(description=__doc__, formatter_class=argparse.RawDescriptionHelpFormatter)
    parser.add_argument("program", metavar="PROGRAM", help="the program, as crates/x509_show/out/x509_show")
    parser.add_argument("folders", metavar="FOLDER", nargs="*", default=STORE, help="where certificates are looked for")
    given = parser.parse_args()
    sys.exit(main(given.program, given.folders))
