"""Objects for x509_show, and the lines that are to be printed of each, which are stated here by hand: CRLs (RFC 5280 5), CSRs (RFC 2986), trust anchors
(RFC 5914), timestamps (RFC 6962 3) and qualifiers of policies (RFC 5280 4.2.1.4)."""
from common.der import BMP_STRING, IA5_STRING, NULL, PRINTABLE_STRING, UTF8_STRING, VISIBLE_STRING
from common.der import bit_string, context, element, header_len, integer, object_identifier, octet_string, sequence, set_of
from test_linter import CPS, DATES, ECDSA_SHA256, ISSUER, KEY, NOTICE, SUBJECT
from test_linter import ce, certificate, common_name, crl, csr, extension, general, implicit, utc

# A text that would forge lines, the same in a text for people, and the same in JSON's text.
FORGED = "x\nserial: 00\r\u2028issuer: y\u202e\x1b[2J\x00\x85\\\""
VISIBLE = "x\\0aserial: 00\\0d\\e2\\80\\a8issuer: y\\e2\\80\\ae\\1b[2J\\00\\c2\\85\\\""
ASCII, VISIBLE_ASCII = "x\nrevoked: 00\r\x1b\x00\x7f", "x\\0arevoked: 00\\0d\\1b\\00\\7f"

ALGORITHM = ["algorithm: ecdsa-with-SHA256"]
SIGNED = ["signature algorithm: ecdsa-with-SHA256", "signature: 3006020101020102"]
KEY_LINES = ["key algorithm: id-ecPublicKey", "  parameters: secp256r1", "key size: 256 bits", "key: 04" + "00" * 64]


def below(*lines):
    """Lines that belong to another one."""
    return ["  " + line for line in lines]


# ---- CRLs

CRL_HEAD = ["type: CRL", "version: v2", *ALGORITHM, "issuer: CN=An authority", "this update: 2026-01-02 03:04:05 UTC", "next update: 2026-02-02 03:04:05 UTC"]


def entry(serial, date, *extensions):
    """An entry of a CRL (RFC 5280 5.1.2.6)."""
    return sequence(serial, date, sequence(*extensions) if extensions else b"")


def crl_lines(*lines, head=CRL_HEAD):
    return [*head, *lines, *SIGNED]


def shown_crl(extensions, lines):
    """A CRL with these extensions and without entries."""
    return crl(entries=b"", extensions=extensions), crl_lines(*lines)


ENTRIES = sequence(
    entry(integer(5), utc(b"251231235959Z")),
    entry(
        integer(0x1234567890ABCDEF),
        general(b"20510607080910Z"),
        ce(21, element(0x0A, b"\x01")),
        ce(24, general(b"20251130000000Z")),
        ce(29, sequence(context(4, common_name(FORGED.encode()))), True),
        extension(object_identifier(1, 2, 3), NULL),
    ),
    entry(element(0x02, b"\xff"), utc(b"251231235959Z"), ce(21, element(0x0A, b"\x07"))),
)
ENTRY_LINES = [
    "revoked: 05",
    *below("revocation date: 2025-12-31 23:59:59 UTC"),
    "revoked: 12:34:56:78:90:AB:CD:EF",
    *below(
        "revocation date: 2051-06-07 08:09:10 UTC",
        "extension: reasonCode",
        *below("reason: keyCompromise"),
        "extension: invalidityDate",
        *below("invalidity date: 2025-11-30 00:00:00 UTC"),
        "extension: certificateIssuer, critical",
        *below("directory name: CN=" + "x\\0aserial: 00\\0d\\e2\\80\\a8issuer: y\\e2\\80\\ae\\1b[2J\\00\\c2\\85\\\\\\\""),
        "extension: 1.2.3",
        *below("unknown: 0500"),
    ),
    "revoked: FF",
    *below("revocation date: 2025-12-31 23:59:59 UTC", "extension: reasonCode", *below("undecodable: 0a0107")),
]
URI = implicit(6, b"http://a.example/" + ASCII.encode())
POINT = sequence(context(0, context(0, URI)), implicit(1, b"\xff"), implicit(3, b"\x05\x60"), implicit(4, b"\xff"))
REASONS = (
    (0, "unspecified"),
    (1, "keyCompromise"),
    (2, "cACompromise"),
    (3, "affiliationChanged"),
    (4, "superseded"),
    (5, "cessationOfOperation"),
    (6, "certificateHold"),
    (8, "removeFromCRL"),
    (9, "privilegeWithdrawn"),
    (10, "aACompromise"),
)


def crls():
    """For each CRL a name, its bytes, and its lines."""
    yield "crl", crl(), crl_lines(
        "extension: authorityKeyIdentifier",
        "  key identifier: 617574686f72697479",
        "extension: cRLNumber",
        "  CRL number: 7",
        "revoked: 05",
        "  revocation date: 2026-01-01 00:00:00 UTC",
    )
    yield "crl with entries", crl(entries=ENTRIES, extensions=None), crl_lines(*ENTRY_LINES)
    yield "crl of version 1", crl(version=b"", next_update=b"", entries=b"", extensions=None), crl_lines(head=["type: CRL", "version: v1", *CRL_HEAD[2:5]])
    yield "crl number", *shown_crl((ce(20, integer(2**64)),), ["extension: cRLNumber", "  CRL number: 0x010000000000000000"])
    yield "delta crl", *shown_crl((ce(27, integer(3), True),), ["extension: deltaCRLIndicator, critical", "  base CRL number: 3"])
    yield "freshest crl", *shown_crl(
        (ce(46, sequence(sequence(context(0, context(0, implicit(6, b"http://a.example/d")))))),),
        ["extension: freshestCRL", "  distribution point:", "    URI: http://a.example/d"],
    )
    yield "issuing point", *shown_crl(
        (ce(28, POINT, True),),
        [
            "extension: issuingDistributionPoint, critical",
            "  URI: http://a.example/" + VISIBLE_ASCII,
            "  only contains: user certificates",
            "  reason: keyCompromise",
            "  reason: cACompromise",
            "  indirect CRL: yes",
        ],
    )
    yield "issuing points of authorities", *shown_crl(
        (ce(28, sequence(implicit(2, b"\xff")), True), ce(28, sequence(implicit(5, b"\xff")))),
        [
            "extension: issuingDistributionPoint, critical",
            "  only contains: CA certificates",
            "extension: issuingDistributionPoint",
            "  only contains: attribute certificates",
        ],
    )
    for number, name in REASONS:
        entries = sequence(entry(integer(number), utc(b"260101000000Z"), ce(21, element(0x0A, bytes([number])))))
        lines = [f"revoked: {number:02X}", "  revocation date: 2026-01-01 00:00:00 UTC", "  extension: reasonCode", f"    reason: {name}"]
        yield f"reason {name}", crl(entries=entries, extensions=None), crl_lines(*lines)


def long_crl():
    """A CRL that is printed in many pieces, and its lines. Some entries have an extension."""
    entries, lines = [], []
    for number in range(6000):
        reason = (ce(21, element(0x0A, b"\x01")),) if number % 3 == 0 else ()
        entries.append(entry(integer(0x10000 + number), utc(b"251231235959Z"), *reason))
        lines.append(f"revoked: 01:{number // 256:02X}:{number % 256:02X}")
        lines += below("revocation date: 2025-12-31 23:59:59 UTC")
        lines += below("extension: reasonCode", *below("reason: keyCompromise")) if reason else []
    return crl(entries=sequence(*entries), extensions=None), crl_lines(*lines)


# ---- CSRs


def attribute(number, *values):
    """An attribute 1.2.840.113549.1.9.N (RFC 2985)."""
    return sequence(object_identifier(1, 2, 840, 113549, 1, 9, number), set_of(*sorted(values)))


def request_lines(subject, *lines):
    return ["type: CSR", "version: v1", f"subject: {subject}".strip(), *KEY_LINES, *lines, *SIGNED]


def requests():
    """The same of CSRs."""
    asked = sequence(ce(17, sequence(implicit(2, b"a.example"), implicit(1, ASCII.encode()))), ce(15, bit_string(b"\x80", 7), True))
    yield "csr", csr(common_name(b"A subject")), request_lines("CN=A subject")
    other = sequence(object_identifier(1, 2, 3), set_of(NULL, object_identifier(1, 2, 4), element(PRINTABLE_STRING, b"a")))
    attributes = attribute(7, element(UTF8_STRING, FORGED.encode())), attribute(14, asked), other
    yield "csr with attributes", csr(sequence(), attributes), request_lines(
        "",
        "attribute: 1.2.3",
        "  value: NULL",
        "  value: 1.2.4",
        "  value: 130161",
        "attribute: challengePassword",
        "  challenge password: " + VISIBLE,
        "attribute: extensionRequest",
        *below("extension: subjectAltName", "  DNS name: a.example", "  email: " + VISIBLE_ASCII, "extension: keyUsage, critical", "  usage: digitalSignature"),
    )
    yield "csr with undecodable values", csr(common_name(b"x"), [attribute(7, octet_string(b"a")), attribute(14, NULL, octet_string())]), request_lines(
        "CN=x", "attribute: challengePassword", "  undecodable: 040161", "attribute: extensionRequest", "  undecodable: 0400", "  undecodable: 0500"
    )
    yield "csr with a deep value", csr(common_name(b"x"), [attribute(14, sequence(ce(31, DEEP_POINT)))]), request_lines(
        "CN=x",
        "attribute: extensionRequest",
        *below("extension: cRLDistributionPoints", *below(*DEEP_LINES)),
    )


PARTY = element(0xA5, context(0, element(PRINTABLE_STRING, b"a")), context(1, element(PRINTABLE_STRING, b"p")))
DEEP_POINT = sequence(sequence(context(2, PARTY)))
DEEP_LINES = ["distribution point:", *below("CRL issuer:", *below("EDI party name: p", *below("name assigner: a")))]


# ---- trust anchors


def certificate_lines(*lines):
    """The lines of the certificate of test_linter.py with other extensions than its own."""
    return [
        "version: v3",
        "serial: 01",
        *ALGORITHM,
        "issuer: CN=An authority",
        "not before: 2026-01-02 03:04:05 UTC",
        "not after: 2027-01-02 03:04:05 UTC",
        "subject: CN=A subject",
        *KEY_LINES,
        *lines,
    ]


def anchors():
    """The same of trust anchors; a certificate is shown as one where that is asked for."""
    bare, part = certificate(extensions=None), certificate_lines()
    yield "anchor, a certificate", bare, ["type: trust anchor", "choice: certificate", *part, *SIGNED]
    signed = sequence(context(0, integer(2)), integer(1), ECDSA_SHA256, ISSUER, DATES, SUBJECT, KEY)
    yield "anchor, a tbsCert", context(1, signed), ["type: trust anchor", "choice: tbsCert", *part]
    info = ["type: trust anchor", "choice: taInfo", "version: v1", *KEY_LINES, "key identifier: 0102"]
    yield "anchor, a taInfo", context(2, sequence(KEY, octet_string(b"\1\2"))), info
    deep = certificate(extensions=(ce(31, DEEP_POINT),))
    controls = sequence(
        common_name(b"An anchor"),
        element(0xA0, deep[header_len(len(deep)) :]),
        context(1, sequence(object_identifier(1, 2, 3))),
        implicit(2, b"\x05\xe0"),
        context(3, context(1, sequence(implicit(2, b".example")))),
        implicit(4, b"\x03"),
    )
    title, extensions = element(UTF8_STRING, FORGED.encode()), context(1, sequence(ce(14, octet_string(b"\1"))))
    whole = sequence(KEY, octet_string(b"\1\2"), title, controls, extensions, implicit(2, FORGED.encode()))
    yield "anchor, a whole taInfo", context(2, whole), [
        *info,
        "title: " + VISIBLE,
        "title language: " + VISIBLE,
        "name: CN=An anchor",
        "certificate:",
        *below(*certificate_lines("extension: cRLDistributionPoints", *below(*DEEP_LINES)), *SIGNED),
        "policy set:",
        "  policy: 1.2.3",
        "policy flag: inhibitPolicyMapping",
        "policy flag: requireExplicitPolicy",
        "policy flag: inhibitAnyPolicy",
        "name constraints:",
        *below("excluded:", "  DNS name: .example"),
        "path length: 3",
        "extension: subjectKeyIdentifier",
        "  key identifier: 01",
    ]


# ---- extensions of certificates


def timestamp(millis, extensions=b"", hash_byte=4, signature_byte=3, version=0):
    """A signed certificate timestamp (RFC 6962 3.2)."""
    head = bytes([version]) + bytes(range(32)) + millis.to_bytes(8, "big") + len(extensions).to_bytes(2, "big") + extensions
    return head + bytes([hash_byte, signature_byte]) + b"\0\2\xab\xcd"


def listed(*timestamps):
    """A list of them (RFC 6962 3.3)."""
    body = b"".join(len(it).to_bytes(2, "big") + it for it in timestamps)
    return len(body).to_bytes(2, "big") + body


def timestamp_lines(time, *extensions, hash_name="sha256", signature="ecdsa"):
    signed = [f"hash algorithm: {hash_name}", f"signature algorithm: {signature}", "signature: abcd"]
    return [f"timestamp: {time}", *below("version: v1", "log ID: " + bytes(range(32)).hex(), *extensions, *signed)]


TIMES = (
    (0, "1970-01-01 00:00:00 UTC"),
    (1, "1970-01-01 00:00:00.001 UTC"),
    (86399999, "1970-01-01 23:59:59.999 UTC"),
    (951782400000, "2000-02-29 00:00:00 UTC"),
    (1767323045020, "2026-01-02 03:04:05.020 UTC"),
    (1767323045678, "2026-01-02 03:04:05.678 UTC"),
    (4107542400000, "2100-03-01 00:00:00 UTC"),
    (253402300799999, "9999-12-31 23:59:59.999 UTC"),
    (253402300800000, "253402300800000 milliseconds since 1970"),
    (2**64 - 1, "18446744073709551615 milliseconds since 1970"),
)
HASHES = ((0, "none"), (1, "md5"), (2, "sha1"), (3, "sha224"), (4, "sha256"), (5, "sha384"), (6, "sha512"), (8, "intrinsic"))
SIGNATURES = ((0, "anonymous"), (1, "rsa"), (2, "dsa"), (3, "ecdsa"), (7, "ed25519"), (8, "ed448"))
SCTS, POISON = object_identifier(1, 3, 6, 1, 4, 1, 11129, 2, 4, 2), object_identifier(1, 3, 6, 1, 4, 1, 11129, 2, 4, 3)


def with_extension(oid, payload, name, *lines):
    return certificate(extensions=(extension(oid, payload),)), ["type: certificate", *certificate_lines(f"extension: {name}", *below(*lines)), *SIGNED]


def timestamps():
    """The same of certificates with timestamps."""
    def shown(octets, *lines):
        return with_extension(SCTS, octet_string(octets), "signedCertificateTimestamps", *lines)

    for millis, time in TIMES:
        yield f"timestamp of {millis}", *shown(listed(timestamp(millis)), *timestamp_lines(time))
    for byte, name in HASHES:
        yield f"timestamp with {name}", *shown(listed(timestamp(0, hash_byte=byte)), *timestamp_lines(TIMES[0][1], hash_name=name))
    for byte, name in SIGNATURES:
        yield f"timestamp with {name}", *shown(listed(timestamp(0, signature_byte=byte)), *timestamp_lines(TIMES[0][1], signature=name))
    both = [*timestamp_lines(TIMES[1][1]), *timestamp_lines(TIMES[0][1], "extensions: 0102")]
    yield "two timestamps", *shown(listed(timestamp(1), timestamp(0, b"\1\2")), *both)
    yield "no timestamp", *shown(listed())
    odd = timestamp(0, version=1)
    yield "timestamp of another version", *shown(listed(odd, timestamp(0)), "undecodable: " + odd.hex(), *timestamp_lines(TIMES[0][1]))
    yield "timestamp of no octets", *shown(listed(b""), "undecodable:")
    one = listed(timestamp(0))
    for name, octets in (("an octet too many", one + b"\0"), ("an octet too few", one[:-1]), ("a cut item", b"\0\1\0"), ("nothing", b"")):
        yield f"timestamps with {name}", *shown(octets, ("undecodable: " + octets.hex()).strip())
    yield "timestamps without an OCTET STRING", *with_extension(SCTS, NULL, "signedCertificateTimestamps", "undecodable: 0500")
    yield "poison", *with_extension(POISON, NULL, "precertificatePoison", "value: NULL")
    yield "poison with another value", *with_extension(POISON, octet_string(b"a"), "precertificatePoison", "undecodable: 040161")


def qualifiers():
    """The same of certificates with qualifiers of policies."""
    def shown(qualifier, *lines):
        policies = sequence(sequence(object_identifier(1, 2, 3), sequence(qualifier)))
        return with_extension(object_identifier(2, 5, 29, 32), policies, "certificatePolicies", "policy: 1.2.3", *below(*lines))

    yield "cps", *shown(sequence(CPS, element(IA5_STRING, b"http://a.example/cps")), "qualifier: cps", "  URI: http://a.example/cps")
    yield "cps with line feeds", *shown(sequence(CPS, element(IA5_STRING, ASCII.encode())), "qualifier: cps", "  URI: " + VISIBLE_ASCII)
    yield "cps that is none", *shown(sequence(CPS, element(UTF8_STRING, b"a")), "qualifier: cps", "  undecodable: 0c0161")
    reference = sequence(element(UTF8_STRING, FORGED.encode()), sequence(integer(1), integer(2**64)))
    yield "notice", *shown(
        sequence(NOTICE, sequence(reference, element(BMP_STRING, "ä\n".encode("utf-16-be")))),
        "qualifier: unotice",
        *below("organization: " + VISIBLE, "  notice number: 1", "  notice number: 0x010000000000000000", "explicit text: ä\\0a"),
    )
    yield "notice of a text alone", *shown(sequence(NOTICE, sequence(element(VISIBLE_STRING, b"text"))), "qualifier: unotice", "  explicit text: text")
    yield "notice of nothing", *shown(sequence(NOTICE, sequence()), "qualifier: unotice")
    yield "notice that is none", *shown(sequence(NOTICE, NULL), "qualifier: unotice", "  undecodable: 0500")
    yield "qualifier without value", *shown(sequence(CPS), "qualifier: cps")
    yield "another qualifier", *shown(sequence(object_identifier(1, 2, 4), NULL), "qualifier: 1.2.4", "  value: NULL")


def objects():
    """For each object a name, the word that asks for its kind, its bytes, and its lines."""
    for word, those in (("crl", crls), ("csr", requests), ("anchor", anchors), ("certificate", timestamps), ("certificate", qualifiers)):
        for name, data, lines in those():
            yield name, word, data, lines
