#!/usr/bin/env python3
"""Writes hostile payloads for the callers of examples/, and what these are to print, which is stated here by hand.

payloads, payloads.txt   a line for each payload, as examples/c/payloads.c reads it, and the lines that are to be printed
spoilt                   the same of each payload cut at each length, and with each octet replaced by others: without a statement, so that what the
                         callers print is compared among them
NAME.der, .txt, .status  a certificate with that payload, or otherwise unusual, what is to be printed of it, and the status
"""
import argparse
import pathlib
import sys

TOP = pathlib.Path(__file__).resolve().parents[2]
sys.path.insert(0, str(TOP / "tools"))
from common.der import GENERALIZED_TIME, PRINTABLE_STRING, TRUE, UTC_TIME, UTF8_STRING
from common.der import bit_string, context, element, integer, object_identifier, octet_string, sequence, set_of

DATA = TOP / "examples" / "data"
LINES = (DATA / "expected.txt").read_text(encoding="utf-8").splitlines()
REFUSED = " refused with 2"


def names(*parts):
    """The payload of alternative names with these tags and contents (RFC 5280 4.2.1.6)."""
    return sequence(*(element(*part) for part in parts))


# What stands in a payload of alternative names, and what is printed of it.
ADDRESS = bytes.fromhex("20010DB8000000000000000000000001")
NAME_ROWS = {
    "names_nothing": (b"", REFUSED),
    "names_one_octet": (b"\x30", REFUSED),
    "names_length_past_the_end": (bytes.fromhex("30028206"), REFUSED),
    "names_length_127_past_the_end": (bytes.fromhex("3002827F"), REFUSED),
    "names_length_of_four_octets_past_the_end": (bytes.fromhex("30068284FFFFFFFF"), REFUSED),
    "names_length_of_five_octets": (bytes.fromhex("300782850000000000"), REFUSED),
    "names_length_cut": (bytes.fromhex("30028281"), REFUSED),
    "names_outer_length_cut": (bytes.fromhex("3082"), REFUSED),
    "names_outer_length_past_the_end": (bytes.fromhex("3005820161"), REFUSED),
    "names_indefinite": (bytes.fromhex("30808201610000"), REFUSED),
    "names_long_tag": (bytes.fromhex("30049F820161"), REFUSED),
    "names_good_then_past_the_end": (bytes.fromhex("30058201618202"), REFUSED),
    "names_length_not_shortest": (bytes.fromhex("300482810161"), REFUSED),
    "names_octets_behind": (names((0x82, b"a")) + b"\0", REFUSED),
    "names_set": (set_of(element(0x82, b"a")), REFUSED),
    "names_dns_not_ascii": (names((0x82, "ö".encode())), REFUSED),
    "names_none": (names(), ""),
    "names_dns_of_200": (names((0x82, b"a" * 200)), " DNS:" + "a" * 200),
    "names_dns_of_300": (names((0x82, b"b" * 300), (0x82, b"c")), " DNS:" + "b" * 300 + " DNS:c"),
    "names_dns_of_none": (names((0x82, b"")), " DNS:"),
    "names_dns_with_nul": (names((0x82, b"good.example\0.bad.example")), r" DNS:good.example\00.bad.example"),
    "names_dns_with_controls": (names((0x82, b"a\x1b[2Jb\n\r\x7f c\\")), r" DNS:a\1b[2Jb\0a\0d\7f\20c\5c"),
    "names_email": (names((0x81, b"post@example.org")), " email:post@example.org"),
    "names_uri": (names((0x86, b"https://example.org/a?b=c#d")), " URI:https://example.org/a?b=c#d"),
    "names_ipv4": (names((0x87, bytes([192, 0, 2, 7]))), " IP:192.0.2.7"),
    "names_ipv6": (names((0x87, ADDRESS)), " IP:2001:db8::1"),
    "names_ipv6_of_zeros": (names((0x87, bytes(16)), (0x87, bytes(15) + b"\1")), " IP::: IP:::1"),
    "names_ipv6_mapped": (names((0x87, bytes(10) + b"\xff\xff\xc0\x00\x02\x07")), " IP:::ffff:192.0.2.7"),
    "names_ipv4_and_mask": (names((0x87, bytes.fromhex("C0000200FFFFFF00"))), " IP:#C0000200FFFFFF00"),
    "names_ipv6_and_mask": (names((0x87, ADDRESS + b"\xff" * 16)), " IP:#20010DB8000000000000000000000001" + "FF" * 16),
    "names_address_of_none": (names((0x87, b"")), " IP:#"),
    "names_address_of_3_and_5": (names((0x87, b"\1\2\3"), (0x87, b"\1\2\3\4\5")), " IP:#010203 IP:#0102030405"),
    "names_registered": (names((0x88, b"\x2a\x03")), " ID:1.2.3"),
    "names_registered_empty": (names((0x88, b"")), REFUSED),
    "names_registered_cut": (names((0x88, b"\x2a\x83")), REFUSED),
    "names_other": (names((0xA0, bytes.fromhex("06032A0304A0040C026162"))), " other:1.2.3.4:#0C026162"),
    "names_other_without_value": (names((0xA0, bytes.fromhex("06032A0304"))), REFUSED),
    "names_other_of_two_values": (names((0xA0, bytes.fromhex("06032A0304A00405000500"))), REFUSED),
    "names_x400": (names((0xA3, b"")), REFUSED),
    "names_edi": (names((0xA5, bytes.fromhex("A1030C0161"))), " [5]:#A1030C0161"),
    "names_primitive_directory": (names((0x84, bytes.fromhex("3000"))), REFUSED),
    "names_directory": (names((0xA4, bytes.fromhex("300C310A300806035504030C0161"))), " [4]:#300C310A300806035504030C0161"),
}
# the same of key usages
ALL = " digitalSignature nonRepudiation keyEncipherment dataEncipherment keyAgreement keyCertSign cRLSign encipherOnly"
USAGE_ROWS = {
    "usages_nothing": (b"", REFUSED),
    "usages_one_octet": (b"\x03", REFUSED),
    "usages_no_content": (bytes.fromhex("0300"), REFUSED),
    "usages_length_past_the_end": (bytes.fromhex("030207"), REFUSED),
    "usages_length_127_past_the_end": (bytes.fromhex("037F0780"), REFUSED),
    "usages_unused_8": (bytes.fromhex("03020880"), REFUSED),
    "usages_unused_255": (bytes.fromhex("0302FF80"), REFUSED),
    "usages_unused_of_none": (bytes.fromhex("030107"), REFUSED),
    "usages_zero_at_the_end": (bytes.fromhex("03020080"), REFUSED),
    "usages_unused_bit_set": (bytes.fromhex("030206C1"), REFUSED),
    "usages_of_three_octets": (bytes.fromhex("030400FFFFFF"), REFUSED),
    "usages_of_ten_bits": (bytes.fromhex("0303060040"), REFUSED),
    "usages_octet_string": (bytes.fromhex("04020780"), REFUSED),
    "usages_octets_behind": (bytes.fromhex("0302078000"), REFUSED),
    "usages_none": (bytes.fromhex("030100"), ""),
    "usages_of_one_bit": (bytes.fromhex("03020780"), " digitalSignature"),
    "usages_of_seven_bits": (bytes.fromhex("03020106"), " keyCertSign cRLSign"),
    "usages_of_eight_bits": (bytes.fromhex("03020001"), " encipherOnly"),
    "usages_of_nine_bits": (bytes.fromhex("0303070080"), " decipherOnly"),
    "usages_all": (bytes.fromhex("030307FF80"), ALL + " decipherOnly"),
}
# what an octet is replaced by
OCTETS = (0x00, 0x01, 0x04, 0x10, 0x30, 0x7F, 0x80, 0x81, 0x82, 0x84, 0x85, 0x87, 0xFF)


def spoilt(payload):
    """The payload cut at each length, and with each of its first 32 octets replaced."""
    yield from (payload[:end] for end in range(len(payload)))
    for at in range(min(len(payload), 32)):
        yield from (payload[:at] + bytes([octet]) + payload[at + 1 :] for octet in OCTETS)


def relative_name(attribute, value):
    """A name of one attribute 2.5.4.N (RFC 5280 4.1.2.4)."""
    return set_of(sequence(object_identifier(2, 5, 4, attribute), value))


def key_usage(payload=bytes.fromhex("030205A0")):
    return sequence(object_identifier(2, 5, 29, 15), TRUE, octet_string(payload))


def alternative_names(payload=names((0x82, b"www.example.org"), (0x82, b"example.org"), (0x81, b"post@example.org"), (0x87, b"\xc0\0\2\7"))):
    return sequence(object_identifier(2, 5, 29, 17), octet_string(payload))


# The certificate of the examples, whose key and signature are taken as they stand.
WHOLE = (DATA / "certificate.der").read_bytes()
ECDSA_SHA256 = sequence(object_identifier(1, 2, 840, 10045, 4, 3, 2))
EC_P256 = sequence(object_identifier(1, 2, 840, 10045, 2, 1), object_identifier(1, 2, 840, 10045, 3, 1, 7))
POINT, SIGNATURE = WHOLE.partition(EC_P256 + b"\x03\x42\0")[2][:65], WHOLE.rpartition(ECDSA_SHA256)[2]
KEY = sequence(EC_P256, bit_string(POINT))
NAME = sequence(
    relative_name(6, element(PRINTABLE_STRING, b"DE")),
    relative_name(10, element(UTF8_STRING, "Beispiel, Söhne & Co".encode())),
    relative_name(3, element(UTF8_STRING, b"www.example.org")),
)
VALIDITY = sequence(element(UTC_TIME, b"260102030405Z"), element(GENERALIZED_TIME, b"20550607080910Z"))


def signed_part(subject=NAME, validity=VALIDITY, extensions=(key_usage(), alternative_names())):
    """The TBSCertificate of the certificate of the examples, with other fields in place of some (RFC 5280 4.1)."""
    head = [context(0, integer(2)), integer(0x1234567890ABCDEF), ECDSA_SHA256, NAME, validity, subject]
    return sequence(*head, KEY, *([context(3, sequence(*extensions))] if extensions else []))


def certificate(**fields):
    """That certificate, with other fields in place of some."""
    return sequence(signed_part(**fields), ECDSA_SHA256, SIGNATURE)


def lines(**changed):
    """The lines of the certificate of the examples, with others in place of some."""
    place = ("subject", "not_before", "not_after", "usage", "names", "written")
    return [changed.get(name, line) for name, line in zip(place, LINES, strict=True)]


def with_payloads():
    for name, row in NAME_ROWS.items():
        data = certificate(extensions=(key_usage(), alternative_names(row[0])))
        yield name, data, lines(names="alternative names:" + row[1]), row[1] == REFUSED
    for name, row in USAGE_ROWS.items():
        data = certificate(extensions=(key_usage(row[0]), alternative_names()))
        said = row[1] if row[1] == REFUSED else " critical," + row[1]
        yield name, data, lines(usage="key usage:" + said), row[1] == REFUSED


def unusual():
    """Certificates without the usual fields, and with an unusual subject."""
    yield "no_subject", certificate(subject=sequence()), lines(subject="subject: "), False

    data = certificate(subject=sequence(relative_name(3, element(UTF8_STRING, "a\x1b[2J\0\x7f\u009bö".encode()))))
    yield "subject_with_controls", data, lines(subject=r"subject: CN=a\1b[2J\00\7f\c2\9bö"), False

    # RFC 5280 4.1.2.5 wants UTCTime through 2049; it is read, and written so where no profile respells it.
    data = certificate(validity=sequence(element(GENERALIZED_TIME, b"20260102030405Z"), element(GENERALIZED_TIME, b"20300102030405Z")))
    yield "generalized_time_before_2050", data, lines(not_after="not after: 2030-01-02T03:04:05Z"), False

    data = certificate(validity=sequence(element(UTC_TIME, b"691231235959Z"), element(UTC_TIME, b"300102030405Z")))
    yield "date_before_1970", data, ["certificate: refused with 2"], True

    data = certificate(extensions=(key_usage(), alternative_names(), alternative_names()))
    yield "names_twice", data, lines(names="alternative names: refused with 7"), True

    yield "no_names", certificate(extensions=(key_usage(),)), lines(names="alternative names: none"), False


def main():
    parser = argparse.ArgumentParser(description=__doc__, formatter_class=argparse.RawDescriptionHelpFormatter)
    parser.add_argument("folder", metavar="FOLDER", type=pathlib.Path, help="where the files go")
    folder = parser.parse_args().folder
    if certificate() != WHOLE:
        sys.exit("examples/data/certificate.der isn't the certificate that is stated here")
    folder.mkdir(parents=True, exist_ok=True)
    rows = [("names", *row) for row in NAME_ROWS.values()] + [("usages", *row) for row in USAGE_ROWS.values()]
    (folder / "payloads").write_text("".join(f"{row[0]} {row[1].hex()}\n" for row in rows))
    (folder / "payloads.txt").write_text("".join(f"{row[0]}:{row[2]}\n" for row in rows))
    # Of ::192.0.2.7 Rust and C write two different texts.
    whole = [row for row in rows if row[1] != NAME_ROWS["names_ipv6_of_zeros"][0]]
    (folder / "spoilt").write_text("".join(f"{row[0]} {it.hex()}\n" for row in whole for it in spoilt(row[1])))
    for name, data, printed, is_refused in (*with_payloads(), *unusual()):
        (folder / f"{name}.der").write_bytes(data)
        (folder / f"{name}.txt").write_text("".join(line + "\n" for line in printed), encoding="utf-8")
        (folder / f"{name}.status").write_text(str(int(is_refused)))


if __name__ == "__main__":
    main()
