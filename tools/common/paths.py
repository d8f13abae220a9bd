"""Paths of certificates that nobody signed, and what the C library answers to them: it validates all of a path but the signatures."""
import ctypes

from common.der import BIT_STRING, PRINTABLE_STRING, TRUE, UTC_TIME, bit_string, context, element, integer, object_identifier, octet_string, sequence, set_of

ALGORITHM, BITS = sequence(object_identifier(1, 2, 1)), bit_string(b"")
KEY = sequence(ALGORITHM, BITS)
VALIDITY = sequence(element(UTC_TIME, b"260101000000Z"), element(UTC_TIME, b"360101000000Z"))
# 2030-01-01T00:00:00Z
MOMENT = 1_893_456_000
# statuses of x509.h
OK, FAULT = 0, 8


def name(number):
    """CN=number."""
    return sequence(set_of(sequence(object_identifier(2, 5, 4, 3), element(PRINTABLE_STRING, b"%d" % number))))


def extension(last, value, critical=True):
    """One of id-ce (RFC 5280 4.2.1)."""
    return sequence(object_identifier(2, 5, 29, last), *([TRUE] if critical else []), octet_string(value))


# of an authority, without a path length
CA = extension(19, sequence(TRUE)), extension(15, element(BIT_STRING, b"\x01\x06"))


def certificate(issuer, subject, *extensions):
    """A certificate under these two names."""
    parts = [context(0, integer(2)), integer(subject + 1), ALGORITHM, name(issuer), VALIDITY, name(subject), KEY]
    return sequence(sequence(*parts, context(3, sequence(*extensions))), ALGORITHM, BITS)


class Settings(ctypes.Structure):
    """x509_path_settings."""

    _fields_ = [("moment", ctypes.c_uint64), ("flags", ctypes.c_uint64)]


class Span(ctypes.Structure):
    """x509_span."""

    _fields_ = [("place", ctypes.c_size_t), ("len", ctypes.c_size_t)]


class Answer(ctypes.Structure):
    """x509_path_answer."""

    _fields_ = [("place", ctypes.c_size_t), ("reason", ctypes.c_uint32), ("name", Span), ("key", Span), ("policies_len", ctypes.c_size_t)]


class View(ctypes.Structure):
    """x509_certificate."""

    _fields_ = [("version", ctypes.c_uint32), *((it, Span) for it in ("serial_number", "issuer", "subject", "subject_public_key_info", "extensions"))]
    _fields_ += [("not_before", ctypes.c_uint64), ("not_after", ctypes.c_uint64), ("inner_algorithm", Span), ("issuer_unique_id", Span)]
    _fields_ += [("issuer_unused_bits", ctypes.c_uint32), ("subject_unique_id", Span), ("subject_unused_bits", ctypes.c_uint32)]


class Signature(ctypes.Structure):
    """x509_signature."""

    _fields_ = [("signed_part", Span), ("algorithm", Span), ("bits", Span), ("unused_bits", ctypes.c_uint32)]


class PathCertificate(ctypes.Structure):
    """x509_path_certificate."""

    _fields_ = [("view", View), ("signature", Signature)]


class Library:
    """The C library, asked under the name 0 and a key."""

    def __init__(self, path, room=1 << 20):
        self.call = ctypes.CDLL(str(path.resolve())).x509_path_validate_views_under_key
        self.out = ctypes.create_string_buffer(room)

    def asked(self, path, flags=0, policies=b""):
        """A call on a path, to be made, with what it fills in."""
        whole, lens, settings, answer = b"".join(path), (ctypes.c_size_t * len(path))(*map(len, path)), Settings(MOMENT, flags), Answer()
        size = ctypes.c_size_t
        words = [name(0), size(len(name(0))), KEY, size(len(KEY)), whole, size(len(whole)), lens, size(len(path)), b"", size(0), policies, size(len(policies))]
        words += [ctypes.byref(settings), size(ctypes.sizeof(settings)), self.out, size(len(self.out)), ctypes.byref(answer)]
        words += [(PathCertificate * len(path))(), size(len(path))]
        return lambda: self.call(*words), answer

    def policies(self, answer):
        """The encoding of the policies of an answer."""
        return self.out.raw[: answer.policies_len]
