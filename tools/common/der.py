"""Writes DER, for inputs of tests (X.690). It reads none: that is for the proved library alone."""
import functools

# Identifier octets (X.690 8.1.2; the numbers are those of X.680 8.6).
INTEGER, BIT_STRING, OCTET_STRING, OID, SEQUENCE, SET = 0x02, 0x03, 0x04, 0x06, 0x30, 0x31
UTF8_STRING, PRINTABLE_STRING, TELETEX_STRING, IA5_STRING, VISIBLE_STRING, BMP_STRING = 0x0C, 0x13, 0x14, 0x16, 0x1A, 0x1E
UTC_TIME, GENERALIZED_TIME = 0x17, 0x18
# The elements of these values (8.2, 11.1; 8.8).
TRUE, NULL = b"\x01\x01\xff", b"\x05\x00"


def length(size):
    """Length octets: one below 128, and else as few as hold the number behind one that says how many (8.1.3, 10.1)."""
    if size < 0x80:
        return bytes([size])
    octets = size.to_bytes((size.bit_length() + 7) // 8, "big")
    return bytes([0x80 + len(octets)]) + octets


def header_len(total):
    """How many octets stand before the content of an element of so many octets in all."""
    return next(it for it in range(2, total + 1) if it == 1 + len(length(total - it)))


def element(tag, *contents):
    """An element: its identifier octet, length octets, and content octets (8.1.1)."""
    content = b"".join(contents)
    return bytes([tag]) + length(len(content)) + content


def integer(number):
    """An INTEGER that isn't negative, in as few octets as there may be (8.3)."""
    return element(INTEGER, number.to_bytes(number.bit_length() // 8 + 1, "big"))


def bit_string(octets, unused=0):
    """A BIT STRING of these octets; so many bits of the last one are unused (8.6.2)."""
    return element(BIT_STRING, bytes([unused]), octets)


def octet_string(octets=b""):
    """An OCTET STRING (8.7)."""
    return element(OCTET_STRING, octets)


def sequence(*members):
    """A SEQUENCE, or a SEQUENCE OF, of these elements (8.9, 8.10)."""
    return element(SEQUENCE, *members)


def set_of(*members):
    """A SET OF these elements, in this order; that of DER is the one in which they rise (8.12, 11.6)."""
    return element(SET, *members)


def context(number, *contents):
    """Elements under a constructed context-specific tag of this number (8.1.2, 8.14)."""
    return element(0xA0 + number, *contents)


def object_identifier(first, second, *others):
    """An OBJECT IDENTIFIER: the first two arcs as one number, each number in base 128, with bit 8 set in all octets but its last (8.19)."""
    content = bytearray()
    for number in (40 * first + second, *others):
        octets = [number % 128]
        while number >= 128:
            number //= 128
            octets.append(128 + number % 128)
        content += bytes(reversed(octets))
    return element(OID, bytes(content))


@functools.lru_cache(maxsize=4)
def nested(levels, tag=SEQUENCE):
    """So many elements in each other, the innermost empty."""
    headers, size = [], 0
    for _ in range(levels):
        headers.append(bytes([tag]) + length(size))
        size += len(headers[-1])
    return b"".join(reversed(headers))
