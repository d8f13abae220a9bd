"""Identifier octets, and elements with them (X.690 8.1), for what no other call of the library encodes."""

from __future__ import annotations

import ctypes

from ._library import fill

INTEGER, BIT_STRING, OCTET_STRING, NULL, OBJECT_IDENTIFIER, SEQUENCE, SET = 2, 3, 4, 5, 6, 0x30, 0x31
UTF8_STRING, IA5_STRING = 0x0C, 0x16


def context(number: int, of_elements: bool = False) -> int:
    """The identifier octet of a tag of the context-specific class, whose content is elements or not; the number is below 31."""
    return (0xA0 if of_elements else 0x80) | number


def element(identifier: int, *parts: bytes) -> bytes:
    """An element with these parts of its content one behind the other; an X509Error where none begins with the octet, or it is too long."""
    return fill("x509_element_encode", ctypes.c_uint32(identifier), b"".join(parts))


def integer(number: int, identifier: int = INTEGER) -> bytes:
    """An INTEGER, or what has such content octets (X.690 8.3)."""
    size = (number + (number < 0)).bit_length() // 8 + 1
    return element(identifier, number.to_bytes(size, "big", signed=True))
