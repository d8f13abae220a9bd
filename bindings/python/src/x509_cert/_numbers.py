"""Serial numbers and moments, as the library has them and as Python does."""

from __future__ import annotations

import datetime

from ._der import integer
from ._header import Span
from ._library import view, walk

_EPOCH = datetime.datetime(1970, 1, 1, tzinfo=datetime.timezone.utc)


def moment(since: int) -> datetime.datetime:
    """The moment so many seconds after 1970-01-01T00:00:00Z."""
    return _EPOCH + datetime.timedelta(seconds=since)


def serial_element(number: int) -> bytes:
    """The DER of an INTEGER of at most 21 octets, which serial numbers have; a ValueError where it has more."""
    if (number + (number < 0)).bit_length() // 8 + 1 > 21:
        raise ValueError("a serial number has at most 21 octets")
    return integer(number)


def whole_number(element: bytes) -> int:
    """The number that an INTEGER of at most 21 octets is, by its DER, as of a serial number."""
    return int.from_bytes(view("x509_serial_number", Span, element).of(element), "big", signed=True)


def natural_numbers(data: bytes) -> list[int]:
    """The numbers of a SEQUENCE OF INTEGER, by its DER, none of which is negative."""
    return [int.from_bytes(it.of(data), "big") for it in walk("x509_numbers_next", Span, data)]
