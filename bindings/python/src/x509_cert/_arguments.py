"""What is given: each value is taken as it is, or refused. A TypeError says that it is of another type, a ValueError that it can't be held."""

from __future__ import annotations

import datetime
import importlib
import warnings
from typing import Iterable, TypeVar

_Kind = TypeVar("_Kind")

_EPOCH = datetime.datetime(1970, 1, 1, tzinfo=datetime.timezone.utc)


def instance(given: object, kind: type[_Kind], what: str) -> _Kind:
    if not isinstance(given, kind):
        raise TypeError(f"{what} must be {_a(kind)}, not {_a(type(given))}")
    return given


def _a(kind: type) -> str:
    """What an object of a type is called: those of packages whose names are the same are told apart."""
    package = kind.__module__.partition(".")[0]
    if package == __package__:
        return f"an x509_cert.{kind.__name__}"
    if package == "cryptography":
        return f"cryptography's {kind.__name__}"
    return f"{'an' if kind.__name__[:1].lower() in tuple('aeiou') else 'a'} {kind.__name__}"


def named(given: object) -> str:
    """What an object is called in a message."""
    return _a(type(given))


def der_of(given: object, kind: str) -> bytes | None:
    """The DER of an object of `cryptography` whose type has this name; None of anything else."""
    found = type(given)
    if found.__name__ != kind or found.__module__.partition(".")[0] != "cryptography":
        return None
    encoded: bytes = given.public_bytes() if kind == "Name" else given.public_bytes(_der_encoding())  # type: ignore[attr-defined]
    return encoded


def _der_encoding() -> object:
    """The encoding DER of `cryptography`."""
    return getattr(importlib.import_module("cryptography.hazmat.primitives.serialization").Encoding, "DER")


def whole(given: int, what: str) -> int:
    """An integer, which a bool isn't here."""
    if isinstance(given, bool):
        raise TypeError(f"{what} must be an int, not a bool")
    return instance(given, int, what)


def whole_list(given: Iterable[int], what: str) -> list[int]:
    """Integers, of which bytes are no list here."""
    if isinstance(given, (bytes, bytearray, memoryview)):
        raise TypeError(f"{what} are a list of numbers, not bytes")
    return [whole(it, f"a member of {what}") for it in given]


def octets(given: bytes, what: str) -> bytes:
    """Bytes, also those of a bytearray or a memoryview; of a number there are none."""
    if not isinstance(given, (bytes, bytearray, memoryview)):
        raise TypeError(f"{what} must be bytes, not {_a(type(given))}")
    return bytes(given)


def listed(given: Iterable[_Kind], kind: type[_Kind], what: str) -> list[_Kind]:
    """The members, each of which is of the kind. An iterator is used up once, here."""
    return [instance(it, kind, f"a member of {what}") for it in given]


def some(given: Iterable[_Kind], kind: type[_Kind], what: str) -> list[_Kind]:
    """The same of a list that has members, as RFC 5280 has its lists."""
    made = listed(given, kind, what)
    if not made:
        raise ValueError(f"{what} are one at least")
    return made


def seconds(moment: datetime.datetime, what: str) -> int:
    """The seconds since 1970-01-01T00:00:00Z of a moment with a time zone, from then on, rounded down."""
    if instance(moment, datetime.datetime, what).utcoffset() is None:
        raise ValueError(f"{what} must have a time zone, as datetime.now(timezone.utc) has")
    found = (moment - _EPOCH) // datetime.timedelta(seconds=1)
    if found < 0:
        raise ValueError(f"{what} must be in 1970 or later")
    return found


def whole_seconds(moment: datetime.datetime, what: str) -> int:
    """The seconds of a moment that is to be encoded: no encoding has fractions of a second (RFC 5280 4.1.2.5), so none are taken."""
    found = seconds(moment, what)
    if (moment - _EPOCH) % datetime.timedelta(seconds=1):
        raise ValueError(f"{what} has fractions of a second, which aren't encoded: .replace(microsecond=0) leaves them out")
    return found


def no_backend(backend: object) -> None:
    """Warns of a backend, which chose the library that `cryptography` called once: none is chosen here."""
    if backend is not None:
        warnings.warn("a backend is ignored", UserWarning, stacklevel=3)
