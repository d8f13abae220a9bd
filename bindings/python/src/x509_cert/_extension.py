"""What the types of extensions have in common."""

from __future__ import annotations

import ctypes
from typing import ClassVar, Generic, Iterator, Self, Sequence, TypeVar, overload

from ._arguments import octets, whole
from ._header import Span
from ._pem import Encoding, encoded
from .oid import ObjectIdentifier


class ExtensionType:
    """What an extension holds. `data` is its DER: what it was read from, or what was written of the values that it was made with."""

    oid: ClassVar[ObjectIdentifier]
    data: bytes

    @classmethod
    def from_der(cls, data: bytes) -> Self:
        """What these octets say, all of them; an X509Error where they are no value of the type."""
        made = cls.__new__(cls)
        made._read(octets(data, "what an extension holds"))
        return made

    def public_bytes(self, encoding: object = Encoding.DER) -> bytes:
        """Its DER; there is no PEM of it."""
        return encoded(self.data, None, encoding)

    def _read(self, data: bytes) -> None:
        self.data = data

    def _write(self, data: bytes, **given: object) -> None:
        """Takes what was written of the values that were given. The library reads it, and has to find just these; a ValueError where it doesn't."""
        self._read(data)
        other = [name for name, value in given.items() if getattr(self, name) != value]
        if other:
            raise ValueError(f"{type(self).__name__} can't hold this {other[0]}")

    def __eq__(self, other: object) -> bool:
        return type(self) is type(other) and self.data == other.data  # type: ignore[attr-defined]

    def __hash__(self) -> int:
        return hash((type(self), self.data))

    def __repr__(self) -> str:
        told = ", ".join(f"{name}={it!r}" for name, it in vars(self).items() if name != "data" and not name.startswith("_"))
        return f"<{type(self).__name__}({told})>"


def _part(span: Span, data: bytes) -> bytes | None:
    return span.of(data) if span.is_there() else None


def _number(n: int) -> object:
    return ctypes.c_uint32(n)


def number_of_32_bits(given: int, what: str) -> int:
    """A number that a word of the library holds; a ValueError of another."""
    if not 0 <= whole(given, what) < 1 << 32:
        raise ValueError(f"{what} is below 0, or above 4,294,967,295")
    return given


def optional_number(given: int | None, what: str) -> tuple[int, int]:
    """A number that may be left out, as a view says it: whether it is there, and what it is."""
    return (0, 0) if given is None else (1, number_of_32_bits(given, what))


def natural_octets(given: int, what: str) -> bytes:
    """The octets of a number from 0 on, the most significant first."""
    if whole(given, what) < 0:
        raise ValueError(f"{what} isn't negative")
    return given.to_bytes((given.bit_length() + 7) // 8 or 1, "big")


_Member = TypeVar("_Member")


class ListExtension(ExtensionType, Generic[_Member]):
    """An extension that is a list of members: they are gone over, counted and indexed."""

    def _members(self) -> Sequence[_Member]:
        raise NotImplementedError

    def __iter__(self) -> Iterator[_Member]:
        return iter(self._members())

    def __len__(self) -> int:
        return len(self._members())

    @overload
    def __getitem__(self, at: int) -> _Member: ...

    @overload
    def __getitem__(self, at: slice) -> list[_Member]: ...

    def __getitem__(self, at: int | slice) -> _Member | list[_Member]:
        found = self._members()
        return list(found[at]) if isinstance(at, slice) else found[at]
