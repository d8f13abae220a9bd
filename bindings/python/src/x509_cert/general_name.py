"""General names (RFC 5280 4.2.1.6)."""

from __future__ import annotations

import ctypes
import ipaddress
from email.utils import parseaddr
from typing import Any, Iterable, Iterator, Self, Union, overload

from ._arguments import instance, listed, octets
from ._elements import text_of
from ._header import (
    GENERAL_NAME_DIRECTORY,
    GENERAL_NAME_DNS,
    GENERAL_NAME_EDI_PARTY,
    GENERAL_NAME_EMAIL,
    GENERAL_NAME_IP,
    GENERAL_NAME_OTHER,
    GENERAL_NAME_URI,
    GeneralNameView,
    Span,
)
from ._library import fill, walk
from .name import Name
from .oid import ObjectIdentifier


class GeneralName:
    """A name of one of the kinds below. `value` is what it holds."""

    __slots__ = ("value",)
    value: Any

    def __init__(self, value: Any) -> None:
        raise TypeError("a general name is of one of its kinds, as a DNSName")

    @classmethod
    def _read(cls, value: Any) -> Self:
        """What stands in a name that was read, which may be no proper value of the kind."""
        made = cls.__new__(cls)
        made.value = value
        return made

    def __eq__(self, other: object) -> bool:
        return type(self) is type(other) and self.value == other.value  # type: ignore[attr-defined]

    def __hash__(self) -> int:
        return hash((type(self), self.value))

    def __repr__(self) -> str:
        return f"<{type(self).__name__}(value={self.value!r})>"


class _Text(GeneralName):
    value: str

    def __init__(self, value: str) -> None:
        if not instance(value, str, "a name").isascii():
            raise ValueError(f"a {type(self).__name__} has ASCII characters, which of a domain are those of its A-labels (RFC 5280 7.2)")
        self.value = value


class RFC822Name(_Text):
    """An e-mail address."""

    def __init__(self, value: str) -> None:
        super().__init__(value)
        name, address = parseaddr(value)
        if name or not address:
            raise ValueError("an e-mail address stands alone, without a name beside it")


class DNSName(_Text):
    """A DNS name."""


class UniformResourceIdentifier(_Text):
    """A URI."""


class DirectoryName(GeneralName):
    """A distinguished name."""

    value: Name

    def __init__(self, value: Name) -> None:
        self.value = instance(value, Name, "a directory name")


class RegisteredID(GeneralName):
    """A registered identifier."""

    value: ObjectIdentifier

    def __init__(self, value: ObjectIdentifier) -> None:
        self.value = instance(value, ObjectIdentifier, "a registered identifier")


_Address = Union[ipaddress.IPv4Address, ipaddress.IPv6Address, ipaddress.IPv4Network, ipaddress.IPv6Network, bytes]


class IPAddress(GeneralName):
    """An address; with a mask behind it, as name constraints have it, a network. Octets that are neither stay octets."""

    value: _Address

    def __init__(self, value: _Address) -> None:
        networks = (ipaddress.IPv4Address, ipaddress.IPv6Address, ipaddress.IPv4Network, ipaddress.IPv6Network)
        self.value = value if isinstance(value, networks) else octets(value, "an address that is none of `ipaddress`")


class OtherName(GeneralName):
    """A name of another kind: the identifier of its type. `data` is its value, a whole element."""

    __slots__ = ("data",)
    value: ObjectIdentifier

    def __init__(self, type_id: ObjectIdentifier, data: bytes) -> None:
        self.value = instance(type_id, ObjectIdentifier, "the type of a name")
        self.data = octets(data, "the value of a name")

    @property
    def type_id(self) -> ObjectIdentifier:
        return self.value

    def __eq__(self, other: object) -> bool:
        return isinstance(other, OtherName) and (self.value, self.data) == (other.value, other.data)

    def __hash__(self) -> int:
        return hash((self.value, self.data))


class EDIPartyName(GeneralName):
    """A name of EDI, by the octets of its fields. The texts that they hold are read when they are asked for: an X509Error where they hold none."""

    value: bytes

    def __init__(self, value: bytes) -> None:
        self.value = octets(value, "the fields of a name")

    @property
    def name_assigner(self) -> str | None:
        """Who gives such names, where that is said."""
        return self._texts()[0]

    @property
    def party_name(self) -> str:
        """The name."""
        return self._texts()[1]

    def _texts(self) -> tuple[str | None, str]:
        names = fill("x509_general_names_encode", fill("x509_general_name_encode", ctypes.c_uint32(GENERAL_NAME_EDI_PARTY), self.value))
        found = next(walk("x509_general_names_next", GeneralNameView, names))
        assigner: Span = found.name_assigner
        party: Span = found.party_name
        return text_of(assigner.of(names)) if assigner.is_there() else None, text_of(party.of(names))


def _address(octets: bytes) -> Any:
    if len(octets) in (4, 16):
        return ipaddress.ip_address(octets)
    if len(octets) in (8, 32):
        half = len(octets) // 2
        kind = ipaddress.IPv4Network if half == 4 else ipaddress.IPv6Network
        mask = int.from_bytes(octets[half:], "big")
        bits = 8 * half
        ones = bits - (mask ^ ((1 << bits) - 1)).bit_length()
        try:
            return kind((octets[:half], ones)) if mask == ((1 << ones) - 1) << (bits - ones) else octets
        except ValueError:
            return octets
    return octets


def general_name(view: GeneralNameView, data: bytes) -> GeneralName:
    """The name that a call filled in over these bytes."""
    content = view.content.of(data)
    kind = int(view.kind)
    if kind == GENERAL_NAME_OTHER:
        return OtherName(ObjectIdentifier.from_content(view.type_id.of(data)), view.value.of(data))
    texts: dict[int, type[_Text]] = {GENERAL_NAME_EMAIL: RFC822Name, GENERAL_NAME_DNS: DNSName, GENERAL_NAME_URI: UniformResourceIdentifier}
    if kind in texts:
        return texts[kind]._read(content.decode("ascii"))
    if kind == GENERAL_NAME_DIRECTORY:
        return DirectoryName(Name(content))
    if kind == GENERAL_NAME_EDI_PARTY:
        return EDIPartyName(content)
    if kind == GENERAL_NAME_IP:
        return IPAddress(_address(content))
    return RegisteredID(ObjectIdentifier.from_content(content))


class GeneralNames:
    """A list of general names, which equals a list or a tuple of the same names."""

    __slots__ = ("_names",)

    def __init__(self, names: Iterable[GeneralName]) -> None:
        self._names = tuple(listed(names, GeneralName, "general names"))

    @classmethod
    def from_der(cls, data: bytes) -> GeneralNames:
        return cls([general_name(it, data) for it in walk("x509_general_names_next", GeneralNameView, data)])

    def get_values_for_type(self, kind: type[GeneralName]) -> list[Any]:
        """What the names of that kind hold."""
        return [it if isinstance(it, OtherName) else it.value for it in self._names if isinstance(it, kind)]

    def __iter__(self) -> Iterator[GeneralName]:
        return iter(self._names)

    def __len__(self) -> int:
        return len(self._names)

    @overload
    def __getitem__(self, at: int) -> GeneralName: ...

    @overload
    def __getitem__(self, at: slice) -> list[GeneralName]: ...

    def __getitem__(self, at: int | slice) -> GeneralName | list[GeneralName]:
        return list(self._names[at]) if isinstance(at, slice) else self._names[at]

    def __eq__(self, other: object) -> bool:
        if isinstance(other, (list, tuple)):
            return self._names == tuple(other)
        return isinstance(other, GeneralNames) and self._names == other._names

    def __hash__(self) -> int:
        return hash(self._names)

    def __repr__(self) -> str:
        return f"<{type(self).__name__}({list(self._names)!r})>"
