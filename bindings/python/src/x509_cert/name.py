"""Names of certificates (RFC 5280 4.1.2.4), and their texts (RFC 4514)."""

from __future__ import annotations

import ctypes
import enum
from typing import Iterable, Iterator

from ._arguments import der_of, instance, listed, octets
from ._header import MALFORMED, AttributeView, ElementView, Span
from ._library import X509Error, fill, number, walk
from ._pem import Encoding, encoded
from ._texts import place_in_name, read_text
from .oid import NameOID, ObjectIdentifier

# the identifier octets of texts (X.680 41, X.690 8.23) and how their octets are read
_ENCODINGS = {0x0C: "utf-8", 0x12: "ascii", 0x13: "ascii", 0x14: "latin-1", 0x16: "ascii", 0x1A: "ascii", 0x1E: "utf-16-be"}


class ASN1Type(enum.Enum):
    """Types of ASN.1 by their tag numbers (X.680 8.4). As which of them a text may stand in a name depends on the attribute."""

    BitString = 3
    OctetString = 4
    UTF8String = 12
    NumericString = 18
    PrintableString = 19
    T61String = 20
    IA5String = 22
    UTCTime = 23
    GeneralizedTime = 24
    VisibleString = 26
    UniversalString = 28
    BMPString = 30


# what `cryptography` calls it
_ASN1Type = ASN1Type

# what attributes want of which RFC 5280 says nothing (CA/Browser Forum, EV Guidelines 7.1.4.2.4)
_WANTED = {NameOID.JURISDICTION_COUNTRY_NAME: ASN1Type.PrintableString}


def text_of(tag: int, content: bytes) -> str:
    """The text that a string type's octets are; an X509Error where they are none."""
    try:
        return content.decode(_ENCODINGS[tag])
    except (KeyError, UnicodeDecodeError) as error:
        raise X509Error("a text", MALFORMED) from error


class NameAttribute:
    """An attribute of a name: its type, and its value, a text.

    The text stands there as `_type` says, and without it as the attribute wants, as a PrintableString for a country and a UTF8String for most. An X509Error
    where the attribute can't have that type or the text isn't of its alphabet, and also where its length isn't within the bounds of RFC 5280 A.1, which
    `_validate=False` leaves out.

    Of one that was read, `value` is its octets where they are no text. `tag` is the identifier octet of the value, and `content` its content octets.
    """

    __slots__ = ("oid", "tag", "content", "element", "_data")

    def __init__(self, oid: ObjectIdentifier, value: str, _type: ASN1Type | None = None, *, _validate: bool = True) -> None:
        content = instance(oid, ObjectIdentifier, "the type of an attribute").content
        text = instance(value, str, "the value of an attribute").encode("utf-8")
        kind = _WANTED.get(oid) if _type is None else instance(_type, ASN1Type, "_type")
        tag = ctypes.c_uint32(0 if kind is None else kind.value)
        is_bounded = ctypes.c_uint32(instance(_validate, bool, "_validate"))
        made = fill("x509_attribute_encode", content, tag, text, is_bounded)
        (found,) = _relative_name(fill("x509_relative_name_encode", made))
        self._fill(found.oid, found.tag, found.content, found.element, made)
        if self.value != value:
            raise ValueError(f"an attribute of the type {oid.dotted_string} can't hold this value")

    @classmethod
    def _read(cls, oid: ObjectIdentifier, tag: int, content: bytes, element: bytes, data: bytes) -> NameAttribute:
        made = cls.__new__(cls)
        made._fill(oid, tag, content, element, data)
        return made

    def _fill(self, oid: ObjectIdentifier, tag: int, content: bytes, element: bytes, data: bytes) -> None:
        self.oid, self.tag, self.content, self.element, self._data = oid, tag, content, element, data

    @property
    def value(self) -> str | bytes:
        """The text of the value; its octets where it is none."""
        try:
            return self.content.decode(_ENCODINGS[self.tag])
        except (KeyError, UnicodeDecodeError):
            return self.content

    def public_bytes(self, encoding: object = Encoding.DER) -> bytes:
        """The DER of the AttributeTypeAndValue; there is no PEM of it."""
        return encoded(self._data, None, encoding)

    def rfc4514_string(self) -> str:
        """Its text, as CN=a."""
        return RelativeDistinguishedName([self]).rfc4514_string()

    def __eq__(self, other: object) -> bool:
        return isinstance(other, NameAttribute) and self._data == other._data

    def __hash__(self) -> int:
        return hash(self._data)

    def __repr__(self) -> str:
        return f"<NameAttribute(oid={self.oid.dotted_string}, value={self.value!r})>"


class RelativeDistinguishedName:
    """One or more attributes that stand together, a set: in whatever order they are given, they come in that of their encodings (X.690 11.6). An X509Error
    where one is there twice."""

    __slots__ = ("_attributes", "_data")

    def __init__(self, attributes: Iterable[NameAttribute]) -> None:
        given = listed(attributes, NameAttribute, "a relative name")
        if not given:
            raise ValueError("a relative name has an attribute")
        self._data = fill("x509_relative_name_encode", b"".join(it.public_bytes() for it in given))
        self._attributes = _relative_name(self._data)

    @classmethod
    def _read(cls, data: bytes, call: str = "x509_relative_name_next", *words: object) -> RelativeDistinguishedName:
        """The relative name that an element is, by the call that walks over its attributes; that call may want another tag than its own."""
        made = cls.__new__(cls)
        made._data = _SET + data[1:]
        made._attributes = _relative_name(data, call, *words)
        return made

    def public_bytes(self, encoding: object = Encoding.DER) -> bytes:
        """Its DER; there is no PEM of it."""
        return encoded(self._data, None, encoding)

    def get_attributes_for_oid(self, oid: ObjectIdentifier) -> list[NameAttribute]:
        return [it for it in self if it.oid == oid]

    def rfc4514_string(self) -> str:
        """Its text, as CN=a+O=b."""
        return Name([self]).rfc4514_string()

    def __iter__(self) -> Iterator[NameAttribute]:
        return iter(self._attributes)

    def __len__(self) -> int:
        return len(self._attributes)

    def __eq__(self, other: object) -> bool:
        return isinstance(other, RelativeDistinguishedName) and self._data == other._data

    def __hash__(self) -> int:
        return hash(self._data)

    def __repr__(self) -> str:
        return f"<RelativeDistinguishedName({list(self._attributes)!r})>"


# the identifier octet of a SET
_SET = b"\x31"


def _relative_name(data: bytes, call: str = "x509_relative_name_next", *words: object) -> tuple[NameAttribute, ...]:
    """The attributes of a relative name, by the call that walks over them, each with its encoding, a member of the SET."""
    found = walk(call, AttributeView, *words, data)
    members = walk("x509_attribute_value_next", ElementView, _SET + data[1:])
    return tuple(
        NameAttribute._read(ObjectIdentifier.from_content(it.oid.of(data)), int(it.tag), it.content.of(data), it.element.of(data), member.element.of(data))
        for it, member in zip(found, members, strict=True)
    )


class Name:
    """A distinguished name, by its DER, or by its relative names, the first one first; an attribute in place of one stands alone in it."""

    __slots__ = ("_data",)

    def __init__(self, attributes: bytes | Iterable[NameAttribute | RelativeDistinguishedName]) -> None:
        if isinstance(attributes, (bytes, bytearray, memoryview)):
            self._data = octets(attributes, "a name")
            self.rfc4514_string()
        else:
            self._data = fill("x509_name_build", b"".join(map(_relative_name_bytes, _members(attributes))))

    @classmethod
    def from_rfc4514_string(cls, text: str) -> Name:
        """The name that the text reads as; an X509Error with a place where it reads as none. What isn't yours to write goes into it by
        `escape_rfc4514_value`."""
        return cls(read_text("x509_name_from_text", instance(text, str, "the text of a name"), place_in_name))

    def rfc4514_string(self) -> str:
        """The text of the name, the last relative name first."""
        return fill("x509_name_text", self._data).decode("utf-8")

    def public_bytes(self, encoding: object = Encoding.DER) -> bytes:
        """Its DER; there is no PEM of it."""
        return encoded(self._data, None, encoding)

    def matches(self, other: Name) -> bool:
        """Whether the names match (RFC 5280 7.1): they have as many relative names, in order, and in each as many attributes, in any order, of the same types,
        whose values are the same or are texts that differ in case, in spaces at their ends or in how many stand within alone, as RFC 4518 prepares texts. `==`
        compares the bytes."""
        return number("x509_names_match", self._data, name_of(other, "the other name").public_bytes()) == 1

    @property
    def rdns(self) -> list[RelativeDistinguishedName]:
        found = [it.of(self._data) for it in walk("x509_name_next", Span, self._data)]
        return [RelativeDistinguishedName._read(it) for it in found]

    def get_attributes_for_oid(self, oid: ObjectIdentifier) -> list[NameAttribute]:
        return [it for it in self if it.oid == oid]

    def __iter__(self) -> Iterator[NameAttribute]:
        for rdn in self.rdns:
            yield from rdn

    def __len__(self) -> int:
        return sum(1 for _ in self)

    def __eq__(self, other: object) -> bool:
        """Byte for byte, as names are compared in a path."""
        return isinstance(other, Name) and self._data == other._data

    def __hash__(self) -> int:
        return hash(self._data)

    def __str__(self) -> str:
        return self.rfc4514_string()

    def __repr__(self) -> str:
        return f"<Name({self.rfc4514_string()!r})>"


def name_of(given: object, what: str) -> Name:
    """A Name, or that of `cryptography` by its DER."""
    data = der_of(given, "Name")
    return instance(given, Name, what) if data is None else Name(data)


def _members(given: Iterable[NameAttribute | RelativeDistinguishedName]) -> list[NameAttribute | RelativeDistinguishedName]:
    if isinstance(given, (str, Name, RelativeDistinguishedName)):
        raise TypeError(f"a name is made of DER or of attributes, not of a {type(given).__name__}; Name.from_rfc4514_string reads a text")
    made = list(given)
    for it in made:
        if not isinstance(it, (NameAttribute, RelativeDistinguishedName)):
            raise TypeError(f"a member of a name is a NameAttribute or a RelativeDistinguishedName, not a {type(it).__name__}")
    return made


def _relative_name_bytes(member: NameAttribute | RelativeDistinguishedName) -> bytes:
    return (RelativeDistinguishedName([member]) if isinstance(member, NameAttribute) else member).public_bytes()


def escape_rfc4514_value(value: str) -> str:
    """The value as it stands in the text of a name (RFC 4514 2.4), of which it is one value then, whatever it is made of."""
    return fill("x509_name_escape", instance(value, str, "a value").encode("utf-8")).decode("utf-8")
