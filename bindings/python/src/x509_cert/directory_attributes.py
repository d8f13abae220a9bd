"""Attributes of a subject (RFC 5280 4.2.1.8)."""

from __future__ import annotations

from typing import Iterable, Sequence

from ._arguments import instance, octets, some
from ._extension import ListExtension
from ._header import ElementView, RequestAttributeView
from ._library import fill, walk
from .oid import ExtensionOID, ObjectIdentifier


class DirectoryAttribute:
    """An attribute of a subject (RFC 5280 4.2.1.8): its type, and the DER of its values, which are a set: one at least, and in the order of their encodings."""

    def __init__(self, oid: ObjectIdentifier, values: Iterable[bytes]) -> None:
        self.oid = instance(oid, ObjectIdentifier, "the type of an attribute")
        if isinstance(values, (bytes, bytearray, memoryview)):
            raise TypeError("the values of an attribute are a list")
        self.values = sorted(octets(it, "a value") for it in values)
        if not self.values:
            raise ValueError("the values of an attribute are one at least")

    @classmethod
    def _of(cls, oid: ObjectIdentifier, values: list[bytes]) -> DirectoryAttribute:
        """One that was read."""
        made = cls.__new__(cls)
        made.oid, made.values = oid, values
        return made

    def __eq__(self, other: object) -> bool:
        return isinstance(other, DirectoryAttribute) and (self.oid, self.values) == (other.oid, other.values)

    def __hash__(self) -> int:
        return hash((self.oid, tuple(self.values)))

    def __repr__(self) -> str:
        return f"<DirectoryAttribute(oid={self.oid!r}, values={self.values!r})>"


class SubjectDirectoryAttributes(ListExtension[DirectoryAttribute]):
    """Attributes of the subject (RFC 5280 4.2.1.8)."""

    oid = ExtensionOID.SUBJECT_DIRECTORY_ATTRIBUTES

    def __init__(self, attributes: Iterable[DirectoryAttribute]) -> None:
        given = some(attributes, DirectoryAttribute, "attributes")
        members = [fill("x509_request_attribute_encode", it.oid.content, b"".join(it.values)) for it in given]
        self._write(fill("x509_subject_directory_attributes_encode", b"".join(members)), attributes=given)

    def _read(self, data: bytes) -> None:
        super()._read(data)
        self.attributes = [
            DirectoryAttribute._of(ObjectIdentifier.from_content(it.oid.of(data)), _values(it.values.of(data)))
            for it in walk("x509_subject_directory_attributes_next", RequestAttributeView, data)
        ]

    def _members(self) -> Sequence[DirectoryAttribute]:
        return self.attributes


def _values(data: bytes) -> list[bytes]:
    """The DER of the values of an attribute, a SET."""
    return [it.element.of(data) for it in walk("x509_attribute_value_next", ElementView, data)]
