"""Values that no call of their own divides: the library checks them, finds the elements in them and reads these. Nothing here parses DER."""

from __future__ import annotations

from typing import NamedTuple

from ._der import SET, element
from ._header import MALFORMED, ElementView
from ._library import X509Error, fill, walk


class Element(NamedTuple):
    """An element: its identifier octet, all of it, and its content octets."""

    tag: int
    data: bytes
    content: bytes


def elements(data: bytes) -> list[Element]:
    """The elements that stand one behind the other; an X509Error where something else does."""
    # the values of an attribute may be of any type, so the walk over them is one over any elements
    within = element(SET, data)
    return [Element(int(it.tag), it.element.of(within), it.content.of(within)) for it in walk("x509_attribute_value_next", ElementView, within)]


def only(data: bytes, tag: int, what: str) -> Element:
    """The one element that the bytes are, which has this identifier octet; an X509Error where they are no such element."""
    found = elements(data)
    if len(found) != 1 or found[0].tag != tag:
        raise X509Error(what, MALFORMED)
    return found[0]


def text_of(data: bytes) -> str:
    """The text of a character string of any type, by its DER; an X509Error where it is none."""
    return fill("x509_string_text", data).decode("utf-8")
