"""Where a text stops to be one of its form. What is one the library says; here a text is cut at its separators, and the library asked about its parts."""

from __future__ import annotations

from typing import Callable, Iterator

from ._header import FAILED
from ._library import X509Error, fill


def read_text(call: str, text: str, place: Callable[[str], int]) -> bytes:
    """What the call writes of a text; its refusal of the text has a place."""
    try:
        return fill(call, text.encode("utf-8"))
    except X509Error as error:
        if error.status != FAILED:
            raise
    at = place(text)
    raise X509Error(call, FAILED, f", from its character {at} on", at)


def _is_one(call: str, text: str) -> bool:
    """Whether the call takes a text, for whatever else it is refused."""
    try:
        fill(call, text.encode("utf-8"))
    except X509Error as error:
        return error.status != FAILED
    return True


def _attributes(text: str) -> Iterator[tuple[int, str]]:
    """The attributes of the text of a name, and where each begins: behind separators that no backslash escapes (RFC 4514 2.1, 2.2, 2.4)."""
    first, is_escaped = 0, False
    for at, it in enumerate(text):
        if it in ",+" and not is_escaped:
            yield first, text[first:at]
            first = at + 1
        is_escaped = it == "\\" and not is_escaped
    yield first, text[first:]


def place_in_name(text: str) -> int:
    """Where the first attribute begins that is none. Without any a text is that of the empty name, of which it is no part."""
    return next((at for at, it in _attributes(text) if not it or not _is_one("x509_name_from_text", it)), 0)


def place_in_oid(text: str) -> int:
    """Where the first number begins with which the text is none's."""
    call = "x509_oid_from_text"
    first, *rest = text.split(".")
    if not _is_one(call, f"{first}.0"):
        return 0
    if not rest:
        return len(text)
    front = first
    # what has so many numbers that its content octets are too many is none, so that few of these are asked about
    for number in rest:
        if not _is_one(call, f"{front}.{number}"):
            break
        front = f"{front}.{number}"
    return len(front) + 1
