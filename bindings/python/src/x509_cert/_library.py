"""The C library of `include/x509.h`, by `ctypes`: one way to call it, by what `_header.py` says of its calls.

The library is the one that the environment variable X509_LIBRARY names, as for the crate for Rust: by its folder, by its file, or by that of a static library
beside it; or else the one that this package carries; or else that with this package's soname, or `libx509.so`, as the system finds it.
"""

from __future__ import annotations

import ctypes
import ctypes.util
import functools
import os
import pathlib
from typing import Any, Callable, Iterator, TypeVar

from ._header import ABSENT, CALLS, FAILED, LIMIT, MALFORMED, MEMORY, OK, OVERLENGTH, REPEATED, ROOM, SET_DUPLICATE, VALUE


class X509Error(ValueError):
    """A call was refused. `status` is its number in `x509.h`. Of a text that isn't of its form `place` is the index of the first part that can't be read: of a
    name an attribute, of an object identifier a number; where the text ends too soon, its length."""

    TEXTS = {
        OVERLENGTH: "longer than 268,435,455 bytes",
        MALFORMED: "not the DER of such a value",
        FAILED: "what was given has no such answer",
        SET_DUPLICATE: "a relative distinguished name has an attribute twice",
        VALUE: "a value is out of range, or can't be written",
        ABSENT: "what was asked for isn't there",
        REPEATED: "an extension is there more than once",
        LIMIT: "more would be tried than is allowed",
    }

    # what FAILED means of each call that answers it
    CAUSES = {
        "x509_reencode": "there is no type with that name",
        "x509_name_from_text": "not the text of a name (RFC 4514)",
        "x509_oid_from_text": "not the dotted text of an object identifier",
        "x509_attribute_encode": "the attribute doesn't have that string type",
        "x509_crl_issued_next": "an entry has its issuer twice",
        "x509_request_extensions": "the attribute that asks for extensions hasn't one value",
        "x509_path_validate_views": "the anchor has no name, or an extension twice",
        "x509_path_find": "an anchor has no name, or an extension twice",
        "x509_path_validate_views_under_anchor": "the anchor has no name, an extension twice or one that would have to be followed, or the certificate of "
        "another",
        "x509_build_root": "a root's subject has a country, an organization and a common name, in that order, each alone in its relative name; `sign` makes a "
        "root of any other name",
        "x509_build_device": "none of the names is that of a hardware module",
        "x509_build_crl": "the issuer's certificate has an SKI twice",
        "x509_assemble": "the signed part has another algorithm",
    }

    # what VALUE means of calls of which it says more
    VALUES = {
        **dict.fromkeys(("x509_server_name_view", "x509_certificate_matches_name"), "neither a DNS name nor an IP address"),
        **dict.fromkeys(("x509_email_address_view", "x509_certificate_matches_email"), "no e-mail address"),
        "x509_element_encode": "no element begins with that identifier octet",
    }

    def __init__(self, call: str, status: int, hint: str = "", place: int | None = None) -> None:
        cause = {FAILED: self.CAUSES, VALUE: self.VALUES}.get(status, {}).get(call)
        super().__init__(f"{call}: {cause or self.TEXTS.get(status, f'status {status}')}{hint}")
        self.status, self.place = status, place


View = TypeVar("View", bound=ctypes.Structure)

_loaded: ctypes.CDLL | None = None


def _file_of(named: str) -> str:
    """The file of the shared library, where that, its folder, or a static library beside it is named."""
    if os.path.isdir(named):
        return os.path.join(named, "libx509.so")
    return os.path.join(os.path.dirname(named), "libx509.so") if named.endswith(".a") else named


def _found() -> ctypes.CDLL:
    named = os.environ.get("X509_LIBRARY")
    carried = pathlib.Path(__file__).with_name("libx509.so")
    if named:
        return ctypes.CDLL(_file_of(named))
    if carried.is_file():
        return ctypes.CDLL(str(carried))
    try:
        return ctypes.CDLL("libx509.so.0")
    except OSError:
        found = ctypes.util.find_library("x509")
    if found is None:
        raise ImportError("libx509.so isn't found: install the C library, or name it in X509_LIBRARY")
    return ctypes.CDLL(found)


def _library() -> ctypes.CDLL:
    global _loaded
    if _loaded is None:
        _loaded = _found()
    return _loaded


@functools.cache
def _call(name: str) -> Callable[..., int]:
    """A call of the library, which takes and answers what the header says."""
    answer, *words = CALLS[name]
    found = _library()[name]
    found.restype, found.argtypes = answer, words
    return found


def _words(arguments: tuple[Any, ...]) -> list[Any]:
    """Bytes go in as a pointer and a length, and all else by the types of `ctypes`: a number that it made a word of would lose what doesn't fit."""
    words: list[Any] = []
    for it in arguments:
        if isinstance(it, (str, int, bytearray, memoryview)):
            raise TypeError(f"{type(it).__name__} isn't bytes")
        words += [it, len(it)] if isinstance(it, bytes) else [it]
    return words


def status_of(name: str, *arguments: Any) -> int:
    """The status of a call. One with a word too few or of another type isn't made: a TypeError, or a ctypes.ArgumentError; nor is one with a word too many."""
    words = _words(arguments)
    # ctypes itself lets further words of a call of C pass
    if len(words) != len(CALLS[name]) - 1:
        raise TypeError(f"{name} takes {len(CALLS[name]) - 1} words, and not {len(words)}")
    status = _call(name)(*words)
    if status == MEMORY:
        raise MemoryError(name)
    return status


def call(name: str, *arguments: Any) -> None:
    """Makes a call that has to succeed."""
    status = status_of(name, *arguments)
    if status != OK:
        raise X509Error(name, status)


def library_version() -> tuple[int, int, int]:
    """The version of the C library that is loaded: major, minor and patch."""
    number = _call("x509_version")()
    return number >> 16, number >> 8 & 0xFF, number & 0xFF


def view(name: str, kind: type[View], *arguments: Any) -> View:
    """What a call fills in."""
    found = kind()
    call(name, *arguments, ctypes.byref(found))
    return found


def find(name: str, kind: type[View], *arguments: Any) -> View | None:
    """What a call fills in; None where it answers that there is nothing."""
    found = kind()
    status = status_of(name, *arguments, ctypes.byref(found))
    if status == ABSENT:
        return None
    if status != OK:
        raise X509Error(name, status)
    return found


def number(name: str, *arguments: Any) -> int:
    """The number that a call fills in."""
    found = ctypes.c_uint32()
    call(name, *arguments, ctypes.byref(found))
    return found.value


def seconds(name: str, *arguments: Any) -> int:
    """The moment that a call fills in, in seconds since 1970-01-01T00:00:00Z."""
    found = ctypes.c_uint64()
    call(name, *arguments, ctypes.byref(found))
    return found.value


def fill(name: str, *arguments: Any) -> bytes:
    """What a call writes into a buffer, by a first call that asks for its length."""
    written = ctypes.c_size_t()
    status = status_of(name, *arguments, None, ctypes.c_size_t(0), ctypes.byref(written))
    if status not in (OK, ROOM):
        raise X509Error(name, status)
    buffer = (ctypes.c_uint8 * written.value)()
    call(name, *arguments, buffer, ctypes.c_size_t(written.value), ctypes.byref(written))
    return ctypes.string_at(buffer, written.value)


def indexed(name: str, data: bytes, count: int) -> ctypes.Array[ctypes.c_uint32]:
    """What a call writes into a buffer of so many numbers: it has to be so many."""
    index, written = (ctypes.c_uint32 * count)(), ctypes.c_size_t()
    call(name, data, index, ctypes.c_size_t(count), ctypes.byref(written))
    return index


def walk(name: str, kind: type[View], *arguments: Any) -> Iterator[View]:
    """The members of a list, by the call that fills in the next one."""
    at = ctypes.c_size_t()
    while True:
        found = kind()
        status = status_of(name, *arguments, ctypes.byref(at), ctypes.byref(found))
        if status == ABSENT:
            return
        if status != OK:
            raise X509Error(name, status)
        yield found
