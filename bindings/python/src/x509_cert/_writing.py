"""DER for what builders are given, by the library's own calls. It reads it back before anyone else does."""

from __future__ import annotations

import ctypes
import datetime
import ipaddress
from typing import Any, Iterable

from ._arguments import octets, some, whole_seconds
from ._der import OBJECT_IDENTIFIER, element
from ._extension import natural_octets
from ._header import (
    GENERAL_NAME_DIRECTORY,
    GENERAL_NAME_DNS,
    GENERAL_NAME_EDI_PARTY,
    GENERAL_NAME_EMAIL,
    GENERAL_NAME_IP,
    GENERAL_NAME_REGISTERED_ID,
    GENERAL_NAME_URI,
)
from ._library import fill
from .general_name import (
    DirectoryName,
    DNSName,
    EDIPartyName,
    GeneralName,
    IPAddress,
    OtherName,
    RegisteredID,
    RFC822Name,
    UniformResourceIdentifier,
)
from .oid import ObjectIdentifier

# 9999-12-31T23:59:59Z, in seconds since 1970-01-01T00:00:00Z
_LAST_SECOND = 253_402_300_799


def seconds_of(moment: datetime.datetime, what: str) -> int:
    """The seconds since 1970 of a moment with a time zone and without fractions of a second, through the year 9999."""
    seconds = whole_seconds(moment, what)
    if seconds > _LAST_SECOND:
        raise ValueError(f"{what} is through the year 9999")
    return seconds


def identifier_of(oid: ObjectIdentifier) -> bytes:
    return element(OBJECT_IDENTIFIER, oid.content)


def numbers_der(numbers: Iterable[int], what: str) -> bytes:
    """The DER of a SEQUENCE OF INTEGER, none of which is negative."""
    members = [natural_octets(it, what) for it in numbers]
    lens = (ctypes.c_size_t * len(members))(*map(len, members))
    return fill("x509_numbers_encode", b"".join(members), lens, ctypes.c_size_t(len(members)))


_TEXTS: dict[type[GeneralName], int] = {RFC822Name: GENERAL_NAME_EMAIL, DNSName: GENERAL_NAME_DNS, UniformResourceIdentifier: GENERAL_NAME_URI}


def _address(value: Any) -> bytes:
    if isinstance(value, (ipaddress.IPv4Address, ipaddress.IPv6Address)):
        return value.packed
    if isinstance(value, (ipaddress.IPv4Network, ipaddress.IPv6Network)):
        return value.network_address.packed + value.netmask.packed
    return octets(value, "an address")


def _held(name: GeneralName) -> tuple[int, bytes]:
    """The kind of a general name that isn't an otherName, and the octets that it holds. A ValueError where it has none, as a DNS name that isn't ASCII."""
    number = _TEXTS.get(type(name))
    if number is not None:
        return number, name.value.encode("ascii")
    if isinstance(name, DirectoryName):
        return GENERAL_NAME_DIRECTORY, name.value.public_bytes()
    if isinstance(name, EDIPartyName):
        return GENERAL_NAME_EDI_PARTY, name.value
    if isinstance(name, IPAddress):
        return GENERAL_NAME_IP, _address(name.value)
    if isinstance(name, RegisteredID):
        return GENERAL_NAME_REGISTERED_ID, name.value.content
    raise ValueError(f"{name!r} is no general name")


def general_name_der(name: GeneralName) -> bytes:
    """A general name (RFC 5280 4.2.1.6). A ValueError where it has none."""
    if isinstance(name, OtherName):
        return fill("x509_other_name_encode", name.type_id.content, name.data)
    kind, content = _held(name)
    return fill("x509_general_name_encode", ctypes.c_uint32(kind), content)


def names_joined(names: Iterable[GeneralName]) -> bytes:
    """General names one after the other, as the calls take lists of them."""
    return b"".join(map(general_name_der, some(names, GeneralName, "general names")))


def general_names_der(names: Iterable[GeneralName]) -> bytes:
    return fill("x509_general_names_encode", names_joined(names))
