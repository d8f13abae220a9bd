"""Names of the peer (RFC 9525): texts of them, as the library reads them."""

from __future__ import annotations

import ipaddress
from typing import Union

from ._arguments import instance, named
from ._header import VALUE, EmailAddressView, ServerNameView
from ._library import X509Error, view
from .general_name import DNSName, IPAddress, RFC822Name

ServerName = Union[str, DNSName, IPAddress, ipaddress.IPv4Address, ipaddress.IPv6Address]
"""How a server may be named: by a text, or by a DNS name or an IP address."""


def server_name(text: str) -> DNSName | IPAddress:
    """The name of a server (RFC 9525 2) that a text is: an IPv4 address as four decimal numbers without leading zeros, an IPv6 address (RFC 4291 2.2), which may
    stand in brackets, or a DNS name, of which one dot at the end is taken off. Its labels are 1 to 63 letters and digits of ASCII, hyphens and underscores, and
    neither begin nor end with a hyphen; the last isn't digits alone; of an internationalized name they are A-labels. An X509Error where it is none of these."""
    data = instance(text, str, "a server's name").encode("utf-8")
    found = view("x509_server_name_view", ServerNameView, data)
    length = int(found.address_len)
    if length:
        return IPAddress(ipaddress.ip_address(bytes(found.address)[:length]))
    return DNSName(data[: int(found.name_len)].decode("ascii"))


def email_address(text: str) -> tuple[str, str]:
    """The local part and the host of an address of e-mail in ASCII (RFC 5280 4.2.1.6): printed characters and spaces without quotes and backslashes, or a quoted
    string (RFC 5321 4.1.2), the last `@`, and a DNS name without a dot at its end. An X509Error where the text is none."""
    data = instance(text, str, "an e-mail address").encode("utf-8")
    found = view("x509_email_address_view", EmailAddressView, data)
    return found.local.of(data).decode("ascii"), found.host.of(data).decode("ascii")


def _is(given: object, kind: type) -> bool:
    """Whether it is of the kind, or of that of `cryptography` with the same name."""
    found = type(given)
    return isinstance(given, kind) or (found.__name__ == kind.__name__ and found.__module__.partition(".")[0] == "cryptography")


def text_of_server(name: object) -> bytes:
    """The text of a server's name, which is of the kind that was given."""
    if _is(name, DNSName):
        return _dns_text(getattr(name, "value"))
    address = getattr(name, "value") if _is(name, IPAddress) else name
    if isinstance(address, (ipaddress.IPv4Address, ipaddress.IPv6Address)):
        return str(address).encode("ascii")
    if not isinstance(name, str):
        raise TypeError(f"a server's name must be a str, a DNSName or an IPAddress of one address, not {named(address)}")
    return name.encode("utf-8")


def _dns_text(value: str) -> bytes:
    """That of a DNS name, which isn't the text of an address."""
    if not isinstance(server_name(value), DNSName):
        raise X509Error("x509_server_name_view", VALUE)
    return value.encode("ascii")


def text_of_email(address: object) -> bytes:
    """The text of an address of e-mail."""
    text = getattr(address, "value") if _is(address, RFC822Name) else address
    return instance(text, str, "an e-mail address").encode("utf-8")
