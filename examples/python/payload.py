"""Words that say what the payloads of two extensions hold."""

from __future__ import annotations

import ipaddress
import socket

import x509_cert as x509

USAGES = (
    "digitalSignature nonRepudiation keyEncipherment dataEncipherment keyAgreement keyCertSign cRLSign encipherOnly decipherOnly"
).split()


def text(name: str) -> str:
    """The ASCII text: each character that isn't visible, and each backslash, as a backslash and two hex digits."""
    return "".join(it if " " < it < "\x7f" and it != "\\" else f"\\{ord(it):02x}" for it in name)


def hexed(octets: bytes) -> str:
    return "#" + octets.hex().upper()


def address(value: object) -> str:
    """An address; of octets that are none, as of a network, their hex (RFC 5280 4.2.1.6)."""
    if isinstance(value, (ipaddress.IPv4Address, ipaddress.IPv6Address)):
        return socket.inet_ntop(socket.AF_INET if value.version == 4 else socket.AF_INET6, value.packed)
    if isinstance(value, (ipaddress.IPv4Network, ipaddress.IPv6Network)):
        return hexed(value.network_address.packed + value.netmask.packed)
    assert isinstance(value, bytes)
    return hexed(value)


def name_text(name: x509.GeneralName) -> str:
    match name:
        case x509.OtherName():
            return f"other:{name.type_id.dotted_string}:{hexed(name.data)}"
        case x509.RFC822Name():
            return "email:" + text(name.value)
        case x509.DNSName():
            return "DNS:" + text(name.value)
        case x509.UniformResourceIdentifier():
            return "URI:" + text(name.value)
        case x509.DirectoryName():
            return "[4]:" + hexed(name.value.public_bytes())
        case x509.EDIPartyName():
            return "[5]:" + hexed(name.value)
        case x509.IPAddress():
            return "IP:" + address(name.value)
        case x509.RegisteredID():
            return "ID:" + name.value.dotted_string
    raise TypeError(f"a {type(name).__name__} is no general name")


def names(payload: bytes) -> list[str]:
    """Those of a subject alternative name; an X509Error where the payload is none."""
    return [name_text(it) for it in x509.SubjectAlternativeName.from_der(payload)]


def usages(payload: bytes) -> list[str]:
    """Those of a key usage; an X509Error where the payload is none."""
    bits = x509.KeyUsage.from_der(payload).bits
    return [usage for bit, usage in enumerate(USAGES) if bits >> bit & 1]
