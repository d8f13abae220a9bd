"""PEM (RFC 7468): the armour around DER, by the standard library alone."""

from __future__ import annotations

import base64
import binascii
import enum

from ._arguments import octets
from ._header import MALFORMED
from ._library import X509Error

_BEGIN, _END, _DASHES = b"-----BEGIN ", b"-----END ", b"-----"
_COLUMNS = 64


class Encoding(enum.Enum):
    """How an object is written: as its DER, or as that in PEM. The encodings of `cryptography` are taken too."""

    DER = "DER"
    PEM = "PEM"


def encoded(data: bytes, label: str | None, encoding: object) -> bytes:
    """The DER as it is asked for; of what has no label there is no PEM."""
    # those of `cryptography` have no value in each of its versions, but this text
    wanted = str(encoding) if type(encoding).__name__ == "Encoding" else None
    if wanted not in ("Encoding.DER", "Encoding.PEM"):
        raise TypeError("an encoding is Encoding.DER or Encoding.PEM")
    if wanted == "Encoding.DER":
        return data
    if label is None:
        raise ValueError("there is no PEM of this: no label is registered for it (RFC 7468)")
    text = base64.b64encode(data)
    lines = [text[at : at + _COLUMNS] for at in range(0, len(text), _COLUMNS)]
    name = label.encode("ascii")
    return b"\n".join([_BEGIN + name + _DASHES, *lines, _END + name + _DASHES, b""])


def blocks(data: bytes, labels: tuple[str, ...]) -> list[bytes]:
    """The DER in each block with one of these labels, in order; other blocks, and what stands between blocks, are passed over. A ValueError where there is
    none, one has no end, or one isn't base64."""
    return [it for _, it in labelled_blocks(data, labels)]


def labelled_blocks(data: bytes, labels: tuple[str, ...]) -> list[tuple[str, bytes]]:
    """The same, each behind its label."""
    found: list[tuple[str, bytes]] = []
    others: list[str] = []
    label: str | None = None
    lines: list[bytes] = []
    for line in map(bytes.strip, octets(data, "PEM").splitlines()):
        if label is None:
            label, lines = _label(line, _BEGIN), []
        elif _label(line, _END) == label:
            if label in labels:
                found.append((label, _decoded(lines, label)))
            else:
                others.append(label)
            label = None
        else:
            lines.append(line)
    if label in labels:
        raise ValueError(f"the PEM of a {label} has no end")
    if not found:
        raise ValueError(f"no PEM of a {labels[0]} is there{_instead(others)}")
    return found


# which call reads the PEM with a label (RFC 7468)
_READERS = {
    "CERTIFICATE": "load_pem_x509_certificate",
    "X509 CERTIFICATE": "load_pem_x509_certificate",
    "X509 CRL": "load_pem_x509_crl",
    "CERTIFICATE REQUEST": "load_pem_x509_csr",
    "NEW CERTIFICATE REQUEST": "load_pem_x509_csr",
}


def _instead(labels: list[str]) -> str:
    """What stands there in its place, and what reads that."""
    if not labels:
        return "; DER is read by the calls with load_der_ in front"
    reader = _READERS.get(labels[0])
    return f", but one of a {labels[0]}" + (f", which {reader} reads" if reader else "")


def _label(line: bytes, mark: bytes) -> str | None:
    if not line.startswith(mark) or not line.endswith(_DASHES):
        return None
    return line[len(mark) : -len(_DASHES)].decode("ascii", "replace")


def _decoded(lines: list[bytes], label: str) -> bytes:
    try:
        return base64.b64decode(b"".join(b"".join(lines).split()), validate=True)
    except binascii.Error as error:
        raise ValueError(f"the PEM of a {label} isn't base64: {error}") from error


def refuse_pem(data: bytes, call: str, reader: str) -> None:
    """An X509Error where what should be DER looks like PEM, which names the call that reads that: by its label, or else this one."""
    begun = data.lstrip()
    if begun.startswith(_BEGIN):
        label = _label(begun.splitlines()[0].strip(), _BEGIN)
        named = f" of a {label}" if label in _READERS else ""
        raise X509Error(call, MALFORMED, f": this looks like PEM{named}, which {_READERS.get(label or '', reader)} reads")
