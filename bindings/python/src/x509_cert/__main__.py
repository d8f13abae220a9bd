"""Shows certificates, tells which rules they break, and verifies them: `python3 -m x509_cert show|lint|verify`, each with `--help`."""

from __future__ import annotations

import argparse
import contextlib
import datetime
import io
import json
import os
import re
import sys
from typing import Callable, Iterable, Sequence, TypeVar, Union

from . import __version__
from ._library import X509Error
from ._pem import labelled_blocks
from .certificate import Certificate
from .crl import CertificateRevocationList
from .finding import FoundPath, NoPath, find_path
from .linting import Severity, lint
from .name import Name
from .oid import ExtendedKeyUsageOID
from .peer import email_address, server_name
from .request import CertificateSigningRequest, TrustAnchor
from .revocation import Revocation, RevocationScope

_Object = Union[Certificate, CertificateRevocationList, CertificateSigningRequest, TrustAnchor]
_Kind = TypeVar("_Kind", Certificate, CertificateRevocationList)

# what each kind is called, in the order in which DER is tried as them, and the labels of its PEM (RFC 7468)
_KINDS: dict[str, Callable[[bytes], _Object]] = {
    "certificate": Certificate,
    "crl": CertificateRevocationList,
    "csr": CertificateSigningRequest,
    "anchor": TrustAnchor,
}
_LABELS = {
    "CERTIFICATE": "certificate",
    "X509 CERTIFICATE": "certificate",
    "X509 CRL": "crl",
    "CERTIFICATE REQUEST": "csr",
    "NEW CERTIFICATE REQUEST": "csr",
}
_PURPOSES = {
    "server": ExtendedKeyUsageOID.SERVER_AUTH,
    "client": ExtendedKeyUsageOID.CLIENT_AUTH,
    "code": ExtendedKeyUsageOID.CODE_SIGNING,
    "email": ExtendedKeyUsageOID.EMAIL_PROTECTION,
    "timestamp": ExtendedKeyUsageOID.TIME_STAMPING,
    "ocsp": ExtendedKeyUsageOID.OCSP_SIGNING,
}
# what ends a line, turns its order round, or controls something else
_HIDDEN = re.compile("[\0-\x1f\x7f-\x9f\u061c\u200e\u200f\u2028-\u202e\u2066-\u2069]")


class _Refused(Exception):
    """An input that can't be read, or a word that is wrong, in words."""


def _visible(text: str) -> str:
    """The text with the bytes of what could forge a line, each a backslash and two hex digits."""
    return _HIDDEN.sub(lambda found: "".join(f"\\{octet:02x}" for octet in found[0].encode("utf-8")), text)


def _label(name: str) -> str:
    return "standard input" if name == "-" else _visible(os.fsencode(name).decode("utf-8", "replace"))


def _bytes_of(name: str) -> bytes:
    try:
        if name == "-":
            return sys.stdin.buffer.read()
        with open(name, "rb") as file:
            return file.read()
    except OSError as error:
        raise _Refused(f"{_label(name)}: {error.strerror}") from error


def _objects_of(data: bytes) -> list[tuple[str, _Object]]:
    """Each object with what it is called: the one that the bytes are the DER of, or those in PEM. A ValueError where there is none."""
    for kind, read in _KINDS.items():
        with contextlib.suppress(X509Error):
            return [(kind, read(data))]
    if b"-----BEGIN " not in data:
        raise ValueError("not a certificate, CRL, CSR or trust anchor in DER or PEM")
    return [(_LABELS[label], _KINDS[_LABELS[label]](der)) for label, der in labelled_blocks(data, tuple(_LABELS))]


def _read(name: str) -> list[tuple[str, _Object]]:
    data = _bytes_of(name)
    try:
        return _objects_of(data)
    except ValueError as error:
        raise _Refused(f"{_label(name)}: {_visible(str(error))}") from error


def _all_of(names: Iterable[str], kind: type[_Kind], what: str) -> list[_Kind]:
    """The objects of a kind in files, each of which has one at least; others are passed over."""
    made: list[_Kind] = []
    for name in names:
        found = [it for _, it in _read(name) if isinstance(it, kind)]
        if not found:
            raise _Refused(f"{_label(name)}: it has no {what}")
        made += found
    return made


def _each(names: Sequence[str], tell: Callable[[str, str, _Object], tuple[str, int]], is_headed: bool) -> int:
    """Prints what is told of each object of the files, of several under a heading, and answers the greatest status."""
    status = 0
    for name in names:
        try:
            objects = _read(name)
        except _Refused as refused:
            print(f"x509-cert: {refused}", file=sys.stderr)
            status = 2
            continue
        for number, (kind, it) in enumerate(objects, 1):
            text, found = tell(_label(name), kind, it)
            if is_headed and text and (len(names) > 1 or len(objects) > 1):
                print(f"{_label(name)}{f', {number}' if len(objects) > 1 else ''}:")
            print(text, end="")
            status = max(status, found)
    return status


def _show(given: argparse.Namespace) -> int:
    def tell(_name: str, _kind: str, it: _Object) -> tuple[str, int]:
        return (it.to_json() if given.json else it.to_text()), 0

    return _each(given.files, tell, not given.json)


def _lint(given: argparse.Namespace) -> int:
    def tell(name: str, kind: str, it: _Object) -> tuple[str, int]:
        findings = lint(it)
        lines: list[str] = []
        for found in findings:
            if given.json:
                told = {"rule": found.rule, "severity": found.severity.value, "section": found.section, "place": found.place, "seen": found.seen}
                lines.append(json.dumps({"file": name, "object": kind, **told}))
            else:
                # of the extensions that can't be read, which one it is
                which = f": {found.place}" if found.rule == "extension_malformed" else ""
                lines.append(f"{kind}: {found}{which}")
        if not findings and given.verbose and not given.json:
            lines.append("nothing found")
        return "".join(f"{line}\n" for line in lines), int(any(it.severity is Severity.error for it in findings))

    return _each(given.files, tell, not given.json)


def _moment(text: str) -> datetime.datetime:
    """A moment of RFC 3339, as 2026-03-15T00:00:00Z."""
    found = datetime.datetime.fromisoformat(text)
    if found.utcoffset() is None:
        raise ValueError(text)
    return found


def _named(name: Name) -> str:
    return _visible(name.rfc4514_string()) or "(an empty name)"


def _why(refused: NoPath) -> str:
    """Why no path was found, in a sentence."""
    told = refused.fault or refused.revocation
    if told is None or refused.path is None or refused.is_limit:
        return str(refused)
    return f"the certificate of {_named(refused.path[told.place].subject)} {told.said}"


def _find(given: argparse.Namespace) -> FoundPath | str:
    """The path that was found, or why there is none."""
    if not given.crls and (given.leaf_only or given.allow_undetermined):
        raise _Refused("--leaf-only and --allow-undetermined are about --crls, which aren't given")
    leaf, *intermediates = _all_of(given.files[:1], Certificate, "certificate")
    intermediates += _all_of(given.files[1:], Certificate, "certificate")
    roots = _all_of(given.roots, Certificate, "certificate")
    crls = _all_of(given.crls, CertificateRevocationList, "CRL")
    moment = datetime.datetime.now(datetime.timezone.utc) if given.time is None else given.time
    purpose = given.purpose or ("server" if given.host else "email" if given.email else None)
    if given.host and not leaf.matches_name(given.host):
        return f"the certificate isn't that of {_visible(given.host)}"
    if given.email and not leaf.matches_email(given.email):
        return f"the certificate isn't that of {_visible(given.email)}"
    scope = RevocationScope.leaf if given.leaf_only else RevocationScope.path
    asked = Revocation(crls, scope=scope, allows_undetermined=given.allow_undetermined, use_deltas=True) if crls else None
    try:
        return find_path(roots, intermediates, leaf, moment, purposes=None if purpose is None else [_PURPOSES[purpose]], revocation=asked)
    except NoPath as refused:
        return _why(refused)


def _verify(given: argparse.Namespace) -> int:
    try:
        found = _find(given)
    except (_Refused, ImportError, X509Error) as refused:
        print(f"x509-cert: {refused}", file=sys.stderr)
        return 2
    if isinstance(found, str):
        print(found)
        return 1
    path = found.path.certificates
    for it in path if path[0] == found.anchor else (found.anchor, *path):
        print(_named(it.subject))
    return 0


def _of_peer(read: Callable[[str], object]) -> Callable[[str], str]:
    """The type of a word that is a name of the peer."""

    def text(given: str) -> str:
        read(given)
        return given

    return text


def _parser() -> argparse.ArgumentParser:
    parser = argparse.ArgumentParser(prog="x509-cert", description="X.509 certificates, CRLs, CSRs and trust anchors, in DER or PEM.")
    parser.add_argument("--version", action="version", version=__version__)
    commands = parser.add_subparsers(required=True, metavar="show|lint|verify")
    show = commands.add_parser("show", help="print all that they have", description="Prints all that each object has, a line for each thing.")
    show.add_argument("--json", action="store_true", help="print a JSON array for each object")
    show.set_defaults(run=_show)
    described = "Prints a line for each rule of its standard that an object breaks. Status 1: one that has to be kept is broken."
    rules = commands.add_parser("lint", help="tell which rules they break", description=described)
    how = rules.add_mutually_exclusive_group()
    how.add_argument("--json", action="store_true", help="print an object of JSON for each finding")
    how.add_argument("-v", "--verbose", action="store_true", help="say so where nothing is found")
    rules.set_defaults(run=_lint)
    for it in (show, rules):
        it.add_argument("files", nargs="+", metavar="FILE", help="a file in DER or PEM, - for standard input")
    described = "Prints the subjects of a path from a root to the certificate, topmost first, or why it isn't to be trusted, with status 1."
    verify = commands.add_parser("verify", help="tell whether a certificate is to be trusted", description=described)
    verify.add_argument("--roots", action="append", required=True, metavar="FILE", help="certificates that are trusted")
    peer = verify.add_mutually_exclusive_group()
    peer.add_argument("--host", type=_of_peer(server_name), metavar="NAME", help="the certificate is to be that of this server, and for servers")
    peer.add_argument("--email", type=_of_peer(email_address), metavar="ADDRESS", help="the certificate is to be that of this mailbox, and for e-mail")
    verify.add_argument("--purpose", choices=_PURPOSES, help="what the key is to be for")
    verify.add_argument("--time", type=_moment, metavar="MOMENT", help="when it is to be valid, as 2026-03-15T00:00:00Z; now where it isn't said")
    verify.add_argument("--crls", action="append", default=[], metavar="FILE", help="CRLs, delta and indirect ones too: no certificate of the path is revoked")
    verify.add_argument("--leaf-only", action="store_true", help="ask the CRLs of the certificate alone, not of those above it")
    verify.add_argument("--allow-undetermined", action="store_true", help="let certificates through of which no CRL says whether they are revoked")
    verify.add_argument("files", nargs="+", metavar="FILE", help="the certificate, and others that may stand above it, in the same file or in further ones")
    verify.set_defaults(run=_verify)
    return parser


def main(words: Sequence[str] | None = None) -> int:
    """Runs the program over its words, and answers its status."""
    for it in (sys.stdout, sys.stderr):
        if isinstance(it, io.TextIOWrapper):
            it.reconfigure(encoding="utf-8")
    given = _parser().parse_args(words)
    try:
        status: int = given.run(given)
        sys.stdout.flush()
    except BrokenPipeError:
        # who reads has gone; what is left to be written goes nowhere
        with contextlib.suppress(OSError):
            os.dup2(os.open(os.devnull, os.O_WRONLY), sys.stdout.fileno())
        return 2
    return status


if __name__ == "__main__":
    sys.exit(main())
