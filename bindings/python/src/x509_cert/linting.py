"""The rules that certificates, CRLs, CSRs and trust anchors break, beyond the grammar."""

from __future__ import annotations

import dataclasses
import enum

from ._arguments import der_of, named
from ._header import FindingView, Span
from ._library import fill, walk
from .certificate import Certificate, certificate_of
from .crl import CertificateRevocationList
from .request import CertificateSigningRequest, TrustAnchor


class Severity(enum.Enum):
    """How bad it is to break a rule: the standard says MUST, or has a size or a type that isn't met (`error`); it says SHOULD (`warning`); or it allows what
    the library doesn't read, so that rules on it aren't judged (`not_judged`)."""

    error = "error"
    warning = "warning"
    not_judged = "not judged"


@dataclasses.dataclass(frozen=True)
class Finding:
    """A rule that an object breaks: its name, as serial_number_not_positive; how bad that is; the standard with the section, as RFC 5280 4.1.2.2; where in the
    object it is broken, in the field names of the standard, as tbsCertificate.serialNumber; and what is seen there, in hex, or empty where nothing is told."""

    rule: str
    severity: Severity
    section: str
    place: str
    seen: str

    def __str__(self) -> str:
        return f"{self.severity.value} {self.rule} ({self.section})"


_CALLS = {
    Certificate: "x509_certificate_lint",
    CertificateRevocationList: "x509_crl_lint",
    CertificateSigningRequest: "x509_request_lint",
    TrustAnchor: "x509_anchor_lint",
}


def lint(given: Certificate | CertificateRevocationList | CertificateSigningRequest | TrustAnchor) -> list[Finding]:
    """The rules that the certificate, the CRL (RFC 5280), the CSR (RFC 2986, RFC 2985) or the trust anchor (RFC 5914) breaks beyond the grammar, in the order of
    the rules; none where it breaks none."""
    given = given if der_of(given, "Certificate") is None else certificate_of(given, "what is linted")
    call = next((call for kind, call in _CALLS.items() if isinstance(given, kind)), None)
    if call is None:
        raise TypeError(
            f"what is linted must be an x509_cert.Certificate, CertificateRevocationList, CertificateSigningRequest or TrustAnchor, not {named(given)}"
        )
    lines = fill(call, given.public_bytes())

    def text(part: Span) -> str:
        return part.of(lines).decode("utf-8")

    found = walk("x509_finding_next", FindingView, lines)
    return [Finding(text(it.rule), Severity(text(it.severity)), text(it.section), text(it.place), text(it.seen)) for it in found]
