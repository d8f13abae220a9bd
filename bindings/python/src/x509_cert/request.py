"""Requests for certificates, CSRs (RFC 2986), and trust anchors (RFC 5914)."""

from __future__ import annotations

import enum
from typing import Iterator

from ._arguments import no_backend, octets
from ._header import AnchorView, ElementView, PathControlsView, RequestAttributeView, RequestView, SignatureView, Span
from ._library import fill, find, view, walk
from ._extension import _part
from ._keyed import Keyed
from ._pem import Encoding, blocks, encoded, refuse_pem
from ._signed import Signed
from .certificate import Certificate
from .extensions import Extensions, _subtrees
from .name import Name
from .oid import ObjectIdentifier
from .policies import policies_under


class AttributeNotFound(Exception):
    """No attribute is of the type."""

    def __init__(self, oid: ObjectIdentifier) -> None:
        super().__init__(f"no attribute is of the type {oid.dotted_string}")
        self.oid = oid


class Attribute:
    """An attribute of a CSR with one of its values: the identifier octet of that is `tag`, and its content octets are `value`."""

    def __init__(self, oid: ObjectIdentifier, tag: int, value: bytes) -> None:
        self.oid, self.tag, self.value = oid, tag, value

    @property
    def _type(self) -> int:
        """The same as `tag`, as of `cryptography`."""
        return self.tag

    def __eq__(self, other: object) -> bool:
        return isinstance(other, Attribute) and (self.oid, self.tag, self.value) == (other.oid, other.tag, other.value)

    def __hash__(self) -> int:
        return hash((self.oid, self.tag, self.value))

    def __repr__(self) -> str:
        return f"<Attribute(oid={self.oid!r}, value={self.value!r})>"


class Attributes(list[Attribute]):
    """Attributes of a CSR with a value each: an attribute with several values stands there once for each."""

    def get_attribute_for_oid(self, oid: ObjectIdentifier) -> Attribute:
        """The first of a type; an AttributeNotFound where there is none."""
        for it in self:
            if it.oid == oid:
                return it
        raise AttributeNotFound(oid)


class CertificateSigningRequest(Keyed, Signed):
    """A CSR, by its DER."""

    _label = "CERTIFICATE REQUEST"

    def __init__(self, data: bytes) -> None:
        self._data = octets(data, "a CSR")
        refuse_pem(self._data, "x509_request_view", "load_pem_x509_csr")
        self._view: RequestView = view("x509_request_view", RequestView, self._data)

    @property
    def subject(self) -> Name:
        return Name(self._view.subject.of(self._data))

    @property
    def attributes(self) -> Attributes:
        """The values of the attributes, in order: an attribute with several stands there once for each."""
        return Attributes(self._attributes())

    def _attributes(self) -> Iterator[Attribute]:
        data = self._view.attributes.of(self._data)
        for found in walk("x509_request_attribute_next", RequestAttributeView, data):
            oid, values = ObjectIdentifier.from_content(found.oid.of(data)), found.values.of(data)
            for it in walk("x509_attribute_value_next", ElementView, values):
                yield Attribute(oid, int(it.tag), it.content.of(values))

    def _attribute(self, oid: bytes) -> bytes | None:
        """The values of the attribute of a type, a whole SET; an X509Error where there are two or more such attributes."""
        found = find("x509_request_attribute_find", RequestAttributeView, self._data, oid)
        return None if found is None else found.values.of(self._data)

    def get_attribute_for_oid(self, oid: ObjectIdentifier) -> Attribute:
        """The attribute of a type with its first value. An AttributeNotFound where there is none or it has no value, an X509Error where there are two or
        more."""
        values = self._attribute(oid.content)
        if values is None:
            raise AttributeNotFound(oid)
        it = next(walk("x509_attribute_value_next", ElementView, values), None)
        if it is None:
            raise AttributeNotFound(oid)
        return Attribute(oid, int(it.tag), it.content.of(values))

    @property
    def extensions(self) -> Extensions:
        """The extensions that it asks for (RFC 2985 5.4.2). An X509Error where several attributes ask for some, or the one hasn't one value, a list of
        extensions."""
        found = find("x509_request_extensions", Span, self._data)
        return Extensions([]) if found is None else Extensions.from_der(found.of(self._data))

    @property
    def tbs_certrequest_bytes(self) -> bytes:
        """The bytes that the signature is over, as they stand in the DER."""
        return self._view.signature.signed_part.of(self._data)

    @property
    def _signature(self) -> SignatureView:
        return self._view.signature

    @property
    def is_signature_valid(self) -> bool:
        """Whether the signature is one by its own key, by `cryptography`; False also where the algorithm isn't one for such keys."""
        return self._is_valid(self.public_key_bytes)

    def to_text(self) -> str:
        """All that it has, as lines for people: each is a label and a text, and no text of the CSR can forge a line or turn its order round."""
        return fill("x509_request_text", self._data).decode("utf-8")

    def to_json(self) -> str:
        """The lines of `to_text` as JSON (RFC 8259): an array of objects, each with its `depth`, its `label` and its `text`."""
        return fill("x509_request_json", self._data).decode("utf-8")

    def __repr__(self) -> str:
        return f"<CertificateSigningRequest(subject={self.subject!r})>"


def load_der_x509_csr(data: bytes, backend: object = None) -> CertificateSigningRequest:
    """The CSR that the bytes are; an X509Error where they are none."""
    no_backend(backend)
    return CertificateSigningRequest(data)


def load_pem_x509_csr(data: bytes, backend: object = None) -> CertificateSigningRequest:
    """The first CSR in PEM (RFC 7468 7); a ValueError where there is none."""
    no_backend(backend)
    return CertificateSigningRequest(blocks(data, ("CERTIFICATE REQUEST", "NEW CERTIFICATE REQUEST"))[0])


class AnchorKind(enum.Enum):
    """What a trust anchor is (RFC 5914 3)."""

    certificate = 0
    tbs_certificate = 1
    info = 2


class PathControls:
    """What a trust anchor asks of paths (RFC 5914 2.5), by its DER, a CertPathControls. What is left out is None; `policy_flags` has the named bit n as
    1 << n."""

    INHIBIT_POLICY_MAPPING, REQUIRE_EXPLICIT_POLICY, INHIBIT_ANY_POLICY = 1, 2, 4

    def __init__(self, data: bytes) -> None:
        self._data = octets(data, "constraints on paths")
        found = view("x509_path_controls_view", PathControlsView, self._data)
        self.name = Name(found.name.of(self._data))
        element = _part(found.certificate, self._data)
        # it stands under the tag [0] in place of its own, 30
        self.certificate = None if element is None else Certificate(b"\x30" + element[1:])
        self.policies = policies_under(1, found.policies, self._data)
        self.policy_flags: int | None = int(found.policy_flags) if found.has_policy_flags else None
        self.permitted_subtrees = _subtrees(0, found.permitted, self._data)
        self.excluded_subtrees = _subtrees(1, found.excluded, self._data)
        self.path_length: int | None = int(found.path_len) if found.has_path_len else None

    def public_bytes(self, encoding: object = Encoding.DER) -> bytes:
        """The DER that it was read from; there is no PEM of it."""
        return encoded(self._data, None, encoding)

    def __eq__(self, other: object) -> bool:
        return isinstance(other, PathControls) and self._data == other._data

    def __hash__(self) -> int:
        return hash(self._data)

    def __repr__(self) -> str:
        return f"<PathControls(name={self.name!r}, path_length={self.path_length})>"


class TrustAnchor(Keyed):
    """A trust anchor, by its DER."""

    def __init__(self, data: bytes) -> None:
        self._data = octets(data, "a trust anchor")
        refuse_pem(self._data, "x509_anchor_view", "of a certificate load_pem_x509_certificate")
        self._view: AnchorView = view("x509_anchor_view", AnchorView, self._data)

    def public_bytes(self, encoding: object = Encoding.DER) -> bytes:
        """The DER that it was read from. In PEM it is that of a certificate, and there is none of the other kinds."""
        return encoded(self._data, "CERTIFICATE" if self.kind == AnchorKind.certificate else None, encoding)

    @property
    def kind(self) -> AnchorKind:
        return AnchorKind(int(self._view.kind))

    @property
    def element(self) -> bytes:
        """The DER of the Certificate, TBSCertificate or TrustAnchorInfo."""
        return self._view.element.of(self._data)

    @property
    def name(self) -> Name | None:
        found = _part(self._view.name, self._data)
        return None if found is None else Name(found)

    @property
    def key_identifier(self) -> bytes | None:
        """Of a TrustAnchorInfo the octets of its key identifier."""
        return _part(self._view.key_identifier, self._data)

    @property
    def title(self) -> str | None:
        found = _part(self._view.title, self._data)
        return None if found is None else found.decode("utf-8")

    @property
    def extensions(self) -> Extensions:
        return Extensions.from_der(self._view.extensions.of(self._data))

    @property
    def path_controls_bytes(self) -> bytes | None:
        """The DER of the constraints on paths, a CertPathControls."""
        return _part(self._view.controls, self._data)

    @property
    def path_controls(self) -> PathControls | None:
        """The constraints on paths."""
        found = self.path_controls_bytes
        return None if found is None else PathControls(found)

    def to_text(self) -> str:
        """All that it has, as lines for people: each is a label and a text, and no text of the anchor can forge a line or turn its order round."""
        return fill("x509_anchor_text", self._data).decode("utf-8")

    def to_json(self) -> str:
        """The lines of `to_text` as JSON (RFC 8259): an array of objects, each with its `depth`, its `label` and its `text`."""
        return fill("x509_anchor_json", self._data).decode("utf-8")

    def __eq__(self, other: object) -> bool:
        return isinstance(other, TrustAnchor) and self._data == other._data

    def __hash__(self) -> int:
        return hash(self._data)

    def __repr__(self) -> str:
        return f"<TrustAnchor(kind={self.kind.name}, name={self.name!r})>"


def load_der_trust_anchor(data: bytes) -> TrustAnchor:
    """The trust anchor (TrustAnchorChoice) that the bytes are; an X509Error where they are none."""
    return TrustAnchor(data)
