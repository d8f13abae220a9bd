"""Extensions about policies (RFC 5280 4.2.1.4, 4.2.1.5, 4.2.1.11, 4.2.1.14)."""

from __future__ import annotations

import ctypes
from typing import Iterable, Sequence

from ._arguments import instance, listed, octets, some, whole_list
from ._der import IA5_STRING
from ._elements import only, text_of
from ._extension import ExtensionType, ListExtension, _number, _part, number_of_32_bits, optional_number
from ._header import PolicyConstraintsView, PolicyMappingView, PolicyQualifierView, PolicyView, Span, UserNoticeView
from ._library import X509Error, fill, number, view, walk
from ._numbers import natural_numbers
from ._writing import numbers_der
from .oid import CertificatePoliciesOID, ExtensionOID, ObjectIdentifier


class PolicyQualifier:
    """What qualifies a policy: the identifier of its type, and its DER."""

    def __init__(self, oid: ObjectIdentifier, data: bytes | None) -> None:
        self.oid = instance(oid, ObjectIdentifier, "the type of a qualifier")
        self.data = None if data is None else octets(data, "a qualifier")

    def __eq__(self, other: object) -> bool:
        return isinstance(other, PolicyQualifier) and (self.oid, self.data) == (other.oid, other.data)

    def __hash__(self) -> int:
        same = _qualifier(self.oid, self.data)
        return hash(same) if isinstance(same, CPSPointer) else hash((self.oid, self.data))

    def __repr__(self) -> str:
        return f"<{type(self).__name__}({self.oid!r}, {self.data!r})>"


class CPSPointer(PolicyQualifier, str):
    """Where a certification practice statement is found, a URI (RFC 5280 4.2.1.4): a text, as of `cryptography`, and a qualifier. It equals the text, and each
    qualifier with the same DER."""

    def __new__(cls, uri: str) -> CPSPointer:
        return str.__new__(cls, instance(uri, str, "a pointer to a practice statement"))

    def __init__(self, uri: str) -> None:
        scheme, colon, _ = uri.partition(":")
        if not uri.isascii() or not colon or not scheme[:1].isalpha():
            raise ValueError("a pointer to a practice statement is a URI (RFC 3986), of ASCII characters")
        super().__init__(CertificatePoliciesOID.CPS_QUALIFIER, fill("x509_cps_uri_encode", uri.encode("ascii")))

    @classmethod
    def _of(cls, data: bytes) -> CPSPointer:
        """That which was read, an IA5String; an X509Error where it is none."""
        made = str.__new__(cls, text_of(only(data, IA5_STRING, "CPSuri").data))
        PolicyQualifier.__init__(made, CertificatePoliciesOID.CPS_QUALIFIER, data)
        return made

    def __eq__(self, other: object) -> bool:
        return PolicyQualifier.__eq__(self, other) if isinstance(other, PolicyQualifier) else str.__eq__(self, other)

    def __ne__(self, other: object) -> bool:
        return not self == other

    def __hash__(self) -> int:
        return str.__hash__(self)


class NoticeReference:
    """Texts of an organization, by their numbers (RFC 5280 4.2.1.4)."""

    def __init__(self, organization: str, notice_numbers: Iterable[int]) -> None:
        self.organization = _shown(organization, "an organization")
        self.notice_numbers = whole_list(notice_numbers, "the numbers of notices")

    def __eq__(self, other: object) -> bool:
        theirs = (other.organization, other.notice_numbers) if isinstance(other, NoticeReference) else None
        return (self.organization, self.notice_numbers) == theirs

    def __hash__(self) -> int:
        return hash((self.organization, tuple(self.notice_numbers)))

    def __repr__(self) -> str:
        return f"<NoticeReference(organization={self.organization!r}, notice_numbers={self.notice_numbers!r})>"

    @classmethod
    def _of(cls, found: UserNoticeView, data: bytes) -> NoticeReference | None:
        """That of a notice which was read, where it has one."""
        organization, numbers = _part(found.organization, data), _part(found.notice_numbers, data)
        if organization is None:
            return None
        made = cls.__new__(cls)
        made.organization, made.notice_numbers = text_of(organization), [] if numbers is None else natural_numbers(numbers)
        return made


class UserNotice(PolicyQualifier):
    """What is shown to who relies on a certificate (RFC 5280 4.2.1.4): a text, or a reference to texts, or both. Texts are written as a UTF8String, and read of
    each type that they may have."""

    def __init__(self, notice_reference: NoticeReference | None, explicit_text: str | None) -> None:
        self.notice_reference = None if notice_reference is None else instance(notice_reference, NoticeReference, "a reference")
        self.explicit_text = None if explicit_text is None else _shown(explicit_text, "a text")
        organization, numbers = b"", b""
        if self.notice_reference is not None:
            # they are the caller's, who may have changed them
            organization = _shown(self.notice_reference.organization, "an organization").encode("utf-8")
            numbers = numbers_der(self.notice_reference.notice_numbers, "the number of a notice")
        text = (self.explicit_text or "").encode("utf-8")
        super().__init__(CertificatePoliciesOID.CPS_USER_NOTICE, fill("x509_user_notice_encode", organization, numbers, text))

    @classmethod
    def _of(cls, data: bytes) -> UserNotice:
        """That which was read; an X509Error where it is none."""
        found = view("x509_user_notice", UserNoticeView, data)
        text = _part(found.explicit_text, data)
        made = cls.__new__(cls)
        PolicyQualifier.__init__(made, CertificatePoliciesOID.CPS_USER_NOTICE, data)
        made.notice_reference = NoticeReference._of(found, data)
        made.explicit_text = None if text is None else text_of(text)
        return made

    def __repr__(self) -> str:
        return f"<UserNotice(notice_reference={self.notice_reference!r}, explicit_text={self.explicit_text!r})>"


def _shown(text: str, what: str) -> str:
    """A text that is shown to people; a ValueError where it is too long or empty."""
    if not 0 < len(instance(text, str, what)) <= 200:
        raise ValueError(f"{what} has 1 to 200 characters (RFC 5280 4.2.1.4)")
    return text


def _qualifier(oid: ObjectIdentifier, data: bytes | None) -> PolicyQualifier:
    """A qualifier that was read: of the two kinds of RFC 5280 what it says, where that can be read."""
    kind = _KINDS.get(oid)
    if kind is None or data is None:
        return PolicyQualifier(oid, data)
    try:
        return kind._of(data)
    except X509Error:
        return PolicyQualifier(oid, data)


_KINDS: dict[ObjectIdentifier, type[CPSPointer] | type[UserNotice]] = {
    CertificatePoliciesOID.CPS_QUALIFIER: CPSPointer,
    CertificatePoliciesOID.CPS_USER_NOTICE: UserNotice,
}


class PolicyInformation:
    """A policy, and what qualifies it (RFC 5280 4.2.1.4): a URI, which is a CPSPointer then, a UserNotice, or another PolicyQualifier."""

    def __init__(self, policy_identifier: ObjectIdentifier, policy_qualifiers: Iterable[PolicyQualifier | str] | None) -> None:
        self.policy_identifier = instance(policy_identifier, ObjectIdentifier, "a policy")
        self.policy_qualifiers = None if policy_qualifiers is None else _given_qualifiers(policy_qualifiers)

    def __eq__(self, other: object) -> bool:
        theirs = (other.policy_identifier, other.policy_qualifiers) if isinstance(other, PolicyInformation) else None
        return (self.policy_identifier, self.policy_qualifiers) == theirs

    def __hash__(self) -> int:
        return hash((self.policy_identifier, tuple(self.policy_qualifiers or ())))

    def __repr__(self) -> str:
        return f"<PolicyInformation({self.policy_identifier!r})>"

    def _der(self) -> bytes:
        if self.policy_qualifiers is not None and not self.policy_qualifiers:
            raise ValueError("qualifiers are one at least; where there are none, None")
        of = [fill("x509_policy_qualifier_encode", it.oid.content, it.data or b"") for it in self.policy_qualifiers or ()]
        return fill("x509_policy_encode", self.policy_identifier.content, b"".join(of))


def _given_qualifiers(given: Iterable[PolicyQualifier | str]) -> list[PolicyQualifier]:
    if isinstance(given, (str, bytes)):
        raise TypeError("qualifiers are a list")
    made = [CPSPointer(it) if isinstance(it, str) and not isinstance(it, PolicyQualifier) else it for it in given]
    return listed(made, PolicyQualifier, "qualifiers")


def _qualifiers(span: Span, data: bytes) -> list[PolicyQualifier] | None:
    part = _part(span, data)
    if part is None:
        return None
    found = walk("x509_policy_qualifiers_next", PolicyQualifierView, part)
    return [_qualifier(ObjectIdentifier.from_content(it.identifier.of(part)), _part(it.qualifier, part)) for it in found]


def _policy(found: PolicyView, data: bytes) -> PolicyInformation:
    return PolicyInformation(ObjectIdentifier.from_content(found.identifier.of(data)), _qualifiers(found.qualifiers, data))


def policies_under(tag: int, span: Span, data: bytes) -> list[PolicyInformation] | None:
    """Those of a list under an implicit tag of the context-specific class; None where it is left out."""
    part = _part(span, data)
    if part is None:
        return None
    return [_policy(it, part) for it in walk("x509_certificate_policies_under_next", PolicyView, _number(tag), part)]


class CertificatePolicies(ListExtension[PolicyInformation]):
    """Policies under which a certificate was issued (RFC 5280 4.2.1.4), each of which stands there once."""

    oid = ExtensionOID.CERTIFICATE_POLICIES

    def __init__(self, policies: Iterable[PolicyInformation]) -> None:
        policies = some(policies, PolicyInformation, "policies")
        if len({it.policy_identifier for it in policies}) < len(policies):
            raise ValueError("a policy stands there once")
        self._write(fill("x509_certificate_policies_encode", b"".join(it._der() for it in policies)), policies=policies)

    def _read(self, data: bytes) -> None:
        super()._read(data)
        self.policies = [_policy(it, data) for it in walk("x509_certificate_policies_next", PolicyView, data)]

    def _members(self) -> Sequence[PolicyInformation]:
        return self.policies


_ANY_POLICY = CertificatePoliciesOID.ANY_POLICY


def _pair(given: tuple[ObjectIdentifier, ObjectIdentifier]) -> tuple[ObjectIdentifier, ObjectIdentifier]:
    issuer, subject = listed(given, ObjectIdentifier, "a pair of policies")
    return issuer, subject


class PolicyMappings(ListExtension[tuple[ObjectIdentifier, ObjectIdentifier]]):
    """Pairs of policies that are taken for the same (RFC 5280 4.2.1.5), none of which is any-policy."""

    oid = ExtensionOID.POLICY_MAPPINGS

    def __init__(self, mappings: Iterable[tuple[ObjectIdentifier, ObjectIdentifier]]) -> None:
        mappings = [_pair(it) for it in mappings]
        if not mappings:
            raise ValueError("mappings are one at least")
        if any(_ANY_POLICY in pair for pair in mappings):
            raise ValueError("any-policy isn't mapped, nor mapped to")
        members = [fill("x509_policy_mapping_encode", issuer.content, subject.content) for issuer, subject in mappings]
        self._write(fill("x509_policy_mappings_encode", b"".join(members)), mappings=mappings)

    def _read(self, data: bytes) -> None:
        super()._read(data)
        self.mappings = [
            (ObjectIdentifier.from_content(it.issuer_policy.of(data)), ObjectIdentifier.from_content(it.subject_policy.of(data)))
            for it in walk("x509_policy_mappings_next", PolicyMappingView, data)
        ]

    def _members(self) -> Sequence[tuple[ObjectIdentifier, ObjectIdentifier]]:
        return self.mappings


class PolicyConstraints(ExtensionType):
    """What is asked of policies further down (RFC 5280 4.2.1.11)."""

    oid = ExtensionOID.POLICY_CONSTRAINTS

    def __init__(self, require_explicit_policy: int | None, inhibit_policy_mapping: int | None) -> None:
        if require_explicit_policy is None and inhibit_policy_mapping is None:
            raise ValueError("a constraint on policies has to be given")
        given = {"require_explicit_policy": require_explicit_policy, "inhibit_policy_mapping": inhibit_policy_mapping}
        numbers = [optional_number(it, "a number of certificates") for it in given.values()]
        told = PolicyConstraintsView(*numbers[0], *numbers[1])
        self._write(fill("x509_policy_constraints_encode", ctypes.byref(told)), **given)

    def _read(self, data: bytes) -> None:
        super()._read(data)
        found = view("x509_policy_constraints", PolicyConstraintsView, data)
        self.require_explicit_policy: int | None = int(found.require_explicit_policy) if found.has_require_explicit_policy else None
        self.inhibit_policy_mapping: int | None = int(found.inhibit_policy_mapping) if found.has_inhibit_policy_mapping else None


class InhibitAnyPolicy(ExtensionType):
    """After how many more certificates any policy isn't taken (RFC 5280 4.2.1.14)."""

    oid = ExtensionOID.INHIBIT_ANY_POLICY

    def __init__(self, skip_certs: int) -> None:
        told = number_of_32_bits(skip_certs, "a number of certificates")
        self._write(fill("x509_inhibit_any_policy_encode", ctypes.c_uint32(told)), skip_certs=skip_certs)

    def _read(self, data: bytes) -> None:
        super()._read(data)
        self.skip_certs = number("x509_inhibit_any_policy", data)
