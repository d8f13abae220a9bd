//! Extensions of policies.
use super::{all, given, list, ExtensionValue};
use crate::error::Error;
use crate::ffi;
use crate::oid::{self, ObjectIdentifier};

/// What qualifies a policy (RFC 5280 4.2.1.4).
#[derive(Clone, Copy, Debug, PartialEq, Eq, Hash)]
pub struct PolicyQualifierInfo<'a> {
    /// The identifier of its type.
    pub policy_qualifier_id: ObjectIdentifier,

    /// A whole element, which isn't looked into.
    pub qualifier: Option<&'a [u8]>,
}

impl<'a> PolicyQualifierInfo<'a> {
    fn found(
        view: &ffi::PolicyQualifier,
        data: &'a [u8],
    ) -> Result<PolicyQualifierInfo<'a>, Error> {
        Ok(PolicyQualifierInfo {
            policy_qualifier_id: ObjectIdentifier::found(view.identifier.of(data)?)?,
            qualifier: view.qualifier.part(data)?,
        })
    }
}

/// A policy, and what qualifies it (RFC 5280 4.2.1.4).
#[derive(Clone, Debug, PartialEq, Eq)]
pub struct PolicyInformation<'a> {
    /// The policy.
    pub policy_identifier: ObjectIdentifier,

    /// What qualifies it.
    pub policy_qualifiers: Option<Vec<PolicyQualifierInfo<'a>>>,
}

impl<'a> PolicyInformation<'a> {
    pub(crate) fn found(
        view: &ffi::Policy,
        data: &'a [u8],
    ) -> Result<PolicyInformation<'a>, Error> {
        let qualifiers = view.qualifiers.part(data)?;
        let read = |part| {
            all(
                ffi::POLICY_QUALIFIERS.over(part),
                PolicyQualifierInfo::found,
            )
        };
        Ok(PolicyInformation {
            policy_identifier: ObjectIdentifier::found(view.identifier.of(data)?)?,
            policy_qualifiers: qualifiers.map(read).transpose()?,
        })
    }
}

list! {
    /// Policies under which a certificate was issued (RFC 5280 4.2.1.4). A policy may come twice where they are read.
    CertificatePolicies, CERTIFICATE_POLICIES, PolicyInformation<'a>, |value| all(ffi::CERTIFICATE_POLICIES.over(value), PolicyInformation::found)
}

/// Two policies that are taken for the same (RFC 5280 4.2.1.5).
#[derive(Clone, Copy, Debug, PartialEq, Eq, Hash)]
pub struct PolicyMapping {
    /// That of the issuer.
    pub issuer_domain_policy: ObjectIdentifier,

    /// That of the subject.
    pub subject_domain_policy: ObjectIdentifier,
}

/// Pairs of policies that are taken for the same (RFC 5280 4.2.1.5).
#[derive(Clone, Debug, PartialEq, Eq, Hash)]
pub struct PolicyMappings(pub Vec<PolicyMapping>);

impl ExtensionValue<'_> for PolicyMappings {
    const OID: ObjectIdentifier = oid::extension::POLICY_MAPPINGS;

    fn from_der(value: &[u8]) -> Result<PolicyMappings, Error> {
        let found = all(ffi::POLICY_MAPPINGS.over(value), |view, data| {
            Ok(PolicyMapping {
                issuer_domain_policy: ObjectIdentifier::found(view.issuer_policy.of(data)?)?,
                subject_domain_policy: ObjectIdentifier::found(view.subject_policy.of(data)?)?,
            })
        });
        found.map(PolicyMappings)
    }
}

/// What is asked of policies further down (RFC 5280 4.2.1.11).
#[derive(Clone, Copy, Debug, PartialEq, Eq, Hash)]
pub struct PolicyConstraints {
    /// After how many more certificates an explicit policy is asked for.
    pub require_explicit_policy: Option<u32>,

    /// After how many more certificates policies aren't mapped any more.
    pub inhibit_policy_mapping: Option<u32>,
}

impl ExtensionValue<'_> for PolicyConstraints {
    const OID: ObjectIdentifier = oid::extension::POLICY_CONSTRAINTS;

    /// A number above 4,294,967,295 is refused.
    fn from_der(value: &[u8]) -> Result<PolicyConstraints, Error> {
        let view = ffi::POLICY_CONSTRAINTS.of(value)?;
        Ok(PolicyConstraints {
            require_explicit_policy: given(
                view.has_require_explicit_policy,
                view.require_explicit_policy,
            ),
            inhibit_policy_mapping: given(
                view.has_inhibit_policy_mapping,
                view.inhibit_policy_mapping,
            ),
        })
    }
}

/// After how many more certificates any policy isn't taken (RFC 5280 4.2.1.14).
#[derive(Clone, Copy, Debug, PartialEq, Eq, Hash)]
pub struct InhibitAnyPolicy(pub u32);

impl ExtensionValue<'_> for InhibitAnyPolicy {
    const OID: ObjectIdentifier = oid::extension::INHIBIT_ANY_POLICY;

    /// A number above 4,294,967,295 is refused.
    fn from_der(value: &[u8]) -> Result<InhibitAnyPolicy, Error> {
        ffi::INHIBIT_ANY_POLICY.of(value).map(InhibitAnyPolicy)
    }
}
