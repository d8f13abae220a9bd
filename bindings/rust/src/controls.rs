//! What a trust anchor asks of paths (RFC 5914 2.5).
use crate::certificate::Certificate;
use crate::error::Error;
use crate::extension::{all, flags, given, GeneralSubtree, NameConstraints, PolicyInformation};
use crate::ffi;
use crate::name::NameRef;
use std::fmt;
use std::ops::BitOr;

flags! {
    /// Flags about policies (RFC 5914 2.5).
    PolicyFlags {
        /// Policies aren't to be mapped.
        INHIBIT_POLICY_MAPPING = inhibit_policy_mapping, 0, "inhibitPolicyMapping";
        /// An explicit policy is asked for.
        REQUIRE_EXPLICIT_POLICY = require_explicit_policy, 1, "requireExplicitPolicy";
        /// Any policy isn't taken.
        INHIBIT_ANY_POLICY = inhibit_any_policy, 2, "inhibitAnyPolicy";
    }
}

/// What is asked of the paths from a trust anchor (RFC 5914 2.5), as [`TrustAnchor::path_controls`](crate::TrustAnchor::path_controls) has it.
///
/// ```
/// use x509_rattle::PathControls;
///
/// // the name CN=a, and no intermediate certificate
/// let controls = PathControls::from_der(b"\x30\x11\x30\x0c\x31\x0a\x30\x08\x06\x03\x55\x04\x03\x0c\x01a\x84\x01\x00")?;
/// assert_eq!(controls.name.to_string(), "CN=a");
/// assert_eq!(controls.path_len_constraint, Some(0));
/// assert_eq!((controls.certificate, controls.policies), (None, None));
/// # Ok::<(), x509_rattle::Error>(())
/// ```
#[derive(Clone, Debug, PartialEq, Eq)]
pub struct PathControls<'a> {
    /// The name of the anchor.
    pub name: NameRef<'a>,

    /// A certificate of the anchor.
    pub certificate: Option<Certificate>,

    /// The policies for which a path may be valid.
    pub policies: Option<Vec<PolicyInformation<'a>>>,

    /// Flags about policies.
    pub policy_flags: Option<PolicyFlags>,

    /// Where the names of certificates must lie.
    pub name_constraints: NameConstraints<'a>,

    /// How many intermediate certificates may follow at most.
    pub path_len_constraint: Option<u32>,
}

/// The certificate that stands under the tag \[0\] in place of its own, 30.
fn certificate(element: &[u8]) -> Result<Certificate, Error> {
    let rest = element.get(1..).ok_or(Error::Unexpected)?;
    Certificate::from_der([&[0x30], rest].concat())
}

impl<'a> PathControls<'a> {
    /// What the bytes, a whole CertPathControls, ask for, under the rules of RFC 5280.
    ///
    /// # Errors
    /// [`Error::Malformed`] or [`Error::Overlength`] where they are none, or bytes stand behind it, or a number in a subtree is above 4,294,967,295;
    /// [`Error::Memory`].
    pub fn from_der(der: &'a [u8]) -> Result<PathControls<'a>, Error> {
        let view = ffi::PATH_CONTROLS.of(der)?;
        let policies = view.policies.part(der)?;
        let policies = policies
            .map(|part| all(ffi::POLICIES_UNDER_1.over(part), PolicyInformation::found))
            .transpose()?;
        let subtrees = |span: ffi::Span, walk: &'static ffi::Walk<ffi::Subtree>| {
            let part = span.part(der)?;
            part.map(|it| all(walk.over(it), GeneralSubtree::found))
                .transpose()
        };
        Ok(PathControls {
            name: NameRef::found(view.name.of(der)?),
            certificate: view.certificate.part(der)?.map(certificate).transpose()?,
            policies,
            policy_flags: given(view.has_policy_flags, view.policy_flags).map(PolicyFlags),
            name_constraints: NameConstraints {
                permitted_subtrees: subtrees(view.permitted, &ffi::SUBTREES_UNDER_0)?,
                excluded_subtrees: subtrees(view.excluded, &ffi::SUBTREES_UNDER_1)?,
            },
            path_len_constraint: given(view.has_path_len, view.path_len),
        })
    }
}
