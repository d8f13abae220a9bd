//! Values of extensions as DER, for builders: by the library's own calls. What is written is read back by the library, and has to be the
//! value, before it is given out. Values that RFC 5280 doesn't allow in their own extension are refused.
use super::{
    AccessDescription, AuthorityInfoAccess, AuthorityKeyIdentifier, BaseCrlNumber,
    BasicConstraints, CertificateIssuer, CertificatePolicies, CrlDistributionPoints, CrlNumber,
    CrlReason, DirectoryAttribute, DistributionPoint, DistributionPointName, ExtendedKeyUsage,
    ExtensionValue, FreshestCrl, GeneralSubtree, InhibitAnyPolicy, InvalidityDate, IssuerAltName,
    IssuingDistributionPoint, KeyUsage, NameConstraints, OcspNoCheck, PolicyConstraints,
    PolicyInformation, PolicyMapping, PolicyMappings, PolicyQualifierInfo, PrecertPoison,
    PrivateKeyUsagePeriod, ReasonFlags, SignedCertificateTimestamps, SubjectAltName,
    SubjectDirectoryAttributes, SubjectInfoAccess, SubjectKeyIdentifier, TlsFeature,
};
use crate::error::Error;
use crate::ffi;
use crate::general_name::GeneralName;
use crate::oid::ObjectIdentifier;
use crate::time::seconds;
use crate::writing::{INTEGER, NULL, SET};

/// What builders can put into an extension.
pub trait ToExtension {
    /// The identifier of such extensions.
    fn oid(&self) -> ObjectIdentifier;

    /// The DER of what the extension holds.
    ///
    /// ```
    /// use x509_rattle::extension::{BasicConstraints, ToExtension};
    /// use x509_rattle::Error;
    ///
    /// let authority = BasicConstraints { ca: true, path_len_constraint: Some(0) };
    /// assert_eq!(authority.to_der()?, b"\x30\x06\x01\x01\xff\x02\x01\x00");
    /// let too_long = BasicConstraints { ca: true, path_len_constraint: Some(256) };
    /// assert_eq!(too_long.to_der(), Err(Error::Value));
    /// let no_authority = BasicConstraints { ca: false, path_len_constraint: Some(0) };
    /// assert_eq!(no_authority.to_der(), Err(Error::Value));
    /// # Ok::<(), Error>(())
    /// ```
    ///
    /// # Errors
    /// [`Error::Value`] where [`from_der`](ExtensionValue::from_der) takes no encoding for the value, as one of a DNS name that isn't ASCII, or where RFC 5280
    /// allows no such value:
    ///
    /// - an empty list (A.1, A.2);
    /// - a path length constraint without an authority (4.2.1.9);
    /// - key usages that are none, or encipherOnly or decipherOnly without keyAgreement (4.2.1.3);
    /// - of an AKI the issuer without the serial number, or the other way round (A.2);
    /// - an address that is neither of IPv4 nor of IPv6 (4.2.1.6);
    /// - in a name constraint an address that is no network, a wildcard, a minimum or a maximum (4.2.1.10);
    /// - constraints of names or of policies, or an issuing distribution point, that say nothing (4.2.1.10, 4.2.1.11, 5.2.5);
    /// - a policy twice (4.2.1.4), or anyPolicy in a mapping (4.2.1.5);
    /// - a distribution point without a name and an issuer (4.2.1.13);
    /// - a CRL that speaks of more than one of users, authorities and attribute certificates alone (5.2.5);
    /// - a number of a CRL of more than 20 octets (5.2.3);
    /// - an attribute of a subject without a value (4.2.1.8), or with values that aren't in the order of their encodings (X.690 11.6);
    /// - a period of a private key that says nothing, or ends before it begins (RFC 3280 4.2.1.4);
    /// - a moment before 1970 or after 9999, or with parts of a second (4.1.2.5.2).
    ///
    /// [`Error::Memory`].
    fn to_der(&self) -> Result<Vec<u8>, Error>;
}

macro_rules! written {
    ($($kind:ty, $it:ident $(if $is_allowed:expr)? => $der:expr;)*) => {
        $(
            impl ToExtension for $kind {
                fn oid(&self) -> ObjectIdentifier {
                    <$kind>::OID
                }

                fn to_der(&self) -> Result<Vec<u8>, Error> {
                    let $it = self;
                    $(
                        if !$is_allowed {
                            return Err(Error::Value);
                        }
                    )?
                    let der: Vec<u8> = $der;
                    match <$kind>::from_der(&der).map(|read| read == *self) {
                        Ok(true) => {}
                        Err(Error::Memory) => return Err(Error::Memory),
                        Ok(false) | Err(_) => return Err(Error::Value),
                    }
                    Ok(der)
                }
            }
        )*
    };
}

written! {
    KeyUsage, it => made(ffi::build::key_usage(it.bits()))?;
    BasicConstraints, it => made(ffi::build::basic_constraints(it.ca, it.path_len_constraint))?;
    ExtendedKeyUsage, it => made(ffi::build::extended_key_usage(it.0.iter().map(ObjectIdentifier::as_bytes)))?;
    SubjectKeyIdentifier<'_>, it => made(ffi::build::subject_key_identifier(it.0))?;
    AuthorityKeyIdentifier<'_>, it if is_key_identifier(it) => {
        let issuer = it.authority_cert_issuer.as_deref();
        let issuer = issuer.map(general_names).transpose()?.unwrap_or_default();
        let serial = it.authority_cert_serial_number.map(|number| made(ffi::build::element(INTEGER, number.as_bytes())));
        made(ffi::build::authority_key_identifier(it.key_identifier, &issuer, &serial.transpose()?.unwrap_or_default()))?
    };
    SubjectAltName<'_>, it if are_names(&it.0) => general_names(&it.0)?;
    IssuerAltName<'_>, it if are_names(&it.0) => general_names(&it.0)?;
    CertificateIssuer<'_>, it if are_names(&it.0) => general_names(&it.0)?;
    AuthorityInfoAccess<'_>, it if has_only(&it.0, is_access) => made(ffi::build::info_access(&joined(&it.0, access)?))?;
    SubjectInfoAccess<'_>, it if has_only(&it.0, is_access) => made(ffi::build::info_access(&joined(&it.0, access)?))?;
    CrlDistributionPoints<'_>, it if has_only(&it.0, is_point) => made(ffi::build::distribution_points(&joined(&it.0, point)?))?;
    FreshestCrl<'_>, it if has_only(&it.0, is_point) => made(ffi::build::distribution_points(&joined(&it.0, point)?))?;
    IssuingDistributionPoint<'_>, it if is_point_name(it.distribution_point.as_ref()) => {
        let (full, relative) = point_name(it.distribution_point.as_ref())?;
        let scope = ffi::build::IssuingScope {
            only_contains_user_certs: it.only_contains_user_certs,
            only_contains_ca_certs: it.only_contains_ca_certs,
            only_some_reasons: it.only_some_reasons.map(ReasonFlags::bits),
            indirect_crl: it.indirect_crl,
            only_contains_attribute_certs: it.only_contains_attribute_certs,
        };
        made(ffi::build::issuing_distribution_point((&full, &relative), &scope))?
    };
    NameConstraints<'_>, it if are_constraints(it) => {
        let permitted = joined(it.permitted_subtrees.as_deref().unwrap_or_default(), subtree)?;
        let excluded = joined(it.excluded_subtrees.as_deref().unwrap_or_default(), subtree)?;
        made(ffi::build::name_constraints(&permitted, &excluded))?
    };
    CertificatePolicies<'_>, it if it.0.iter().all(is_policy) => made(ffi::build::certificate_policies(&joined(&it.0, policy)?))?;
    PolicyMappings, it => made(ffi::build::policy_mappings(&joined(&it.0, mapping)?))?;
    PolicyConstraints, it => made(ffi::build::policy_constraints(it.require_explicit_policy, it.inhibit_policy_mapping))?;
    InhibitAnyPolicy, it => made(ffi::build::inhibit_any_policy(it.0))?;
    CrlNumber<'_>, it => made(ffi::build::crl_number(it.0.as_bytes()))?;
    BaseCrlNumber<'_>, it => made(ffi::build::crl_number(it.0.as_bytes()))?;
    CrlReason, it => made(ffi::build::crl_reason(*it as u32))?;
    SignedCertificateTimestamps<'_>, it => made(ffi::build::timestamps(&it.0))?;
    PrivateKeyUsagePeriod, it => {
        let [first, last] = [it.not_before, it.not_after].map(|it| it.map(seconds).transpose());
        made(ffi::build::private_key_usage_period(first?, last?))?
    };
    InvalidityDate, it => made(ffi::build::invalidity_date(seconds(it.0)?))?;
    SubjectDirectoryAttributes<'_>, it => made(ffi::build::subject_directory_attributes(&joined(&it.0, directory_attribute)?))?;
    PrecertPoison, _it => made(ffi::build::element(NULL, b""))?;
    OcspNoCheck, _it => made(ffi::build::element(NULL, b""))?;
    TlsFeature, it if !it.0.is_empty() => made(ffi::build::numbers(&it.0))?;
}

/// What a call writes; a value that it refuses is [`Error::Value`].
fn made(written: Result<Vec<u8>, Error>) -> Result<Vec<u8>, Error> {
    written.map_err(|e| match e {
        Error::Memory => e,
        _ => Error::Value,
    })
}

/// A list SIZE (1..MAX) of such members, as all lists are in RFC 5280.
fn has_only<T>(list: &[T], is_member: impl Fn(&T) -> bool) -> bool {
    !list.is_empty() && list.iter().all(is_member)
}

/// The issuer and the serial number are both there, or neither is (RFC 5280 A.2).
fn is_key_identifier(it: &AuthorityKeyIdentifier<'_>) -> bool {
    let issuer = it.authority_cert_issuer.as_deref();
    issuer.is_some() == it.authority_cert_serial_number.is_some()
        && issuer.into_iter().all(are_names)
}

/// An address has the octets of one of IPv4 or of IPv6 (RFC 5280 4.2.1.6).
fn is_name(name: &GeneralName<'_>) -> bool {
    !matches!(name, GeneralName::IpAddress(_)) || name.ip_addr().is_some()
}

fn are_names(names: &[GeneralName<'_>]) -> bool {
    has_only(names, is_name)
}

fn is_access(it: &AccessDescription<'_>) -> bool {
    is_name(&it.access_location)
}

fn is_point_name(name: Option<&DistributionPointName<'_>>) -> bool {
    match name {
        Some(DistributionPointName::FullName(names)) => are_names(names),
        Some(DistributionPointName::NameRelativeToCrlIssuer(_)) | None => true,
    }
}

/// Its names are lists of such names.
fn is_point(it: &DistributionPoint<'_>) -> bool {
    is_point_name(it.distribution_point.as_ref())
        && it.crl_issuer.as_deref().into_iter().all(are_names)
}

/// From the root on, of an address with its mask, and of a domain without a wildcard (RFC 5280 4.2.1.10).
fn is_subtree(it: &GeneralSubtree<'_>) -> bool {
    let is_base = match it.base {
        GeneralName::IpAddress(_) => it.base.ip_network().is_some(),
        GeneralName::DnsName(text) => !text.contains('*'),
        _ => true,
    };
    is_base && it.minimum == 0 && it.maximum.is_none()
}

/// Neither of the lists is empty (RFC 5280 4.2.1.10).
fn are_constraints(it: &NameConstraints<'_>) -> bool {
    let mut lists = it.permitted_subtrees.iter().chain(&it.excluded_subtrees);
    lists.all(|list| has_only(list, is_subtree))
}

/// Qualifiers that are there are one at least (RFC 5280 4.2.1.4).
fn is_policy(it: &PolicyInformation<'_>) -> bool {
    it.policy_qualifiers.as_ref().map(Vec::len) != Some(0)
}

/// The content octets are at most 20 (RFC 5280 5.2.3).
pub(crate) fn is_crl_number(octets: &[u8]) -> bool {
    octets.len() <= 20
}

fn directory_attribute(it: &DirectoryAttribute<'_>) -> Result<Vec<u8>, Error> {
    made(ffi::build::request_attribute(
        it.oid.as_bytes(),
        &it.values.concat(),
    ))
}

/// The DER of the members one after the other, as the calls take lists.
fn joined<T>(list: &[T], der: impl Fn(&T) -> Result<Vec<u8>, Error>) -> Result<Vec<u8>, Error> {
    let members: Result<Vec<_>, _> = list.iter().map(der).collect();
    Ok(members?.concat())
}

fn general_name(name: &GeneralName<'_>) -> Result<Vec<u8>, Error> {
    let (kind, content) = match name {
        GeneralName::OtherName { type_id, value } => {
            return made(ffi::build::other_name(type_id.as_bytes(), value));
        }
        GeneralName::Rfc822Name(text) => (ffi::GENERAL_NAME_EMAIL, text.as_bytes()),
        GeneralName::DnsName(text) => (ffi::GENERAL_NAME_DNS, text.as_bytes()),
        GeneralName::DirectoryName(name) => (ffi::GENERAL_NAME_DIRECTORY, name.as_der()),
        GeneralName::EdiPartyName(fields) => (ffi::GENERAL_NAME_EDI_PARTY, *fields),
        GeneralName::UniformResourceIdentifier(text) => (ffi::GENERAL_NAME_URI, text.as_bytes()),
        GeneralName::IpAddress(octets) => (ffi::GENERAL_NAME_IP, *octets),
        GeneralName::RegisteredId(oid) => (ffi::GENERAL_NAME_REGISTERED_ID, oid.as_bytes()),
    };
    made(ffi::build::general_name(kind, content))
}

fn general_names(names: &[GeneralName<'_>]) -> Result<Vec<u8>, Error> {
    made(ffi::build::general_names(&joined(names, general_name)?))
}

fn access(it: &AccessDescription<'_>) -> Result<Vec<u8>, Error> {
    let location = general_name(&it.access_location)?;
    made(ffi::build::access(it.access_method.as_bytes(), &location))
}

/// The DER of the full names of a point, one after the other, and that of its relative name; what it doesn't have is no bytes.
fn point_name(name: Option<&DistributionPointName<'_>>) -> Result<(Vec<u8>, Vec<u8>), Error> {
    match name {
        None => Ok((Vec::new(), Vec::new())),
        Some(DistributionPointName::FullName(names)) => {
            Ok((joined(names, general_name)?, Vec::new()))
        }
        // one that stood in a point has another tag than its own
        Some(DistributionPointName::NameRelativeToCrlIssuer(name)) => {
            let behind = name.as_der().get(1..).unwrap_or_default();
            Ok((Vec::new(), [&[SET], behind].concat()))
        }
    }
}

fn point(it: &DistributionPoint<'_>) -> Result<Vec<u8>, Error> {
    let (full, relative) = point_name(it.distribution_point.as_ref())?;
    let issuer = joined(it.crl_issuer.as_deref().unwrap_or_default(), general_name)?;
    let reasons = it.reasons.map(ReasonFlags::bits);
    made(ffi::build::distribution_point(
        (&full, &relative),
        reasons,
        &issuer,
    ))
}

fn subtree(it: &GeneralSubtree<'_>) -> Result<Vec<u8>, Error> {
    made(ffi::build::subtree(&general_name(&it.base)?))
}

fn qualifier(it: &PolicyQualifierInfo<'_>) -> Result<Vec<u8>, Error> {
    let value = it.qualifier.unwrap_or_default();
    let oid = it.policy_qualifier_id.as_bytes();
    made(ffi::build::policy_qualifier(oid, value))
}

fn policy(it: &PolicyInformation<'_>) -> Result<Vec<u8>, Error> {
    let list = it.policy_qualifiers.as_deref().unwrap_or_default();
    let oid = it.policy_identifier.as_bytes();
    made(ffi::build::policy(oid, &joined(list, qualifier)?))
}

fn mapping(it: &PolicyMapping) -> Result<Vec<u8>, Error> {
    let issuer = it.issuer_domain_policy.as_bytes();
    made(ffi::build::policy_mapping(
        issuer,
        it.subject_domain_policy.as_bytes(),
    ))
}
