//! Where CRLs are found, and of what they speak.
use super::{all, list, ExtensionValue, ReasonFlags};
use crate::error::Error;
use crate::ffi;
use crate::general_name::{GeneralName, GeneralNames};
use crate::name::RelativeDistinguishedName;
use crate::oid::{self, ObjectIdentifier};

/// The name of a distribution point (RFC 5280 4.2.1.13).
#[derive(Clone, Debug, PartialEq, Eq)]
pub enum DistributionPointName<'a> {
    /// Names of the point.
    FullName(Vec<GeneralName<'a>>),

    /// Its name relative to the issuer of the CRL. Builders take one of a whole name, too, whose tag is another one.
    NameRelativeToCrlIssuer(RelativeDistinguishedName<'a>),
}

impl<'a> DistributionPointName<'a> {
    fn found(
        full: ffi::Span,
        relative: ffi::Span,
        data: &'a [u8],
    ) -> Result<Option<DistributionPointName<'a>>, Error> {
        if let Some(part) = full.part(data)? {
            let names =
                GeneralNames::under(&ffi::GENERAL_NAMES_UNDER_0, part).collect::<Result<_, _>>()?;
            return Ok(Some(DistributionPointName::FullName(names)));
        }
        let relative = relative
            .part(data)?
            .map(RelativeDistinguishedName::of_point)
            .transpose()?;
        Ok(relative.map(DistributionPointName::NameRelativeToCrlIssuer))
    }
}

/// Where a CRL is found, for which reasons, and who issues it (RFC 5280 4.2.1.13).
#[derive(Clone, Debug, PartialEq, Eq)]
pub struct DistributionPoint<'a> {
    /// Where.
    pub distribution_point: Option<DistributionPointName<'a>>,

    /// For which reasons certificates are revoked there; `None` where that isn't said, which means all.
    pub reasons: Option<ReasonFlags>,

    /// The names of the issuer of the CRL.
    pub crl_issuer: Option<Vec<GeneralName<'a>>>,
}

fn reasons(is_there: u32, bits: u32) -> Option<ReasonFlags> {
    super::given(is_there, bits).map(ReasonFlags)
}

impl<'a> DistributionPoint<'a> {
    fn found(
        view: &ffi::DistributionPoint,
        data: &'a [u8],
    ) -> Result<DistributionPoint<'a>, Error> {
        let issuer = view.crl_issuer.part(data)?;
        let names = |part| GeneralNames::under(&ffi::GENERAL_NAMES_UNDER_2, part).collect();
        Ok(DistributionPoint {
            distribution_point: DistributionPointName::found(
                view.full_name,
                view.relative_name,
                data,
            )?,
            reasons: reasons(view.has_reasons, view.reasons),
            crl_issuer: issuer.map(names).transpose()?,
        })
    }
}

list! {
    /// Where CRLs are found (RFC 5280 4.2.1.13).
    CrlDistributionPoints, CRL_DISTRIBUTION_POINTS, DistributionPoint<'a>, |value| all(ffi::DISTRIBUTION_POINTS.over(value), DistributionPoint::found)
}

list! {
    /// Where delta CRLs are found (RFC 5280 4.2.1.15).
    FreshestCrl, FRESHEST_CRL, DistributionPoint<'a>, |value| all(ffi::DISTRIBUTION_POINTS.over(value), DistributionPoint::found)
}

/// Of what certificates a CRL speaks (RFC 5280 5.2.5).
#[derive(Clone, Debug, PartialEq, Eq)]
pub struct IssuingDistributionPoint<'a> {
    /// Where the CRL is found.
    pub distribution_point: Option<DistributionPointName<'a>>,

    /// Only of those of users.
    pub only_contains_user_certs: bool,

    /// Only of those of authorities.
    pub only_contains_ca_certs: bool,

    /// For which reasons they are revoked; `None` where that isn't said, which means all.
    pub only_some_reasons: Option<ReasonFlags>,

    /// Also of those of other issuers.
    pub indirect_crl: bool,

    /// Only of attribute certificates.
    pub only_contains_attribute_certs: bool,
}

impl<'a> ExtensionValue<'a> for IssuingDistributionPoint<'a> {
    const OID: ObjectIdentifier = oid::extension::ISSUING_DISTRIBUTION_POINT;

    fn from_der(value: &'a [u8]) -> Result<IssuingDistributionPoint<'a>, Error> {
        let view = ffi::ISSUING_DISTRIBUTION_POINT.of(value)?;
        Ok(IssuingDistributionPoint {
            distribution_point: DistributionPointName::found(
                view.full_name,
                view.relative_name,
                value,
            )?,
            only_contains_user_certs: view.only_contains_user_certs == 1,
            only_contains_ca_certs: view.only_contains_ca_certs == 1,
            only_some_reasons: reasons(view.has_only_some_reasons, view.only_some_reasons),
            indirect_crl: view.indirect_crl == 1,
            only_contains_attribute_certs: view.only_contains_attribute_certs == 1,
        })
    }
}
