//! The calls of `include/x509.h` that build, and safe ways to make them.
use super::header::*;
use super::{fill, Fill};
use crate::error::{Error, ProfilePart};

pub(crate) const RELATIVE_NAME: Fill = Fill::new(x509_relative_name_encode);
pub(crate) const NAME: Fill = Fill::new(x509_name_build);
pub(crate) const NAME_ESCAPE: Fill = Fill::new(x509_name_escape);

/// The DER of an attribute of a name, of a string type that is given by its identifier octet, or by 0 for the one that the attribute wants.
pub(crate) fn attribute(
    oid: &[u8],
    string_type: u32,
    text: &str,
    is_bounded: bool,
) -> Result<Vec<u8>, Error> {
    filled!(Error::StringType, x509_attribute_encode: [oid], (string_type), [text], (u32::from(is_bounded)))
}

/// The DER of an extension.
pub(crate) fn extension(oid: &[u8], critical: bool, value: &[u8]) -> Result<Vec<u8>, Error> {
    filled!(x509_extension_encode: [oid], (u32::from(critical)), [value])
}

/// An element of an identifier octet and a content, for what no other call encodes.
pub(crate) fn element(identifier: u8, content: &[u8]) -> Result<Vec<u8>, Error> {
    filled!(x509_element_encode: (u32::from(identifier)), [content])
}

/// A number that may be left out, as a call takes it: whether it is there, and what it is.
fn told(number: Option<u32>) -> (u32, u32) {
    (u32::from(number.is_some()), number.unwrap_or(0))
}

/// The DER of a KeyUsage.
pub(crate) fn key_usage(uses: u32) -> Result<Vec<u8>, Error> {
    filled!(x509_key_usage_encode: (uses))
}

/// The DER of a BasicConstraints.
pub(crate) fn basic_constraints(ca: bool, path_len: Option<u32>) -> Result<Vec<u8>, Error> {
    let (has_path_len, path_len) = told(path_len);
    let view = BasicConstraintsView {
        ca: u32::from(ca),
        has_path_len,
        path_len,
    };
    filled!(x509_basic_constraints_encode: (&view))
}

/// The DER of an ExtendedKeyUsage with purposes of these content octets.
pub(crate) fn extended_key_usage<'a>(
    oids: impl Iterator<Item = &'a [u8]> + Clone,
) -> Result<Vec<u8>, Error> {
    let lens: Vec<usize> = oids.clone().map(<[u8]>::len).collect();
    let joined: Vec<u8> = oids.flatten().copied().collect();
    filled!(x509_extended_key_usage_encode: [joined], [lens])
}

/// The DER of a SubjectKeyIdentifier.
pub(crate) fn subject_key_identifier(octets: &[u8]) -> Result<Vec<u8>, Error> {
    filled!(x509_subject_key_identifier_encode: [octets])
}

/// The DER of an AuthorityKeyIdentifier; the issuer is a whole GeneralNames, and the serial number a whole INTEGER, or there are none.
pub(crate) fn authority_key_identifier(
    key_identifier: Option<&[u8]>,
    issuer: &[u8],
    serial_number: &[u8],
) -> Result<Vec<u8>, Error> {
    let octets = key_identifier.unwrap_or_default();
    filled!(x509_authority_key_identifier_encode: (u32::from(key_identifier.is_some())), [octets], [issuer], [serial_number])
}

/// The DER of a PolicyConstraints.
pub(crate) fn policy_constraints(
    require_explicit_policy: Option<u32>,
    inhibit_policy_mapping: Option<u32>,
) -> Result<Vec<u8>, Error> {
    let (has_require_explicit_policy, require_explicit_policy) = told(require_explicit_policy);
    let (has_inhibit_policy_mapping, inhibit_policy_mapping) = told(inhibit_policy_mapping);
    let view = PolicyConstraintsView {
        has_require_explicit_policy,
        require_explicit_policy,
        has_inhibit_policy_mapping,
        inhibit_policy_mapping,
    };
    filled!(x509_policy_constraints_encode: (&view))
}

/// The DER of an InhibitAnyPolicy.
pub(crate) fn inhibit_any_policy(certificates: u32) -> Result<Vec<u8>, Error> {
    filled!(x509_inhibit_any_policy_encode: (certificates))
}

/// The DER of a CRLNumber, or of a BaseCRLNumber, of the octets of the number.
pub(crate) fn crl_number(octets: &[u8]) -> Result<Vec<u8>, Error> {
    filled!(x509_crl_number_encode: [octets])
}

/// The DER of a CRLReason.
pub(crate) fn crl_reason(number: u32) -> Result<Vec<u8>, Error> {
    filled!(x509_crl_reason_encode: (number))
}

/// The DER of an InvalidityDate, of seconds since 1970.
pub(crate) fn invalidity_date(moment: u64) -> Result<Vec<u8>, Error> {
    filled!(x509_invalidity_date_encode: (moment))
}

/// The DER of a PrivateKeyUsagePeriod, of seconds since 1970.
pub(crate) fn private_key_usage_period(
    not_before: Option<u64>,
    not_after: Option<u64>,
) -> Result<Vec<u8>, Error> {
    let view = PrivateKeyUsagePeriodView {
        has_not_before: u32::from(not_before.is_some()),
        not_before: not_before.unwrap_or(0),
        has_not_after: u32::from(not_after.is_some()),
        not_after: not_after.unwrap_or(0),
    };
    filled!(x509_private_key_usage_period_encode: (&view))
}

/// The DER of a GeneralName of that kind that holds these octets.
pub(crate) fn general_name(kind: u32, content: &[u8]) -> Result<Vec<u8>, Error> {
    filled!(x509_general_name_encode: (kind), [content])
}

/// The DER of a GeneralName that is an otherName; the value is a whole element.
pub(crate) fn other_name(type_id: &[u8], value: &[u8]) -> Result<Vec<u8>, Error> {
    filled!(x509_other_name_encode: [type_id], [value])
}

/// The DER of a GeneralNames of the DER of its names.
pub(crate) fn general_names(names: &[u8]) -> Result<Vec<u8>, Error> {
    filled!(x509_general_names_encode: [names])
}

/// The DER of an AccessDescription; the location is a whole GeneralName.
pub(crate) fn access(method: &[u8], location: &[u8]) -> Result<Vec<u8>, Error> {
    filled!(x509_access_encode: [method], [location])
}

/// The DER of a list of AccessDescriptions of the DER of these.
pub(crate) fn info_access(descriptions: &[u8]) -> Result<Vec<u8>, Error> {
    filled!(x509_info_access_encode: [descriptions])
}

/// The DER of a PolicyQualifierInfo; the qualifier is a whole element, or there is none.
pub(crate) fn policy_qualifier(oid: &[u8], qualifier: &[u8]) -> Result<Vec<u8>, Error> {
    filled!(x509_policy_qualifier_encode: [oid], [qualifier])
}

/// The DER of a PolicyInformation of the DER of its qualifiers, of which there may be none.
pub(crate) fn policy(oid: &[u8], qualifiers: &[u8]) -> Result<Vec<u8>, Error> {
    filled!(x509_policy_encode: [oid], [qualifiers])
}

/// The DER of a CertificatePolicies of the DER of its policies.
pub(crate) fn certificate_policies(policies: &[u8]) -> Result<Vec<u8>, Error> {
    filled!(x509_certificate_policies_encode: [policies])
}

/// The DER of a pair of a PolicyMappings.
pub(crate) fn policy_mapping(issuer: &[u8], subject: &[u8]) -> Result<Vec<u8>, Error> {
    filled!(x509_policy_mapping_encode: [issuer], [subject])
}

/// The DER of a PolicyMappings of the DER of its pairs.
pub(crate) fn policy_mappings(mappings: &[u8]) -> Result<Vec<u8>, Error> {
    filled!(x509_policy_mappings_encode: [mappings])
}

/// The DER of a SignedCertificateTimestampList of these serialized timestamps.
pub(crate) fn timestamps(timestamps: &[&[u8]]) -> Result<Vec<u8>, Error> {
    let lens: Vec<usize> = timestamps.iter().map(|it| it.len()).collect();
    let joined = timestamps.concat();
    filled!(x509_timestamps_encode: [joined], [lens])
}

/// The DER of an attribute with a set of values, of the DER of these.
pub(crate) fn request_attribute(oid: &[u8], values: &[u8]) -> Result<Vec<u8>, Error> {
    filled!(x509_request_attribute_encode: [oid], [values])
}

/// The DER of a SubjectDirectoryAttributes of the DER of its attributes.
pub(crate) fn subject_directory_attributes(attributes: &[u8]) -> Result<Vec<u8>, Error> {
    filled!(x509_subject_directory_attributes_encode: [attributes])
}

/// The DER of a SEQUENCE OF INTEGER of these numbers.
pub(crate) fn numbers(numbers: &[u16]) -> Result<Vec<u8>, Error> {
    let octets: Vec<u8> = numbers.iter().flat_map(|it| it.to_be_bytes()).collect();
    let lens = vec![2; numbers.len()];
    filled!(x509_numbers_encode: [octets], [lens])
}

/// The DER of a GeneralSubtree; the base is a whole GeneralName.
pub(crate) fn subtree(base: &[u8]) -> Result<Vec<u8>, Error> {
    filled!(x509_subtree_encode: [base])
}

/// The DER of a NameConstraints of the DER of its subtrees.
pub(crate) fn name_constraints(permitted: &[u8], excluded: &[u8]) -> Result<Vec<u8>, Error> {
    filled!(x509_name_constraints_encode: [permitted], [excluded])
}

/// The DER of a DistributionPoint, of the DER of its full names or of its relative name, and of the DER of the names of the issuer.
pub(crate) fn distribution_point(
    (full_name, relative_name): (&[u8], &[u8]),
    reasons: Option<u32>,
    crl_issuer: &[u8],
) -> Result<Vec<u8>, Error> {
    let (has_reasons, reasons) = told(reasons);
    filled!(x509_distribution_point_encode: [full_name], [relative_name], (has_reasons), (reasons), [crl_issuer])
}

/// The DER of a list of DistributionPoints of the DER of these.
pub(crate) fn distribution_points(points: &[u8]) -> Result<Vec<u8>, Error> {
    filled!(x509_distribution_points_encode: [points])
}

/// What an IssuingDistributionPoint says beside its name.
pub(crate) struct IssuingScope {
    pub(crate) only_contains_user_certs: bool,
    pub(crate) only_contains_ca_certs: bool,
    pub(crate) only_some_reasons: Option<u32>,
    pub(crate) indirect_crl: bool,
    pub(crate) only_contains_attribute_certs: bool,
}

/// The DER of an IssuingDistributionPoint, of the DER of its full names or of its relative name.
pub(crate) fn issuing_distribution_point(
    (full_name, relative_name): (&[u8], &[u8]),
    scope: &IssuingScope,
) -> Result<Vec<u8>, Error> {
    let (has_only_some_reasons, only_some_reasons) = told(scope.only_some_reasons);
    let view = IssuingDistributionPointView {
        full_name: Span::default(),
        relative_name: Span::default(),
        only_contains_user_certs: u32::from(scope.only_contains_user_certs),
        only_contains_ca_certs: u32::from(scope.only_contains_ca_certs),
        has_only_some_reasons,
        only_some_reasons,
        indirect_crl: u32::from(scope.indirect_crl),
        only_contains_attribute_certs: u32::from(scope.only_contains_attribute_certs),
    };
    filled!(x509_issuing_distribution_point_encode: (&view), [full_name], [relative_name])
}

/// The DER of an entry of a CRL; the serial number is a whole INTEGER.
pub(crate) fn crl_entry(
    serial_number: &[u8],
    date: u64,
    extensions: &[u8],
) -> Result<Vec<u8>, Error> {
    filled!(x509_crl_entry_encode: [serial_number], (date), [extensions])
}

/// The bytes to be signed of a CSR.
pub(crate) fn request(
    subject: &[u8],
    key: &[u8],
    attributes: &[u8],
    extensions: &[u8],
) -> Result<Vec<u8>, Error> {
    filled!(x509_build_request: [subject], [key], [attributes], [extensions])
}

/// What a certificate is built of. The serial number is a whole INTEGER.
pub(crate) struct CertificateFields<'a> {
    pub(crate) serial_number: &'a [u8],
    pub(crate) algorithm: &'a [u8],
    pub(crate) issuer: &'a [u8],
    pub(crate) not_before: u64,
    pub(crate) not_after: u64,
    pub(crate) subject: &'a [u8],
    pub(crate) key: &'a [u8],
    pub(crate) extensions: &'a [u8],
}

/// The bytes to be signed of a certificate.
pub(crate) fn certificate(it: &CertificateFields<'_>) -> Result<Vec<u8>, Error> {
    filled!(x509_build_certificate: [it.serial_number], [it.algorithm], [it.issuer], (it.not_before), (it.not_after), [it.subject], [it.key],
        [it.extensions])
}

/// The bytes to be signed of a root.
pub(crate) fn root(
    it: &CertificateFields<'_>,
    signs_ocsp_responses: bool,
) -> Result<Vec<u8>, Error> {
    filled!(Error::NotInProfile(ProfilePart::RootSubject), x509_build_root: [it.serial_number], [it.algorithm], (it.not_before), (it.not_after),
        [it.subject], [it.key], (u32::from(signs_ocsp_responses)), [it.extensions])
}

/// What is asked of an authority under another one.
pub(crate) struct Subordinate {
    pub(crate) path_len: Option<u8>,
    pub(crate) signs_ocsp_responses: bool,
    pub(crate) client_auth: bool,
}

/// The bytes to be signed of an authority under another one, whose key is a whole SubjectPublicKeyInfo.
pub(crate) fn subordinate(
    it: &CertificateFields<'_>,
    issuer_key: &[u8],
    of: &Subordinate,
) -> Result<Vec<u8>, Error> {
    filled!(x509_build_subordinate: [it.serial_number], [it.algorithm], [it.issuer], [issuer_key], (it.not_before), (it.not_after), [it.subject],
        [it.key], (u32::from(of.path_len.is_some())), (u32::from(of.path_len.unwrap_or(0))), (u32::from(of.signs_ocsp_responses)),
        (u32::from(of.client_auth)), [it.extensions])
}

/// What is asked of a TLS server.
pub(crate) struct Subscriber {
    pub(crate) client_auth: bool,
    pub(crate) key_encipherment: bool,
    pub(crate) key_agreement: bool,
    pub(crate) data_encipherment: bool,
}

/// The bytes to be signed of a TLS server, under an issuer whose key is a whole SubjectPublicKeyInfo.
pub(crate) fn subscriber(
    it: &CertificateFields<'_>,
    issuer_key: &[u8],
    of: &Subscriber,
) -> Result<Vec<u8>, Error> {
    filled!(x509_build_subscriber: [it.serial_number], [it.algorithm], [it.issuer], [issuer_key], (it.not_before), (it.not_after), [it.subject],
        [it.key], (u32::from(of.client_auth)), (u32::from(of.key_encipherment)), (u32::from(of.key_agreement)),
        (u32::from(of.data_encipherment)), [it.extensions])
}

/// The bytes to be signed of a device with these names, a whole GeneralNames or none, under an issuer whose key is a whole SubjectPublicKeyInfo.
pub(crate) fn device(
    it: &CertificateFields<'_>,
    issuer_key: &[u8],
    names: &[u8],
) -> Result<Vec<u8>, Error> {
    filled!(Error::NotInProfile(ProfilePart::Names), x509_build_device: [it.serial_number], [it.algorithm], [it.issuer], [issuer_key],
        (it.not_before), (it.not_after), [it.subject], [it.key], [names], [it.extensions])
}

/// What a CRL is built of. The issuer is a whole certificate, and the number the octets of a number.
pub(crate) struct CrlFields<'a> {
    pub(crate) issuer: &'a [u8],
    pub(crate) algorithm: &'a [u8],
    pub(crate) number: &'a [u8],
    pub(crate) this_update: u64,
    pub(crate) next_update: Option<u64>,
    pub(crate) entries: &'a [u8],
    pub(crate) extensions: &'a [u8],
}

/// The bytes to be signed of a CRL.
pub(crate) fn crl(it: &CrlFields<'_>) -> Result<Vec<u8>, Error> {
    filled!(Error::Repeated, x509_build_crl: [it.issuer], [it.algorithm], [it.number], (it.this_update), (u32::from(it.next_update.is_some())),
        (it.next_update.unwrap_or(0)), [it.entries], [it.extensions])
}

/// The DER of a signed part, an algorithm and the octets of a signature.
pub(crate) fn assemble(part: &[u8], algorithm: &[u8], signature: &[u8]) -> Result<Vec<u8>, Error> {
    filled!(Error::Algorithm, x509_assemble: [part], [algorithm], [signature])
}

#[cfg(test)]
mod tests {
    use super::*;

    #[test]
    fn elements() {
        let of = |len, header: &[u8]| {
            let written = element(0x04, &vec![7; len]);
            assert_eq!(written, Ok([header, &vec![7; len]].concat()), "{len}");
        };
        of(0, &[4, 0]);
        of(127, &[4, 127]);
        // more than one length octet (X.690 8.1.3.5, 10.1)
        of(128, &[4, 0x81, 128]);
        of(256, &[4, 0x82, 1, 0]);
        of(65_536, &[4, 0x83, 1, 0, 0]);
        // octets of no type, and of tags whose numbers stand in further octets (X.690 8.1.2.4)
        for refused in [0, 0x07, 0x10, 0x1f, 0x5f, 0xff] {
            assert_eq!(element(refused, b""), Err(Error::Value), "{refused}");
        }
    }
}
