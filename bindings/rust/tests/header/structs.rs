// Made by tools/build/make_bindings.py of include/x509.h, and not changed by hand: each struct with its fields, for `tests/header.rs`.
layouts! {
    x509_span = Span {place, len}
    x509_certificate = Certificate {
        version,
        serial_number,
        issuer,
        subject,
        subject_public_key_info,
        extensions,
        not_before,
        not_after,
        inner_algorithm,
        issuer_unique_id,
        issuer_unused_bits,
        subject_unique_id,
        subject_unused_bits,
    }
    x509_extension = Extension {critical, value}
    x509_extension_entry = ExtensionEntry {oid, critical, value}
    x509_basic_constraints_view = BasicConstraintsView {ca, has_path_len, path_len}
    x509_private_key_usage_period_view = PrivateKeyUsagePeriodView {has_not_before, not_before, has_not_after, not_after}
    x509_general_name = GeneralName {kind, element, content, type_id, value, name_assigner, party_name}
    x509_authority_key_identifier_view = AuthorityKeyIdentifierView {key_identifier, issuer, serial_number}
    x509_access = Access {method, location}
    x509_policy = Policy {identifier, qualifiers}
    x509_policy_qualifier = PolicyQualifier {identifier, qualifier}
    x509_user_notice_view = UserNoticeView {organization, notice_numbers, explicit_text}
    x509_policy_mapping = PolicyMapping {issuer_policy, subject_policy}
    x509_policy_constraints_view = PolicyConstraintsView {
        has_require_explicit_policy, require_explicit_policy, has_inhibit_policy_mapping, inhibit_policy_mapping
    }
    x509_distribution_point = DistributionPoint {full_name, relative_name, has_reasons, reasons, crl_issuer}
    x509_issuing_distribution_point_view = IssuingDistributionPointView {
        full_name,
        relative_name,
        only_contains_user_certs,
        only_contains_ca_certs,
        has_only_some_reasons,
        only_some_reasons,
        indirect_crl,
        only_contains_attribute_certs,
    }
    x509_name_constraints_view = NameConstraintsView {permitted, excluded}
    x509_subtree = Subtree {base, minimum, has_maximum, maximum}
    x509_attribute = Attribute {oid, tag, element, content}
    x509_server_name = ServerName {name_len, address_len, address}
    x509_email_address = EmailAddress {local, host}
    x509_signature = Signature {signed_part, algorithm, bits, unused_bits}
    x509_path_fault = PathFault {place, reason}
    x509_path_settings = PathSettings {moment, flags, key_usage, purposes, purpose_len, purpose}
    x509_path_answer = PathAnswer {place, reason, name, key, policies_len}
    x509_path_certificate = PathCertificate {view, signature}
    x509_bad_link = BadLink {certificate, key}
    x509_found_path = FoundPath {anchor, count, place, reason}
    x509_revocation = Revocation {date, reason}
    x509_crl = Crl {version, inner_algorithm, issuer, this_update, has_next_update, next_update, entries, extensions, signature}
    x509_crl_entry = CrlEntry {serial_number, date, extensions}
    x509_signed_crl = SignedCrl {crl, name, key, verified}
    x509_revocation_settings = RevocationSettings {moment, flags}
    x509_revocation_answer = RevocationAnswer {status, reason, crl, date, reasons}
    x509_request = Request {version, subject, subject_public_key_info, attributes, signature}
    x509_request_attribute = RequestAttribute {oid, values}
    x509_element = Element {tag, element, content}
    x509_key = Key {kind, oid, parameters, bits, unused_bits, curve, size}
    x509_rsa_key = RsaKey {modulus, public_exponent, modulus_bits}
    x509_algorithm = Algorithm {kind, oid, parameters}
    x509_anchor = Anchor {kind, element, name, subject_public_key_info, extensions, key_identifier, title, title_language, controls}
    x509_path_controls = PathControls {name, certificate, policies, has_policy_flags, policy_flags, permitted, excluded, has_path_len, path_len}
    x509_finding = Finding {object, rule, severity, section, place, seen}
    x509_timestamp = Timestamp {version, log_id, timestamp, extensions, hash, signature_algorithm, signature}
    x509_log_leaf = LogLeaf {version, leaf_type, timestamp, entry_type, issuer_key_hash, certificate, extensions}
    x509_log_precertificate = LogPrecertificate {precertificate, chain}
}
