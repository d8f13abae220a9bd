/* Asks for what x509.h says beside answers: no pointer where there are no bytes, what stands in rooms, early dates, respelled dates, bytes behind, and
 * inputs over the limit.
 *
 * usage: rules CERTIFICATE LIST RESPELLED, the last a certificate with two dates that RFC 5280 spells two bytes shorter */
#include <stdio.h>
#include <stdlib.h>
#include <string.h>
#include "x509.h"

static int failures = 0;

static void want(const char *what, int is_so)
{
    if (!is_so) {
        printf("wrong: %s\n", what);
        failures++;
    }
}

#define WANT(condition) want(#condition, condition)

static uint8_t certificate[65536], list[65536], respelled[65536], room[65536];
static size_t certificate_len, list_len, respelled_len, written;
static x509_certificate view;
static x509_extension found;
static x509_revocation revocation;
static size_t entries;
static x509_span part;
static x509_signature signature;
static x509_path_fault fault;
static x509_revocation_answer told = {7, 7, 7, 7, 7};
static uint32_t may_sign = 7;
static uint32_t crl_fault = 7;
static uint32_t side = 7;
static const uint8_t *const CERTIFICATE = (const uint8_t *)"Certificate";
static const uint8_t *const OID = (const uint8_t *)"\x55\x1d\x0f";
static const uint8_t *const SERIAL = (const uint8_t *)"\x02\x01\x03";

/* when both certificates hold: 2026-01-02T03:04:05Z */
static const uint64_t MOMENT = 1767323045;

static size_t read_file(const char *path, uint8_t *bytes)
{
    FILE *file = fopen(path, "rb");
    size_t len = file == NULL ? 0 : fread(bytes, 1, 65535, file);
    if (file != NULL)
        fclose(file);
    return len;
}

/* Whether what is answered of CRLs is as it was. */
static int is_untold(void)
{
    return told.status == 7 && told.reason == 7 && told.crl == 7 && told.date == 7 && told.reasons == 7 && may_sign == 7 && crl_fault == 7;
}

/* Whether the first certificate of a path was none. */
static int is_decode(x509_status status)
{
    const x509_path_fault found = fault;
    fault = (x509_path_fault){7, 7};
    return status == X509_FAULT && found.place == 0 && found.reason == X509_PATH_DECODE;
}

/* An empty name, an algorithm, and a key of it without bits. */
#define NO_NAME "\x30\x00"
#define ALGORITHM "\x30\x03\x06\x01\x2a"
#define KEY "\x30\x08" ALGORITHM "\x03\x01\x00"

/* Each call that writes a document or rules, with these bytes, gives that status, and leaves the buffer and `written`. */
static void refused_documents(const uint8_t *bytes, size_t len, x509_status status)
{
    static x509_status (*const calls[])(const uint8_t *, size_t, uint8_t *, size_t, size_t *) = {
        x509_certificate_text, x509_certificate_json, x509_crl_text,    x509_crl_json,
        x509_request_text,     x509_request_json,     x509_anchor_text, x509_anchor_json,
        x509_certificate_lint, x509_crl_lint,         x509_request_lint, x509_anchor_lint,
    };
    for (size_t at = 0; at < sizeof calls / sizeof *calls; at++) {
        written = 77;
        room[0] = 0x5a;
        WANT(calls[at](bytes, len, room, sizeof room, &written) == status && written == 77 && room[0] == 0x5a);
        WANT(calls[at](bytes, len, NULL, 0, &written) == status && written == 77);
    }
}

static x509_server_name server;
static x509_email_address address;
static uint32_t matches = 7;

/* NULL with a length of 0 is no bytes, with a room of 0 no room, and with a count of 0 no lengths. */
static void no_pointers(void)
{
    WANT(x509_certificate_check(NULL, 0) == X509_MALFORMED);
    WANT(x509_crl_check(NULL, 0) == X509_MALFORMED);
    WANT(x509_request_check(NULL, 0) == X509_MALFORMED);
    WANT(x509_signed_slice(NULL, 0, &part) == X509_MALFORMED);
    WANT(x509_certificate_view(NULL, 0, &view) == X509_MALFORMED);
    WANT(x509_certificate_extension(NULL, 0, NULL, 0, &found) == X509_MALFORMED);
    WANT(x509_certificate_extension(certificate, certificate_len, NULL, 0, &found) == X509_ABSENT);
    WANT(x509_certificate_signature(NULL, 0, &signature) == X509_MALFORMED);
    WANT(x509_certificate_out_of_date(NULL, 0, 0, &side) == X509_MALFORMED && side == 7);
    WANT(x509_certificate_matches_name(NULL, 0, NULL, 0, &matches) == X509_MALFORMED && matches == 7);
    WANT(x509_certificate_matches_name(certificate, certificate_len, NULL, 0, &matches) == X509_VALUE && matches == 7);
    WANT(x509_certificate_matches_email(NULL, 0, NULL, 0, &matches) == X509_MALFORMED && matches == 7);
    WANT(x509_certificate_matches_email(certificate, certificate_len, NULL, 0, &matches) == X509_VALUE && matches == 7);
    WANT(x509_server_name_view(NULL, 0, &server) == X509_VALUE && server.name_len == 0);
    WANT(x509_email_address_view(NULL, 0, &address) == X509_VALUE && address.host.place == 0);
    const size_t none = 0;
    WANT(x509_path_check(certificate, certificate_len, NULL, 0, NULL, 0, MOMENT, &fault) == X509_ABSENT);
    WANT(x509_path_check(NULL, 0, certificate, certificate_len, &certificate_len, 1, MOMENT, &fault) == X509_MALFORMED);
    WANT(is_decode(x509_path_check(certificate, certificate_len, NULL, 0, &none, 1, MOMENT, &fault)));
    WANT(x509_crl_walk(NULL, 0, &entries) == X509_MALFORMED);
    WANT(x509_crl_lookup(NULL, 0, NULL, 0, &revocation) == X509_MALFORMED);
    WANT(x509_crl_lookup(list, list_len, NULL, 0, &revocation) == X509_MALFORMED);
    const x509_revocation_settings at_moment = {MOMENT, 0};
    const x509_signed_crl empty = {{0, 0}, {0, 0}, {0, 0}, 1};
    WANT(x509_may_sign_crls(NULL, 0, &may_sign) == X509_MALFORMED);
    WANT(x509_revocation_status(certificate, certificate_len, NULL, 0, NULL, 0, NULL, 0, &told) == X509_VALUE);
    WANT(x509_revocation_status(NULL, 0, NULL, 0, NULL, 0, &at_moment, sizeof at_moment, &told) == X509_MALFORMED);
    WANT(x509_revocation_status(certificate, certificate_len, NULL, 0, &empty, 1, &at_moment, sizeof at_moment, &told) == X509_MALFORMED && is_untold());
    WANT(x509_crl_fault(certificate, certificate_len, NULL, 0, NULL, 0, &at_moment, sizeof at_moment, 0, &crl_fault) == X509_VALUE);
    WANT(x509_crl_fault(certificate, certificate_len, NULL, 0, &empty, 1, NULL, 0, 0, &crl_fault) == X509_VALUE);
    WANT(x509_crl_fault(NULL, 0, NULL, 0, &empty, 1, &at_moment, sizeof at_moment, 0, &crl_fault) == X509_MALFORMED);
    WANT(x509_crl_fault(certificate, certificate_len, NULL, 0, &empty, 1, &at_moment, sizeof at_moment, 0, &crl_fault) == X509_MALFORMED && is_untold());
    WANT(x509_revocation_status(certificate, certificate_len, NULL, 0, NULL, 0, &at_moment, sizeof at_moment, &told) == X509_OK
         && told.status == X509_UNDETERMINED);
    told = (x509_revocation_answer){7, 7, 7, 7, 7};

    written = 77;
    WANT(x509_certificate_reencode(NULL, 0, NULL, 0, &written) == X509_MALFORMED && written == 77);
    WANT(x509_certificate_reencode(certificate, certificate_len, NULL, 0, &written) == X509_ROOM && written == certificate_len);
    written = 77;
    WANT(x509_reencode(NULL, 0, X509_RAW, NULL, 0, NULL, 0, &written) == X509_FAILED && written == 77);
    WANT(x509_reencode(CERTIFICATE, 11, X509_RAW, NULL, 0, NULL, 0, &written) == X509_MALFORMED && written == 77);
    WANT(x509_reencode(CERTIFICATE, 11, X509_RAW, certificate, certificate_len, NULL, 0, &written) == X509_ROOM && written == certificate_len);
    written = 77;
    WANT(x509_working_key(NULL, 0, NULL, 0, NULL, 0, &written) == X509_MALFORMED && written == 77);
    WANT(x509_name_text(NULL, 0, NULL, 0, &written) == X509_MALFORMED && written == 77);
    WANT(x509_name_text((const uint8_t *)"\x30\x00", 2, NULL, 0, &written) == X509_OK && written == 0);
    written = 77;
    WANT(x509_name_from_text(NULL, 0, NULL, 0, &written) == X509_ROOM && written == 2);
    WANT(x509_name_from_text(NULL, 0, room, 2, &written) == X509_OK && written == 2 && memcmp(room, "\x30\x00", 2) == 0);
    WANT(x509_name_from_text((const uint8_t *)"CN=a", 4, NULL, 0, &written) == X509_ROOM && written == 14);
    refused_documents(NULL, 0, X509_MALFORMED);
    WANT(x509_certificate_text(certificate, certificate_len, NULL, 0, &written) == X509_ROOM && written > certificate_len);
    written = 77;
    WANT(x509_serial_text(NULL, 0, NULL, 0, &written) == X509_MALFORMED && written == 77);
    WANT(x509_serial_text((const uint8_t *)"\x05", 1, NULL, 0, &written) == X509_ROOM && written == 2);
    written = 77;
    WANT(x509_serial_decimal(NULL, 0, NULL, 0, &written) == X509_MALFORMED && written == 77);
    WANT(x509_serial_decimal((const uint8_t *)"\x05", 1, NULL, 0, &written) == X509_ROOM && written == 1);
    written = 77;
    WANT(x509_oid_text(NULL, 0, NULL, 0, &written) == X509_MALFORMED && written == 77);
    WANT(x509_oid_from_text(NULL, 0, NULL, 0, &written) == X509_FAILED && written == 77);
    WANT(x509_oid_text(OID, 3, NULL, 0, &written) == X509_ROOM && written == 9);
    WANT(x509_oid_from_text((const uint8_t *)"2.5.29.15", 9, NULL, 0, &written) == X509_ROOM && written == 3);
    WANT(x509_time_text(MOMENT, NULL, 0, &written) == X509_ROOM && written == 20);
    WANT(x509_status_text(X509_OK, NULL, 0, &written) == X509_ROOM && written == 4);
    written = 77;
    WANT(x509_assemble(NULL, 0, NULL, 0, NULL, 0, NULL, 0, &written) == X509_MALFORMED && written == 77);
    WANT(x509_extension_encode(NULL, 0, 0, NULL, 0, NULL, 0, &written) == X509_MALFORMED && written == 77);
    WANT(x509_extended_key_usage_encode(NULL, 0, NULL, 0, NULL, 0, &written) == X509_VALUE && written == 77);
    WANT(x509_crl_number_encode(NULL, 0, NULL, 0, &written) == X509_VALUE && written == 77);
    WANT(x509_subject_key_identifier_encode(NULL, 0, NULL, 0, &written) == X509_ROOM && written == 2);
    WANT(x509_authority_key_identifier_encode(1, NULL, 0, NULL, 0, NULL, 0, NULL, 0, &written) == X509_ROOM && written == 4);
    WANT(x509_inhibit_any_policy_encode(0, NULL, 0, &written) == X509_ROOM && written == 3);
    WANT(x509_key_usage_encode(1, NULL, 0, &written) == X509_ROOM && written == 4);
    WANT(x509_crl_reason_encode(0, NULL, 0, &written) == X509_ROOM && written == 3);
    WANT(x509_invalidity_date_encode(0, NULL, 0, &written) == X509_ROOM && written == 17);
    WANT(x509_private_key_usage_period_encode(&(x509_private_key_usage_period_view){1, 0, 0, 0}, NULL, 0, &written) == X509_ROOM && written == 19);
    WANT(x509_general_name_encode(2, NULL, 0, NULL, 0, &written) == X509_ROOM && written == 2);
    WANT(x509_issuing_distribution_point_encode(&(x509_issuing_distribution_point_view){.indirect_crl = 1}, NULL, 0, NULL, 0, NULL, 0, &written) == X509_ROOM
         && written == 5);
    written = 77;
    WANT(x509_other_name_encode(NULL, 0, NULL, 0, NULL, 0, &written) == X509_MALFORMED && x509_access_encode(NULL, 0, NULL, 0, NULL, 0, &written) == X509_MALFORMED);
    WANT(x509_general_names_encode(NULL, 0, NULL, 0, &written) == X509_VALUE && x509_info_access_encode(NULL, 0, NULL, 0, &written) == X509_VALUE);
    WANT(x509_policy_qualifier_encode(NULL, 0, NULL, 0, NULL, 0, &written) == X509_MALFORMED);
    WANT(x509_policy_encode(NULL, 0, NULL, 0, NULL, 0, &written) == X509_MALFORMED);
    WANT(x509_certificate_policies_encode(NULL, 0, NULL, 0, &written) == X509_VALUE && x509_policy_mappings_encode(NULL, 0, NULL, 0, &written) == X509_VALUE);
    WANT(x509_policy_mapping_encode(NULL, 0, NULL, 0, NULL, 0, &written) == X509_MALFORMED);
    WANT(x509_request_attribute_encode(NULL, 0, NULL, 0, NULL, 0, &written) == X509_VALUE);
    WANT(x509_timestamps_encode(NULL, 0, NULL, 0, NULL, 0, &written) == X509_VALUE);
    WANT(x509_subject_directory_attributes_encode(NULL, 0, NULL, 0, &written) == X509_VALUE && written == 77);
    WANT(x509_distribution_points_encode(NULL, 0, NULL, 0, &written) == X509_VALUE && x509_subtree_encode(NULL, 0, NULL, 0, &written) == X509_MALFORMED);
    WANT(x509_name_constraints_encode(NULL, 0, NULL, 0, NULL, 0, &written) == X509_VALUE && written == 77);
    WANT(x509_distribution_point_encode(NULL, 0, NULL, 0, 0, 0, NULL, 0, NULL, 0, &written) == X509_VALUE && written == 77);
    WANT(x509_element_encode(0, NULL, 0, NULL, 0, &written) == X509_VALUE && written == 77);
    WANT(x509_element_encode(0x05, NULL, 0, NULL, 0, &written) == X509_ROOM && written == 2);
    WANT(x509_cps_uri_encode(NULL, 0, NULL, 0, &written) == X509_ROOM && written == 2);
    WANT(x509_numbers_encode(NULL, 0, NULL, 0, NULL, 0, &written) == X509_ROOM && written == 2);
    WANT(x509_user_notice_encode(NULL, 0, NULL, 0, NULL, 0, NULL, 0, &written) == X509_ROOM && written == 2);
    WANT(x509_basic_constraints_encode(&(x509_basic_constraints_view){0, 0, 0}, NULL, 0, &written) == X509_ROOM && written == 2);
    WANT(x509_policy_constraints_encode(&(x509_policy_constraints_view){1, 0, 0, 0}, NULL, 0, &written) == X509_ROOM && written == 5);
    written = 77;
    WANT(x509_crl_entry_encode(NULL, 0, MOMENT, NULL, 0, NULL, 0, &written) == X509_MALFORMED && written == 77);
    WANT(x509_attribute_encode(NULL, 0, 0, NULL, 0, 1, NULL, 0, &written) == X509_MALFORMED && written == 77);
    WANT(x509_relative_name_encode(NULL, 0, NULL, 0, &written) == X509_VALUE && written == 77);
    WANT(x509_name_build(NULL, 0, NULL, 0, &written) == X509_ROOM && written == 2);
    WANT(x509_name_escape(NULL, 0, NULL, 0, &written) == X509_OK && written == 0);
    written = 77;
    WANT(x509_build_request(NULL, 0, NULL, 0, NULL, 0, NULL, 0, NULL, 0, &written) == X509_MALFORMED && written == 77);
    WANT(x509_build_certificate(NULL, 0, NULL, 0, NULL, 0, MOMENT, MOMENT, NULL, 0, NULL, 0, NULL, 0, NULL, 0, &written) == X509_MALFORMED && written == 77);
    WANT(x509_build_crl(NULL, 0, NULL, 0, NULL, 0, MOMENT, 0, 0, NULL, 0, NULL, 0, NULL, 0, &written) == X509_MALFORMED && written == 77);
    WANT(x509_build_root(NULL, 0, NULL, 0, MOMENT, MOMENT, NULL, 0, NULL, 0, 0, NULL, 0, NULL, 0, &written) == X509_MALFORMED && written == 77);
    WANT(x509_build_subordinate(NULL, 0, NULL, 0, NULL, 0, NULL, 0, MOMENT, MOMENT, NULL, 0, NULL, 0, 0, 0, 0, 0, NULL, 0, NULL, 0, &written)
         == X509_MALFORMED);
    WANT(x509_build_subscriber(NULL, 0, NULL, 0, NULL, 0, NULL, 0, MOMENT, MOMENT, NULL, 0, NULL, 0, 0, 0, 0, 0, NULL, 0, NULL, 0, &written) == X509_MALFORMED);
    WANT(x509_build_device(NULL, 0, NULL, 0, NULL, 0, NULL, 0, MOMENT, MOMENT, NULL, 0, NULL, 0, NULL, 0, NULL, 0, NULL, 0, &written) == X509_MALFORMED);
    WANT(written == 77);
}

/* What the calls on payloads and names fill in, with what stands in it before. */
static x509_extension_entry extension;
static x509_basic_constraints_view basic;
static x509_general_name general;
static x509_attribute attribute;
static x509_authority_key_identifier_view authority;
static x509_access access_found;
static x509_policy policy;
static x509_policy_qualifier qualifier;
static x509_policy_mapping mapping;
static x509_policy_constraints_view constraints;
static x509_distribution_point point;
static x509_issuing_distribution_point_view issuing;
static x509_name_constraints_view names;
static x509_subtree subtree;
static x509_crl crl;
static x509_crl_entry entry;
static x509_request request;
static x509_request_attribute asked;
static x509_element element;
static x509_key key;
static x509_algorithm algorithm;
static x509_anchor anchor;
static x509_path_controls controls;
static x509_timestamp timestamp;
static uint32_t number = 7;
static uint64_t moment = 7;
static x509_user_notice_view notice;
static x509_private_key_usage_period_view period;
static x509_rsa_key rsa;

/* Each call on a payload or a name, with these bytes, gives that status, and fills in nothing. */
static void refused_values(const uint8_t *bytes, size_t len, x509_status status)
{
    size_t at = 0;
    part = (x509_span){7, 7};
    WANT(x509_extensions_next(bytes, len, &at, &extension) == status);
    WANT(x509_key_usage(bytes, len, &number) == status);
    WANT(x509_basic_constraints(bytes, len, &basic) == status);
    WANT(x509_general_names_next(bytes, len, &at, &general) == status);
    WANT(x509_general_names_under_next(1, bytes, len, &at, &general) == status);
    WANT(x509_extended_key_usage_next(bytes, len, &at, &part) == status);
    WANT(x509_name_next(bytes, len, &at, &part) == status);
    WANT(x509_relative_name_next(bytes, len, &at, &attribute) == status);
    WANT(x509_relative_name_under_next(1, bytes, len, &at, &attribute) == status);
    WANT(x509_subject_key_identifier(bytes, len, &part) == status);
    WANT(x509_authority_key_identifier(bytes, len, &authority) == status);
    WANT(x509_access_next(bytes, len, &at, &access_found) == status);
    WANT(x509_certificate_policies_next(bytes, len, &at, &policy) == status);
    WANT(x509_policy_qualifiers_next(bytes, len, &at, &qualifier) == status);
    WANT(x509_user_notice(bytes, len, &notice) == status);
    WANT(x509_numbers_next(bytes, len, &at, &part) == status);
    WANT(x509_private_key_usage_period(bytes, len, &period) == status);
    WANT(x509_invalidity_date(bytes, len, &moment) == status);
    WANT(x509_subject_directory_attributes_next(bytes, len, &at, &asked) == status);
    WANT(x509_rsa_key_view(bytes, len, &rsa) == status);
    WANT(x509_string_text(bytes, len, NULL, 0, &written) == status);
    WANT(x509_policy_mappings_next(bytes, len, &at, &mapping) == status);
    WANT(x509_policy_constraints(bytes, len, &constraints) == status);
    WANT(x509_inhibit_any_policy(bytes, len, &number) == status);
    WANT(x509_distribution_points_next(bytes, len, &at, &point) == status);
    WANT(x509_issuing_distribution_point(bytes, len, &issuing) == status);
    WANT(x509_crl_number(bytes, len, &part) == status);
    WANT(x509_base_crl_number(bytes, len, &part) == status);
    WANT(x509_crl_reason(bytes, len, &number) == status);
    WANT(x509_name_constraints(bytes, len, &names) == status);
    WANT(x509_subtrees_under_next(0, bytes, len, &at, &subtree) == status);
    WANT(x509_serial_number(bytes, len, &part) == status);
    WANT(x509_crl_view(bytes, len, &crl) == status);
    WANT(x509_crl_entry_next(bytes, len, &at, &entry) == status);
    WANT(x509_crl_issued_next(bytes, len, &at, &part, &entry) == status);
    WANT(x509_crl_entry_find(bytes, len, SERIAL, 3, &entry) == status);
    WANT(x509_crl_entry_find(bytes, len, NULL, 0, &entry) == X509_MALFORMED);
    WANT(x509_crl_index(bytes, len, NULL, 0, &written) == status);
    WANT(x509_crl_index_find(bytes, len, NULL, 0, SERIAL, 3, &entry) == status);
    WANT(x509_crl_index_find(bytes, len, NULL, 0, NULL, 0, &entry) == X509_MALFORMED);
    WANT(x509_request_view(bytes, len, &request) == status);
    WANT(x509_request_attribute_next(bytes, len, &at, &asked) == status);
    WANT(x509_request_attribute_find(bytes, len, OID, 3, &asked) == status);
    WANT(x509_request_attribute_find(bytes, len, NULL, 0, &asked) == status);
    WANT(x509_request_extensions(bytes, len, &part) == status);
    WANT(x509_name_find(bytes, len, OID, 3, &attribute) == status);
    WANT(x509_name_find(bytes, len, NULL, 0, &attribute) == status);
    WANT(x509_names_match(bytes, len, bytes, len, &number) == status);
    WANT(x509_names_equal(bytes, len, bytes, len, &number) == status);
    WANT(x509_attribute_value_next(bytes, len, &at, &element) == status);
    WANT(x509_key_view(bytes, len, &key) == status);
    WANT(x509_algorithm_view(bytes, len, &algorithm) == status);
    WANT(x509_anchor_view(bytes, len, &anchor) == status);
    WANT(x509_path_controls_view(bytes, len, &controls) == status);
    WANT(x509_certificate_policies_under_next(1, bytes, len, &at, &policy) == status);
    WANT(x509_timestamp_next(bytes, len, &at, &part) == X509_MALFORMED);
    WANT(x509_timestamp_view(bytes, len, &timestamp) == X509_MALFORMED);
    WANT(crl.version == 0 && entry.serial_number.len == 0 && request.version == 0 && asked.oid.len == 0 && element.tag == 0);
    WANT(key.oid.len == 0 && algorithm.oid.len == 0 && anchor.element.len == 0 && controls.name.len == 0 && timestamp.log_id.len == 0);
    WANT(at == 0 && part.place == 7 && part.len == 7 && number == 7 && attribute.tag == 0 && authority.issuer.len == 0);
    WANT(access_found.location.kind == 0 && policy.identifier.len == 0 && qualifier.identifier.len == 0 && mapping.subject_policy.len == 0);
    WANT(constraints.has_require_explicit_policy == 0 && point.has_reasons == 0 && issuing.full_name.len == 0 && names.excluded.len == 0);
    WANT(subtree.base.element.len == 0 && extension.oid.len == 0 && basic.ca == 0 && general.element.len == 0);
    WANT(notice.explicit_text.len == 0 && period.has_not_before == 0 && moment == 7 && rsa.modulus.len == 0);
}

/* Each span is a whole element; behind the signed SEQUENCE stands nothing. */
static void parts(void)
{
    WANT(x509_certificate_view(certificate, certificate_len, &view) == X509_OK);
    WANT(certificate[view.serial_number.place] == 0x02);
    WANT(certificate[view.issuer.place] == 0x30 && certificate[view.subject.place] == 0x30);
    WANT(certificate[view.subject_public_key_info.place] == 0x30);
    WANT(certificate[view.extensions.place] == 0x30);
    WANT(view.extensions.len == 2u + certificate[view.extensions.place + 1]); /* fewer than 128 octets */
    WANT(certificate[view.extensions.place - 2] == 0xa3);
    WANT(x509_signed_slice(certificate, certificate_len, &part) == X509_OK);
    certificate[certificate_len] = 0;
    part = (x509_span){7, 7};
    WANT(x509_signed_slice(certificate, certificate_len + 1, &part) == X509_MALFORMED && part.place == 7 && part.len == 7);
    WANT(x509_certificate_check(certificate, certificate_len + 1) == X509_MALFORMED);
    const size_t longer = certificate_len + 1;
    WANT(x509_certificate_signature(certificate, longer, &signature) == X509_MALFORMED);
    WANT(x509_path_check(certificate, longer, certificate, certificate_len, &certificate_len, 1, MOMENT, &fault) == X509_MALFORMED);
    WANT(is_decode(x509_path_check(certificate, certificate_len, certificate, longer, &longer, 1, MOMENT, &fault)));
}

/* RFC 5280 spells dates before 2050 as UTCTime; the grammar alone takes both. */
static void respelled_dates(void)
{
    WANT(x509_certificate_check(respelled, respelled_len) == X509_OK);
    WANT(x509_certificate_reencode(respelled, respelled_len, room, sizeof room, &written) == X509_OK && written == respelled_len - 4);
    WANT(x509_certificate_check(room, written) == X509_OK);
    WANT(x509_signed_slice(respelled, respelled_len, &part) == X509_OK);
    x509_span other;
    WANT(x509_signed_slice(room, written, &other) == X509_OK && other.len == part.len - 4);
    WANT(x509_reencode(CERTIFICATE, 11, X509_RFC5280, respelled, respelled_len, room, sizeof room, &written) == X509_OK);
    WANT(written == respelled_len - 4);
    WANT(x509_reencode(CERTIFICATE, 11, X509_RAW, respelled, respelled_len, room, sizeof room, &written) == X509_OK);
    WANT(written == respelled_len && memcmp(room, respelled, written) == 0);
    WANT(x509_certificate_signature(respelled, respelled_len, &signature) == X509_OK);
    WANT(signature.signed_part.place == part.place && signature.signed_part.len == part.len);
    WANT(x509_path_check(respelled, respelled_len, respelled, respelled_len, &respelled_len, 1, MOMENT, &fault) == X509_OK);
}

/* Makes the first date of the bytes one of 1969, or one of 1970. */
static void set_year(uint8_t *bytes, size_t len, const char *year)
{
    for (size_t at = 0; at + 4 < len; at++)
        if (bytes[at] == 0x17 && bytes[at + 1] == 0x0d) {
            memcpy(bytes + at + 2, year, 2);
            return;
        }
}

static void early_dates(void)
{
    const uint8_t *const time = (const uint8_t *)"Time";
    WANT(x509_reencode(time, 4, X509_RAW, (const uint8_t *)"\x17\x0d" "691231235959Z", 15, room, sizeof room, &written) == X509_MALFORMED);
    WANT(x509_reencode(time, 4, X509_RAW, (const uint8_t *)"\x18\x0f" "19691231235959Z", 17, room, sizeof room, &written) == X509_MALFORMED);
    WANT(x509_reencode(time, 4, X509_RAW, (const uint8_t *)"\x17\x0d" "700101000000Z", 15, room, sizeof room, &written) == X509_OK);
    set_year(certificate, certificate_len, "70");
    WANT(x509_certificate_view(certificate, certificate_len, &view) == X509_OK && view.not_before == 97445);
    set_year(certificate, certificate_len, "69");
    WANT(x509_certificate_check(certificate, certificate_len) == X509_MALFORMED);
    WANT(x509_certificate_view(certificate, certificate_len, &view) == X509_MALFORMED);
    WANT(x509_certificate_extension(certificate, certificate_len, OID, 3, &found) == X509_MALFORMED);
    WANT(x509_certificate_reencode(certificate, certificate_len, room, sizeof room, &written) == X509_MALFORMED);
    WANT(x509_reencode(CERTIFICATE, 11, X509_RAW, certificate, certificate_len, room, sizeof room, &written) == X509_MALFORMED);
    WANT(x509_certificate_signature(certificate, certificate_len, &signature) == X509_MALFORMED);
    refused_documents(certificate, certificate_len, X509_MALFORMED);
    WANT(x509_path_check(certificate, certificate_len, respelled, respelled_len, &respelled_len, 1, MOMENT, &fault) == X509_MALFORMED);
    WANT(is_decode(x509_path_check(respelled, respelled_len, certificate, certificate_len, &certificate_len, 1, MOMENT, &fault)));
    WANT(x509_signed_slice(certificate, certificate_len, &part) == X509_OK);
    WANT(x509_crl_check(list, list_len) == X509_OK);
    set_year(list, list_len, "69");
    WANT(x509_crl_check(list, list_len) == X509_MALFORMED);
    WANT(x509_crl_walk(list, list_len, &entries) == X509_MALFORMED);
    WANT(x509_crl_view(list, list_len, &crl) == X509_MALFORMED && crl.version == 0);
    WANT(x509_crl_lookup(list, list_len, SERIAL, 3, &revocation) == X509_MALFORMED);
    refused_documents(list, list_len, X509_MALFORMED);
}

#define BYTES(text) (const uint8_t *)(text), sizeof(text) - 1
#define OUT NULL, 0, &written
#define NUMBER_AND_ALGORITHM BYTES("\x02\x01\x01"), BYTES(ALGORITHM)
/* The certificate as a path of its own, and what is said last to a call that validates one. */
#define PATH certificate, certificate_len, &certificate_len, 1
#define SETTINGS &settings, sizeof settings, NULL, 0, &answer

/* An anchor or a part of one that is too long. */
static void overlong_paths(const uint8_t *bytes, size_t len)
{
    const x509_path_settings settings = {.moment = MOMENT};
    x509_path_answer answer = {7, 7, {7, 7}, {7, 7}, 7};
    WANT(x509_path_validate(bytes, len, PATH, NULL, 0, NULL, 0, SETTINGS) == X509_OVERLENGTH);
    WANT(x509_path_validate(certificate, certificate_len, PATH, bytes, len, NULL, 0, SETTINGS) == X509_OVERLENGTH);
    WANT(x509_path_validate_under_key(bytes, len, BYTES(KEY), PATH, NULL, 0, NULL, 0, SETTINGS) == X509_OVERLENGTH);
    WANT(x509_path_validate_under_anchor(bytes, len, PATH, NULL, 0, NULL, 0, SETTINGS) == X509_OVERLENGTH);
    x509_path_certificate place[2];
    memset(place, 7, sizeof place);
    WANT(x509_path_validate_views(bytes, len, PATH, NULL, 0, NULL, 0, SETTINGS, place, 1) == X509_OVERLENGTH);
    WANT(x509_path_validate_views_under_key(bytes, len, BYTES(KEY), PATH, NULL, 0, NULL, 0, SETTINGS, place, 1) == X509_OVERLENGTH);
    WANT(x509_path_validate_views_under_anchor(bytes, len, PATH, NULL, 0, NULL, 0, SETTINGS, place, 1) == X509_OVERLENGTH);
    WANT(memcmp(&place[0], &place[1], sizeof place[0]) == 0);
    WANT(answer.place == 7 && answer.reason == 7 && answer.name.len == 7 && answer.key.len == 7 && answer.policies_len == 7);
    const x509_span whole = {0, len};
    x509_found_path found = {7, 7, 7, 7};
    WANT(x509_path_find(bytes, len, &whole, 1, NULL, 0, &whole, NULL, 0, NULL, 0, NULL, 0, &settings, sizeof settings, 8, NULL, 0, &found) == X509_OVERLENGTH);
    WANT(x509_certificate_matches_name(bytes, len, BYTES("example.org"), &matches) == X509_OVERLENGTH);
    WANT(x509_certificate_matches_email(bytes, len, BYTES("post@example.org"), &matches) == X509_OVERLENGTH);
    WANT(found.anchor == 7 && found.count == 7 && found.place == 7 && found.reason == 7 && matches == 7);
}

/* Purposes of 39 octets each that are together too long. */
static void overlong_purposes(uint8_t *bytes, size_t len)
{
    const size_t count = len / 41 + 1;
    size_t *lens = malloc(count * sizeof *lens);
    written = 77;
    WANT(lens != NULL && count * 39 <= len);
    for (size_t at = 0; at < count; at++)
        lens[at] = 39;
    memset(bytes, 1, count * 39);
    WANT(x509_extended_key_usage_encode(bytes, count * 39, lens, count, OUT) == X509_OVERLENGTH && written == 77);
    free(lens);
}

/* Pairs of policies of 84 bytes each, and one of 10, that are together too long. */
static void overlong_mappings(uint8_t *bytes, size_t len)
{
    uint8_t pair[84] = "\x30\x52\x06\x27";
    memset(pair + 4, 1, 39);
    memcpy(pair + 43, "\x06\x27", 2);
    memset(pair + 45, 1, 39);
    size_t at = 0;
    written = 77;
    for (; at + 94 < len; at += 84)
        memcpy(bytes + at, pair, 84);
    memcpy(bytes + at, "\x30\x08\x06\x02\x2a\x03\x06\x02\x2a\x04", 10);
    WANT(at + 10 < len && len < at + 17);
    WANT(x509_policy_mappings_encode(bytes, at + 10, OUT) == X509_OVERLENGTH && written == 77);
}

/* What builds, of a part that is too long. */
static void overlong_parts(uint8_t *bytes, size_t len)
{
    /* an element of 268,435,455 bytes is the longest */
    WANT(x509_element_encode(0x04, bytes, len - 7, OUT) == X509_ROOM && written == len - 1);
    written = 77;
    WANT(x509_element_encode(0x04, bytes, len - 6, OUT) == X509_OVERLENGTH && x509_element_encode(0x04, bytes, len, OUT) == X509_OVERLENGTH && written == 77);
    WANT(x509_extension_encode(OID, 3, 0, bytes, len, OUT) == X509_OVERLENGTH);
    WANT(x509_subject_key_identifier_encode(bytes, len, OUT) == X509_OVERLENGTH);
    WANT(x509_authority_key_identifier_encode(1, bytes, len, NULL, 0, NULL, 0, OUT) == X509_OVERLENGTH);
    WANT(x509_general_name_encode(7, bytes, len, OUT) == X509_OVERLENGTH && x509_other_name_encode(OID, 3, bytes, len, OUT) == X509_OVERLENGTH);
    WANT(x509_access_encode(OID, 3, bytes, len, OUT) == X509_OVERLENGTH && x509_subtree_encode(bytes, len, OUT) == X509_OVERLENGTH);
    WANT(x509_distribution_point_encode(NULL, 0, bytes, len, 0, 0, NULL, 0, OUT) == X509_OVERLENGTH);
    WANT(x509_policy_qualifier_encode(OID, 3, bytes, len, OUT) == X509_OVERLENGTH);
    WANT(x509_user_notice_encode(BYTES("a"), bytes, len, NULL, 0, OUT) == X509_OVERLENGTH);
    WANT(x509_crl_entry_encode(bytes, len, MOMENT, NULL, 0, OUT) == X509_OVERLENGTH);
    WANT(x509_attribute_encode(BYTES("\x55\x04\x03"), 0x0c, bytes, len, 0, OUT) == X509_OVERLENGTH);
    WANT(x509_build_request(bytes, len, BYTES(KEY), NULL, 0, NULL, 0, OUT) == X509_OVERLENGTH);
    WANT(x509_build_certificate(NUMBER_AND_ALGORITHM, bytes, len, MOMENT, MOMENT, BYTES(NO_NAME), BYTES(KEY), NULL, 0, OUT) == X509_OVERLENGTH);
    WANT(x509_build_root(NUMBER_AND_ALGORITHM, MOMENT, MOMENT, bytes, len, BYTES(KEY), 0, NULL, 0, OUT) == X509_OVERLENGTH);
    WANT(x509_build_subordinate(NUMBER_AND_ALGORITHM, bytes, len, BYTES(KEY), MOMENT, MOMENT, BYTES(NO_NAME), BYTES(KEY), 0, 0, 0, 0, NULL, 0, OUT)
         == X509_OVERLENGTH);
    WANT(x509_build_subscriber(NUMBER_AND_ALGORITHM, bytes, len, BYTES(KEY), MOMENT, MOMENT, BYTES(NO_NAME), BYTES(KEY), 0, 0, 0, 0, NULL, 0, OUT)
         == X509_OVERLENGTH);
    WANT(x509_build_device(NUMBER_AND_ALGORITHM, bytes, len, BYTES(KEY), MOMENT, MOMENT, BYTES(NO_NAME), BYTES(KEY), NULL, 0, NULL, 0, OUT) == X509_OVERLENGTH);
    WANT(x509_build_crl(bytes, len, BYTES(ALGORITHM), BYTES("\x01"), MOMENT, 0, 0, NULL, 0, NULL, 0, OUT) == X509_OVERLENGTH);
    WANT(x509_assemble(bytes, len, BYTES(ALGORITHM), NULL, 0, OUT) == X509_OVERLENGTH);
    /* a name, an access or a qualifier, a policy, an attribute, a point and a subtree of 268,435,455 bytes, which the list round it makes too long */
    memcpy(bytes, "\x87\x84\x0f\xff\xff\xf9", 6);
    WANT(x509_general_names_encode(bytes, len - 1, OUT) == X509_OVERLENGTH);
    WANT(x509_issuing_distribution_point_encode(&(x509_issuing_distribution_point_view){.indirect_crl = 0}, bytes, len - 1, NULL, 0, OUT) == X509_OVERLENGTH);
    WANT(x509_request_attribute_encode(OID, 3, bytes, len - 1, OUT) == X509_OVERLENGTH);
    memcpy(bytes, "\x30\x84\x0f\xff\xff\xf9\x06\x03\x55\x04\x03\x87\x84\x0f\xff\xff\xee", 17);
    WANT(x509_info_access_encode(bytes, len - 1, OUT) == X509_OVERLENGTH);
    WANT(x509_policy_encode(OID, 3, bytes, len - 1, OUT) == X509_OVERLENGTH);
    memcpy(bytes, "\x30\x84\x0f\xff\xff\xf9\x06\x03\x55\x04\x03\x30\x84\x0f\xff\xff\xee\x30\x84\x0f\xff\xff\xe8\x06\x03\x55\x04\x03\x87\x84\x0f\xff\xff\xdd", 34);
    WANT(x509_certificate_policies_encode(bytes, len - 1, OUT) == X509_OVERLENGTH);
    memcpy(bytes, "\x30\x84\x0f\xff\xff\xf9\x06\x03\x55\x04\x03\x31\x84\x0f\xff\xff\xee\x87\x84\x0f\xff\xff\xe8", 23);
    WANT(x509_subject_directory_attributes_encode(bytes, len - 1, OUT) == X509_OVERLENGTH);
    memcpy(bytes, "\x30\x84\x0f\xff\xff\xf9\xa0\x84\x0f\xff\xff\xf3\xa0\x84\x0f\xff\xff\xed\x87\x84\x0f\xff\xff\xe7", 24);
    WANT(x509_distribution_points_encode(bytes, len - 1, OUT) == X509_OVERLENGTH);
    memcpy(bytes, "\x30\x84\x0f\xff\xff\xf9\x87\x84\x0f\xff\xff\xf3", 12);
    WANT(x509_name_constraints_encode(bytes, len - 1, NULL, 0, OUT) == X509_OVERLENGTH);
    /* an attribute of 268,435,455 bytes, which a set round it makes too long; and a set of as many bytes round one, as a name of it is */
    memcpy(bytes, "\x30\x84\x0f\xff\xff\xf9\x06\x03\x55\x04\x03\x0c\x84\x0f\xff\xff\xee", 17);
    WANT(x509_relative_name_encode(bytes, len - 1, OUT) == X509_OVERLENGTH);
    memcpy(bytes, "\x31\x84\x0f\xff\xff\xf9\x30\x84\x0f\xff\xff\xf3\x06\x03\x55\x04\x03\x0c\x84\x0f\xff\xff\xe8", 23);
    WANT(x509_name_build(bytes, len - 1, OUT) == X509_OVERLENGTH);
    /* a name that is longer than its text, which is none too long */
    memset(bytes, 'a', len);
    WANT(x509_cps_uri_encode(bytes, len, OUT) == X509_OVERLENGTH && x509_numbers_encode(bytes, len, &len, 1, OUT) == X509_OVERLENGTH);
    memcpy(bytes, "CN=", 3);
    WANT(x509_name_from_text(bytes, len - 8, OUT) == X509_OVERLENGTH && written == 77);
}

/* What a log has of a certificate that is too long, and what a timestamp is a signature of: a timestamp of version 1, with an ID of zeros. */
static void overlong_logged(const uint8_t *bytes, size_t len)
{
    static const uint8_t timestamp[49] = {[43] = 4, [44] = 3, [46] = 2, [47] = 7, [48] = 7};
    written = 77;
    WANT(x509_logged_part(bytes, len, OUT) == X509_OVERLENGTH && x509_logged_precertificate(bytes, len, OUT) == X509_OVERLENGTH);
    WANT(x509_logged_precertificate_signed_by(bytes, len, certificate, certificate_len, OUT) == X509_OVERLENGTH);
    WANT(x509_timestamp_signed_data(timestamp, sizeof timestamp, bytes, len, certificate, certificate_len, OUT) == X509_OVERLENGTH);
    WANT(x509_timestamp_signed_data_beside(timestamp, sizeof timestamp, bytes, len, OUT) == X509_OVERLENGTH);
    WANT(x509_timestamp_signed_data_beside(timestamp, sizeof timestamp, bytes, (size_t)1 << 24, OUT) == X509_OVERLENGTH && written == 77);
}

/* 268,435,456 bytes are one too many; these are zeros. */
static void overlong(void)
{
    const size_t len = (size_t)1 << 28;
    uint8_t *const bytes = calloc(len, 1);
    if (bytes == NULL)
        return;
    WANT(x509_certificate_check(bytes, len) == X509_OVERLENGTH);
    WANT(x509_crl_check(bytes, len) == X509_OVERLENGTH);
    WANT(x509_request_check(bytes, len) == X509_OVERLENGTH);
    WANT(x509_certificate_view(bytes, len, &view) == X509_OVERLENGTH);
    WANT(x509_certificate_extension(bytes, len, OID, 3, &found) == X509_OVERLENGTH);
    WANT(x509_certificate_signature(bytes, len, &signature) == X509_OVERLENGTH);
    WANT(x509_certificate_out_of_date(bytes, len, 0, &side) == X509_OVERLENGTH && side == 7);
    overlong_logged(bytes, len);
    WANT(x509_path_check(bytes, len, PATH, MOMENT, &fault) == X509_OVERLENGTH);
    WANT(is_decode(x509_path_check(certificate, certificate_len, bytes, len, &len, 1, MOMENT, &fault)));
    WANT(x509_crl_walk(bytes, len, &entries) == X509_OVERLENGTH);
    WANT(x509_crl_lookup(bytes, len, SERIAL, 3, &revocation) == X509_OVERLENGTH);
    const x509_revocation_settings at_moment = {MOMENT, 0};
    const x509_signed_crl whole = {{0, len}, {0, 1}, {0, 1}, 1};
    WANT(x509_may_sign_crls(bytes, len, &may_sign) == X509_OVERLENGTH);
    WANT(x509_revocation_status(bytes, len, NULL, 0, NULL, 0, &at_moment, sizeof at_moment, &told) == X509_OVERLENGTH);
    WANT(x509_revocation_status(certificate, certificate_len, bytes, len, &whole, 1, &at_moment, sizeof at_moment, &told) == X509_OVERLENGTH && is_untold());
    WANT(x509_crl_fault(bytes, len, NULL, 0, &whole, 1, &at_moment, sizeof at_moment, 0, &crl_fault) == X509_OVERLENGTH);
    WANT(x509_crl_fault(certificate, certificate_len, bytes, len, &whole, 1, &at_moment, sizeof at_moment, 0, &crl_fault) == X509_OVERLENGTH && is_untold());
    WANT(x509_certificate_reencode(bytes, len, room, sizeof room, &written) == X509_OVERLENGTH);
    WANT(x509_reencode(CERTIFICATE, 11, X509_RAW, bytes, len, room, sizeof room, &written) == X509_OVERLENGTH);
    WANT(x509_name_text(bytes, len, room, sizeof room, &written) == X509_OVERLENGTH);
    WANT(x509_working_key(bytes, len, bytes, len, room, sizeof room, &written) == X509_OVERLENGTH);
    refused_documents(bytes, len, X509_OVERLENGTH);
    WANT(x509_signed_slice(bytes, len, &part) == X509_MALFORMED);
    refused_values(bytes, len, X509_OVERLENGTH);
    overlong_paths(bytes, len);
    overlong_purposes(bytes, len);
    overlong_mappings(bytes, len);
    overlong_parts(bytes, len);
    free(bytes);
}

int main(int argc, char **argv)
{
    if (argc != 4)
        return 2;
    certificate_len = read_file(argv[1], certificate);
    list_len = read_file(argv[2], list);
    respelled_len = read_file(argv[3], respelled);
    no_pointers();
    refused_values(NULL, 0, X509_MALFORMED);
    parts();
    respelled_dates();
    overlong();
    early_dates();
    if (failures == 0)
        printf("all calls answer as they should\n");
    return failures != 0;
}
