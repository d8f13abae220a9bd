/* Says all that certificates have: their fields, their key, their signature, and what each extension holds. examples/python/facts.py and
 * bindings/rust/examples/facts.rs say the same.
 *
 * usage: facts CERTIFICATE .., each a file of DER */
#include <inttypes.h>
#include <stdarg.h>
#include <stdint.h>
#include <stdio.h>
#include <stdlib.h>
#include <string.h>
#include "x509.h"

typedef struct {
    const uint8_t *bytes;
    size_t len;
} octets;

/* Lines that are said once all is known. */
typedef struct {
    char *bytes;
    size_t len, room;
} lines;

static octets part_of(octets whole, x509_span span)
{
    return (octets){whole.bytes + span.place, span.len};
}

static int is_there(x509_span span)
{
    return span.place != 0 || span.len != 0;
}

#define IS(oid, known) ((oid).len == sizeof(known) - 1 && memcmp((oid).bytes, known, sizeof(known) - 1) == 0)

/* ---- texts */

static void *taken(void *memory)
{
    if (memory == NULL) {
        fprintf(stderr, "facts: out of memory\n");
        exit(2);
    }
    return memory;
}

static void add_bytes(lines *to, const char *bytes, size_t len)
{
    if (to->room - to->len < len) {
        to->room = 2 * to->room + len;
        to->bytes = taken(realloc(to->bytes, to->room));
    }
    if (len > 0)
        memcpy(to->bytes + to->len, bytes, len);
    to->len += len;
}

/* Adds a short text. */
static void add(lines *to, const char *format, ...)
{
    char text[256];
    va_list words;
    va_start(words, format);
    const int len = vsnprintf(text, sizeof text, format, words);
    va_end(words);
    if (len > 0)
        add_bytes(to, text, (size_t)len < sizeof text ? (size_t)len : sizeof text - 1);
}

static void add_hex(lines *to, octets it)
{
    for (size_t at = 0; at < it.len; at++)
        add(to, "%02x", it.bytes[at]);
}

/* Whether a character ends a line, turns its order round, or controls something else. */
static int is_hidden(uint32_t it)
{
    return it < 0x20 || (it >= 0x7f && it <= 0x9f) || it == 0x61c || it == 0x200e || it == 0x200f || (it >= 0x2028 && it <= 0x202e) ||
           (it >= 0x2066 && it <= 0x2069);
}

/* Adds UTF-8 with its hidden characters escaped. */
static void add_visible(lines *to, octets text)
{
    for (size_t at = 0; at < text.len;) {
        const uint8_t first = text.bytes[at];
        const size_t size = first < 0xc0 ? 1 : first < 0xe0 ? 2 : first < 0xf0 ? 3 : 4;
        uint32_t it = first < 0xc0 ? first : first < 0xe0 ? first & 0x1fu : first < 0xf0 ? first & 0xfu : first & 7u;
        for (size_t more = 1; more < size && at + more < text.len; more++)
            it = it << 6 | (text.bytes[at + more] & 0x3fu);
        const size_t left = text.len - at < size ? text.len - at : size;
        if (is_hidden(it))
            add(to, "\\u{%" PRIx32 "}", it);
        else
            add_bytes(to, (const char *)text.bytes + at, left);
        at += left;
    }
}

typedef x509_status text_call(const uint8_t *in, size_t len, uint8_t *out, size_t room, size_t *written);

/* Adds the text that a call writes, a first one with no buffer saying how much is needed; nothing where the call refuses. */
static x509_status add_text(lines *to, text_call *call, octets in)
{
    size_t written = 0;
    x509_status status = call(in.bytes, in.len, NULL, 0, &written);
    if (status != X509_ROOM && status != X509_OK) {
        if (status == X509_MEMORY)
            taken(NULL);
        return status;
    }
    uint8_t *text = taken(malloc(written + 1));
    status = call(in.bytes, in.len, text, written, &written);
    if (status == X509_OK)
        add_visible(to, (octets){text, written});
    free(text);
    if (status == X509_MEMORY)
        taken(NULL);
    return status;
}

static void add_oid(lines *to, octets oid)
{
    if (add_text(to, x509_oid_text, oid) != X509_OK)
        add(to, "?");
}

static void add_moment(lines *to, uint64_t moment)
{
    uint8_t text[20];
    size_t written = 0;
    if (x509_time_text(moment, text, sizeof text, &written) == X509_OK)
        add_bytes(to, (const char *)text, written);
}

/* The names of the named bits that are set. */
static void add_bits(lines *to, uint32_t bits, const char *const *names, size_t count)
{
    const char *between = "";
    for (size_t bit = 0; bit < count; bit++)
        if (bits & (uint32_t)1 << bit) {
            add(to, "%s%s", between, names[bit]);
            between = " ";
        }
}

/* ---- names */

/* Goes over a list; `status` says how it ended. */
#define EACH(call, list, member) for (size_t at = 0; (status = call((list).bytes, (list).len, &at, &(member))) == X509_OK;)
#define EACH_UNDER(number, call, list, member) for (size_t at = 0; (status = call(number, (list).bytes, (list).len, &at, &(member))) == X509_OK;)

static x509_status ended(x509_status status)
{
    return status == X509_ABSENT ? X509_OK : status;
}

static x509_status add_attributes(lines *to, octets rdn)
{
    x509_attribute attribute;
    x509_status status;
    EACH(x509_relative_name_next, rdn, attribute) {
        add(to, "  ");
        add_oid(to, part_of(rdn, attribute.oid));
        add(to, ": ");
        if (add_text(to, x509_string_text, part_of(rdn, attribute.element)) != X509_OK) {
            add(to, "#");
            add_hex(to, part_of(rdn, attribute.element));
        }
        add(to, "\n");
    }
    return ended(status);
}

static x509_status add_name(lines *to, const char *what, octets name)
{
    x509_span rdn;
    add(to, "%s: ", what);
    x509_status status = add_text(to, x509_name_text, name);
    if (status != X509_OK)
        return status;
    add(to, "\n");
    EACH(x509_name_next, name, rdn)
        if (add_attributes(to, part_of(name, rdn)) != X509_OK)
            return X509_MALFORMED;
    return ended(status);
}

static void add_party(lines *to, octets list, const x509_general_name *name)
{
    const size_t before = to->len;
    int is_read = add_text(to, x509_string_text, part_of(list, name->party_name)) == X509_OK;
    add(to, " of ");
    if (is_read && is_there(name->name_assigner))
        is_read = add_text(to, x509_string_text, part_of(list, name->name_assigner)) == X509_OK;
    else
        add(to, "none");
    if (!is_read) {
        to->len = before;
        add_hex(to, part_of(list, name->content));
    }
}

static x509_status add_general_name(lines *to, octets list, const x509_general_name *name)
{
    const octets content = part_of(list, name->content);
    switch (name->kind) {
    case X509_GENERAL_NAME_OTHER:
        add(to, "other ");
        add_oid(to, part_of(list, name->type_id));
        add(to, " ");
        add_hex(to, part_of(list, name->value));
        return X509_OK;
    case X509_GENERAL_NAME_EMAIL:
    case X509_GENERAL_NAME_DNS:
    case X509_GENERAL_NAME_URI:
        add(to, name->kind == X509_GENERAL_NAME_EMAIL ? "email " : name->kind == X509_GENERAL_NAME_DNS ? "dns " : "uri ");
        add_visible(to, content);
        return X509_OK;
    case X509_GENERAL_NAME_DIRECTORY:
        add(to, "name ");
        return add_text(to, x509_name_text, content);
    case X509_GENERAL_NAME_IP:
        add(to, "ip ");
        if (content.len == 4)
            add(to, "%d.%d.%d.%d", content.bytes[0], content.bytes[1], content.bytes[2], content.bytes[3]);
        else
            add_hex(to, content);
        return X509_OK;
    case X509_GENERAL_NAME_REGISTERED_ID:
        add(to, "id ");
        add_oid(to, content);
        return X509_OK;
    default:
        add(to, "edi ");
        add_party(to, list, name);
        return X509_OK;
    }
}

static x509_status add_names(lines *to, octets list)
{
    x509_general_name name;
    x509_status status;
    EACH(x509_general_names_next, list, name) {
        add(to, "  ");
        if (add_general_name(to, list, &name) != X509_OK)
            return X509_MALFORMED;
        add(to, "\n");
    }
    return ended(status);
}

/* The same of names under a tag, which may be left out. */
static x509_status add_names_under(lines *to, uint32_t number, const char *what, octets whole, x509_span span)
{
    x509_general_name name;
    x509_status status;
    if (!is_there(span))
        return X509_OK;
    const octets list = part_of(whole, span);
    EACH_UNDER(number, x509_general_names_under_next, list, name) {
        add(to, "  %s ", what);
        if (add_general_name(to, list, &name) != X509_OK)
            return X509_MALFORMED;
        add(to, "\n");
    }
    return ended(status);
}

/* ---- what extensions hold */

typedef x509_status held(lines *to, octets value);

static x509_status key_usage(lines *to, octets value)
{
    static const char *const names[] = {"digitalSignature", "nonRepudiation", "keyEncipherment", "dataEncipherment", "keyAgreement",
                                        "keyCertSign", "cRLSign", "encipherOnly", "decipherOnly"};
    uint32_t uses;
    const x509_status status = x509_key_usage(value.bytes, value.len, &uses);
    if (status != X509_OK)
        return status;
    add(to, "  ");
    add_bits(to, uses, names, 9);
    add(to, "\n");
    return X509_OK;
}

static x509_status basic_constraints(lines *to, octets value)
{
    x509_basic_constraints_view it;
    const x509_status status = x509_basic_constraints(value.bytes, value.len, &it);
    if (status != X509_OK)
        return status;
    add(to, "  authority %s, path length ", it.ca ? "true" : "false");
    if (it.has_path_len)
        add(to, "%" PRIu32 "\n", it.path_len);
    else
        add(to, "none\n");
    return X509_OK;
}

static x509_status extended_key_usage(lines *to, octets value)
{
    x509_span oid;
    x509_status status;
    EACH(x509_extended_key_usage_next, value, oid) {
        add(to, "  ");
        add_oid(to, part_of(value, oid));
        add(to, "\n");
    }
    return ended(status);
}

static x509_status subject_key(lines *to, octets value)
{
    x509_span identifier;
    const x509_status status = x509_subject_key_identifier(value.bytes, value.len, &identifier);
    if (status != X509_OK)
        return status;
    add(to, "  ");
    add_hex(to, part_of(value, identifier));
    add(to, "\n");
    return X509_OK;
}

static x509_status authority_key(lines *to, octets value)
{
    x509_authority_key_identifier_view it;
    x509_status status = x509_authority_key_identifier(value.bytes, value.len, &it);
    if (status != X509_OK)
        return status;
    if (is_there(it.key_identifier)) {
        add(to, "  key ");
        add_hex(to, part_of(value, it.key_identifier));
        add(to, "\n");
    }
    status = add_names_under(to, 1, "issuer", value, it.issuer);
    if (status == X509_OK && is_there(it.serial_number)) {
        add(to, "  serial number ");
        status = add_text(to, x509_serial_text, part_of(value, it.serial_number));
        add(to, "\n");
    }
    return status;
}

static x509_status access_of(lines *to, octets value)
{
    x509_access it;
    x509_status status;
    EACH(x509_access_next, value, it) {
        add(to, "  ");
        add_oid(to, part_of(value, it.method));
        add(to, " ");
        if (add_general_name(to, value, &it.location) != X509_OK)
            return X509_MALFORMED;
        add(to, "\n");
    }
    return ended(status);
}

/* The name of a distribution point relative to the issuer of the CRL. */
static x509_status add_relative(lines *to, octets rdn)
{
    x509_attribute attribute;
    x509_status status;
    EACH_UNDER(1, x509_relative_name_under_next, rdn, attribute) {
        add(to, "  at ");
        add_oid(to, part_of(rdn, attribute.oid));
        add(to, " ");
        add_hex(to, part_of(rdn, attribute.element));
        add(to, "\n");
    }
    return ended(status);
}

static x509_status distribution_points(lines *to, octets value)
{
    static const char *const names[] = {"unused", "keyCompromise", "cACompromise", "affiliationChanged", "superseded",
                                        "cessationOfOperation", "certificateHold", "privilegeWithdrawn", "aACompromise"};
    x509_distribution_point it;
    x509_status status;
    EACH(x509_distribution_points_next, value, it) {
        add(to, "  point\n");
        if (add_names_under(to, 0, "at", value, it.full_name) != X509_OK)
            return X509_MALFORMED;
        if (is_there(it.relative_name) && add_relative(to, part_of(value, it.relative_name)) != X509_OK)
            return X509_MALFORMED;
        if (it.has_reasons) {
            add(to, "  for ");
            add_bits(to, it.reasons, names, 9);
            add(to, "\n");
        }
        if (add_names_under(to, 2, "issued by", value, it.crl_issuer) != X509_OK)
            return X509_MALFORMED;
    }
    return ended(status);
}

static x509_status add_notice(lines *to, octets notice)
{
    x509_user_notice_view it;
    x509_span number;
    x509_status status = x509_user_notice(notice.bytes, notice.len, &it);
    if (status == X509_OK && is_there(it.organization)) {
        add(to, "  notices of ");
        status = add_text(to, x509_string_text, part_of(notice, it.organization));
        add(to, ":");
        const octets numbers = part_of(notice, it.notice_numbers);
        if (status == X509_OK && is_there(it.notice_numbers)) {
            EACH(x509_numbers_next, numbers, number) {
                add(to, " ");
                if (add_text(to, x509_serial_text, part_of(numbers, number)) != X509_OK)
                    return X509_MALFORMED;
            }
            status = ended(status);
        }
        add(to, "\n");
    }
    if (status == X509_OK && is_there(it.explicit_text)) {
        add(to, "  notice ");
        status = add_text(to, x509_string_text, part_of(notice, it.explicit_text));
        add(to, "\n");
    }
    return status;
}

static void add_qualifier(lines *to, octets list, const x509_policy_qualifier *it)
{
    const octets oid = part_of(list, it->identifier), value = part_of(list, it->qualifier);
    const size_t before = to->len;
    if (IS(oid, X509_OID_CPS) && is_there(it->qualifier)) {
        add(to, "  practice statement ");
        const x509_status status = add_text(to, x509_string_text, value);
        add(to, "\n");
        if (status == X509_OK)
            return;
    }
    if (IS(oid, X509_OID_USER_NOTICE) && is_there(it->qualifier) && add_notice(to, value) == X509_OK)
        return;
    to->len = before;
    add(to, "  ");
    add_oid(to, oid);
    add(to, " ");
    if (is_there(it->qualifier))
        add_hex(to, value);
    else
        add(to, "none");
    add(to, "\n");
}

static x509_status add_qualifiers(lines *to, octets list)
{
    x509_policy_qualifier it;
    x509_status status;
    EACH(x509_policy_qualifiers_next, list, it)
        add_qualifier(to, list, &it);
    return ended(status);
}

static x509_status policies(lines *to, octets value)
{
    x509_policy it;
    x509_status status;
    EACH(x509_certificate_policies_next, value, it) {
        add(to, "  policy ");
        add_oid(to, part_of(value, it.identifier));
        add(to, "\n");
        if (is_there(it.qualifiers) && add_qualifiers(to, part_of(value, it.qualifiers)) != X509_OK)
            return X509_MALFORMED;
    }
    return ended(status);
}

static x509_status policy_mappings(lines *to, octets value)
{
    x509_policy_mapping it;
    x509_status status;
    EACH(x509_policy_mappings_next, value, it) {
        add(to, "  ");
        add_oid(to, part_of(value, it.issuer_policy));
        add(to, " ");
        add_oid(to, part_of(value, it.subject_policy));
        add(to, "\n");
    }
    return ended(status);
}

static x509_status policy_constraints(lines *to, octets value)
{
    x509_policy_constraints_view it;
    const x509_status status = x509_policy_constraints(value.bytes, value.len, &it);
    if (status != X509_OK)
        return status;
    if (it.has_require_explicit_policy)
        add(to, "  explicit after %" PRIu32 "\n", it.require_explicit_policy);
    if (it.has_inhibit_policy_mapping)
        add(to, "  no mapping after %" PRIu32 "\n", it.inhibit_policy_mapping);
    return X509_OK;
}

static x509_status inhibit_any_policy(lines *to, octets value)
{
    uint32_t certificates;
    const x509_status status = x509_inhibit_any_policy(value.bytes, value.len, &certificates);
    if (status == X509_OK)
        add(to, "  after %" PRIu32 "\n", certificates);
    return status;
}

static x509_status add_trees(lines *to, uint32_t number, const char *what, octets whole, x509_span span)
{
    x509_subtree it;
    x509_status status;
    if (!is_there(span))
        return X509_OK;
    const octets list = part_of(whole, span);
    EACH_UNDER(number, x509_subtrees_under_next, list, it) {
        add(to, "  %s ", what);
        if (add_general_name(to, list, &it.base) != X509_OK)
            return X509_MALFORMED;
        add(to, "\n");
    }
    return ended(status);
}

static x509_status name_constraints(lines *to, octets value)
{
    x509_name_constraints_view it;
    x509_status status = x509_name_constraints(value.bytes, value.len, &it);
    if (status == X509_OK)
        status = add_trees(to, 0, "permits", value, it.permitted);
    return status == X509_OK ? add_trees(to, 1, "excludes", value, it.excluded) : status;
}

/* The timestamps of version 1, whose octets begin with a 0. */
static x509_status timestamps(lines *to, octets value)
{
    x509_span span;
    x509_timestamp it;
    x509_status status;
    EACH(x509_timestamp_next, value, span) {
        const octets one = part_of(value, span);
        if (one.len == 0 || one.bytes[0] != 0)
            continue;
        if (x509_timestamp_view(one.bytes, one.len, &it) != X509_OK)
            return X509_MALFORMED;
        add(to, "  log ");
        add_hex(to, part_of(one, it.log_id));
        add(to, " at %" PRIu64 "\n", it.timestamp);
    }
    return ended(status);
}

static x509_status usage_period(lines *to, octets value)
{
    x509_private_key_usage_period_view it;
    const x509_status status = x509_private_key_usage_period(value.bytes, value.len, &it);
    if (status != X509_OK)
        return status;
    if (it.has_not_before) {
        add(to, "  not before ");
        add_moment(to, it.not_before);
        add(to, "\n");
    }
    if (it.has_not_after) {
        add(to, "  not after ");
        add_moment(to, it.not_after);
        add(to, "\n");
    }
    return X509_OK;
}

static x509_status add_values(lines *to, octets set)
{
    x509_element it;
    x509_status status;
    EACH(x509_attribute_value_next, set, it) {
        add(to, " ");
        add_hex(to, part_of(set, it.element));
    }
    return ended(status);
}

static x509_status directory_attributes(lines *to, octets value)
{
    x509_request_attribute it;
    x509_status status;
    EACH(x509_subject_directory_attributes_next, value, it) {
        add(to, "  ");
        add_oid(to, part_of(value, it.oid));
        add(to, ":");
        if (add_values(to, part_of(value, it.values)) != X509_OK)
            return X509_MALFORMED;
        add(to, "\n");
    }
    return ended(status);
}

static x509_status tls_features(lines *to, octets value)
{
    x509_span number;
    x509_status status;
    EACH(x509_numbers_next, value, number) {
        add(to, "  ");
        if (add_text(to, x509_serial_decimal, part_of(value, number)) != X509_OK)
            return X509_MALFORMED;
        add(to, "\n");
    }
    return ended(status);
}

/* The octets of others. */
static x509_status others(lines *to, octets value)
{
    add(to, "  ");
    add_hex(to, value);
    add(to, "\n");
    return X509_OK;
}

#define OID(known) known, sizeof(known) - 1

static const struct {
    const char *oid;
    size_t len;
    held *tell;
} KINDS[] = {{OID(X509_OID_KEY_USAGE), key_usage},
             {OID(X509_OID_BASIC_CONSTRAINTS), basic_constraints},
             {OID(X509_OID_EXTENDED_KEY_USAGE), extended_key_usage},
             {OID(X509_OID_SUBJECT_ALT_NAME), add_names},
             {OID(X509_OID_ISSUER_ALT_NAME), add_names},
             {OID(X509_OID_SUBJECT_KEY_IDENTIFIER), subject_key},
             {OID(X509_OID_AUTHORITY_KEY_IDENTIFIER), authority_key},
             {OID(X509_OID_AUTHORITY_INFO_ACCESS), access_of},
             {OID(X509_OID_SUBJECT_INFO_ACCESS), access_of},
             {OID(X509_OID_CRL_DISTRIBUTION_POINTS), distribution_points},
             {OID(X509_OID_FRESHEST_CRL), distribution_points},
             {OID(X509_OID_CERTIFICATE_POLICIES), policies},
             {OID(X509_OID_POLICY_MAPPINGS), policy_mappings},
             {OID(X509_OID_POLICY_CONSTRAINTS), policy_constraints},
             {OID(X509_OID_INHIBIT_ANY_POLICY), inhibit_any_policy},
             {OID(X509_OID_NAME_CONSTRAINTS), name_constraints},
             {OID(X509_OID_SIGNED_CERTIFICATE_TIMESTAMPS), timestamps},
             {OID(X509_OID_PRIVATE_KEY_USAGE_PERIOD), usage_period},
             {OID(X509_OID_SUBJECT_DIRECTORY_ATTRIBUTES), directory_attributes},
             {OID(X509_OID_TLS_FEATURE), tls_features}};

static held *kind_of(octets oid)
{
    for (size_t at = 0; at < sizeof KINDS / sizeof *KINDS; at++)
        if (oid.len == KINDS[at].len && memcmp(oid.bytes, KINDS[at].oid, oid.len) == 0)
            return KINDS[at].tell;
    return others;
}

static x509_status add_extensions(lines *to, octets list)
{
    x509_extension_entry it;
    x509_status status;
    EACH(x509_extensions_next, list, it) {
        const octets oid = part_of(list, it.oid);
        add(to, "extension ");
        add_oid(to, oid);
        add(to, it.critical ? ", critical\n" : "\n");
        const size_t before = to->len;
        if (kind_of(oid)(to, part_of(list, it.value)) != X509_OK) {
            to->len = before;
            add(to, "  it can't be read\n");
        }
    }
    return ended(status);
}

/* ---- keys */

static x509_status add_key(lines *to, octets info)
{
    x509_key key;
    x509_rsa_key numbers;
    const x509_status status = x509_key_view(info.bytes, info.len, &key);
    if (status != X509_OK)
        return status;
    const octets bits = part_of(info, key.bits);
    const int is_rsa = key.kind == X509_KEY_RSA || key.kind == X509_KEY_RSA_PSS;
    const int is_read = is_rsa && x509_rsa_key_view(bits.bytes, bits.len, &numbers) == X509_OK;
    add(to, "key: ");
    add_oid(to, part_of(info, key.oid));
    if (key.size == 0)
        add(to, ", none bits\n");
    else
        add(to, ", %" PRIu32 " bits\n", key.size);
    if (is_read) {
        add(to, "modulus: ");
        add_text(to, x509_serial_text, part_of(bits, numbers.modulus));
        add(to, "\nexponent: ");
        add_text(to, x509_serial_text, part_of(bits, numbers.public_exponent));
        add(to, "\n");
    }
    if (is_there(key.curve)) {
        add(to, "curve: ");
        add_oid(to, part_of(info, key.curve));
        add(to, "\n");
    }
    if (!is_rsa) {
        const int is_point = key.kind >= X509_KEY_EC_P256 && key.kind <= X509_KEY_X448;
        add(to, is_point ? "point: " : "bits: ");
        add_hex(to, bits);
        add(to, "\n");
    }
    return X509_OK;
}

/* ---- certificates */

static void add_unique_id(lines *to, const char *what, octets whole, x509_span bits, uint32_t unused_bits)
{
    if (!is_there(bits))
        return;
    add(to, "%s's unique identifier: ", what);
    add_hex(to, part_of(whole, bits));
    add(to, ", %" PRIu32 " bits unused\n", unused_bits);
}

static x509_status add_signature(lines *to, octets der, octets inner)
{
    x509_signature signature;
    x509_algorithm algorithm;
    x509_status status = x509_certificate_signature(der.bytes, der.len, &signature);
    if (status != X509_OK)
        return status;
    const octets outer = part_of(der, signature.algorithm);
    status = x509_algorithm_view(outer.bytes, outer.len, &algorithm);
    if (status != X509_OK)
        return status;
    add(to, "signature: ");
    add_oid(to, part_of(outer, algorithm.oid));
    add(to, ", %zu octets\n", signature.bits.len);
    if (inner.len != outer.len || memcmp(inner.bytes, outer.bytes, inner.len) != 0)
        add(to, "another algorithm stands in the signed part\n");
    return X509_OK;
}

static x509_status add_certificate(lines *to, octets der)
{
    x509_certificate it;
    x509_span number;
    x509_status status = x509_certificate_view(der.bytes, der.len, &it);
    if (status != X509_OK)
        return status;
    const octets serial_number = part_of(der, it.serial_number);
    status = x509_serial_number(serial_number.bytes, serial_number.len, &number);
    if (status != X509_OK)
        return status;
    add(to, "version: %" PRIu32 "\nserial number: ", it.version);
    status = add_text(to, x509_serial_text, part_of(serial_number, number));
    add(to, "\n");
    if (status == X509_OK)
        status = add_name(to, "issuer", part_of(der, it.issuer));
    if (status == X509_OK)
        status = add_name(to, "subject", part_of(der, it.subject));
    add(to, "not before: ");
    add_moment(to, it.not_before);
    add(to, "\nnot after: ");
    add_moment(to, it.not_after);
    add(to, "\n");
    add_unique_id(to, "issuer", der, it.issuer_unique_id, it.issuer_unused_bits);
    add_unique_id(to, "subject", der, it.subject_unique_id, it.subject_unused_bits);
    if (status == X509_OK)
        status = add_key(to, part_of(der, it.subject_public_key_info));
    if (status == X509_OK)
        status = add_signature(to, der, part_of(der, it.inner_algorithm));
    return status == X509_OK && is_there(it.extensions) ? add_extensions(to, part_of(der, it.extensions)) : status;
}

/* All of a file; NULL where it can't be read. */
static uint8_t *read_file(const char *name, size_t *len)
{
    FILE *file = fopen(name, "rb");
    uint8_t *bytes = NULL;
    size_t room = 0, got = 1;
    *len = 0;
    while (file != NULL && got > 0) {
        if (*len == room) {
            room = 2 * room + 4096;
            bytes = taken(realloc(bytes, room));
        }
        got = fread(bytes + *len, 1, room - *len, file);
        *len += got;
    }
    if (file == NULL || ferror(file)) {
        free(bytes);
        bytes = NULL;
    }
    if (file != NULL)
        fclose(file);
    return bytes;
}

/* Says why a file gave nothing. */
static void say(const char *name, x509_status status)
{
    uint8_t text[128];
    size_t len = 0;
    if (x509_status_text(status, text, sizeof text, &len) != X509_OK)
        len = 0;
    fprintf(stderr, "%s: %.*s\n", name, (int)len, (const char *)text);
}

int main(int argc, char **argv)
{
    int failed = 0;
    for (int at = 1; at < argc; at++) {
        size_t len = 0;
        uint8_t *bytes = read_file(argv[at], &len);
        lines told = {NULL, 0, 0};
        if (bytes == NULL) {
            fprintf(stderr, "%s: it can't be read\n", argv[at]);
            failed = 1;
            continue;
        }
        const x509_status status = add_certificate(&told, (octets){bytes, len});
        if (status == X509_OK) {
            fwrite(told.bytes, 1, told.len, stdout);
        } else {
            say(argv[at], status);
            failed = 1;
        }
        free(told.bytes);
        free(bytes);
    }
    return failed;
}
