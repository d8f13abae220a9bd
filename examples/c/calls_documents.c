/* Asks the calls that write documents for those of a certificate, a CRL, a CSR and trust anchors, of which each line is stated here, and for their
 * refusals. The values of the files are those that openssl prints of them; the octets of keys and of signatures are those that other calls find.
 *
 * usage: as calls.h says */
#include "calls.h"

typedef x509_status (*write_call)(const uint8_t *, size_t, uint8_t *, size_t, size_t *);

/* A line of a document; its text is `text`, and behind it these octets in hex. */
typedef struct {
    unsigned depth;
    const char *label, *text;
    const uint8_t *octets;
    size_t len;
} line;

/* A line of which the text stands here. */
#define LINE(depth, label, text) {depth, label, text, NULL, 0}

/* ---- the document that is wanted */

static char wanted[8192];
static size_t wanted_len;

static void add(const char *text, size_t len)
{
    if (len > sizeof wanted - wanted_len)
        exit(2);
    memcpy(wanted + wanted_len, text, len);
    wanted_len += len;
}

static void add_text(const char *text)
{
    add(text, strlen(text));
}

static void add_hex(const line *of)
{
    for (size_t at = 0; at < of->len; at++) {
        char digits[3];
        snprintf(digits, sizeof digits, "%02x", of->octets[at]);
        add(digits, 2);
    }
}

static void want_text(const line *lines, size_t count)
{
    wanted_len = 0;
    for (size_t at = 0; at < count; at++) {
        for (unsigned depth = 0; depth < lines[at].depth; depth++)
            add_text("  ");
        add_text(lines[at].label);
        add_text(lines[at].text[0] == 0 && lines[at].len == 0 ? ":" : ": ");
        add_text(lines[at].text);
        add_hex(&lines[at]);
        add_text("\n");
    }
}

/* The same as JSON: of the characters of these texts the backslash and the quotation mark alone are escaped. */
static void want_json(const line *lines, size_t count)
{
    wanted_len = 0;
    for (size_t at = 0; at < count; at++) {
        char depth[32];
        snprintf(depth, sizeof depth, "%s{\"depth\": %u, ", at == 0 ? "[" : ",\n", lines[at].depth);
        add_text(depth);
        add_text("\"label\": \"");
        add_text(lines[at].label);
        add_text("\", \"text\": \"");
        for (const char *of = lines[at].text; *of != 0; of++) {
            if (*of == '"' || *of == '\\')
                add_text("\\");
            add(of, 1);
        }
        add_hex(&lines[at]);
        add_text("\"}");
    }
    add_text("\n]\n");
}

/* ---- what the calls answer */

/* The call writes just this document, and says how long it is where there is no room, or a byte too little, and leaves the buffer then. */
static void want_document(const char *what, write_call write, const uint8_t *bytes, size_t len, const char *document, size_t document_len)
{
    static uint8_t same[sizeof room];
    memset(room, 0xa5, sizeof room);
    memset(same, 0xa5, sizeof same);
    written = 77;
    want(what, write(bytes, len, NULL, 0, &written) == X509_ROOM && written == document_len);
    written = 77;
    want(what, write(bytes, len, room, document_len - 1, &written) == X509_ROOM && written == document_len && memcmp(room, same, sizeof room) == 0);
    want(what, wrote(write(bytes, len, room, document_len, &written), document, document_len));
    want(what, wrote(write(bytes, len, room, sizeof room, &written), document, document_len));
}

static void want_lines(const char *what, write_call text, write_call json, const uint8_t *bytes, size_t len, const line *lines, size_t count)
{
    want_text(lines, count);
    want_document(what, text, bytes, len, wanted, wanted_len);
    want_json(lines, count);
    want_document(what, json, bytes, len, wanted, wanted_len);
}

#define WANT_LINES(text, json, bytes, len, lines) want_lines(#text, text, json, bytes, len, lines, sizeof(lines) / sizeof *(lines))

static const write_call CALLS[] = {x509_certificate_text, x509_certificate_json, x509_crl_text,    x509_crl_json,
                                   x509_request_text,     x509_request_json,     x509_anchor_text, x509_anchor_json};

/* The bytes are no object of the kind of these calls, and nothing is changed. */
static void refused(write_call text, write_call json, const uint8_t *bytes, size_t len)
{
    uint8_t before[16];
    memset(room, 0x5a, sizeof before);
    memset(before, 0x5a, sizeof before);
    written = 77;
    WANT(text(bytes, len, room, sizeof room, &written) == X509_MALFORMED && written == 77 && memcmp(room, before, sizeof before) == 0);
    WANT(json(bytes, len, room, sizeof room, &written) == X509_MALFORMED && written == 77 && memcmp(room, before, sizeof before) == 0);
    WANT(text(bytes, len, NULL, 0, &written) == X509_MALFORMED && json(bytes, len, NULL, 0, &written) == X509_MALFORMED && written == 77);
}

/* ---- the files */

#define NAME_TEXT "CN=www.example.org,O=Beispiel\\, S\xc3\xb6hne & Co,C=DE"
#define KEY_HEAD LINE(0, "key algorithm", "id-ecPublicKey"), LINE(1, "parameters", "secp256r1"), LINE(0, "key size", "256 bits")

static void certificates(void)
{
    x509_certificate view;
    x509_key key;
    x509_signature signature;
    WANT(x509_certificate_view(certificate, certificate_len, &view) == X509_OK);
    const uint8_t *const info = certificate + view.subject_public_key_info.place;
    WANT(x509_key_view(info, view.subject_public_key_info.len, &key) == X509_OK);
    WANT(x509_certificate_signature(certificate, certificate_len, &signature) == X509_OK);
    const line all[] = {
        LINE(0, "type", "trust anchor"),
        LINE(0, "choice", "certificate"),
        LINE(0, "type", "certificate"),
        LINE(0, "version", "v3"),
        LINE(0, "serial", "12:34:56:78:90:AB:CD:EF"),
        LINE(0, "algorithm", "ecdsa-with-SHA256"),
        LINE(0, "issuer", NAME_TEXT),
        LINE(0, "not before", "2026-01-02 03:04:05 UTC"),
        LINE(0, "not after", "2055-06-07 08:09:10 UTC"),
        LINE(0, "subject", NAME_TEXT),
        KEY_HEAD,
        {0, "key", "", info + key.bits.place, key.bits.len},
        LINE(0, "extension", "keyUsage, critical"),
        LINE(1, "usage", "digitalSignature"),
        LINE(1, "usage", "keyEncipherment"),
        LINE(0, "extension", "subjectAltName"),
        LINE(1, "DNS name", "www.example.org"),
        LINE(1, "DNS name", "example.org"),
        LINE(1, "email", "post@example.org"),
        LINE(1, "IP address", "192.0.2.7"),
        LINE(0, "signature algorithm", "ecdsa-with-SHA256"),
        {0, "signature", "", certificate + signature.bits.place, signature.bits.len},
    };
    enum { COUNT = sizeof all / sizeof *all };
    want_lines("x509_certificate_text", x509_certificate_text, x509_certificate_json, certificate, certificate_len, all + 2, COUNT - 2);
    /* it is a trust anchor, too: the first two lines in place of the third */
    line anchor[COUNT - 1];
    memcpy(anchor, all, 2 * sizeof *all);
    memcpy(anchor + 2, all + 3, (COUNT - 3) * sizeof *all);
    WANT_LINES(x509_anchor_text, x509_anchor_json, certificate, certificate_len, anchor);
}

static void crls(void)
{
    x509_crl view;
    WANT(x509_crl_view(list, list_len, &view) == X509_OK);
    const line all[] = {
        LINE(0, "type", "CRL"),
        LINE(0, "version", "v2"),
        LINE(0, "algorithm", "ecdsa-with-SHA256"),
        LINE(0, "issuer", NAME_TEXT),
        LINE(0, "this update", "2026-02-01 00:00:00 UTC"),
        LINE(0, "next update", "2026-03-01 00:00:00 UTC"),
        LINE(0, "revoked", "01"),
        LINE(1, "revocation date", "2026-01-20 10:00:00 UTC"),
        LINE(0, "revoked", "12:34:56:78:90:AB:CD:EF"),
        LINE(1, "revocation date", "2026-01-20 10:00:00 UTC"),
        LINE(1, "extension", "reasonCode"),
        LINE(2, "reason", "keyCompromise"),
        LINE(0, "revoked", "03"),
        LINE(1, "revocation date", "2026-01-20 10:00:00 UTC"),
        LINE(0, "signature algorithm", "ecdsa-with-SHA256"),
        {0, "signature", "", list + view.signature.bits.place, view.signature.bits.len},
    };
    WANT_LINES(x509_crl_text, x509_crl_json, list, list_len, all);
}

static void requests(void)
{
    x509_request view;
    x509_key key;
    WANT(x509_request_view(request, request_len, &view) == X509_OK);
    const uint8_t *const info = request + view.subject_public_key_info.place;
    WANT(x509_key_view(info, view.subject_public_key_info.len, &key) == X509_OK);
    const line all[] = {
        LINE(0, "type", "CSR"),
        LINE(0, "version", "v1"),
        LINE(0, "subject", NAME_TEXT),
        KEY_HEAD,
        {0, "key", "", info + key.bits.place, key.bits.len},
        LINE(0, "attribute", "challengePassword"),
        LINE(1, "challenge password", "password"),
        LINE(0, "attribute", "extensionRequest"),
        LINE(1, "extension", "subjectAltName"),
        LINE(2, "DNS name", "www.example.org"),
        LINE(0, "signature algorithm", "ecdsa-with-SHA256"),
        {0, "signature", "", request + view.signature.bits.place, view.signature.bits.len},
    };
    WANT_LINES(x509_request_text, x509_request_json, request, request_len, all);
}

/* ---- by hand */

/* A TrustAnchorInfo (RFC 5914 2): an empty key, the identifier abcd, and a title that would forge a line: T", a line feed, serial: 00, the separator of
 * lines U+2028, and the mark of direction U+202E. */
static const char ANCHOR[] = "\xa2\x25\x30\x23\x30\x08\x30\x03\x06\x01\x2a\x03\x01\x00\x04\x02\xab\xcd\x0c\x13"
                             "T\"\nserial: 00\xe2\x80\xa8\xe2\x80\xae";

static void forged_lines(void)
{
    const char text[] = "type: trust anchor\nchoice: taInfo\nversion: v1\nkey algorithm: 1.2\nkey:\nkey identifier: abcd\n"
                        "title: T\"\\0aserial: 00\\e2\\80\\a8\\e2\\80\\ae\n";
    const char json[] = "[{\"depth\": 0, \"label\": \"type\", \"text\": \"trust anchor\"},\n"
                        "{\"depth\": 0, \"label\": \"choice\", \"text\": \"taInfo\"},\n"
                        "{\"depth\": 0, \"label\": \"version\", \"text\": \"v1\"},\n"
                        "{\"depth\": 0, \"label\": \"key algorithm\", \"text\": \"1.2\"},\n"
                        "{\"depth\": 0, \"label\": \"key\", \"text\": \"\"},\n"
                        "{\"depth\": 0, \"label\": \"key identifier\", \"text\": \"abcd\"},\n"
                        "{\"depth\": 0, \"label\": \"title\", \"text\": \"T\\\"\\u000aserial: 00\\u2028\\u202e\"}\n]\n";
    want_document("a forged line", x509_anchor_text, BYTES(ANCHOR), text, sizeof text - 1);
    want_document("a forged line in JSON", x509_anchor_json, BYTES(ANCHOR), json, sizeof json - 1);
}

/* A serial number of 22 octets, which the grammar allows and RFC 5280 4.1.2.2 doesn't. */
static void long_serial_number(void)
{
    x509_certificate view;
    WANT(x509_certificate_view(certificate, certificate_len, &view) == X509_OK && view.serial_number.len == 10);
    WANT(certificate_len < 0x200 && memcmp(certificate, "\x30\x82\x01", 3) == 0 && memcmp(certificate + 4, "\x30\x82\x01", 3) == 0);
    const size_t at = view.serial_number.place + 2;
    uint8_t longer[1024];
    memcpy(longer, certificate, at);
    memset(longer + at, 0x11, 22);
    memcpy(longer + at + 22, certificate + at + 8, certificate_len - at - 8);
    longer[at - 1] = 22;
    for (size_t place = 2; place <= 6; place += 4) {
        const unsigned len = 256u * longer[place] + longer[place + 1] + 14;
        longer[place] = (uint8_t)(len >> 8);
        longer[place + 1] = (uint8_t)len;
    }
    WANT(x509_certificate_check(longer, certificate_len + 14) == X509_MALFORMED);
    WANT(x509_certificate_text(longer, certificate_len + 14, room, sizeof room, &written) == X509_OK);
    const char begins[] = "type: certificate\nversion: v3\nserial: 11:11:11:11:11:11:11:11:11:11:11:11:11:11:11:11:11:11:11:11:11:11\nalgorithm: ";
    WANT(written > sizeof begins && memcmp(room, begins, sizeof begins - 1) == 0);
}

/* ---- rules */

#define FINDING(object, rule, severity, section, place, seen)                                                                                            \
    "{\"object\": \"" object "\", \"rule\": \"" rule "\", \"severity\": \"" severity "\", \"section\": \"" section "\", \"place\": \"" place              \
    "\", \"seen\": \"" seen "\"}\n"

/* A certificate of an authority for a subject, which breaks no rule: number 1, from 2026-01-02 for a year, with AKI, SKI and KeyUsage, the latter critical. Its
 * number is the octet at NUMBER. */
static const char CERTIFICATE[] =
    "\x30\x82\x01\x14\x30\x81\xfa\xa0\x03\x02\x01\x02\x02\x01\x01\x30\x0a\x06\x08\x2a\x86\x48\xce\x3d\x04\x03\x02\x30\x17\x31\x15\x30"
    "\x13\x06\x03\x55\x04\x03\x0c\x0c\x41\x6e\x20\x61\x75\x74\x68\x6f\x72\x69\x74\x79\x30\x1e\x17\x0d\x32\x36\x30\x31\x30\x32\x30\x33"
    "\x30\x34\x30\x35\x5a\x17\x0d\x32\x37\x30\x31\x30\x32\x30\x33\x30\x34\x30\x35\x5a\x30\x14\x31\x12\x30\x10\x06\x03\x55\x04\x03\x0c"
    "\x09\x41\x20\x73\x75\x62\x6a\x65\x63\x74\x30\x59\x30\x13\x06\x07\x2a\x86\x48\xce\x3d\x02\x01\x06\x08\x2a\x86\x48\xce\x3d\x03\x01"
    "\x07\x03\x42\x00\x04\x00\x00\x00\x00\x00\x00\x00\x00\x00\x00\x00\x00\x00\x00\x00\x00\x00\x00\x00\x00\x00\x00\x00\x00\x00\x00\x00"
    "\x00\x00\x00\x00\x00\x00\x00\x00\x00\x00\x00\x00\x00\x00\x00\x00\x00\x00\x00\x00\x00\x00\x00\x00\x00\x00\x00\x00\x00\x00\x00\x00"
    "\x00\x00\x00\x00\x00\xa3\x3a\x30\x38\x30\x14\x06\x03\x55\x1d\x23\x04\x0d\x30\x0b\x80\x09\x61\x75\x74\x68\x6f\x72\x69\x74\x79\x30"
    "\x10\x06\x03\x55\x1d\x0e\x04\x09\x04\x07\x73\x75\x62\x6a\x65\x63\x74\x30\x0e\x06\x03\x55\x1d\x0f\x01\x01\xff\x04\x04\x03\x02\x07"
    "\x80\x30\x0a\x06\x08\x2a\x86\x48\xce\x3d\x04\x03\x02\x03\x09\x00\x30\x06\x02\x01\x01\x02\x01\x02";
enum { NUMBER = 14 };

/* A TrustAnchorInfo with a title of no characters (RFC 5914 2.4 wants one to 64), and with a KeyUsage that is a NULL. */
#define DESCRIPTION "\xa2\x1f\x30\x1d\x30\x08\x30\x03\x06\x01\x2a\x03\x01\x00\x04\x00\x0c\x00\xa1\x0d\x30\x0b\x30\x09\x06\x03\x55\x1d\x0f\x04\x02\x05\x00"

/* The object breaks none of the rules. */
static void want_nothing(const char *what, write_call lint, const uint8_t *bytes, size_t len)
{
    room[0] = 0x5a;
    written = 77;
    want(what, lint(bytes, len, room, sizeof room, &written) == X509_OK && written == 0);
    written = 77;
    want(what, lint(bytes, len, NULL, 0, &written) == X509_OK && written == 0);
}

/* The certificate of the files is its own issuer's, so that it needs no AKI, and has no SKI (RFC 5280 4.2.1.1, 4.2.1.2), and its key of ECDSA may encipher keys
 * (RFC 8813 3); the CRL has neither AKI nor a number
 * (5.2.1, 5.2.3). */
static void rules(void)
{
    static const char of_certificate[] =
        FINDING("certificate", "subject_key_identifier_absent", "warning", "RFC 5280 4.2.1.2", "tbsCertificate.extensions.subjectKeyIdentifier", "")
            FINDING("certificate", "ec_key_usage_invalid", "error", "RFC 8813 3", "tbsCertificate.extensions.keyUsage", "");
    static const char of_list[] = FINDING("crl", "authority_key_identifier_absent", "error", "RFC 5280 5.2.1",
                                            "tbsCertList.crlExtensions.authorityKeyIdentifier", "")
        FINDING("crl", "crl_number_absent", "error", "RFC 5280 5.2.3", "tbsCertList.crlExtensions.cRLNumber", "");
    /* the password is a UTF8String, which a PrintableString could hold */
    static const char of_request[] =
        FINDING("csr", "challenge_password_type", "warning", "RFC 2985 5.4.1", "certificationRequestInfo.attributes.challengePassword", "");
    /* of an anchor that is a certificate, what of that */
    static const char of_anchor[] = FINDING("anchor", "subject_key_identifier_absent", "warning", "RFC 5280 4.2.1.2", "tbsCertificate.extensions.subjectKeyIdentifier", "")
        FINDING("anchor", "ec_key_usage_invalid", "error", "RFC 8813 3", "tbsCertificate.extensions.keyUsage", "");
    static const char of_description[] = FINDING("anchor", "ta_title_size", "error", "RFC 5914 2.4", "taInfo.taTitle", "")
        FINDING("anchor", "extension_malformed", "error", "RFC 5280 4.2", "taInfo.exts.keyUsage", "0500");
    static const char of_number[] =
        FINDING("certificate", "serial_number_not_positive", "error", "RFC 5280 4.1.2.2", "tbsCertificate.serialNumber", "00");
    want_document("the rules of a certificate", x509_certificate_lint, certificate, certificate_len, of_certificate, sizeof of_certificate - 1);
    want_document("the rules of a CRL", x509_crl_lint, list, list_len, of_list, sizeof of_list - 1);
    want_document("the rules of a CSR", x509_request_lint, request, request_len, of_request, sizeof of_request - 1);
    want_document("the rules of an anchor", x509_anchor_lint, certificate, certificate_len, of_anchor, sizeof of_anchor - 1);
    want_document("the rules of a description", x509_anchor_lint, BYTES(DESCRIPTION), of_description, sizeof of_description - 1);
    want_nothing("an anchor that breaks no rule", x509_anchor_lint, BYTES(ANCHOR));
    uint8_t own[sizeof CERTIFICATE - 1];
    memcpy(own, CERTIFICATE, sizeof own);
    want_nothing("a certificate that breaks no rule", x509_certificate_lint, own, sizeof own);
    own[NUMBER] = 0;
    want_document("a certificate whose number is 0", x509_certificate_lint, own, sizeof own, of_number, sizeof of_number - 1);
    refused(x509_certificate_lint, x509_certificate_lint, list, list_len);
    refused(x509_certificate_lint, x509_certificate_lint, certificate, certificate_len - 1);
    refused(x509_crl_lint, x509_crl_lint, certificate, certificate_len);
    refused(x509_crl_lint, x509_crl_lint, nothing, 0);
    refused(x509_request_lint, x509_request_lint, list, list_len);
    refused(x509_request_lint, x509_request_lint, BYTES("\x30\x00"));
    refused(x509_anchor_lint, x509_anchor_lint, list, list_len);
    refused(x509_anchor_lint, x509_anchor_lint, BYTES(DESCRIPTION "\x00"));
}

static int is_text(const char *lines, x509_span part, const char *text)
{
    return part.len == strlen(text) && memcmp(lines + part.place, text, part.len) == 0;
}

/* A text that stands in the source, with its length. */
#define BYTES_OF(text) text, sizeof(text) - 1

static const x509_finding UNFOUND = {{7, 7}, {7, 7}, {7, 7}, {7, 7}, {7, 7}, {7, 7}};

/* No finding stands at the place, and nothing is changed. */
static void want_no_finding(const char *lines, size_t len, size_t place, x509_status status)
{
    x509_finding found = UNFOUND;
    size_t at = place;
    want(lines, x509_finding_next((const uint8_t *)lines, len, &at, &found) == status && at == place && memcmp(&found, &UNFOUND, sizeof found) == 0);
}

static void findings(void)
{
    static const char lines[] = FINDING("a", "b", "error", "RFC 5280 4.1", "c.d", "") FINDING("", "", "", "", "", "00..");
    const size_t len = sizeof lines - 1, second = sizeof FINDING("a", "b", "error", "RFC 5280 4.1", "c.d", "") - 1;
    const uint8_t *const bytes = (const uint8_t *)lines;
    x509_finding found = UNFOUND;
    size_t at = 0;
    WANT(x509_finding_next(bytes, len, &at, &found) == X509_OK && at == second);
    WANT(is_at(found.object, 12, 1) && is_text(lines, found.object, "a") && is_text(lines, found.rule, "b") && is_text(lines, found.severity, "error"));
    WANT(is_text(lines, found.section, "RFC 5280 4.1") && is_text(lines, found.place, "c.d") && is_at(found.seen, second - 3, 0));
    WANT(x509_finding_next(bytes, len, &at, &found) == X509_OK && at == len);
    WANT(is_at(found.object, second + 12, 0) && is_at(found.rule, second + 24, 0) && is_text(lines, found.seen, "00.."));
    want_no_finding(lines, len, len, X509_ABSENT);
    want_no_finding(lines, len, len + 1, X509_MALFORMED);
    want_no_finding(lines, len, SIZE_MAX, X509_MALFORMED);
    want_no_finding(lines, len, 1, X509_MALFORMED);
    want_no_finding(lines, len - 1, second, X509_MALFORMED);
    want_no_finding("", 0, 0, X509_ABSENT);
    at = 0;
    WANT(x509_finding_next(NULL, 0, &at, &found) == X509_ABSENT && at == 0);
    /* a quotation mark in a text, a member too many, another order, a line without its end */
    want_no_finding(BYTES_OF(FINDING("a\"", "b", "error", "c", "d", "")), 0, X509_MALFORMED);
    want_no_finding(BYTES_OF(FINDING("a", "b", "error", "c", "d", "\", \"e\": \"")), 0, X509_MALFORMED);
    want_no_finding(BYTES_OF("{\"rule\": \"b\"}\n"), 0, X509_MALFORMED);
    for (size_t shorter = 0; shorter < second; shorter++)
        want_no_finding(lines, shorter, 0, shorter == 0 ? X509_ABSENT : X509_MALFORMED);
}

static void refusals(void)
{
    for (size_t kind = 0; kind < 8; kind += 2) {
        refused(CALLS[kind], CALLS[kind + 1], nothing, 0);
        refused(CALLS[kind], CALLS[kind + 1], BYTES("\x30\x00"));
        refused(CALLS[kind], CALLS[kind + 1], certificate, certificate_len - 1);
        if (kind != 0 && kind != 6)
            refused(CALLS[kind], CALLS[kind + 1], certificate, certificate_len);
        if (kind != 2)
            refused(CALLS[kind], CALLS[kind + 1], list, list_len);
        if (kind != 4)
            refused(CALLS[kind], CALLS[kind + 1], request, request_len);
    }
    certificate[certificate_len] = list[list_len] = request[request_len] = 0;
    refused(x509_certificate_text, x509_certificate_json, certificate, certificate_len + 1);
    refused(x509_anchor_text, x509_anchor_json, certificate, certificate_len + 1);
    refused(x509_crl_text, x509_crl_json, list, list_len + 1);
    refused(x509_request_text, x509_request_json, request, request_len + 1);
}

int main(int argc, char **argv)
{
    read_files(argc, argv);
    certificates();
    crls();
    requests();
    forged_lines();
    long_serial_number();
    rules();
    findings();
    refusals();
    return ended();
}
