/* A TLS client that asks this library whether to trust a server. OpenSSL's libssl speaks TLS; its verification of certificates is replaced: a path is found
 * over what the server sent, under the certificates of a file of roots, its signatures are verified by libcrypto, and the server's certificate has to name the
 * host. With a file of CRLs no certificate of the path may be revoked by one that its issuer signed: else another path is looked for. A certificate of which no
 * CRL speaks is let through.
 *
 * It prints `trusted` and how many certificates the path has; or why the server isn't trusted: `not the host`; `unknown issuer`; `limit`; `fault PLACE REASON`,
 * with `leaf` as the place of the server's certificate, and else the place from the top, from 0, and with the reason by its number in x509.h; `revoked PLACE`,
 * with the place from the top, from 0, in the path that was found last, where there is no other; or `refused STATUS`. It ends with 0 where the server is
 * trusted and the handshake is done, and with 1 else.
 *
 * Link with libx509_c.a liblibc_c.a -lssl -lcrypto.
 *
 * usage: tls_client HOST PORT ROOTS [MOMENT [CRLS]], with files of the roots and of CRLs in PEM; it connects to 127.0.0.1, and asks for HOST; the moment in
 * seconds since 1970-01-01T00:00:00Z, now where there is none */
#include <openssl/pem.h>
#include <openssl/ssl.h>
#include <stdio.h>
#include <stdlib.h>
#include <string.h>
#include <time.h>
#include "verifying.h"

enum { MOST_ROOTS = 1000, MOST_SENT = 100, MOST_CRLS = 100, MOST_BAD = 100, DEPTH = 8 };

/* The certificates, CRLs and keys that a search is about, one behind the other, and where each stands. */
typedef struct {
    uint8_t *bytes;
    size_t len, room;
    x509_span roots[MOST_ROOTS], sent[MOST_SENT], crls[MOST_CRLS], server;
    size_t roots_count, sent_count, crls_count, bad_count;
    x509_bad_link bad[MOST_BAD];
} search;

/* A path: the certificate of an anchor, `count` certificates below it, and of each but the last the key as it is used. */
typedef struct {
    x509_span certificates[DEPTH + 2], keys[DEPTH + 1];
    size_t count;
} way;

/* What is asked for, and what was found out. */
typedef struct {
    const char *host;
    uint64_t moment;
    search search;
    char said[64];
} question;

/* Makes room for as many bytes behind the others, which may move. */
static int has_room(search *to, size_t len)
{
    if (len <= to->room - to->len)
        return 1;
    if (len > SIZE_MAX / 4 || to->len > SIZE_MAX / 4)
        return 0;
    const size_t room = (to->len + len) * 2;
    uint8_t *made = realloc(to->bytes, room);
    if (made == NULL)
        return 0;
    to->bytes = made;
    to->room = room;
    return 1;
}

/* Puts bytes behind the others, and says where they stand. */
static int put(search *to, octets given, x509_span *at)
{
    if (!has_room(to, given.len))
        return 0;
    if (given.len > 0)
        memcpy(to->bytes + to->len, given.bytes, given.len);
    *at = (x509_span){to->len, given.len};
    to->len += given.len;
    return 1;
}

static int put_certificate(search *to, X509 *certificate, x509_span *at)
{
    uint8_t *bytes = NULL;
    const int len = i2d_X509(certificate, &bytes);
    const int is_put = len > 0 && put(to, (octets){bytes, (size_t)len}, at);
    OPENSSL_free(bytes);
    return is_put;
}

static int read_roots(search *to, const char *name)
{
    FILE *file = fopen(name, "rb");
    X509 *root = NULL;
    int is_read = file != NULL;
    ERR_set_mark();
    while (is_read && (root = PEM_read_X509(file, NULL, NULL, NULL)) != NULL) {
        is_read = to->roots_count < MOST_ROOTS && put_certificate(to, root, &to->roots[to->roots_count]);
        to->roots_count++;
        X509_free(root);
    }
    ERR_pop_to_mark();
    if (file != NULL)
        fclose(file);
    return is_read && to->roots_count > 0;
}

static octets at(const search *it, x509_span span)
{
    return (octets){it->bytes + span.place, span.len};
}

/* Reads all CRLs of a file, none of which may be one that can't be read. */
static int read_crls(search *to, const char *name)
{
    BIO *file = BIO_new_file(name, "rb");
    unsigned char *bytes = NULL;
    long len = 0;
    int is_read = file != NULL;
    ERR_set_mark();
    while (is_read && PEM_bytes_read_bio(&bytes, &len, NULL, PEM_STRING_X509_CRL, file, NULL, "") == 1) {
        x509_crl view;
        is_read = to->crls_count < MOST_CRLS && x509_crl_view(bytes, (size_t)len, &view) == X509_OK &&
                  put(to, (octets){bytes, (size_t)len}, &to->crls[to->crls_count]);
        to->crls_count++;
        OPENSSL_free(bytes);
    }
    /* behind the last one no other begins */
    const unsigned long ended = ERR_peek_last_error();
    is_read = is_read && ERR_GET_LIB(ended) == ERR_LIB_PEM && ERR_GET_REASON(ended) == PEM_R_NO_START_LINE;
    ERR_pop_to_mark();
    BIO_free(file);
    return is_read && to->crls_count > 0;
}

/* ---- one path */

static x509_span within(x509_span whole, x509_span part)
{
    return (x509_span){whole.place + part.place, part.len};
}

/* Says where the key of a certificate stands as it is used under the one above it (RFC 5280 6.1.4 (d) to (f)); that of an anchor is used as it is. */
static x509_status put_key(search *it, const x509_span *above, x509_span certificate, x509_span *key)
{
    x509_certificate view;
    x509_status status = x509_certificate_view(at(it, certificate).bytes, certificate.len, &view);
    if (status != X509_OK)
        return status;
    const x509_span own = within(certificate, view.subject_public_key_info);
    size_t len = 0;
    *key = own;
    if (above == NULL)
        return X509_OK;
    status = x509_working_key(at(it, *above).bytes, above->len, at(it, own).bytes, own.len, NULL, 0, &len);
    if (status != X509_ROOM)
        return status;
    if (!has_room(it, len))
        return X509_MEMORY;
    *key = (x509_span){it->len, len};
    it->len += len;
    return x509_working_key(at(it, *above).bytes, above->len, at(it, own).bytes, own.len, it->bytes + key->place, len, &len);
}

/* The certificates and keys of a path that was found. */
static x509_status follow(search *it, const x509_found_path *found, const size_t *path, way *to)
{
    to->count = found->count + 1;
    to->certificates[0] = it->roots[found->anchor];
    for (size_t place = 0; place < found->count; place++)
        to->certificates[place + 1] = it->sent[path[place]];
    to->certificates[to->count] = it->server;
    x509_status status = X509_OK;
    for (size_t place = 0; status == X509_OK && place < to->count; place++)
        status = put_key(it, place == 0 ? NULL : &to->keys[place - 1], to->certificates[place], &to->keys[place]);
    return status;
}

/* Tells the search that a certificate doesn't stand under the key above it, as where its signature isn't one by that key. */
static x509_status refuse(search *it, const way *path, size_t place)
{
    if (it->bad_count == MOST_BAD)
        return X509_LIMIT;
    it->bad[it->bad_count++] = (x509_bad_link){path->certificates[place + 1], path->keys[place]};
    return X509_OK;
}

/* The place of the first certificate below the anchor whose signature isn't one by the key above it; as many as there are where each is. */
static x509_status first_unsigned(const search *it, const way *path, size_t *place)
{
    x509_status status = X509_OK;
    for (*place = 0; *place < path->count; ++*place) {
        const octets certificate = at(it, path->certificates[*place + 1]);
        x509_signature signature;
        status = x509_certificate_signature(certificate.bytes, certificate.len, &signature);
        if (status != X509_OK || !is_signature(certificate, &signature, at(it, path->keys[*place])))
            break;
    }
    return status;
}

/* Whether one of the CRLs that its issuer signed says that the certificate at a place is revoked (RFC 5280 6.3.3). */
static x509_status is_revoked(const search *it, const way *path, size_t place, uint64_t moment, int *is_so)
{
    const x509_span issuer = path->certificates[place], certificate = path->certificates[place + 1];
    const x509_revocation_settings settings = {moment, 0};
    x509_revocation_answer answer = {0, 0, 0, 0, 0};
    x509_signed_crl given[MOST_CRLS];
    x509_certificate by;
    x509_crl view;
    uint32_t may_sign = 0;
    size_t count = 0;
    x509_status status = x509_may_sign_crls(at(it, issuer).bytes, issuer.len, &may_sign);
    if (status == X509_OK)
        status = x509_certificate_view(at(it, issuer).bytes, issuer.len, &by);
    for (size_t crl = 0; status == X509_OK && may_sign == 1 && crl < it->crls_count; crl++) {
        const octets whole = at(it, it->crls[crl]);
        status = x509_crl_view(whole.bytes, whole.len, &view);
        if (status == X509_OK && is_signature(whole, &view.signature, at(it, path->keys[place])))
            given[count++] = (x509_signed_crl){it->crls[crl], within(issuer, by.subject), path->keys[place], 1};
    }
    if (status == X509_OK && count > 0)
        status = x509_revocation_status(at(it, certificate).bytes, certificate.len, it->bytes, it->len, given, count, &settings, sizeof settings, &answer);
    *is_so = answer.status == X509_REVOKED;
    return status;
}

/* The place of the first certificate below the anchor that is revoked; as many as there are where none is. */
static x509_status first_revoked(const search *it, const way *path, uint64_t moment, size_t *place)
{
    x509_status status = X509_OK;
    int is_so = 0;
    for (*place = 0; *place < path->count; ++*place) {
        status = is_revoked(it, path, *place, moment, &is_so);
        if (status != X509_OK || is_so)
            break;
    }
    return status;
}

/* ---- the server */

/* Looks for a path, and for another one as long as a signature of it doesn't hold or one of its certificates is revoked: `*revoked` becomes the place of that
 * one. */
static x509_status find_path(question *it, x509_found_path *found, size_t *revoked)
{
    search *given = &it->search;
    const x509_path_settings settings = {.moment = it->moment, .purposes = X509_PURPOSE_SERVER_AUTH};
    for (;;) {
        size_t numbers[DEPTH], place = 0;
        way path = {.count = 0};
        x509_status status =
            x509_path_find(given->bytes, given->len, given->roots, given->roots_count, given->sent, given->sent_count, &given->server, given->bad,
                           given->bad_count, NULL, 0, NULL, 0, &settings, sizeof settings, DEPTH, numbers, DEPTH, found);
        if (status == X509_FAULT && found->reason == 0)
            return X509_VALUE; /* the name constraints of a root can't be used */
        if (status == X509_OK)
            status = follow(given, found, numbers, &path);
        if (status == X509_OK)
            status = first_unsigned(given, &path, &place);
        if (status == X509_OK && place == path.count) {
            status = first_revoked(given, &path, it->moment, &place);
            if (place < path.count)
                *revoked = place;
        }
        if (status == X509_OK && place < path.count)
            status = refuse(given, &path, place);
        if (status != X509_OK || place == path.count)
            return status;
    }
}

/* Whether a path leads to the server's certificate; if not, what is said. */
static int find(question *it)
{
    x509_found_path found = {0, 0, 0, 0};
    size_t revoked = SIZE_MAX;
    const x509_status status = find_path(it, &found, &revoked);
    if (status == X509_OK)
        snprintf(it->said, sizeof it->said, "trusted %zu", found.count + 1);
    else if (status == X509_FAULT && revoked != SIZE_MAX)
        snprintf(it->said, sizeof it->said, "revoked %zu", revoked);
    else if (status == X509_FAULT && found.place == found.count)
        snprintf(it->said, sizeof it->said, "fault leaf %u", (unsigned)found.reason);
    else if (status == X509_FAULT)
        snprintf(it->said, sizeof it->said, "fault %zu %u", found.place, (unsigned)found.reason);
    else if (status == X509_ABSENT)
        snprintf(it->said, sizeof it->said, "unknown issuer");
    else if (status == X509_LIMIT)
        snprintf(it->said, sizeof it->said, "limit");
    else
        snprintf(it->said, sizeof it->said, "refused %d", status);
    return status == X509_OK;
}

/* What libssl asks in place of its own verification: of what the server sent, its certificate and the others, in whatever order. */
static int verify(X509_STORE_CTX *context, void *argument)
{
    question *it = argument;
    search *given = &it->search;
    STACK_OF(X509) *sent = X509_STORE_CTX_get0_untrusted(context);
    int is_put = put_certificate(given, X509_STORE_CTX_get0_cert(context), &given->server);
    for (int place = 0; is_put && place < sk_X509_num(sent); place++)
        is_put = given->sent_count < MOST_SENT && put_certificate(given, sk_X509_value(sent, place), &given->sent[given->sent_count++]);
    uint32_t is_named = 0;
    const octets server = at(given, given->server);
    const x509_status status =
        is_put ? x509_certificate_matches_name(server.bytes, server.len, (const uint8_t *)it->host, strlen(it->host), &is_named) : X509_MEMORY;
    int is_trusted = 0;
    if (status != X509_OK)
        snprintf(it->said, sizeof it->said, "refused %d", status);
    else if (is_named != 1)
        snprintf(it->said, sizeof it->said, "not the host");
    else
        is_trusted = find(it);
    X509_STORE_CTX_set_error(context, is_trusted ? X509_V_OK : X509_V_ERR_APPLICATION_VERIFICATION);
    return is_trusted;
}

/* ---- TLS */

static int connect_to(question *it, const char *port)
{
    char where[64];
    snprintf(where, sizeof where, "127.0.0.1:%s", port);
    SSL_CTX *context = SSL_CTX_new(TLS_client_method());
    BIO *bio = context == NULL ? NULL : BIO_new_ssl_connect(context);
    SSL *ssl = NULL;
    int is_done = 0;
    if (bio != NULL) {
        SSL_CTX_set_cert_verify_callback(context, verify, it);
        BIO_get_ssl(bio, &ssl);
        SSL_set_verify(ssl, SSL_VERIFY_PEER, NULL);
        SSL_set_tlsext_host_name(ssl, it->host);
        BIO_set_conn_hostname(bio, where);
        is_done = BIO_do_connect(bio) == 1 && BIO_do_handshake(bio) == 1;
        SSL_shutdown(ssl);
    }
    BIO_free_all(bio);
    SSL_CTX_free(context);
    return is_done;
}

static int read_moment(const char *text, uint64_t *moment)
{
    const size_t len = strlen(text);
    *moment = 0;
    for (size_t place = 0; place < len && len <= 19; place++)
        *moment = *moment * 10 + (uint64_t)(text[place] - '0');
    return len >= 1 && len <= 19 && strspn(text, "0123456789") == len;
}

int main(int argc, char **argv)
{
    question *it = calloc(1, sizeof *it);
    int is_done = 0;
    if (it == NULL || argc < 4 || argc > 6 || strlen(argv[2]) > 5) {
        fprintf(stderr, "usage: tls_client HOST PORT ROOTS [MOMENT [CRLS]]\n");
        free(it);
        return 1;
    }
    it->host = argv[1];
    it->moment = (uint64_t)time(NULL);
    const int is_read = (argc < 5 || read_moment(argv[4], &it->moment)) && read_roots(&it->search, argv[3]) && (argc < 6 || read_crls(&it->search, argv[5]));
    if (!is_read) {
        fprintf(stderr, "tls_client: the moment, the file of roots or that of CRLs can't be read, or there is too little memory\n");
    } else {
        is_done = connect_to(it, argv[2]);
        printf("%s\n", it->said[0] ? it->said : "no handshake");
    }
    free(it->search.bytes);
    free(it);
    return is_done ? 0 : 1;
}
