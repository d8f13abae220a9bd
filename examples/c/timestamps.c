/* Says of each timestamp (SCT) within a certificate whether a log has signed it, where OpenSSL's libcrypto verifies the signatures (RFC 6962 3.2). That the
 * issuer issued the certificate, as `path validate` says, is looked at before.
 *
 * It prints a line for each: the ID of the log in hex, the milliseconds since 1970-01-01T00:00:00Z, and `signed`, `not signed`, or `unknown log` where none of
 * the keys is that of the log; `unknown version` of a timestamp that isn't one of version 1 with known algorithms; or `refused STATUS`. It ends with 0 where
 * each is signed and there is one, and with 1 else.
 *
 * Link with libx509_c.a liblibc_c.a -lcrypto.
 *
 * usage: timestamps CERTIFICATE ISSUER KEY.., files of DER: two certificates, and the logs' keys, each a SubjectPublicKeyInfo */
#include <inttypes.h>
#include "verifying.h"

enum { ID = 32 };

typedef struct {
    octets certificate, issuer;
    const octets *keys;
    size_t count;
} question;

/* By which algorithm a log signs (RFC 6962 2.1.4): that of the numbers of hash and signature; NULL of others. */
static const algorithm *algorithm_of(const x509_timestamp *it)
{
    static const char rsa[] = PKCS1("\x0b"), ecdsa[] = ECDSA("\x02");
    if (it->hash != 4 || (it->signature_algorithm != 1 && it->signature_algorithm != 3))
        return NULL;
    return it->signature_algorithm == 1 ? find_algorithm((octets){(const uint8_t *)rsa, sizeof rsa - 1})
                                        : find_algorithm((octets){(const uint8_t *)ecdsa, sizeof ecdsa - 1});
}

/* The key of which that is the ID: its SHA-256 digest; none where it isn't given. */
static octets key_of(const question *asked, const uint8_t *id)
{
    uint8_t digest[ID];
    for (size_t at = 0; at < asked->count; at++)
        if (EVP_Digest(asked->keys[at].bytes, asked->keys[at].len, digest, NULL, EVP_sha256(), NULL) == 1 && memcmp(digest, id, ID) == 0)
            return asked->keys[at];
    return (octets){NULL, 0};
}

/* Allocates what the signature of the timestamp is over; none where the call is refused, and then `*status` says why. */
static octets signed_data(const question *asked, octets timestamp, x509_status *status)
{
    const octets certificate = asked->certificate, issuer = asked->issuer;
    size_t len = 0;
    *status = x509_timestamp_signed_data(timestamp.bytes, timestamp.len, certificate.bytes, certificate.len, issuer.bytes, issuer.len, NULL, 0, &len);
    if (*status != X509_ROOM)
        return (octets){NULL, 0};
    uint8_t *bytes = malloc(len);
    *status = bytes == NULL ? X509_MEMORY
                            : x509_timestamp_signed_data(timestamp.bytes, timestamp.len, certificate.bytes, certificate.len, issuer.bytes, issuer.len, bytes,
                                                         len, &len);
    if (*status == X509_OK)
        return (octets){bytes, len};
    free(bytes);
    return (octets){NULL, 0};
}

/* Whether the log with that key has signed the timestamp. */
static int is_signed(octets data, octets timestamp, const x509_timestamp *it, octets info)
{
    const algorithm *by = algorithm_of(it);
    ERR_set_mark();
    EVP_PKEY *key = read_key(info);
    const int is_good = by != NULL && key != NULL && accepts(by, key, data, part_of(timestamp, it->signature));
    EVP_PKEY_free(key);
    ERR_pop_to_mark(); /* the thread's errors are as they were */
    return is_good;
}

/* Prints a line about one timestamp; whether it is signed. */
static int tell(const question *asked, octets timestamp)
{
    x509_timestamp it;
    x509_status status = x509_timestamp_view(timestamp.bytes, timestamp.len, &it);
    if (status == X509_MALFORMED) {
        printf("unknown version\n");
        return 0;
    }
    octets data = {NULL, 0};
    if (status == X509_OK)
        data = signed_data(asked, timestamp, &status);
    if (status != X509_OK) {
        printf("refused %d\n", status);
        return 0;
    }
    const uint8_t *id = timestamp.bytes + it.log_id.place;
    const octets key = key_of(asked, id);
    const int is_good = key.bytes != NULL && is_signed(data, timestamp, &it, key);
    for (size_t at = 0; at < ID; at++)
        printf("%02x", id[at]);
    printf(" %" PRIu64 " %s\n", it.timestamp, key.bytes == NULL ? "unknown log" : is_good ? "signed" : "not signed");
    free((void *)data.bytes);
    return is_good;
}

/* Prints the lines; whether there is a timestamp, and each is signed. */
static int tell_all(const question *asked)
{
    const octets certificate = asked->certificate;
    const size_t oid_len = sizeof X509_OID_SIGNED_CERTIFICATE_TIMESTAMPS - 1;
    x509_extension extension;
    x509_status status = x509_certificate_extension(certificate.bytes, certificate.len, (const uint8_t *)X509_OID_SIGNED_CERTIFICATE_TIMESTAMPS, oid_len,
                                                    &extension);
    size_t at = 0, count = 0, good = 0;
    while (status == X509_OK) {
        const octets list = part_of(certificate, extension.value);
        x509_span found;
        status = x509_timestamp_next(list.bytes, list.len, &at, &found);
        if (status == X509_OK) {
            count++;
            good += (size_t)tell(asked, part_of(list, found));
        }
    }
    if (status != X509_ABSENT || count == 0)
        printf("refused %d\n", status);
    return status == X509_ABSENT && count > 0 && good == count;
}

int main(int argc, char **argv)
{
    if (argc < 3) {
        fprintf(stderr, "usage: timestamps CERTIFICATE ISSUER KEY..\n");
        return 1;
    }
    const size_t count = (size_t)argc - 1;
    octets *files = calloc(count, sizeof *files);
    int is_good = 0;
    if (files != NULL) {
        for (size_t at = 0; at < count; at++)
            files[at] = read_octets(argv[at + 1]);
        const question asked = {files[0], files[1], files + 2, count - 2};
        is_good = tell_all(&asked);
        for (size_t at = 0; at < count; at++)
            free((void *)files[at].bytes);
    } else {
        fprintf(stderr, "timestamps: there is too little memory\n");
    }
    free(files);
    return is_good ? 0 : 1;
}
