/* Says whether certificates are those of hosts and mailboxes by OpenSSL, for compare_names.py.
 *
 * Standard input has lines of a word and octets in hex. `certificate` comes with a certificate, about which the lines behind it ask: `host` with the text of a
 * host's name, which X509_check_ip_asc is asked about, and X509_check_host where the former reads no address; `email` with that of an address of e-mail, for
 * X509_check_email. Of each it prints `named`, `not named`, `refused` where the call answers below 0, or `no certificate`. The flags are
 * X509_CHECK_FLAG_NO_PARTIAL_WILDCARDS, so that '*' is a whole label, and X509_CHECK_FLAG_NEVER_CHECK_SUBJECT.
 *
 * usage: openssl_names, linked with -lcrypto */
#include <openssl/x509.h>
#include <openssl/x509v3.h>
#include <stdio.h>
#include <stdlib.h>
#include <string.h>

enum { MOST_BYTES = 1 << 16, MOST_WORD = 16 };

static const unsigned FLAGS = X509_CHECK_FLAG_NO_PARTIAL_WILDCARDS | X509_CHECK_FLAG_NEVER_CHECK_SUBJECT;
static char line[2 * MOST_BYTES + MOST_WORD];
static unsigned char bytes[MOST_BYTES + 1];

/* The octets that the digits are, and a zero behind them. */
static size_t from_hex(const char *digits)
{
    size_t len = 0;
    unsigned octet;
    while (len < MOST_BYTES && sscanf(digits + 2 * len, "%2x", &octet) == 1)
        bytes[len++] = (unsigned char)octet;
    bytes[len] = 0;
    return len;
}

/* Without octets the calls would take the length of the text, which is the same. */
static int check(X509 *it, const char *word, size_t len)
{
    const char *text = (const char *)bytes;
    if (strcmp(word, "email") == 0)
        return X509_check_email(it, text, len, FLAGS);
    /* a text with a zero in it is no C string */
    const int is_address = strlen(text) == len ? X509_check_ip_asc(it, text, FLAGS) : -2;
    return is_address == -2 ? X509_check_host(it, text, len, FLAGS, NULL) : is_address;
}

int main(void)
{
    X509 *certificate = NULL;
    while (fgets(line, sizeof line, stdin) != NULL) {
        const size_t word_len = strcspn(line, " \n");
        const int has_octets = line[word_len] == ' ';
        line[word_len] = 0;
        const size_t len = has_octets ? from_hex(line + word_len + 1) : 0;
        if (strcmp(line, "certificate") == 0) {
            const unsigned char *at = bytes;
            X509_free(certificate);
            certificate = d2i_X509(NULL, &at, (long)len);
        } else if (certificate == NULL) {
            puts("no certificate");
        } else {
            const int answer = check(certificate, line, len);
            puts(answer < 0 ? "refused" : answer == 1 ? "named" : "not named");
        }
    }
    X509_free(certificate);
    return 0;
}
