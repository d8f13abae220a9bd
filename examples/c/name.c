/* Makes a name of values, without a line of DER: each value is taken as it stands, so that no character of it is taken for a part of the name. Prints the
 * name's text, by the library and then put together from escaped values, which is the same where both are right.
 *
 * usage: name TYPE VALUE [TYPE VALUE ..], the topmost first; a type is one of CN, O, OU, C, L, ST, E */
#include <stdio.h>
#include <string.h>
#include "x509.h"

enum { ROOM = 4096 };

typedef struct {
    const char *name;
    const char *oid;
} type;

static const type TYPES[] = {{"CN", "2.5.4.3"}, {"O", "2.5.4.10"}, {"OU", "2.5.4.11"}, {"C", "2.5.4.6"}, {"L", "2.5.4.7"}, {"ST", "2.5.4.8"},
                             {"E", "1.2.840.113549.1.9.1"}};

static const char *oid_of(const char *name)
{
    for (size_t at = 0; at < sizeof TYPES / sizeof *TYPES; at++)
        if (strcmp(TYPES[at].name, name) == 0)
            return TYPES[at].oid;
    return "";
}

/* Puts the relative name with that attribute behind those that stand there. */
static x509_status add(const char *name, const char *value, uint8_t *out, size_t *len)
{
    const char *dotted = oid_of(name);
    uint8_t oid[16], attribute[ROOM];
    size_t oid_len, attribute_len, written;
    x509_status status = x509_oid_from_text((const uint8_t *)dotted, strlen(dotted), oid, sizeof oid, &oid_len);
    if (status == X509_OK)
        status = x509_attribute_encode(oid, oid_len, 0, (const uint8_t *)value, strlen(value), 1, attribute, sizeof attribute, &attribute_len);
    if (status == X509_OK)
        status = x509_relative_name_encode(attribute, attribute_len, out + *len, ROOM - *len, &written);
    if (status == X509_OK)
        *len += written;
    return status;
}

/* Prints the attribute as it stands in the text of a name. */
static x509_status print_escaped(const char *name, const char *value, const char *behind)
{
    uint8_t text[ROOM];
    size_t len;
    const x509_status status = x509_name_escape((const uint8_t *)value, strlen(value), text, sizeof text, &len);
    if (status == X509_OK)
        printf("%s=%.*s%s", strcmp(name, "E") == 0 ? "EMAILADDRESS" : name, (int)len, (const char *)text, behind);
    return status;
}

int main(int argc, char **argv)
{
    uint8_t relative_names[ROOM], name[ROOM], text[ROOM];
    size_t relative_names_len = 0, name_len, text_len;
    x509_status status = X509_OK;
    if (argc < 3 || argc % 2 == 0)
        return 2;
    for (int at = 1; at < argc && status == X509_OK; at += 2)
        status = add(argv[at], argv[at + 1], relative_names, &relative_names_len);
    if (status == X509_OK)
        status = x509_name_build(relative_names, relative_names_len, name, sizeof name, &name_len);
    if (status == X509_OK)
        status = x509_name_text(name, name_len, text, sizeof text, &text_len);
    if (status != X509_OK) {
        printf("refused with %d\n", status);
        return 1;
    }
    printf("%.*s\n", (int)text_len, (const char *)text);
    for (int at = argc - 2; at > 0 && status == X509_OK; at -= 2)
        status = print_escaped(argv[at], argv[at + 1], at > 1 ? "," : "\n");
    return status != X509_OK;
}
