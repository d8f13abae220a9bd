/* Prints what the payloads of two extensions hold, by the calls of x509.h. Text is printed with each octet that isn't visible ASCII, and each backslash, as a
 * backslash and two hex digits. */
#ifndef PAYLOAD_H
#define PAYLOAD_H

#include <arpa/inet.h>
#include <stddef.h>
#include <stdint.h>
#include <stdio.h>
#include "x509.h"

typedef struct {
    const uint8_t *bytes;
    size_t len;
} octets;

static octets part_of(octets whole, x509_span span)
{
    return (octets){whole.bytes + span.place, span.len};
}

static void print_text(octets text)
{
    for (size_t at = 0; at < text.len; at++)
        if (text.bytes[at] > 0x20 && text.bytes[at] < 0x7f && text.bytes[at] != '\\')
            putchar(text.bytes[at]);
        else
            printf("\\%02x", text.bytes[at]);
}

static void print_hex(octets bytes)
{
    for (size_t at = 0; at < bytes.len; at++)
        printf("%02X", bytes.bytes[at]);
}

/* Four octets are an address of IPv4, and sixteen one of IPv6 (RFC 5280 4.2.1.6); others are none. */
static void print_address(octets address)
{
    char text[INET6_ADDRSTRLEN];
    const int family = address.len == 4 ? AF_INET : AF_INET6;
    if ((address.len == 4 || address.len == 16) && inet_ntop(family, address.bytes, text, sizeof text) != NULL) {
        printf("%s", text);
        return;
    }
    putchar('#');
    print_hex(address);
}

/* The text of an object identifier's 39 content octets is shorter than the room. */
static void print_identifier(octets oid)
{
    uint8_t text[256];
    size_t written = 0;
    if (x509_oid_text(oid.bytes, oid.len, text, sizeof text, &written) == X509_OK)
        printf("%.*s", (int)written, (const char *)text);
    else
        printf("?");
}

static void print_name(octets list, const x509_general_name *name)
{
    const octets content = part_of(list, name->content);
    switch (name->kind) {
    case X509_GENERAL_NAME_OTHER:
        printf(" other:");
        print_identifier(part_of(list, name->type_id));
        printf(":#");
        print_hex(part_of(list, name->value));
        break;
    case X509_GENERAL_NAME_EMAIL:
        printf(" email:");
        print_text(content);
        break;
    case X509_GENERAL_NAME_DNS:
        printf(" DNS:");
        print_text(content);
        break;
    case X509_GENERAL_NAME_URI:
        printf(" URI:");
        print_text(content);
        break;
    case X509_GENERAL_NAME_IP:
        printf(" IP:");
        print_address(content);
        break;
    case X509_GENERAL_NAME_REGISTERED_ID:
        printf(" ID:");
        print_identifier(content);
        break;
    default:
        printf(" [%u]:#", name->kind);
        print_hex(content);
    }
}

/* X509_OK where the payload is a list of names to its end. */
static x509_status check_names(octets payload)
{
    x509_general_name name;
    x509_status status;
    size_t at = 0;
    do
        status = x509_general_names_next(payload.bytes, payload.len, &at, &name);
    while (status == X509_OK);
    return status == X509_ABSENT ? X509_OK : status;
}

static void print_names(octets payload)
{
    x509_general_name name;
    size_t at = 0;
    while (x509_general_names_next(payload.bytes, payload.len, &at, &name) == X509_OK)
        print_name(payload, &name);
}

static x509_status check_key_usage(octets payload)
{
    uint32_t uses;
    return x509_key_usage(payload.bytes, payload.len, &uses);
}

static void print_key_usage(octets payload)
{
    static const char *const usages[] = {"digitalSignature", "nonRepudiation", "keyEncipherment", "dataEncipherment", "keyAgreement",
                                         "keyCertSign", "cRLSign", "encipherOnly", "decipherOnly"};
    uint32_t uses = 0;
    if (x509_key_usage(payload.bytes, payload.len, &uses) != X509_OK)
        return;
    for (size_t bit = 0; bit < 9; bit++)
        if (uses & (uint32_t)1 << bit)
            printf(" %s", usages[bit]);
}

#endif
