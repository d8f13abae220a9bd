/* Prints what the calls say of payloads that nothing has checked: for each line of a file, `names HEX` or `usages HEX`, a line.
 *
 * usage: payloads FILE */
#include <stdlib.h>
#include <string.h>
#include "payload.h"

/* The octets of a text of hex digits, in memory that ends where they end. */
static octets from_hex(const char *text)
{
    const size_t len = strlen(text) / 2;
    uint8_t *bytes = malloc(len);
    for (size_t at = 0; bytes != NULL && at < len; at++) {
        unsigned octet = 0;
        sscanf(text + 2 * at, "%2x", &octet);
        bytes[at] = (uint8_t)octet;
    }
    return (octets){bytes, bytes == NULL ? 0 : len};
}

int main(int argc, char **argv)
{
    static char line[65536];
    FILE *file = argc == 2 ? fopen(argv[1], "r") : NULL;
    if (file == NULL)
        return 2;
    while (fgets(line, sizeof line, file) != NULL) {
        line[strcspn(line, "\n")] = 0;
        char *hex = strchr(line, ' ');
        if (hex == NULL)
            return 2;
        *hex++ = 0;
        octets payload = from_hex(hex);
        const int is_names = strcmp(line, "names") == 0;
        const x509_status status = is_names ? check_names(payload) : check_key_usage(payload);
        printf("%s:", line);
        if (status != X509_OK)
            printf(" refused with %d", status);
        else if (is_names)
            print_names(payload);
        else
            print_key_usage(payload);
        printf("\n");
        free((void *)payload.bytes);
    }
    fclose(file);
    return 0;
}
