/* Prints all that a certificate has, a line for each thing. */
#include <stdio.h>
#include <stdlib.h>
#include <x509.h>

int main(int argc, char **argv)
{
    static uint8_t der[1 << 20];
    FILE *file = argc == 2 ? fopen(argv[1], "rb") : NULL;
    if (file == NULL)
        return 2;
    size_t len = fread(der, 1, sizeof der, file), written = 0;
    fclose(file);
    x509_status status = x509_certificate_text(der, len, NULL, 0, &written); /* no buffer: says how much is needed */
    uint8_t *text = status == X509_ROOM ? malloc(written) : NULL;
    if (text != NULL)
        status = x509_certificate_text(der, len, text, written, &written);
    if (status == X509_OK)
        fwrite(text, 1, written, stdout);
    else
        fprintf(stderr, "refused with %d\n", status);
    free(text);
    return status != X509_OK;
}
