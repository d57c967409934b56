// Decodes each certificate of a file of concatenated certificates with mbedTLS repeatedly.
#include <mbedtls/x509_crt.h>
#include <stdio.h>
#include <stdlib.h>

int main(int argc, char **argv)
{
    if (argc != 3)
        return 2;
    FILE *file = fopen(argv[1], "rb");
    if (!file)
        return 2;
    fseek(file, 0, SEEK_END);
    size_t size = (size_t)ftell(file);
    rewind(file);
    unsigned char *octets = malloc(size);
    if (fread(octets, 1, size, file) != size)
        return 2;
    fclose(file);
    long read = 0;
    for (int round = atoi(argv[2]); round > 0; round--) {
        for (size_t at = 0; at + 4 <= size; read++) {
            // the length of every root is encoded in two bytes after the first
            size_t length = 4 + octets[at + 2] * 256 + octets[at + 3];
            mbedtls_x509_crt certificate;
            mbedtls_x509_crt_init(&certificate);
            if (mbedtls_x509_crt_parse_der(&certificate, octets + at, length))
                printf("refused at %zu\n", at);
            mbedtls_x509_crt_free(&certificate);
            at += length;
        }
    }
    printf("%ld\n", read);
    return 0;
}
