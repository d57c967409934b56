// Validates a chain with mbedTLS repeatedly. Two functions of mbedTLS are replaced: no digest is
// computed, and every signature is accepted.
#include <mbedtls/md.h>
#include <mbedtls/pk.h>
#include <mbedtls/x509_crt.h>
#include <stdio.h>
#include <stdlib.h>

int mbedtls_md(const mbedtls_md_info_t *info, const unsigned char *octets, size_t length,
               unsigned char *digest)
{
    (void)info, (void)octets, (void)length, (void)digest;
    return 0;
}

int mbedtls_pk_verify_ext(mbedtls_pk_type_t type, const void *options, mbedtls_pk_context *key,
                          mbedtls_md_type_t algorithm, const unsigned char *digest,
                          size_t digest_length, const unsigned char *bits, size_t length)
{
    (void)type, (void)options, (void)key, (void)algorithm;
    (void)digest, (void)digest_length, (void)bits, (void)length;
    return 0;
}

// the files are certificates: the root, then the chain from its end
int main(int argc, char **argv)
{
    mbedtls_x509_crt root, chain;
    mbedtls_x509_crt_init(&root);
    mbedtls_x509_crt_init(&chain);
    if (argc < 4 || mbedtls_x509_crt_parse_file(&root, argv[2]))
        return 2;
    for (int at = 3; at < argc; at++)
        if (mbedtls_x509_crt_parse_file(&chain, argv[at]))
            return 2;
    uint32_t flags = 0;
    for (int round = atoi(argv[1]); round > 0; round--)
        if (mbedtls_x509_crt_verify(&chain, &root, NULL, NULL, &flags, NULL, NULL))
            return 1;
    printf("trusted\n");
    return 0;
}
