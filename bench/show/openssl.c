/* Decodes each certificate of a file of concatenated certificates with OpenSSL, and prints it, as
   `openssl x509 -noout -serial -issuer -dates -subject -nameopt RFC2253` prints, with the
   identifiers of its extensions. `count` prints how many there are. */
#include <openssl/bio.h>
#include <openssl/x509.h>
#include <openssl/x509v3.h>
#include <stdio.h>
#include <stdlib.h>
#include <string.h>

static void name(BIO *out, const char *label, const X509_NAME *n) {
    BIO_printf(out, "%s=", label);
    X509_NAME_print_ex(out, n, 0, XN_FLAG_RFC2253 & ~ASN1_STRFLGS_ESC_MSB);
    BIO_puts(out, "\n");
}

static void show(BIO *out, X509 *c) {
    BIO_puts(out, "serial=");
    i2a_ASN1_INTEGER(out, X509_get0_serialNumber(c));
    BIO_puts(out, "\n");
    name(out, "issuer", X509_get_issuer_name(c));
    BIO_puts(out, "notBefore=");
    ASN1_TIME_print(out, X509_get0_notBefore(c));
    BIO_puts(out, "\nnotAfter=");
    ASN1_TIME_print(out, X509_get0_notAfter(c));
    BIO_puts(out, "\n");
    name(out, "subject", X509_get_subject_name(c));
    for (int i = 0; i < X509_get_ext_count(c); i++) {
        char text[128];
        X509_EXTENSION *e = X509_get_ext(c, i);
        OBJ_obj2txt(text, sizeof text, X509_EXTENSION_get_object(e), 1);
        BIO_printf(out, "extension %s%s\n", text,
                   X509_EXTENSION_get_critical(e) ? " critical" : "");
    }
}

int main(int argc, char **argv) {
    static unsigned char octets[1 << 24];
    if (argc != 3) return 1;
    FILE *file = fopen(argv[1], "rb");
    if (!file) return 1;
    size_t len = fread(octets, 1, sizeof octets, file);
    int counted = strcmp(argv[2], "count") == 0;
    long count = 0, rounds = counted ? 1 : atol(argv[2]);
    BIO *memory = BIO_new(BIO_s_mem());
    for (long r = 0; r < rounds; r++) {
        const unsigned char *at = octets;
        while (at < octets + len) {
            X509 *c = d2i_X509(NULL, &at, octets + len - at);
            if (!c) return 1;
            count++;
            if (!counted) {
                char *text;
                show(memory, c);
                long n = BIO_get_mem_data(memory, &text);
                fwrite(text, 1, n, stdout);
                fflush(stdout);
                (void)BIO_reset(memory);
            }
            X509_free(c);
        }
    }
    if (counted) printf("%ld\n", count);
    return 0;
}
