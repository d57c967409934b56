/* Decodes the message of a file with OpenSSL repeatedly, and the contents inside it. It decodes the
   public key of a certificate only if there is an argument `keys`. */
#include <openssl/cms.h>
#include <openssl/decoder.h>
#include <openssl/ocsp.h>
#include <openssl/ts.h>
#include <openssl/x509.h>
#include <stdio.h>
#include <stdlib.h>
#include <string.h>

static int decodes_keys;

// the linker calls this in place of OpenSSL's function; d2i_X509 then decodes no key
__typeof__(OSSL_DECODER_CTX_new_for_pkey) __real_OSSL_DECODER_CTX_new_for_pkey;
OSSL_DECODER_CTX *__wrap_OSSL_DECODER_CTX_new_for_pkey(
    EVP_PKEY **key, const char *form, const char *structure, const char *type, int selection,
    OSSL_LIB_CTX *context, const char *query) {
    if (!decodes_keys) return NULL;
    return __real_OSSL_DECODER_CTX_new_for_pkey(key, form, structure, type, selection, context,
                                                query);
}

static int request(const unsigned char *at, long size) {
    OCSP_REQUEST *it = d2i_OCSP_REQUEST(NULL, &at, size);
    int count = it ? OCSP_request_onereq_count(it) : 0;
    OCSP_REQUEST_free(it);
    return count;
}

static int response(const unsigned char *at, long size) {
    OCSP_RESPONSE *it = d2i_OCSP_RESPONSE(NULL, &at, size);
    OCSP_BASICRESP *basic = it ? OCSP_response_get1_basic(it) : NULL;
    int count = basic ? OCSP_resp_count(basic) : 0;
    OCSP_BASICRESP_free(basic);
    OCSP_RESPONSE_free(it);
    return count;
}

static int message(const unsigned char *at, long size) {
    CMS_ContentInfo *it = d2i_CMS_ContentInfo(NULL, &at, size);
    int count = it ? sk_CMS_SignerInfo_num(CMS_get0_SignerInfos(it)) : 0;
    CMS_ContentInfo_free(it);
    return count;
}

static int key(const unsigned char *at, long size) {
    PKCS8_PRIV_KEY_INFO *it = d2i_PKCS8_PRIV_KEY_INFO(NULL, &at, size);
    int count = it != NULL;
    PKCS8_PRIV_KEY_INFO_free(it);
    return count;
}

// d2i_TS_RESP also decodes the TSTInfo inside the token
static int timestamp(const unsigned char *at, long size) {
    TS_RESP *it = d2i_TS_RESP(NULL, &at, size);
    int count = it && TS_RESP_get_tst_info(it);
    TS_RESP_free(it);
    return count;
}

int main(int argc, char **argv) {
    static unsigned char octets[1 << 16];
    if (argc < 4) return 2;
    decodes_keys = argc == 5 && strcmp(argv[4], "keys") == 0;
    FILE *file = fopen(argv[2], "rb");
    if (!file) return 2;
    long count = 0, size = (long)fread(octets, 1, sizeof octets, file);
    int (*decoded)(const unsigned char *, long) =
        strcmp(argv[1], "request") == 0 ? request : strcmp(argv[1], "response") == 0 ? response :
        strcmp(argv[1], "message") == 0 ? message : strcmp(argv[1], "key") == 0 ? key : timestamp;
    for (int round = atoi(argv[3]); round > 0; round--) count += decoded(octets, size);
    printf("%ld\n", count);
    return 0;
}
