/* wurstdrape.h: decodes, prints and describes X.509 certificates (RFC 5280), CRLs and CSRs,
   and validates and issues certificate chains.

   The functions take bytes, in DER unless their comment says otherwise. They return a status, and
   write bytes or numbers to memory of the caller. They keep no state, so threads may call them at
   the same time.

   Link with libwurstdrape; wd_signed_part, wd_issue and wd_audit are in libwurstdrape_issue.
   docs/FROM_OTHERS.md has complete programs. Each function is proved to meet its contract, which is
   in its source (crates/cert_desk_c/src, crates/cert_desk_issuing_c/src). docs/FROM_OTHERS.md says
   what that means, and which tools change the code after it was proved.

   Wurstdrape doesn't verify signatures. To validate a chain, call wd_questions, verify the
   signatures that it lists, and pass the lines of the valid ones to wd_verify as answers.

   What the caller must ensure

   - Pass no null pointer, not even where the length is 0. A pointer must point to as many bytes as
     the length after it says.
   - Don't change the input during the call.
   - Don't let the memory that a function writes to overlap its other arguments. It needn't be
     initialized, except that a bool must be true or false.
   - Link malloc, realloc and free of one C library. They must align a block to each
     power of two, up to 16, that divides its size.
   - Don't call a function from a signal handler, or in the child after fork if the process has
     several threads.

   What the functions return

   - Each comment below lists the statuses that the function may return. It returns no others.
   - A status implies what its comment says. For all functions except the three that issue, the
     converse is proved, too: if the arguments are valid and what the comment says of a status is
     true, the function returns this status, or WD_MEMORY. If the arguments aren't valid, it returns
     WD_ARGUMENTS, or WD_MEMORY.
   - WD_MEMORY: memory ran out. A function that allocates may return it in place of another status.
     That it isn't returned without a reason is only tested.
   - All statuses but WD_ARGUMENTS and WD_MEMORY imply that the arguments are valid.

   What the functions write

   - Bytes are written to the beginning of `out`, and their number to `*size`. Text is UTF-8, and
     isn't terminated by 0.
   - If `out` is too small, the status is WD_NO_ROOM, and `*size` is the size that is needed. With
     any status other than WD_DONE and WD_NO_ROOM, `*size` is 0.
   - With any status other than WD_DONE, `out` is unchanged, and so are all other outputs. The
     exceptions are `*size`, and `fault` and `told` as stated below.
   - No function returns memory that you have to free. */
#ifndef WURSTDRAPE_H
#define WURSTDRAPE_H

#include <stdbool.h>
#include <stddef.h>
#include <stdint.h>

#ifdef __cplusplus
extern "C" {
#endif

/* The statuses. They aren't the exit statuses of the programs: for example, 5 is a buffer that is
   too small here, and an I/O error there. */
enum {
    WD_DONE = 0,      /* success; of a chain: it is trusted */
    WD_REFUSED = 1,   /* a certificate of the chain breaks a rule, or the orders are rejected */
    WD_FAULTY = 2,    /* the input can't be decoded as a value, or a text, of the expected type */
    WD_EMPTY = 3,     /* the chain is empty, or there is no such extension or index */
    WD_ARGUMENTS = 4, /* an argument other than the bytes to decode is wrong, or the orders file is
                         malformed */
    WD_NO_ROOM = 5,   /* `out` is too small */
    WD_MEMORY = 6     /* out of memory */
};

/* The rules for each certificate of a chain (RFC 5280 6.1), in the order in which they are checked.
   wd_verify stores in `number` the rule that is broken if it returns WD_REFUSED. docs/CLI.md says
   what each rule requires. */
enum {
    WD_ALGORITHMS_DIFFER = 1,
    WD_DUPLICATE_EXTENSION = 2,
    WD_MALFORMED_EXTENSION = 3,
    WD_UNWEIGHED_CRITICAL = 4,
    WD_WRONG_ISSUER = 5,
    WD_NOT_YET_VALID = 6,
    WD_EXPIRED = 7,
    WD_AGAINST_PURPOSE = 8,
    WD_NOT_AUTHORITY = 9,
    WD_PATH_TOO_LONG = 10,
    WD_WRONG_SIGNATURE = 11
};

/* The reasons why orders are rejected. If wd_audit returns WD_REFUSED, it stores in `number` one of
   these, or the rule that is broken. */
enum {
    WD_ORDER_NO_ORDERS = 21,       /* the file has no orders */
    WD_ORDER_NAME = 22,            /* the name can't be parsed */
    WD_ORDER_ROOT_NAME = 23,       /* the name isn't allowed for a root */
    WD_ORDER_SUBSCRIBER_NAME = 24, /* the name isn't allowed for an end entity */
    WD_ORDER_SERIAL = 25,          /* the serial number has no bytes, or more than 20 in DER */
    WD_ORDER_DATES = 26,           /* a date is invalid, or notAfter is before notBefore */
    WD_ORDER_DNS_NAME = 27,        /* an end entity has no DNS name, or one that isn't ASCII */
    WD_ORDER_TOO_LONG = 28         /* a length exceeds 2^32 - 1 */
};

/* The errors of bytes that aren't a sequence of certificates. If wd_verify returns WD_FAULTY, it
   stores in `number` the error of the first bytes that aren't a certificate. */
enum {
    WD_CHAIN_NO_CERTIFICATE = 1,      /* the byte where a certificate should begin isn't 0x30 */
    WD_CHAIN_INDEFINITE = 2,          /* the certificate's length is indefinite */
    WD_CHAIN_LENGTH_TOO_WIDE = 3,     /* the length has more than four bytes after the first */
    WD_CHAIN_LENGTH_NOT_SHORTEST = 4, /* the length isn't in the shortest form */
    WD_CHAIN_TOO_LARGE = 5,           /* the certificate has more than `limit` bytes */
    WD_CHAIN_MALFORMED = 6,           /* the bytes aren't a certificate in DER, or have a value that
                                         isn't supported, such as a date before 1970 */
    WD_CHAIN_TRUNCATED = 7            /* the chain ends inside a certificate */
};

/* The kinds of decoding errors, in `kind` of a wd_fault. docs/ENCODING.md says which bytes cause
   which of them. DATE_TIME, ENCODING_RULES, FAILED, OID_UNKNOWN, OUT_OF_MEMORY, READER and
   TAG_MODE_UNKNOWN aren't errors of bytes: for example, a wrong date is VALUE. */
enum {
    WD_FAULT_DATE_TIME = 1,
    WD_FAULT_ENCODING_RULES = 2,
    WD_FAULT_FAILED = 3,
    WD_FAULT_INCOMPLETE = 4,
    WD_FAULT_INDEFINITE_LENGTH = 5,
    WD_FAULT_LENGTH = 6,
    WD_FAULT_NESTING_DEPTH = 7,
    WD_FAULT_NONCANONICAL = 8,
    WD_FAULT_OID_MALFORMED = 9,
    WD_FAULT_OID_UNKNOWN = 10,
    WD_FAULT_OUT_OF_MEMORY = 11,
    WD_FAULT_OVERFLOW = 12,
    WD_FAULT_OVERLENGTH = 13,
    WD_FAULT_READER = 14,
    WD_FAULT_SET_DUPLICATE = 15,
    WD_FAULT_SET_ORDERING = 16,
    WD_FAULT_TAG_MODE_UNKNOWN = 17,
    WD_FAULT_TAG_NUMBER_INVALID = 18,
    WD_FAULT_TAG_UNEXPECTED = 19,
    WD_FAULT_TAG_UNKNOWN = 20,
    WD_FAULT_TRAILING_DATA = 21,
    WD_FAULT_UTF8 = 22,
    WD_FAULT_VALUE = 23
};

/* The first error that decoding meets. `kind` is proved, and `octet` is only tested. */
typedef struct {
    uint32_t kind;  /* WD_FAULT_.. */
    uint64_t octet; /* the index of the byte at which it was found, or UINT64_MAX if unknown */
} wd_fault;

/* The validity period of a certificate, in seconds since 1970-01-01T00:00:00Z. */
typedef struct {
    uint64_t not_before; /* the first second of the period */
    uint64_t not_after;  /* the last second of the period */
} wd_validity;

/* The position of some bytes in an input. */
typedef struct {
    size_t start; /* the index of the first byte */
    size_t size;  /* the number of bytes */
} wd_span;

/* The positions of the parts of a certificate (RFC 5280 4.1). */
typedef struct {
    wd_span signed_part;   /* the TBSCertificate */
    wd_span serial_number; /* the content bytes: two's complement, most significant byte first */
    wd_span issuer;        /* the name in DER */
    wd_span subject;       /* the name in DER */
    wd_span public_key;    /* the SubjectPublicKeyInfo in DER */
} wd_spans;

/* The certificate that breaks a rule, or the error of the input. */
typedef struct {
    uint64_t place;  /* the index of the certificate, counted from 0; with WD_FAULTY, this is the
                        number of certificates before the error */
    uint64_t offset; /* the index of its first byte in the chain; written only with WD_FAULTY */
    uint64_t number; /* the rule, or the error (WD_CHAIN_..) */
} wd_place;

/* The order that is rejected, or whose certificate breaks a rule. */
typedef struct {
    uint64_t place;  /* the index of the order, counted from 0 */
    uint64_t number; /* the reason (WD_ORDER_..), or the rule */
} wd_reason;

/* Returns whether all the bytes are the encoding of a certificate, a CRL, or a CSR.
   - WD_DONE: they are.
   - WD_FAULTY: they aren't. `fault` gets the first error; otherwise it is unchanged.
   - WD_MEMORY. */
uint32_t wd_is_certificate(const uint8_t *octets, size_t octets_len, wd_fault *fault);
uint32_t wd_is_list(const uint8_t *octets, size_t octets_len, wd_fault *fault);
uint32_t wd_is_request(const uint8_t *octets, size_t octets_len, wd_fault *fault);

/* Writes the listing of a certificate, a CRL, or a CSR, as `cert_desk show` prints it.
   - WD_DONE: `out` has the listing.
   - WD_FAULTY: the bytes aren't the encoding of a certificate, a CRL, or a CSR.
   - WD_NO_ROOM, WD_MEMORY. */
uint32_t wd_show_certificate(const uint8_t *octets, size_t octets_len, uint8_t *out, size_t out_len,
                             size_t *size);
uint32_t wd_show_list(const uint8_t *octets, size_t octets_len, uint8_t *out, size_t out_len,
                      size_t *size);
uint32_t wd_show_request(const uint8_t *octets, size_t octets_len, uint8_t *out, size_t out_len,
                         size_t *size);

/* Writes the description of a certificate, a CRL, or a CSR, as `cert_tool describe` prints it, as
   lines or as JSON. The text is tested, but not proved. The statuses are those of
   wd_show_certificate. */
uint32_t wd_describe_certificate(const uint8_t *octets, size_t octets_len, bool json, uint8_t *out,
                                 size_t out_len, size_t *size);
uint32_t wd_describe_list(const uint8_t *octets, size_t octets_len, bool json, uint8_t *out,
                          size_t out_len, size_t *size);
uint32_t wd_describe_request(const uint8_t *octets, size_t octets_len, bool json, uint8_t *out,
                             size_t out_len, size_t *size);

/* Writes the subject, or the issuer, of a certificate as text (RFC 4514). The statuses are those of
   wd_show_certificate. */
uint32_t wd_subject(const uint8_t *octets, size_t octets_len, uint8_t *out, size_t out_len,
                    size_t *size);
uint32_t wd_issuer(const uint8_t *octets, size_t octets_len, uint8_t *out, size_t out_len,
                   size_t *size);

/* Stores the positions of the parts of a certificate in `octets`. Nothing is copied.
   - WD_DONE: `spans` has the positions.
   - WD_FAULTY: the bytes aren't the encoding of a certificate.
   - WD_MEMORY. */
uint32_t wd_parts(const uint8_t *octets, size_t octets_len, wd_spans *spans);

/* Stores the validity period of a certificate. The statuses are those of wd_parts. */
uint32_t wd_dates(const uint8_t *octets, size_t octets_len, wd_validity *dates);

/* Finds the first extension of a certificate with an OID. Stores the position of its content in
   `octets`, and whether it is critical. `identifier` is the content bytes of the OID, which
   wd_identifier_of_text writes. RFC 5280 4.2 forbids two extensions with the same OID, and
   wd_verify rejects them; this function doesn't report the second one.
   - WD_DONE: `span` and `critical` have the result.
   - WD_FAULTY: the bytes aren't the encoding of a certificate.
   - WD_EMPTY: the certificate has no such extension.
   - WD_ARGUMENTS: `identifier` isn't an OID of at most 39 bytes.
   - WD_MEMORY. */
uint32_t wd_extension(const uint8_t *octets, size_t octets_len, const uint8_t *identifier,
                      size_t identifier_len, wd_span *span, bool *critical);

/* wd_name_text writes the text (RFC 4514) of a name in DER. wd_name_of_text writes the DER of a
   name that is given as text.
   - WD_DONE: `out` has the result.
   - WD_FAULTY: the bytes aren't a name in DER, or the text isn't UTF-8 or isn't the text of a name
     that has an encoding.
   - WD_NO_ROOM, WD_MEMORY. */
uint32_t wd_name_text(const uint8_t *octets, size_t octets_len, uint8_t *out, size_t out_len,
                      size_t *size);
uint32_t wd_name_of_text(const uint8_t *text, size_t text_len, uint8_t *out, size_t out_len,
                         size_t *size);

/* wd_identifier_text writes the dotted text of an OID that is given by its content bytes.
   wd_identifier_of_text writes the content bytes of an OID that is given as text.
   - WD_DONE: `out` has the result.
   - WD_FAULTY: the input isn't an OID of at most 39 content bytes.
   - WD_NO_ROOM.
   - WD_MEMORY: only from wd_identifier_text. */
uint32_t wd_identifier_text(const uint8_t *octets, size_t octets_len, uint8_t *out, size_t out_len,
                            size_t *size);
uint32_t wd_identifier_of_text(const uint8_t *text, size_t text_len, uint8_t *out, size_t out_len,
                               size_t *size);

/* Writes one line for each signature that has to be verified to validate a chain under trust
   anchors: `PLACE ANCHOR KEY ALGORITHM SIGNED BITS`. PLACE is the index of the certificate, and
   ANCHOR that of the trust anchor, or `-`. The other four are in hex: the SubjectPublicKeyInfo, the
   AlgorithmIdentifier, the signed bytes, and the BIT STRING of the signature, each in DER. `chain`
   is a sequence of certificates of at most `limit` bytes each, with nothing between them: first the
   one that a trust anchor issued, and last the end entity's. This is the reverse of the order of
   TLS. `anchors` is a sequence of trust anchors (RFC 5914); certificates are trust anchors, too. A
   limit of 65536 fits most purposes.
   - WD_DONE: `out` has the lines.
   - WD_FAULTY: `chain` isn't a sequence of such certificates.
   - WD_EMPTY: `chain` is empty.
   - WD_ARGUMENTS: `anchors` is wrong, or has 2^32 bytes or more, or `limit` is below 6.
   - WD_NO_ROOM, WD_MEMORY. */
uint32_t wd_questions(const uint8_t *anchors, size_t anchors_len, const uint8_t *chain,
                      size_t chain_len, uint32_t limit, uint8_t *out, size_t out_len,
                      size_t *size);

/* Validates a chain under trust anchors at the validation time `moment` (seconds since
   1970-01-01T00:00:00Z), for a key purpose (the content bytes of its OID, such as
   2B 06 01 05 05 07 03 01 for serverAuth). `answers` are the lines of wd_questions whose signatures
   your verifier has accepted; all other signatures count as invalid. The other arguments are those
   of wd_questions. Neither host names nor revocation are checked (docs/CLI.md lists what else
   isn't).
   - WD_DONE: the chain is trusted.
   - WD_REFUSED: the chain breaks a rule. `told` gets the index of the first certificate that breaks
     one, and the first rule that it breaks.
   - WD_FAULTY: `chain` isn't a sequence of such certificates. `told` gets the index and the offset
     of the first bytes that aren't a certificate, and the error.
   - WD_EMPTY: `chain` is empty.
   - WD_ARGUMENTS: the trust anchors, the answers, the purpose or the limit are wrong.
   - WD_MEMORY.
   With any status other than WD_REFUSED and WD_FAULTY, `told` is unchanged. */
uint32_t wd_verify(const uint8_t *answers, size_t answers_len, const uint8_t *anchors,
                   size_t anchors_len, const uint8_t *chain, size_t chain_len, uint64_t moment,
                   const uint8_t *purpose, size_t purpose_len, uint32_t limit, wd_place *told);

/* The functions that issue, in libwurstdrape_issue. */

/* Writes the TBSCertificate at an index of the chain that an orders file describes (docs/CLI.md).
   The root has index 0. Sign these bytes with `algorithm` (an AlgorithmIdentifier in DER): those of
   the root with its own key, and all others with the key of the preceding order.
   - WD_DONE: `out` has the TBSCertificate.
   - WD_REFUSED: the orders are rejected.
   - WD_EMPTY: the chain has no such index.
   - WD_ARGUMENTS: the orders file or the algorithm is malformed.
   - WD_NO_ROOM, WD_MEMORY. */
uint32_t wd_signed_part(const uint8_t *orders, size_t orders_len, uint32_t place,
                        const uint8_t *algorithm, size_t algorithm_len, uint8_t *out,
                        size_t out_len, size_t *size);

/* Writes the certificate at an index, with `signature` as the signature of its TBSCertificate.
   `signature` is the content of the BIT STRING after its first byte, which counts the unused bits:
   for ECDSA, the DER of an Ecdsa-Sig-Value (RFC 3279 2.2.3). It isn't verified: use wd_verify on
   the whole chain, with its root as trust anchor. The statuses are those of wd_signed_part;
   WD_ARGUMENTS also means that the signature is too long. */
uint32_t wd_issue(const uint8_t *orders, size_t orders_len, uint32_t place,
                  const uint8_t *algorithm, size_t algorithm_len, const uint8_t *signature,
                  size_t signature_len, uint8_t *out, size_t out_len, size_t *size);

/* Returns whether the chain that an orders file describes, signed by `algorithm`, will be trusted
   under its own root at the validation time `moment`, for a key purpose, if all its signatures are
   valid and each certificate is within the size limit of the validation.
   - WD_DONE: it will be trusted.
   - WD_REFUSED: the orders are rejected, or the chain breaks a rule. `told` gets the index, and the
     reason or the rule; otherwise it is unchanged.
   - WD_ARGUMENTS: the orders file, the algorithm or the purpose is malformed.
   - WD_MEMORY. */
uint32_t wd_audit(const uint8_t *orders, size_t orders_len, const uint8_t *algorithm,
                  size_t algorithm_len, uint64_t moment, const uint8_t *purpose,
                  size_t purpose_len, wd_reason *told);

#ifdef __cplusplus
}
#endif

#endif
