/* Tests the functions of wurstdrape.h with files of the repository: test TOP

   The expected results are those of OpenSSL, or of a standard. Each function that writes to a
   buffer is tried with every size of the buffer, from 0 to one byte more than it needs. If the
   program is linked with --wrap for malloc, realloc and free, each allocation fails in turn. */
#include <pthread.h>
#include <stdio.h>
#include <stdlib.h>
#include <string.h>

#include "wurstdrape.h"

static unsigned checks, failures;

static void check(int holds, const char *what, int line) {
    __atomic_fetch_add(&checks, 1, __ATOMIC_RELAXED);
    if (!holds) {
        fprintf(stderr, "line %d: %s\n", line, what);
        __atomic_fetch_add(&failures, 1, __ATOMIC_RELAXED);
    }
}
#define CHECK(condition) check((condition) != 0, #condition, __LINE__)

#ifdef WRAPPED
/* The number of blocks in use, the number of allocations, and the one that fails (0: none). */
static long held, requests, refused_request;
void *__real_malloc(size_t);
void *__real_realloc(void *, size_t);
void __real_free(void *);

static int is_refused(void) {
    return __atomic_add_fetch(&requests, 1, __ATOMIC_RELAXED) == refused_request;
}

void *__wrap_malloc(size_t size) {
    void *got = is_refused() ? NULL : __real_malloc(size);
    if (got) __atomic_fetch_add(&held, 1, __ATOMIC_RELAXED);
    return got;
}

void *__wrap_realloc(void *old, size_t size) {
    void *got = is_refused() ? NULL : __real_realloc(old, size);
    if (got && !old) __atomic_fetch_add(&held, 1, __ATOMIC_RELAXED);
    return got;
}

void __wrap_free(void *block) {
    if (block) __atomic_fetch_sub(&held, 1, __ATOMIC_RELAXED);
    __real_free(block);
}
#endif

typedef struct {
    uint8_t octets[65536];
    size_t length;
} data;

static const char *top;

static void get(data *to, const char *name) {
    char path[4096];
    snprintf(path, sizeof path, "%s/%s", top, name);
    FILE *file = fopen(path, "rb");
    if (!file) {
        perror(path);
        exit(2);
    }
    to->length = fread(to->octets, 1, sizeof to->octets, file);
    fclose(file);
}

static data server, root, chain, answers, list, request, orders;
static const uint8_t server_auth[] = {0x2b, 6, 1, 5, 5, 7, 3, 1};
static const uint64_t moment = 1780000000; /* 2026-05-28 */

/* Each function that writes to a buffer, with a file as input. */
typedef uint32_t writes(uint8_t *out, size_t out_len, size_t *length);
#define OF(file) file.octets, file.length
#define WRITES(name, ...)                                               \
    static uint32_t name(uint8_t *out, size_t out_len, size_t *length) { \
        return wd_##name(__VA_ARGS__, out, out_len, length);             \
    }
WRITES(show_certificate, OF(server))
WRITES(show_list, OF(list))
WRITES(show_request, OF(request))
WRITES(describe_certificate, OF(server), true)
WRITES(describe_list, OF(list), false)
WRITES(describe_request, OF(request), true)
WRITES(subject, OF(server))
WRITES(issuer, OF(server))
WRITES(name_of_text, (const uint8_t *)"CN=a,O=b", 8)
WRITES(identifier_text, server_auth, sizeof server_auth)
WRITES(identifier_of_text, (const uint8_t *)"1.3.6.1.5.5.7.3.1", 17)
WRITES(questions, OF(root), OF(chain), 4096)

/* X.690: SEQUENCE { SET { SEQUENCE { 2.5.4.3, UTF8String "a" } } } */
static const uint8_t name[] = {0x30, 0x0c, 0x31, 0x0a, 0x30, 0x08, 0x06,
                               0x03, 0x55, 0x04, 0x03, 0x0c, 0x01, 0x61};
WRITES(name_text, name, sizeof name)

/* SEQUENCE { 1.2.840.10045.4.3.2 } (RFC 5758 3.2) */
static const uint8_t ecdsa[] = {0x30, 0x0a, 0x06, 0x08, 0x2a, 0x86,
                                0x48, 0xce, 0x3d, 0x04, 0x03, 0x02};
static const uint8_t signature[] = "signature";
WRITES(signed_part, OF(orders), 2, ecdsa, sizeof ecdsa)
WRITES(issue, OF(orders), 2, ecdsa, sizeof ecdsa, signature, 9)

/* Each function that returns a value. */
typedef uint32_t tells(void);
static uint32_t is_certificate(void) {
    wd_fault fault;
    return wd_is_certificate(OF(server), &fault);
}
static uint32_t is_list(void) {
    wd_fault fault;
    return wd_is_list(OF(list), &fault);
}
static uint32_t is_request(void) {
    wd_fault fault;
    return wd_is_request(OF(request), &fault);
}
static uint32_t parts_of(void) {
    wd_spans spans;
    return wd_parts(OF(server), &spans);
}
static uint32_t dates(void) {
    wd_validity told;
    return wd_dates(OF(server), &told);
}
static uint32_t extension(void) {
    static const uint8_t purposes[] = {0x55, 0x1d, 37};
    wd_span span;
    bool critical = false;
    return wd_extension(OF(server), purposes, sizeof purposes, &span, &critical);
}
static uint32_t audit(void) {
    wd_reason told;
    return wd_audit(OF(orders), ecdsa, sizeof ecdsa, moment, server_auth, sizeof server_auth,
                    &told);
}
static tells *const tellers[] = {is_certificate, is_list, is_request, parts_of,
                                 dates,          extension, audit};
#define TELLERS (sizeof tellers / sizeof *tellers)

static const struct {
    const char *name;
    writes *call;
} writers[] = {
    {"show_certificate", show_certificate},
    {"show_list", show_list},
    {"show_request", show_request},
    {"describe_certificate", describe_certificate},
    {"describe_list", describe_list},
    {"describe_request", describe_request},
    {"subject", subject},
    {"issuer", issuer},
    {"name_text", name_text},
    {"name_of_text", name_of_text},
    {"identifier_text", identifier_text},
    {"identifier_of_text", identifier_of_text},
    {"questions", questions},
    {"signed_part", signed_part},
    {"issue", issue},
};
#define WRITERS (sizeof writers / sizeof *writers)

static int is_all(const uint8_t *octets, size_t length, uint8_t octet) {
    for (size_t i = 0; i < length; i++)
        if (octets[i] != octet) return 0;
    return 1;
}

/* If the buffer is too small, nothing is written to it, and the size that is needed is returned. If
   it is large enough, it has the result, and nothing is written after it. */
static void rooms(writes *call) {
    static uint8_t whole[65536];
    size_t wanted, length;
    CHECK(call(whole, sizeof whole, &wanted) == WD_DONE);
    CHECK(wanted > 0 && wanted < sizeof whole);
    for (size_t size = 0; size <= wanted + 1; size++) {
        /* valgrind and the sanitizers report a write after the end of this block */
        uint8_t *room = malloc(size + 1);
        memset(room, 0xa5, size + 1);
        uint32_t status = call(room, size, &length);
        CHECK(length == wanted);
        if (size < wanted) {
            CHECK(status == WD_NO_ROOM && is_all(room, size + 1, 0xa5));
        } else {
            CHECK(status == WD_DONE && memcmp(room, whole, wanted) == 0);
            CHECK(is_all(room + wanted, size + 1 - wanted, 0xa5));
        }
        free(room);
    }
}

/* Each allocation fails in turn. The call then returns WD_MEMORY and writes nothing, or it succeeds
   without this memory, with the same result. It frees everything in both cases. */
static void allocations(writes *call) {
#ifdef WRAPPED
    static uint8_t out[65536], whole[65536];
    size_t length, total;
    requests = 0;
    long before = held;
    CHECK(call(whole, sizeof whole, &total) == WD_DONE && held == before);
    long count = requests;
    for (long n = 1; n <= count; n++) {
        memset(out, 0xa5, sizeof out);
        requests = 0;
        refused_request = n;
        uint32_t status = call(out, sizeof out, &length);
        refused_request = 0;
        bool is_same = status == WD_DONE && length == total && memcmp(out, whole, total) == 0;
        bool is_told = status == WD_MEMORY && length == 0 && is_all(out, sizeof out, 0xa5);
        CHECK(is_same || is_told);
        CHECK(held == before);
    }
#else
    (void)call;
#endif
}

/* Each allocation fails in turn. The call then returns WD_MEMORY, or it tried the allocation again
   and succeeds. It frees everything in both cases. */
static void tellings(tells *call) {
    CHECK(call() == WD_DONE);
#ifdef WRAPPED
    long before = held;
    requests = 0;
    CHECK(call() == WD_DONE && held == before);
    long count = requests;
    CHECK(count > 0);
    for (long n = 1; n <= count; n++) {
        requests = 0;
        refused_request = n;
        uint32_t status = call();
        refused_request = 0;
        CHECK(status == WD_MEMORY || (status == WD_DONE && requests > count));
        CHECK(held == before);
    }
#endif
}

static uint32_t judge(const data *given, const data *stream, uint64_t at, wd_place *told) {
    return wd_verify(given->octets, given->length, OF(root), stream->octets, stream->length, at,
                     server_auth, sizeof server_auth, 4096, told);
}

static void verdicts(void) {
    wd_place told;
    CHECK(judge(&answers, &chain, moment, &told) == WD_DONE);
    CHECK(judge(&answers, &chain, 1, &told) == WD_REFUSED);
    CHECK(told.place == 0 && told.number == WD_NOT_YET_VALID);
    CHECK(judge(&answers, &chain, 4102444800, &told) == WD_REFUSED);
    CHECK(told.number == WD_EXPIRED);

    /* without the answer for the first certificate, and without the one for the second */
    static data some;
    const uint8_t *second = (const uint8_t *)memchr(answers.octets, '\n', answers.length) + 1;
    some.length = answers.length - (size_t)(second - answers.octets);
    memcpy(some.octets, second, some.length);
    CHECK(judge(&some, &chain, moment, &told) == WD_REFUSED);
    CHECK(told.place == 0 && told.number == WD_WRONG_SIGNATURE);
    some.length = (size_t)(second - answers.octets);
    memcpy(some.octets, answers.octets, some.length);
    CHECK(judge(&some, &chain, moment, &told) == WD_REFUSED);
    CHECK(told.place == 1 && told.number == WD_WRONG_SIGNATURE);

    data cut = chain;
    cut.length--;
    CHECK(judge(&answers, &cut, moment, &told) == WD_FAULTY);
    size_t first = 4 + chain.octets[2] * 256u + chain.octets[3];
    CHECK(told.place == 1 && told.offset == first && told.number == WD_CHAIN_TRUNCATED);
    cut.length = 0;
    CHECK(judge(&answers, &cut, moment, &told) == WD_EMPTY);

    some.length = 3;
    CHECK(judge(&some, &chain, moment, &told) == WD_ARGUMENTS);
    CHECK(wd_verify(OF(answers), root.octets, root.length - 1, OF(chain), moment, server_auth,
                    sizeof server_auth, 4096, &told) == WD_ARGUMENTS);
    CHECK(wd_verify(OF(answers), OF(root), OF(chain), moment, server_auth, 0, 4096, &told) ==
          WD_ARGUMENTS);
    CHECK(wd_verify(OF(answers), OF(root), OF(chain), moment, server_auth, sizeof server_auth, 5,
                    &told) == WD_ARGUMENTS);
#ifdef WRAPPED
    long before = held;
    requests = 0;
    judge(&answers, &chain, moment, &told);
    long count = requests;
    for (long n = 1; n <= count; n++) {
        requests = 0;
        refused_request = n;
        uint32_t status = judge(&answers, &chain, moment, &told);
        refused_request = 0;
        /* some allocations can fail without an effect on the verdict */
        CHECK((status == WD_MEMORY || status == WD_DONE) && held == before);
    }
#endif
}

static void parts(void) {
    static uint8_t out[65536];
    size_t length;
    wd_validity dates;
    wd_spans spans;
    wd_span span;
    wd_fault fault;
    bool critical = false;
    CHECK(wd_dates(OF(server), &dates) == WD_DONE);
    CHECK(dates.not_before == 1767225600 && dates.not_after == 2082758400);
    CHECK(subject(out, sizeof out, &length) == WD_DONE);
    CHECK(length == 15 && memcmp(out, "CN=desk.example", 15) == 0);
    static const char desk[] = "CN=Desk Intermediate,O=Desk Example,C=US";
    CHECK(issuer(out, sizeof out, &length) == WD_DONE);
    CHECK(length == strlen(desk) && memcmp(out, desk, length) == 0);
    /* the positions that `openssl asn1parse` prints */
    CHECK(wd_parts(OF(server), &spans) == WD_DONE);
    CHECK(spans.signed_part.start == 4 && spans.signed_part.size == 421);
    CHECK(spans.serial_number.start == 15 && spans.serial_number.size == 20);
    CHECK(spans.issuer.start == 47 && spans.issuer.size == 66);
    CHECK(spans.subject.start == 145 && spans.subject.size == 25);
    CHECK(spans.public_key.start == 170 && spans.public_key.size == 91);
    CHECK(wd_parts(OF(list), &spans) == WD_FAULTY);
    static const uint8_t basic_constraints[] = {0x55, 0x1d, 19}, names[] = {0x55, 0x1d, 30};
    static const uint8_t purposes[] = {0x55, 0x1d, 37};
    CHECK(wd_extension(OF(server), basic_constraints, 3, &span, &critical) == WD_DONE);
    CHECK(span.start == 279 && span.size == 2 && critical);
    CHECK(wd_extension(OF(server), purposes, 3, &span, &critical) == WD_DONE);
    CHECK(span.start == 306 && span.size == 12 && !critical);
    CHECK(wd_extension(OF(server), names, 3, &span, &critical) == WD_EMPTY);
    CHECK(wd_extension(OF(server), names, 0, &span, &critical) == WD_ARGUMENTS);
    CHECK(wd_extension(OF(list), names, 3, &span, &critical) == WD_FAULTY);
    CHECK(name_text(out, sizeof out, &length) == WD_DONE);
    CHECK(length == 4 && memcmp(out, "CN=a", 4) == 0);
    CHECK(wd_name_of_text((const uint8_t *)"CN=a", 4, out, sizeof out, &length) == WD_DONE);
    CHECK(length == sizeof name && memcmp(out, name, sizeof name) == 0);
    CHECK(wd_name_of_text((const uint8_t *)"CN", 2, out, sizeof out, &length) == WD_FAULTY);
    CHECK(wd_name_of_text((const uint8_t *)"\xff", 1, out, sizeof out, &length) == WD_FAULTY);
    CHECK(identifier_text(out, sizeof out, &length) == WD_DONE);
    CHECK(length == 17 && memcmp(out, "1.3.6.1.5.5.7.3.1", 17) == 0);
    CHECK(wd_identifier_text(names, 0, out, sizeof out, &length) == WD_FAULTY);

    CHECK(wd_is_certificate(OF(server), &fault) == WD_DONE);
    CHECK(wd_is_list(OF(list), &fault) == WD_DONE);
    CHECK(wd_is_request(OF(request), &fault) == WD_DONE);
    CHECK(wd_is_list(OF(server), &fault) == WD_FAULTY);
    CHECK(wd_is_certificate(server.octets, server.length - 1, &fault) == WD_FAULTY);
    CHECK(fault.kind == WD_FAULT_INCOMPLETE);
    CHECK(wd_is_certificate(server.octets, 0, &fault) == WD_FAULTY);
    static data longer;
    longer = server;
    longer.octets[longer.length++] = 0;
    CHECK(wd_is_certificate(OF(longer), &fault) == WD_FAULTY);
    CHECK(fault.kind == WD_FAULT_TRAILING_DATA && fault.octet == server.length);
    CHECK(wd_show_certificate(OF(list), out, sizeof out, &length) == WD_FAULTY && length == 0);
}

/* The certificate at each index has its TBSCertificate and the given signature. An index after the
   last one returns WD_EMPTY. */
static void issued(void) {
    static uint8_t part[4096], out[4096];
    size_t part_size, size;
    wd_spans spans;
    uint32_t place = 0;
    while (wd_issue(OF(orders), place, ecdsa, sizeof ecdsa, signature, 9, out, sizeof out, &size) ==
           WD_DONE) {
        CHECK(wd_signed_part(OF(orders), place, ecdsa, sizeof ecdsa, part, sizeof part,
                             &part_size) == WD_DONE);
        CHECK(wd_parts(out, size, &spans) == WD_DONE && spans.signed_part.size == part_size);
        CHECK(memcmp(out + spans.signed_part.start, part, part_size) == 0);
        CHECK(memcmp(out + size - 12, "\x03\x0a\0signature", 12) == 0);
        place++;
    }
    CHECK(place == 3 && size == 0);
    CHECK(wd_signed_part(OF(orders), 3, ecdsa, sizeof ecdsa, out, sizeof out, &size) == WD_EMPTY);
    CHECK(wd_signed_part(OF(orders), 0, ecdsa, 0, out, sizeof out, &size) == WD_ARGUMENTS);
    CHECK(wd_signed_part(ecdsa, sizeof ecdsa, 0, ecdsa, sizeof ecdsa, out, sizeof out, &size) ==
          WD_ARGUMENTS);
    /* no orders */
    CHECK(wd_issue(ecdsa, 0, 0, ecdsa, sizeof ecdsa, signature, 9, out, sizeof out, &size) ==
          WD_REFUSED);
}

static uint32_t audit_of(const data *of, uint64_t at, wd_reason *told) {
    return wd_audit(of->octets, of->length, ecdsa, sizeof ecdsa, at, server_auth,
                    sizeof server_auth, told);
}

/* Checks whether wd_audit reports that the chain of orders will be trusted, or why it won't be.
   Nothing is signed. */
static void audited(void) {
    wd_reason told;
    CHECK(audit_of(&orders, moment, &told) == WD_DONE);
    CHECK(audit_of(&orders, 1, &told) == WD_REFUSED);
    CHECK(told.place == 0 && told.number == WD_NOT_YET_VALID);
    /* 2027-12-28: only the last certificate has expired */
    CHECK(audit_of(&orders, 1830000000, &told) == WD_REFUSED);
    CHECK(told.place == 2 && told.number == WD_EXPIRED);
    static const uint8_t email[] = {0x2b, 6, 1, 5, 5, 7, 3, 4};
    CHECK(wd_audit(OF(orders), ecdsa, sizeof ecdsa, moment, email, sizeof email, &told) ==
          WD_REFUSED);
    CHECK(told.place == 1 && told.number == WD_AGAINST_PURPOSE);

    static data other;
    CHECK(audit_of(&other, moment, &told) == WD_REFUSED);
    CHECK(told.number == WD_ORDER_NO_ORDERS);
    /* a month 13 in the first date of the last order */
    other = orders;
    char *last = strstr((char *)other.octets, "CN=desk.example");
    memcpy(strstr(last, "2026-01"), "2026-13", 7);
    CHECK(audit_of(&other, moment, &told) == WD_REFUSED);
    CHECK(told.place == 2 && told.number == WD_ORDER_DATES);
    other.octets[0] = 'x';
    CHECK(audit_of(&other, moment, &told) == WD_ARGUMENTS);
    CHECK(wd_audit(OF(orders), ecdsa, 0, moment, server_auth, sizeof server_auth, &told) ==
          WD_ARGUMENTS);
    CHECK(wd_audit(OF(orders), ecdsa, sizeof ecdsa, moment, server_auth, 0, &told) ==
          WD_ARGUMENTS);
}

static void *calls(void *of) {
    size_t first = *(size_t *)of;
    uint8_t *out = malloc(65536), *again = malloc(65536);
    size_t length, other;
    wd_place told;
    for (size_t n = 0; n < 200; n++) {
        writes *call = writers[(first + n) % WRITERS].call;
        CHECK(call(out, 65536, &length) == WD_DONE && call(again, 65536, &other) == WD_DONE);
        CHECK(length == other && memcmp(out, again, length) == 0);
        CHECK(judge(&answers, &chain, moment, &told) == WD_DONE);
    }
    free(out);
    free(again);
    return NULL;
}

static void threads(void) {
    pthread_t thread[8];
    size_t first[8];
    for (size_t i = 0; i < 8; i++) {
        first[i] = i;
        CHECK(pthread_create(&thread[i], NULL, calls, &first[i]) == 0);
    }
    for (size_t i = 0; i < 8; i++) pthread_join(thread[i], NULL);
}

int main(int count, char **words) {
    if (count != 2) {
        fputs("usage: test TOP\n", stderr);
        return 2;
    }
    top = words[1];
    get(&server, "examples/server.der");
    get(&root, "examples/root.der");
    get(&chain, "examples/chain.der");
    get(&answers, "crates/cert_tool/data/answers.txt");
    get(&list, "crates/cert_tool/data/list.der");
    get(&request, "crates/cert_tool/data/request.der");
    get(&orders, "examples/orders.txt");
    parts();
    verdicts();
    issued();
    audited();
    for (size_t i = 0; i < WRITERS; i++) {
        unsigned before = failures;
        rooms(writers[i].call);
        allocations(writers[i].call);
        if (failures != before) fprintf(stderr, "in %s\n", writers[i].name);
    }
    for (size_t i = 0; i < TELLERS; i++) tellings(tellers[i]);
    threads();
    printf("%u checks, %u failed\n", checks, failures);
    return failures != 0;
}
