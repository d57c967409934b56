/* Calls the functions with changed files, and prints a checksum of all results: mutated TOP COUNT

   The changes and the checksum are those of bindings/rust/examples/mutated.rs, which calls the
   functions through the Rust crate. Both programs print one line, so their results can be compared. */
#include <stdio.h>
#include <stdlib.h>
#include <string.h>

#include "wurstdrape.h"

typedef struct {
    uint8_t octets[65536];
    size_t length;
} data;

static void get(data *to, const char *top, const char *name) {
    char path[4096];
    snprintf(path, sizeof path, "%s/%s", top, name);
    FILE *file = fopen(path, "rb");
    if (!file) {
        perror(path);
        exit(2);
    }
    to->length = fread(to->octets, 1, sizeof to->octets, file);
    fclose(file);
}

/* xorshift64 (Marsaglia 2003) */
static uint64_t state = 88172645463325252u;
static uint64_t next(uint64_t below) {
    state ^= state << 13;
    state ^= state >> 7;
    state ^= state << 17;
    return state % below;
}

/* FNV-1a, 64 bits */
static uint64_t sum = 14695981039346656037u;
static void add(const uint8_t *octets, size_t length) {
    for (size_t i = 0; i < length; i++) sum = (sum ^ octets[i]) * 1099511628211u;
}
static void add_number(uint64_t number) {
    for (int i = 0; i < 8; i++) add((uint8_t[]){(uint8_t)(number >> 8 * i)}, 1);
}

static uint8_t out[1 << 20];
static size_t length;
static void told(uint32_t status) {
    add_number(status);
    add(out, length);
}

/* Adds the status and the bytes of each part to the checksum. */
static wd_spans spans;
static void told_spans(const data *of, uint32_t status) {
    const wd_span each[] = {spans.signed_part, spans.serial_number, spans.issuer, spans.subject,
                            spans.public_key};
    add_number(status);
    for (size_t i = 0; status == WD_DONE && i < sizeof each / sizeof *each; i++)
        add(of->octets + each[i].start, each[i].size);
}

/* Adds the status, and the content and the criticality of extKeyUsage. */
static void told_purposes(const data *of) {
    static const uint8_t purposes[] = {0x55, 0x1d, 37};
    wd_span span;
    bool critical = false;
    uint32_t status =
        wd_extension(of->octets, of->length, purposes, sizeof purposes, &span, &critical);
    add_number(status);
    if (status != WD_DONE) return;
    add(of->octets + span.start, span.size);
    add_number(critical);
}

/* Changes up to three bytes of a file, and cuts off the end of one file in eight. */
static void change(data *to, const data *from) {
    *to = *from;
    for (uint64_t i = 0, count = 1 + next(3); i < count; i++) {
        uint64_t place = next(to->length);
        to->octets[place] = (uint8_t)next(256);
    }
    if (next(8) == 0) to->length = next(to->length);
}

int main(int count, char **words) {
    static data server, root, chain, answers, list, request, it;
    static const uint8_t server_auth[] = {0x2b, 6, 1, 5, 5, 7, 3, 1};
    if (count != 3) {
        fputs("usage: mutated TOP COUNT\n", stderr);
        return 2;
    }
    get(&server, words[1], "examples/server.der");
    get(&root, words[1], "examples/root.der");
    get(&chain, words[1], "examples/chain.der");
    get(&answers, words[1], "crates/cert_tool/data/answers.txt");
    get(&list, words[1], "crates/cert_tool/data/list.der");
    get(&request, words[1], "crates/cert_tool/data/request.der");
    unsigned long inputs = strtoul(words[2], NULL, 10), done = 0;
    for (unsigned long n = 0; n < inputs; n++) {
        wd_fault fault = {0, 0};
        wd_place place = {0, 0, 0};
        uint32_t status;
        switch (n % 4) {
        case 0:
            change(&it, &server);
            status = wd_is_certificate(it.octets, it.length, &fault);
            told(wd_show_certificate(it.octets, it.length, out, sizeof out, &length));
            told(wd_describe_certificate(it.octets, it.length, true, out, sizeof out, &length));
            told_spans(&it, wd_parts(it.octets, it.length, &spans));
            told_purposes(&it);
            break;
        case 1:
            change(&it, &list);
            status = wd_is_list(it.octets, it.length, &fault);
            told(wd_show_list(it.octets, it.length, out, sizeof out, &length));
            told(wd_describe_list(it.octets, it.length, true, out, sizeof out, &length));
            break;
        case 2:
            change(&it, &request);
            status = wd_is_request(it.octets, it.length, &fault);
            told(wd_show_request(it.octets, it.length, out, sizeof out, &length));
            told(wd_describe_request(it.octets, it.length, true, out, sizeof out, &length));
            break;
        default:
            change(&it, &chain);
            status = wd_verify(answers.octets, answers.length, root.octets, root.length, it.octets,
                               it.length, 1780000000, server_auth, sizeof server_auth, 4096,
                               &place);
            told(wd_questions(root.octets, root.length, it.octets, it.length, 4096, out,
                              sizeof out, &length));
        }
        add_number(status);
        add_number(fault.kind);
        add_number(fault.octet);
        add_number(place.place);
        add_number(place.offset);
        add_number(place.number);
        done += status == WD_DONE;
    }
    printf("%lu inputs, %lu of them valid: %016llx\n", inputs, done, (unsigned long long)sum);
    return 0;
}
