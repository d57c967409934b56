// Checks all headers of a file of concatenated certificates repeatedly: tags and lengths are in
// their shortest form, no length is indefinite, and no value ends after the value that contains it.
// It names the kind of the first error.
#include <stddef.h>
#include <stdint.h>
#include <stdio.h>
#include <stdlib.h>

enum fault {
    NONE, INCOMPLETE, TAG_UNKNOWN, TAG_NUMBER_INVALID, INDEFINITE_LENGTH, OVERLENGTH, LENGTH
};

struct reader { const uint8_t *bytes; size_t position, end; };
struct header { uint8_t first; uint32_t number; uint32_t length; };

// the universal tags that are accepted: a bit for each first byte
static const uint64_t universal_read =
    1ull << 1 | 1ull << 2 | 1ull << 3 | 1ull << 4 | 1ull << 5 | 1ull << 6 | 1ull << 9 |
    1ull << 10 | 1ull << 12 | 1ull << 13 | 1ull << 18 | 1ull << 19 | 1ull << 20 | 1ull << 21 |
    1ull << 22 | 1ull << 23 | 1ull << 24 | 1ull << 26 | 1ull << 27 | 1ull << 30 | 1ull << 48 |
    1ull << 49;

static enum fault read_header(struct reader *r, struct header *h) {
    const uint8_t *at = r->bytes + r->position, *end = r->bytes + r->end;
    if (at == end) return INCOMPLETE;
    uint8_t first = *at++;
    uint32_t number = first & 31;
    if (first < 64) {
        if (!(universal_read >> first & 1)) return TAG_UNKNOWN;
    } else if (number == 31) {
        if (at == end) return INCOMPLETE;
        if (*at == 0x80) return TAG_NUMBER_INVALID;
        number = 0;
        for (;;) {
            if (at == end) return INCOMPLETE;
            if (number >> 25) return TAG_NUMBER_INVALID;
            uint8_t digit = *at++;
            number = number << 7 | (digit & 127);
            if (digit < 128) break;
        }
        if (number < 31) return TAG_NUMBER_INVALID;
    }
    if (at == end) return INCOMPLETE;
    uint32_t length = *at++;
    if (length >= 128) {
        size_t k = length - 128;
        if (k == 0) return INDEFINITE_LENGTH;
        if (k > 4) return OVERLENGTH;
        if ((size_t)(end - at) < k) return INCOMPLETE;
        if (at[0] == 0) return LENGTH;
        length = 0;
        for (size_t i = 0; i < k; i++) length = length << 8 | at[i];
        if (length < 128) return LENGTH;
        at += k;
    }
    r->position = at - r->bytes;
    h->first = first;
    h->number = number;
    h->length = length;
    return NONE;
}

static enum fault read_slice(struct reader *r, uint32_t n, const uint8_t **content) {
    if (r->end - r->position < n) return INCOMPLETE;
    *content = r->bytes + r->position;
    r->position += n;
    return NONE;
}

struct counts { uint64_t headers, contents; };

__attribute__((noinline)) static enum fault walk(const uint8_t *bytes, size_t len,
                                                 struct counts *total) {
    struct reader r = {bytes, 0, len};
    struct counts counts = *total;
    while (r.position != r.end) {
        struct header h;
        enum fault fault = read_header(&r, &h);
        if (fault) return fault;
        if (!(h.first & 32)) {
            const uint8_t *content;
            fault = read_slice(&r, h.length, &content);
            if (fault) return fault;
            counts.contents += h.length;
        }
        counts.headers += 1;
    }
    *total = counts;
    return NONE;
}

int main(int argc, char **argv) {
    if (argc != 3) return 1;
    FILE *f = fopen(argv[1], "rb");
    if (!f) return 1;
    static uint8_t bytes[1 << 24];
    size_t len = fread(bytes, 1, sizeof bytes, f);
    struct counts total = {0, 0};
    for (int rounds = atoi(argv[2]); rounds > 0; rounds--)
        if (walk(bytes, len, &total)) return 1;
    printf("%llu headers, %llu octets of content\n", (unsigned long long)total.headers,
           (unsigned long long)total.contents);
}
