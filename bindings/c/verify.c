/* Validates a chain with a verifier's answers: verify ROOTS CHAIN ANSWERS SECONDS
   The exit status is that of wd_verify, or 5 if a file can't be read into memory: wd_verify never
   returns 5. */
#include <errno.h>
#include <stdio.h>
#include <stdlib.h>
#include <wurstdrape.h>

enum { READ_FAILED = 5 };

static _Noreturn void fail(const char *name) {
    perror(name);
    exit(READ_FAILED);
}

/* Reads a whole file. If only a part of a chain were read, the part could be a trusted chain. */
static uint8_t *get(const char *name, size_t *length) {
    FILE *file = fopen(name, "rb");
    if (!file) fail(name);
    uint8_t *octets = NULL;
    size_t room = 0;
    *length = 0;
    while (!feof(file)) {
        if (*length == room) {
            room = room ? 2 * room : 65536;
            octets = realloc(octets, room);
            if (!octets) fail(name);
        }
        *length += fread(octets + *length, 1, room - *length, file);
        if (ferror(file)) fail(name);
    }
    fclose(file);
    return octets;
}

int main(int count, char **words) {
    static const uint8_t server_auth[] = {0x2b, 6, 1, 5, 5, 7, 3, 1}; /* RFC 5280 4.2.1.12 */
    wd_place told;
    char *end = NULL;
    uint64_t seconds = 0;
    if (count == 5 && words[4][0] >= '0' && words[4][0] <= '9') {
        errno = 0;
        seconds = strtoull(words[4], &end, 10);
    }
    if (!end || *end || errno) {
        fputs("usage: verify ROOTS CHAIN ANSWERS SECONDS\n", stderr);
        return WD_ARGUMENTS;
    }
    size_t roots_len, chain_len, answers_len;
    uint8_t *roots = get(words[1], &roots_len);
    uint8_t *chain = get(words[2], &chain_len);
    uint8_t *answers = get(words[3], &answers_len);
    uint32_t status = wd_verify(answers, answers_len, roots, roots_len, chain, chain_len,
                                seconds, server_auth, sizeof server_auth, 65536, &told);
    if (status == WD_DONE) puts("trusted");
    if (status == WD_REFUSED)
        printf("certificate %llu breaks rule %llu of wurstdrape.h\n",
               (unsigned long long)told.place, (unsigned long long)told.number);
    if (status == WD_FAULTY)
        fprintf(stderr, "certificate %llu, at byte %llu: error %llu of wurstdrape.h\n",
                (unsigned long long)told.place, (unsigned long long)told.offset,
                (unsigned long long)told.number);
    if (status > WD_FAULTY) fprintf(stderr, "not trusted: status %u of wurstdrape.h\n", status);
    free(roots);
    free(chain);
    free(answers);
    return (int)status;
}
