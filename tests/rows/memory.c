/* Lets requests for memory of a program fail: to be loaded before the C library.
 *
 * The program is forked at each request: in the fork that request fails, and the program goes on
 * once the fork has ended. The file that EACH names gets a line for each, `NUMBER STATUS OCTETS`,
 * and behind it what that fork wrote to its standard output, of so many octets. The standard error
 * output is part of it where both are one file. The standard input and output have to be files;
 * other files that are open are read, not written. */
#define _GNU_SOURCE
#include <dlfcn.h>
#include <fcntl.h>
#include <stddef.h>
#include <stdio.h>
#include <stdlib.h>
#include <sys/mman.h>
#include <sys/stat.h>
#include <sys/wait.h>
#include <unistd.h>

static unsigned long made;
static int each = -1;

__attribute__((constructor)) static void begin(void) {
    const char *file = getenv("EACH");
    if (file) each = open(file, O_CREAT | O_WRONLY | O_APPEND | O_CLOEXEC, 0600);
    made = 0;
}

/* A file that is read stays where it was read to, for the fork alone: whether there is one. */
static int part_file(int number) {
    char path[32];
    off_t read_so_far = lseek(number, 0, SEEK_CUR);
    if (read_so_far < 0) return 0;
    snprintf(path, sizeof path, "/proc/self/fd/%d", number);
    int file = open(path, O_RDONLY);
    if (file < 0) return 0;
    lseek(file, read_so_far, SEEK_SET);
    dup2(file, number);
    close(file);
    return 1;
}

/* What was read and written before is where it was, for the fork alone. */
static void part(int out) {
    char octets[4096];
    ssize_t count;
    struct stat output, errors;
    int is_one = !fstat(1, &output) && !fstat(2, &errors) && output.st_ino == errors.st_ino &&
                 output.st_dev == errors.st_dev;
    if (!part_file(0)) _exit(99);
    for (int number = 3; number < 32; number++)
        if (number != out) part_file(number);
    int before = open("/proc/self/fd/1", O_RDONLY);
    while (before >= 0 && (count = read(before, octets, sizeof octets)) > 0)
        if (write(out, octets, count) != count) _exit(99);
    close(before);
    dup2(out, 1);
    if (is_one) dup2(out, 2);
    close(out);
    alarm(20);
}

static int is_refused_in_fork(void) {
    int status = 0, log = each;
    int out = memfd_create("out", 0);
    pid_t child = out < 0 ? -1 : fork();
    if (child < 0) _exit(98);
    if (child == 0) {
        each = -1;
        part(out);
        return 1;
    }
    each = -1;
    if (waitpid(child, &status, 0) != child) _exit(98);
    char octets[4096], line[96];
    off_t size = lseek(out, 0, SEEK_END);
    int told = WIFEXITED(status) ? WEXITSTATUS(status) : 1000 + WTERMSIG(status);
    int len = snprintf(line, sizeof line, "%lu %d %ld\n", made, told, (long)size);
    if (write(log, line, len) != len) _exit(98);
    lseek(out, 0, SEEK_SET);
    for (ssize_t count; (count = read(out, octets, sizeof octets)) > 0;)
        if (write(log, octets, count) != count) _exit(98);
    close(out);
    each = log;
    return 0;
}

static int is_refused(void) {
    made += 1;
    return each >= 0 && is_refused_in_fork();
}

void *malloc(size_t size) {
    static void *(*next)(size_t);
    if (!next) next = (void *(*)(size_t))dlsym(RTLD_NEXT, "malloc");
    return is_refused() ? NULL : next(size);
}

void *realloc(void *old, size_t size) {
    static void *(*next)(void *, size_t);
    if (!next) next = (void *(*)(void *, size_t))dlsym(RTLD_NEXT, "realloc");
    return is_refused() ? NULL : next(old, size);
}

void *aligned_alloc(size_t align, size_t size) {
    static void *(*next)(size_t, size_t);
    if (!next) next = (void *(*)(size_t, size_t))dlsym(RTLD_NEXT, "aligned_alloc");
    return is_refused() ? NULL : next(align, size);
}

int posix_memalign(void **out, size_t align, size_t size) {
    static int (*next)(void **, size_t, size_t);
    if (!next) next = (int (*)(void **, size_t, size_t))dlsym(RTLD_NEXT, "posix_memalign");
    return is_refused() ? 12 : next(out, align, size);
}
