/* Times the C library (clients/c) with many calls in flight, beside the same lines through nc.
 * Build: cc -O2 -Iclients/c -o c_library bench/c_library.c clients/c/judyd.c
 *
 * usage: c_library lines KIND COUNT > LINES
 *            prints the log-in and the lines of COUNT calls: KIND is set, test, insert, get or string
 *        c_library run SOCKET KIND COUNT BATCH
 *            makes the same calls, BATCH at a time between jd_begin and jd_end, and prints seconds of
 *            wall time, and of this program's CPU time in user mode and in the system
 * The tenant is alice with token abc. For nc: time nc -NU SOCKET < LINES > replies */
#include <inttypes.h>
#include <stdio.h>
#include <stdlib.h>
#include <string.h>
#include <sys/resource.h>
#include <time.h>

#include "judyd.h"

enum kind { SET, TEST, INSERT, GET, STRING, KINDS };
static const char *const NAMES[] = {"set", "test", "insert", "get", "string"};

/* A call: an index, and for `string` a key. They are made before the time is taken. */
struct given {
    uint64_t word;
    char key[24];
};

static struct given given_of(enum kind kind, uint64_t i)
{
    struct given given = {.word = (i + 1) * 0x9e3779b97f4a7c15u};
    given.word = (given.word ^ (given.word >> 30)) * 0xbf58476d1ce4e5b9u;
    if (kind == STRING)
        snprintf(given.key, sizeof given.key, "key/%016" PRIx64, given.word);
    return given;
}

static void print_line(enum kind kind, const struct given *given, uint64_t i)
{
    static const char *const words[] = {"J1S", "J1T", "JLI", "JLG"};
    if (kind != STRING)
        printf("%s a %" PRIu64, words[kind], given->word);
    else
        printf("JSLI a x");
    for (size_t at = 0; given->key[at]; at++)
        printf("%02x", given->key[at]);
    if (kind == INSERT || kind == STRING)
        printf(" %" PRIu64, i);
    putchar('\n');
}

static int call(jd *c, enum kind kind, const struct given *given, uint64_t i, uint64_t *value)
{
    switch (kind) {
    case SET: return jd_j1_set(c, "a", given->word);
    case TEST: return jd_j1_test(c, "a", given->word);
    case INSERT: return jd_jl_ins(c, "a", given->word, i, value);
    case GET: return jd_jl_get(c, "a", given->word, value);
    default: return jd_js_ins(c, "a", given->key, i, value);
    }
}

static double seconds(struct timeval t)
{
    return (double)t.tv_sec + 1e-6 * (double)t.tv_usec;
}

static int run(const char *path, enum kind kind, uint64_t count, uint64_t batch)
{
    struct timespec start, end;
    struct rusage before, after;
    int *codes = malloc(batch * sizeof *codes);
    uint64_t *values = malloc(batch * sizeof *values);
    struct given *given = malloc(count * sizeof *given);
    jd *c = jd_open(path);
    if (!codes || !values || !given || !c || jd_auth(c, "alice", "abc") != 1)
        return 1;
    for (uint64_t i = 0; i < count; i++)
        given[i] = given_of(kind, i);
    getrusage(RUSAGE_SELF, &before);
    clock_gettime(CLOCK_MONOTONIC, &start);
    for (uint64_t i = 0; i < count;) {
        jd_begin(c, codes, batch);
        for (uint64_t k = 0; k < batch && i < count; k++, i++)
            call(c, kind, &given[i], i, &values[k]);
        if (jd_end(c) != 1)
            return 1;
    }
    clock_gettime(CLOCK_MONOTONIC, &end);
    getrusage(RUSAGE_SELF, &after);
    printf("%.3f %.3f %.3f\n", (double)(end.tv_sec - start.tv_sec) + 1e-9 * (double)(end.tv_nsec - start.tv_nsec),
           seconds(after.ru_utime) - seconds(before.ru_utime), seconds(after.ru_stime) - seconds(before.ru_stime));
    return 0;
}

int main(int count, char **words)
{
    int kind = 0;
    uint64_t calls = count > 4 ? strtoull(words[4], NULL, 10) : 0;
    const char *name = count == 4 ? words[2] : count == 6 ? words[3] : "";
    while (kind < KINDS && strcmp(NAMES[kind], name) != 0)
        kind++;
    if (kind < KINDS && count == 6 && !strcmp(words[1], "run") && atoi(words[5]) > 0)
        return run(words[2], (enum kind)kind, calls, strtoull(words[5], NULL, 10));
    if (kind == KINDS || count != 4 || strcmp(words[1], "lines") != 0) {
        fprintf(stderr, "usage: c_library lines KIND COUNT | run SOCKET KIND COUNT BATCH\n");
        return 2;
    }
    puts("AUTH alice abc");
    for (uint64_t i = 0, n = strtoull(words[3], NULL, 10); i < n; i++) {
        struct given given = given_of((enum kind)kind, i);
        print_line((enum kind)kind, &given, i);
    }
    return 0;
}
