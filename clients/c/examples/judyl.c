/* The example of JudyL(3), with a map on a judyd: reads pairs of numbers, prints them in order, then
 * backwards, and deletes each on the way back. The pairs are stored with many calls in flight.
 * usage: judyl SOCKET TENANT TOKEN < PAIRS */
#include <inttypes.h>
#include <stdio.h>
#include <stdlib.h>

#include "judyd.h"

/* Ends the program at a refusal or a fault. Otherwise returns the code. */
static int checked(int code)
{
    if (code < 0) {
        fprintf(stderr, "judyl: %s\n", jd_strerror(code));
        exit(1);
    }
    return code;
}

/* Stores all pairs. Nobody asks for the single results, so there are no places for them. */
static void store(jd *judyd)
{
    uint64_t index, value;
    checked(jd_begin(judyd, NULL, 0));
    while (scanf("%" SCNu64 " %" SCNu64, &index, &value) == 2)
        checked(jd_jl_ins(judyd, "pairs", index, value, NULL));
    checked(jd_end(judyd));
}

static void show(jd *judyd)
{
    uint64_t index = 0, value;
    int found = checked(jd_jl_first(judyd, "pairs", &index, &value));
    while (found) {
        printf("%" PRIu64 " %" PRIu64 "\n", index, value);
        found = checked(jd_jl_next(judyd, "pairs", &index, &value));
    }
}

static void take_back(jd *judyd)
{
    uint64_t index = UINT64_MAX, value;
    int found = checked(jd_jl_last(judyd, "pairs", &index, &value));
    while (found) {
        printf("%" PRIu64 " %" PRIu64 "\n", index, value);
        checked(jd_jl_del(judyd, "pairs", index));
        found = checked(jd_jl_prev(judyd, "pairs", &index, &value));
    }
}

int main(int count, char **words)
{
    if (count != 4) {
        fprintf(stderr, "usage: judyl SOCKET TENANT TOKEN < PAIRS\n");
        return 2;
    }
    jd *judyd = jd_open(words[1]);
    if (!judyd) {
        perror(words[1]);
        return 1;
    }
    checked(jd_auth(judyd, words[2], words[3]));
    store(judyd);
    show(judyd);
    take_back(judyd);
    jd_close(judyd);
    return 0;
}
