/* The example of Judy1(3), with a set on a judyd: sets, tests, counts, finds and unsets a bit.
 * usage: judy1 SOCKET TENANT TOKEN */
#include <inttypes.h>
#include <stdio.h>
#include <stdlib.h>

#include "judyd.h"

/* Ends the program at a refusal or a fault, as libjudy's JUDYERROR does. Otherwise returns the code. */
static int checked(int code)
{
    if (code < 0) {
        fprintf(stderr, "judy1: %s\n", jd_strerror(code));
        exit(1);
    }
    return code;
}

static void show(jd *judyd)
{
    uint64_t index = 123456, count;

    if (checked(jd_j1_set(judyd, "bits", index)))
        printf("%" PRIu64 " is new\n", index);
    else
        printf("%" PRIu64 " was there before\n", index);

    index = 654321;
    printf("%" PRIu64 " is %s\n", index, checked(jd_j1_test(judyd, "bits", index)) ? "there" : "not there");

    checked(jd_j1_count(judyd, "bits", 0, UINT64_MAX, &count));
    printf("the set has %" PRIu64 " entries\n", count);

    index = 0;
    if (checked(jd_j1_first(judyd, "bits", &index)))
        printf("the first is %" PRIu64 "\n", index);
    else
        printf("there is no first\n");

    index = 123456;
    printf("%" PRIu64 " is %s\n", index, checked(jd_j1_unset(judyd, "bits", index)) ? "removed" : "not there");
}

int main(int count, char **words)
{
    if (count != 4) {
        fprintf(stderr, "usage: judy1 SOCKET TENANT TOKEN\n");
        return 2;
    }
    jd *judyd = jd_open(words[1]);
    if (!judyd) {
        perror(words[1]);
        return 1;
    }
    checked(jd_auth(judyd, words[2], words[3]));
    show(judyd);
    jd_close(judyd);
    return 0;
}
