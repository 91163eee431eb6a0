/* The example of JudyHS(3), with a map on a judyd: prints each line of its input that came before, with
 * the numbers of both lines. A line has at most
 * 1,000 bytes with its line feed.
 * usage: judyhs SOCKET TENANT TOKEN < LINES */
#define _POSIX_C_SOURCE 200809L

#include <inttypes.h>
#include <stdio.h>
#include <stdlib.h>

#include "judyd.h"

/* Ends the program at a refusal or a fault. Otherwise returns the code. */
static int checked(int code)
{
    if (code < 0) {
        fprintf(stderr, "judyhs: %s\n", jd_strerror(code));
        exit(1);
    }
    return code;
}

/* Prints the lines that came before, and returns how many there are. */
static uint64_t print_again(jd *judyd)
{
    char *line = NULL;
    size_t room = 0;
    uint64_t number = 0, first, again = 0;
    for (ssize_t length; (length = getline(&line, &room, stdin)) > 0;) {
        number++;
        checked(jd_jh_ensure(judyd, "lines", line, (size_t)length, &first));
        if (first) {
            again++;
            printf("%" PRIu64 ":%" PRIu64 ":", first, number);
            fwrite(line, 1, (size_t)length, stdout);
        } else {
            checked(jd_jh_ins(judyd, "lines", line, (size_t)length, number, NULL));
        }
    }
    free(line);
    return again;
}

int main(int count, char **words)
{
    uint64_t again, freed;
    if (count != 4) {
        fprintf(stderr, "usage: judyhs SOCKET TENANT TOKEN < LINES\n");
        return 2;
    }
    jd *judyd = jd_open(words[1]);
    if (!judyd) {
        perror(words[1]);
        return 1;
    }
    checked(jd_auth(judyd, words[2], words[3]));
    again = print_again(judyd);
    checked(jd_jh_free_array(judyd, "lines", &freed));
    printf("%" PRIu64 " lines came again, %" PRIu64 " are different\n", again, freed);
    jd_close(judyd);
    return 0;
}
