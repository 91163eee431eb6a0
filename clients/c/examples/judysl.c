/* The example of JudySL(3), with a map on a judyd: sorts the lines of its input, and keeps duplicates.
 * A line has at most 1,000 bytes.
 * usage: judysl SOCKET TENANT TOKEN < LINES */
#include <inttypes.h>
#include <stdio.h>
#include <stdlib.h>
#include <string.h>

#include "judyd.h"

/* Ends the program at a refusal or a fault. Otherwise returns the code. */
static int checked(int code)
{
    if (code < 0) {
        fprintf(stderr, "judysl: %s\n", jd_strerror(code));
        exit(1);
    }
    return code;
}

/* Counts the lines. One call adds 1, so no line is lost if several programs count at once. */
static void count_lines(jd *judyd)
{
    char line[JD_KEY_ROOM + 1];
    while (fgets(line, sizeof line, stdin)) {
        line[strcspn(line, "\n")] = 0;
        checked(jd_js_add(judyd, "lines", line, 1, NULL));
    }
}

/* Prints each line as often as it came, in order. */
static void show(jd *judyd)
{
    char line[JD_KEY_ROOM] = "";
    uint64_t copies;
    int found = checked(jd_js_first(judyd, "lines", line, &copies));
    while (found) {
        while (copies--)
            puts(line);
        found = checked(jd_js_next(judyd, "lines", line, &copies));
    }
}

int main(int count, char **words)
{
    uint64_t freed;
    if (count != 4) {
        fprintf(stderr, "usage: judysl SOCKET TENANT TOKEN < LINES\n");
        return 2;
    }
    jd *judyd = jd_open(words[1]);
    if (!judyd) {
        perror(words[1]);
        return 1;
    }
    checked(jd_auth(judyd, words[2], words[3]));
    count_lines(judyd);
    show(judyd);
    checked(jd_js_free_array(judyd, "lines", &freed));
    fprintf(stderr, "%" PRIu64 " different lines\n", freed);
    jd_close(judyd);
    return 0;
}
