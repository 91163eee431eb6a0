/* What the tests share. A check that fails prints a line with its place, and ends the program with status 1. */
#ifndef JUDYD_CHECKS_H
#define JUDYD_CHECKS_H

#include <stdio.h>
#include <stdlib.h>

#include "../judyd.h"

#define CHECK(wanted, given) check(__FILE__, __LINE__, #given, wanted, given)

static void check(const char *file, int line, const char *what, int wanted, int given)
{
    if (wanted == given)
        return;
    fprintf(stderr, "%s:%d: %s: wanted %d (%s), got %d (%s)\n", file, line, what, wanted, jd_strerror(wanted), given, jd_strerror(given));
    exit(1);
}

/* A connection to a server that is there. */
static jd *open_at(const char *path)
{
    jd *c = jd_open(path);
    if (!c) {
        perror(path);
        exit(1);
    }
    return c;
}

#endif
