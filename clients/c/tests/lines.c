/* jd_line, jd_fd and jd_version. Ends with status 1 and a line for the first that is wrong.
 *
 * usage: lines session PATH      a judyd with the tenant alice (token abc, read token look)
 *        lines odd PATH          a server that replies `ERR NEW`, `PONG`, 4,096 bytes, 4,097 bytes, one each
 *                                connection, to any line
 *        lines version           prints the versions of the header and of the library */
#define _POSIX_C_SOURCE 200809L

#include <poll.h>
#include <stdio.h>
#include <stdlib.h>
#include <string.h>
#include <sys/socket.h>
#include <sys/un.h>

#include "../judyd.h"
#include "checks.h"

#define SAID(wanted, given) check_text(__LINE__, wanted, given)

static void check_text(int line, const char *wanted, const char *given)
{
    if (strcmp(wanted, given) == 0)
        return;
    fprintf(stderr, "lines.c:%d: wanted %s, got %s\n", line, wanted, given);
    exit(1);
}

/* A line, the code that it returns, and its reply. */
static const struct {
    const char *line;
    int code;
    const char *reply;
} SESSION[] = {
    {"USED", JD_AUTH, "ERR AUTH"},
    {"AUTH alice abc", 1, "OK"},
    {"J1S ids 5", 1, "1"},
    {"J1S ids 5", 1, "0"},
    {"  J1FE  ids 5\r", 1, "1 6"},
    {"JSLI words x74726565 3", 1, "V 0"},
    {"JSLF words x", 1, "V 3 x74726565"},
    {"JLG none 1", 1, "NULL"},
    {"", JD_SYNTAX, "ERR SYNTAX"},
    {"J1X ids 5", JD_SYNTAX, "ERR SYNTAX"},
    {"AUTH alice look", 1, "OK"},
    {"J1S ids 6", JD_READONLY, "ERR READONLY"},
    {"AUTH alice abc", 1, "OK"},
    {"J1FA ids", 1, "N 1"},
    {"JSLD words x74726565", 1, "1"},
    {"PING", 1, "OK"},
    {"HELLO", 1, "JUDYD 1 line 4096 reply 4096 name 32 token 128 key 1000"},
};
enum { LINES = sizeof SESSION / sizeof *SESSION };

/* Lines that the library refuses. The connection goes on. */
static void check_lines_refused(jd *c)
{
    static char long_line[JD_LINE_LIMIT + 2];
    char reply[JD_REPLY_ROOM] = "untouched";
    memset(long_line, 'a', JD_LINE_LIMIT + 1);
    CHECK(JD_LINE, jd_line(c, long_line, reply));
    CHECK(JD_LINE, jd_line(c, "J1S ids 5\nJ1S ids 6", reply));
    CHECK(JD_LINE, jd_line(c, "\n", reply));
    SAID("untouched", reply);
    long_line[JD_LINE_LIMIT] = 0;
    CHECK(JD_SYNTAX, jd_line(c, long_line, reply));
    SAID("ERR SYNTAX", reply);
    CHECK(1, jd_line(c, "J1C ids 0 -1", NULL));
}

static void check_queued_lines(jd *c)
{
    static char replies[LINES][JD_REPLY_ROOM];
    int codes[LINES + 2];
    uint64_t count = 77;
    CHECK(1, jd_begin(c, codes, LINES + 2));
    CHECK(JD_LINE, jd_line(c, "\n", NULL));
    for (int i = 0; i < LINES; i++)
        CHECK(JD_QUEUED, jd_line(c, SESSION[i].line, replies[i]));
    CHECK(JD_QUEUED, jd_j1_count(c, "ids", 0, UINT64_MAX, &count));
    CHECK(JD_LINE, jd_end(c));
    CHECK(JD_LINE, codes[0]);
    for (int i = 1; i < LINES; i++) { /* here somebody is logged in at the first */
        CHECK(SESSION[i].code, codes[i + 1]);
        SAID(SESSION[i].reply, replies[i]);
    }
    CHECK(1, codes[LINES + 1]);
    CHECK(0, (int)count);
}

static void check_session(const char *path)
{
    jd *c = open_at(path);
    char reply[JD_REPLY_ROOM];
    for (int i = 0; i < LINES; i++) {
        CHECK(SESSION[i].code, jd_line(c, SESSION[i].line, reply));
        SAID(SESSION[i].reply, reply);
    }
    check_lines_refused(c);
    check_queued_lines(c);
    struct pollfd ready = {.fd = jd_fd(c), .events = POLLIN};
    CHECK(0, poll(&ready, 1, 0)); /* open, and nothing is there to read */
    CHECK(1, jd_line(c, "QUIT", reply));
    SAID("BYE", reply);
    CHECK(1, poll(&ready, 1, 60000)); /* the server's end is seen */
    CHECK(JD_CLOSED, jd_line(c, "USED", reply));
    SAID("BYE", reply);
    CHECK(-1, jd_fd(c));
    jd_close(c);
}

/* Replies of another server. */
static void check_odd(const char *path)
{
    static char reply[JD_REPLY_ROOM], wanted[JD_REPLY_ROOM];
    jd *c = open_at(path);
    CHECK(JD_REFUSED, jd_line(c, "HELLO", reply));
    SAID("ERR NEW", reply);
    CHECK(1, jd_fd(c) >= 0);
    jd_close(c);
    c = open_at(path);
    CHECK(1, jd_line(c, "PING", reply));
    SAID("PONG", reply);
    jd_close(c);
    memset(wanted, 'a', JD_REPLY_ROOM - 1);
    c = open_at(path);
    CHECK(1, jd_line(c, "LONG", reply));
    SAID(wanted, reply);
    jd_close(c);
    c = open_at(path);
    CHECK(JD_REPLY, jd_line(c, "TOO LONG", reply));
    SAID(wanted, reply);
    jd_close(c);
}

int main(int count, char **words)
{
    if (count == 3 && !strcmp(words[1], "session"))
        check_session(words[2]);
    else if (count == 3 && !strcmp(words[1], "odd"))
        check_odd(words[2]);
    else if (count == 2 && !strcmp(words[1], "version"))
        printf("%s %s\n", JD_VERSION, jd_version());
    else {
        fprintf(stderr, "usage: lines session|odd PATH, lines version\n");
        return 2;
    }
    return 0;
}
