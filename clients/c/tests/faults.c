/* Refusals and faults: the code of each, and that nothing is stored where no result came. Ends with
 * status 1 and a line for the first that is wrong.
 *
 * usage: faults replies FOLDER     replies of a server of this program, good and bad, in any pieces
 *        faults absent FOLDER      sockets without a server
 *        faults signals FOLDER     servers that are silent or busy, while signals come (compiled with a
 *                                  JD_PATIENCE of 500)
 *        faults refusals PATH      a judyd with tenants: alice (token abc, read token look), small
 *                                  (token abc, 2 entries, 4 pieces)
 *        faults restart PATH       a judyd that is restarted when this program has printed a line; then
 *                                  it gets a line
 *        faults adds PATH          the same judyd: additions, and calls that decide by a value
 *        faults flood PATH CALLS   many calls with long lines and long replies in flight */
#define _POSIX_C_SOURCE 200809L

#include <errno.h>
#include <fcntl.h>
#include <pthread.h>
#include <signal.h>
#include <stdio.h>
#include <stdlib.h>
#include <string.h>
#include <sys/socket.h>
#include <sys/time.h>
#include <sys/un.h>
#include <time.h>
#include <unistd.h>

#include "../judyd.h"
#include "checks.h"

enum { UNTOUCHED = 77 };

static jd *log_in(const char *path, const char *tenant, const char *token)
{
    jd *c = open_at(path);
    CHECK(1, jd_auth(c, tenant, token));
    return c;
}

/* ---- a server of this program ---- */

/* What the server does with one connection: after each line it writes the next reply, in pieces of this
 * size. After the last it closes, or is silent until the client closes. */
struct script {
    int listener;
    const char *const *replies; /* up to a null pointer */
    size_t piece;
    int is_silent;
    int pause; /* milliseconds before each reply */
};

static int listen_at(const char *path)
{
    struct sockaddr_un address = {.sun_family = AF_UNIX};
    int fd = socket(AF_UNIX, SOCK_STREAM, 0);
    snprintf(address.sun_path, sizeof address.sun_path, "%s", path);
    unlink(path);
    if (fd < 0 || bind(fd, (struct sockaddr *)&address, sizeof address) || listen(fd, 8)) {
        perror(path);
        exit(2);
    }
    return fd;
}

/* Reads up to a line feed. Whether there was one. */
static int read_line(int client)
{
    char byte = 0;
    while (byte != '\n')
        if (read(client, &byte, 1) != 1)
            return 0;
    return 1;
}

static void write_pieces(int client, const char *bytes, size_t piece)
{
    size_t length = strlen(bytes);
    for (size_t sent = 0; sent < length; sent += piece)
        if (send(client, bytes + sent, length - sent < piece ? length - sent : piece, MSG_NOSIGNAL) < 0)
            return;
}

static void *serve(void *given)
{
    struct script *s = given;
    int client = accept(s->listener, NULL, NULL);
    struct timespec pause = {.tv_nsec = 1000000L * s->pause};
    for (const char *const *reply = s->replies; *reply && read_line(client); reply++) {
        nanosleep(&pause, NULL);
        write_pieces(client, *reply, s->piece);
    }
    while (s->is_silent && read_line(client))
        ;
    close(client);
    return NULL;
}

/* Starts the server for one connection, and connects. */
static jd *with_server(const char *path, struct script *s, pthread_t *thread)
{
    if (pthread_create(thread, NULL, serve, s) != 0)
        exit(2);
    return open_at(path);
}

/* ---- replies ---- */

enum kind { SET, INSERT, ADD, GET, COUNT, SEARCH, ITEM, STRING, USED, LOG_IN };

static const struct {
    enum kind kind;
    const char *reply; /* without its line feed */
    int wanted;
} REPLIES[] = {
    {SET, "1", 1},
    {SET, "0", 0},
    {SET, "FULL", JD_FULL},
    {SET, "ERR MEMORY", JD_MEMORY},
    {SET, "ERR READONLY", JD_READONLY},
    {SET, "ERR AUTH", JD_AUTH},
    {SET, "ERR SYNTAX", JD_SYNTAX},
    {SET, "ERR LONG", JD_LONG},
    {SET, "ERR FROZEN", JD_FROZEN},
    {SET, "ERR JOURNAL", JD_JOURNAL},
    {SET, "ERR NEW", JD_REFUSED},
    {SET, "ERR ", JD_REFUSED},
    {SET, "ERRNEW", JD_REPLY},
    {SET, "", JD_REPLY},
    {SET, "2", JD_REPLY},
    {SET, "1 5", JD_REPLY},
    {SET, "1\r", JD_REPLY},
    {SET, "ERR", JD_REPLY},
    {SET, "NULL", JD_REPLY},
    {SET, "OK", JD_REPLY},
    {INSERT, "V 5", 1},
    {INSERT, "V 18446744073709551615", 1},
    {INSERT, "V 18446744073709551616", JD_REPLY},
    {INSERT, "V 99999999999999999999999", JD_REPLY},
    {INSERT, "V ", JD_REPLY},
    {INSERT, "V", JD_REPLY},
    {INSERT, "V -1", JD_REPLY},
    {INSERT, "V 5 6", JD_REPLY},
    {INSERT, "NULL", JD_REPLY},
    {ADD, "V 5", 1},
    {ADD, "NULL", JD_REPLY},
    {ADD, "FULL", JD_FULL},
    {ADD, "ERR SYNTAX", JD_SYNTAX},
    {GET, "NULL", 0},
    {GET, "V 5", 1},
    {GET, "0", JD_REPLY},
    {COUNT, "N 5", 1},
    {COUNT, "N 5 ", JD_REPLY},
    {COUNT, "N", JD_REPLY},
    {COUNT, "0", JD_REPLY},
    {SEARCH, "1 5", 1},
    {SEARCH, "0", 0},
    {SEARCH, "1", JD_REPLY},
    {SEARCH, "1 5 6", JD_REPLY},
    {SEARCH, "V 5", JD_REPLY},
    {ITEM, "V 5 5", 1},
    {ITEM, "NULL", 0},
    {ITEM, "V 5", JD_REPLY},
    {ITEM, "V 5 5 5", JD_REPLY},
    {ITEM, "V 5 x05", JD_REPLY},
    {STRING, "V 5 x616263", 1},
    {STRING, "NULL", 0},
    {STRING, "V 5", JD_REPLY},
    {STRING, "V 5 x61626", JD_REPLY},
    {STRING, "V 5 x610062", JD_REPLY},
    {STRING, "V 5 x61626g", JD_REPLY},
    {STRING, "V 5 616263", JD_REPLY},
    {STRING, "V 5 x616263 ", JD_REPLY},
    {USED, "Q 5 5 5 5", 1},
    {USED, "Q 5 5 5", JD_REPLY},
    {USED, "Q 5 5 5 5 5", JD_REPLY},
    {USED, "N 5", JD_REPLY},
    {LOG_IN, "OK", 1},
    {LOG_IN, "1", JD_REPLY},
    {LOG_IN, "ERR AUTH", JD_AUTH},
    {LOG_IN, "ERR CLIENTS", JD_CLIENTS},
};

/* Makes a call of a kind. Checks that its results are stored if it returns 1, and otherwise not. */
static int call(jd *c, enum kind kind)
{
    uint64_t index = UNTOUCHED, value = UNTOUCHED, stored;
    char key[JD_KEY_ROOM] = "untouched";
    struct jd_usage usage = {.quota = UNTOUCHED};
    int code;
    switch (kind) {
    case SET: return jd_j1_set(c, "a", 1);
    case LOG_IN: return jd_auth(c, "alice", "abc");
    case INSERT: code = jd_jl_ins(c, "a", 1, 2, &value), stored = value; break;
    case ADD: code = jd_jh_add(c, "a", "k", 1, 2, &value), stored = value; break;
    case GET: code = jd_jl_get(c, "a", 1, &value), stored = value; break;
    case COUNT: code = jd_j1_count(c, "a", 1, 2, &value), stored = value; break;
    case SEARCH: code = jd_j1_first(c, "a", &index), stored = index; break;
    case ITEM:
        code = jd_jl_first(c, "a", &index, &value), stored = value;
        CHECK(1, index == value);
        break;
    case STRING:
        code = jd_js_first(c, "a", key, &value), stored = value;
        CHECK(0, strcmp(key, code == 1 ? "abc" : "untouched"));
        break;
    default: code = jd_used(c, &usage), stored = usage.quota;
    }
    CHECK(code == 1, stored == 5 || stored == UINT64_MAX);
    CHECK(code != 1, stored == UNTOUCHED);
    return code;
}

/* A reply, whole or byte by byte. After a bad one the connection is closed. After others the next call
 * gets its own reply. */
static void check_reply(const char *path, int listener, size_t number, size_t piece)
{
    char reply[100];
    const char *replies[] = {reply, "N 9\n", NULL};
    struct script s = {.listener = listener, .replies = replies, .piece = piece};
    pthread_t thread;
    uint64_t count = UNTOUCHED;
    snprintf(reply, sizeof reply, "%s\n", REPLIES[number].reply);
    jd *c = with_server(path, &s, &thread);
    CHECK(REPLIES[number].wanted, call(c, REPLIES[number].kind));
    CHECK(REPLIES[number].wanted == JD_REPLY ? JD_CLOSED : 1, jd_jl_count(c, "a", 1, 2, &count));
    CHECK(REPLIES[number].wanted == JD_REPLY ? UNTOUCHED : 9, (int)count);
    jd_close(c);
    pthread_join(thread, NULL);
}

/* A reply without its line feed, and then the end. */
static void check_cut_reply(const char *path, int listener, size_t number)
{
    const char *replies[] = {REPLIES[number].reply, NULL};
    struct script s = {.listener = listener, .replies = replies, .piece = 100};
    pthread_t thread;
    jd *c = with_server(path, &s, &thread);
    CHECK(JD_CLOSED, call(c, REPLIES[number].kind));
    CHECK(JD_CLOSED, call(c, REPLIES[number].kind));
    jd_close(c);
    pthread_join(thread, NULL);
}

/* A silent server is left after the time that the client gives. */
static void check_silence(const char *path, int listener)
{
    const char *replies[] = {"1\n", NULL};
    struct script s = {.listener = listener, .replies = replies, .piece = 9, .is_silent = 1};
    struct timespec start, end;
    pthread_t thread;
    jd *c = with_server(path, &s, &thread);
    CHECK(1, jd_j1_set(c, "a", 1));
    jd_timeout(c, 300);
    clock_gettime(CLOCK_MONOTONIC, &start);
    CHECK(JD_TIMEOUT, jd_j1_set(c, "a", 1));
    clock_gettime(CLOCK_MONOTONIC, &end);
    double seconds = (double)(end.tv_sec - start.tv_sec) + 1e-9 * (double)(end.tv_nsec - start.tv_nsec);
    CHECK(1, seconds > 0.29 && seconds < 20);
    CHECK(JD_CLOSED, jd_j1_set(c, "a", 1));
    jd_close(c);
    pthread_join(thread, NULL);
}

/* A server that answers some of many queued calls, and then closes with the rest unread, or gives one
 * bad reply. The answered calls have their results, the others the code of the fault. */
static void check_lost_queue(const char *path, int listener, const char *last, int wanted)
{
    enum { CALLS = 20000, ANSWERED = 4 };
    static int codes[CALLS];
    const char *replies[] = {"1\n", "0\n", "FULL\n", "1\n", last, NULL};
    static const int answers[ANSWERED] = {1, 0, JD_FULL, 1};
    struct script s = {.listener = listener, .replies = replies, .piece = 1};
    pthread_t thread;
    jd *c = with_server(path, &s, &thread);
    CHECK(1, jd_begin(c, codes, CALLS));
    for (int i = 0; i < CALLS; i++) {
        codes[i] = UNTOUCHED;
        int code = jd_j1_set(c, "a", (uint64_t)i);
        CHECK(1, code == JD_QUEUED || code == wanted || code == JD_CLOSED);
    }
    CHECK(wanted, jd_end(c)); /* though a call before was refused */
    for (int i = 0; i < CALLS; i++)
        CHECK(1, i < ANSWERED ? codes[i] == answers[i] : codes[i] == wanted || (i > ANSWERED && codes[i] == JD_CLOSED));
    CHECK(wanted, codes[ANSWERED]);
    CHECK(JD_CLOSED, jd_j1_set(c, "a", 1));
    CHECK(1, jd_begin(c, codes, CALLS)); /* the queue after it tells that nothing was sent */
    CHECK(JD_NAME, jd_j1_set(c, "", 1));
    CHECK(JD_CLOSED, jd_j1_set(c, "a", 1));
    CHECK(JD_CLOSED, jd_end(c));
    jd_close(c);
    pthread_join(thread, NULL);
}

/* A reply without an end, and one that no call waits for. */
static void check_odd_streams(const char *path, int listener)
{
    static char endless[6000];
    const char *replies[] = {endless, NULL}, *more[] = {"1\n1\n", NULL};
    struct script s = {.listener = listener, .replies = replies, .piece = 6000, .is_silent = 1};
    pthread_t thread;
    memset(endless, '1', sizeof endless - 1);
    jd *c = with_server(path, &s, &thread);
    CHECK(JD_REPLY, jd_j1_set(c, "a", 1));
    jd_close(c);
    pthread_join(thread, NULL);
    s.replies = more;
    c = with_server(path, &s, &thread);
    CHECK(1, jd_j1_set(c, "a", 1));
    CHECK(JD_CLOSED, jd_j1_set(c, "a", 1));
    jd_close(c);
    pthread_join(thread, NULL);
}

/* Replies that come in parts which begin and end within a reply. */
static void check_parts(const char *path, int listener)
{
    static const int wanted[] = {1, 0, JD_FULL, JD_READONLY, 1};
    const char *replies[] = {"1\n0\nFU", "LL\nERR REA", "DONL", "Y\n1", "\n", NULL};
    struct script s = {.listener = listener, .replies = replies, .piece = 100, .pause = 50};
    int codes[5] = {0};
    pthread_t thread;
    jd *c = with_server(path, &s, &thread);
    CHECK(1, jd_begin(c, codes, 5));
    for (int i = 0; i < 5; i++)
        CHECK(JD_QUEUED, jd_j1_set(c, "a", 1));
    CHECK(JD_FULL, jd_end(c));
    CHECK(0, memcmp(codes, wanted, sizeof codes));
    jd_close(c);
    pthread_join(thread, NULL);
}

/* jd_close closes the socket, which programs that this one starts do not have, and answers what waits. */
static void check_close(const char *path, int listener)
{
    const char *replies[] = {NULL};
    struct script s = {.listener = listener, .replies = replies, .is_silent = 1};
    int code = UNTOUCHED, next = dup(listener);
    pthread_t thread;
    close(next);
    jd *c = open_at(path); /* its socket has this number */
    if (pthread_create(&thread, NULL, serve, &s) != 0)
        exit(2);
    CHECK(1, jd_begin(c, &code, 1));
    CHECK(JD_QUEUED, jd_j1_set(c, "a", 1));
    CHECK(FD_CLOEXEC, fcntl(next, F_GETFD));
    jd_close(c);
    CHECK(JD_CLOSED, code);
    pthread_join(thread, NULL); /* the server sees the end */
}

static void check_replies(const char *folder)
{
    char path[100];
    snprintf(path, sizeof path, "%s/replies", folder);
    int listener = listen_at(path);
    for (size_t i = 0; i < sizeof REPLIES / sizeof *REPLIES; i++) {
        check_reply(path, listener, i, 100);
        check_reply(path, listener, i, 1);
        check_cut_reply(path, listener, i);
    }
    check_silence(path, listener);
    check_lost_queue(path, listener, NULL, JD_CLOSED);
    check_lost_queue(path, listener, "?\n", JD_REPLY);
    check_odd_streams(path, listener);
    check_parts(path, listener);
    check_close(path, listener);
    close(listener);
}

/* ---- no server ---- */

static void check_absent(const char *folder)
{
    char path[300];
    snprintf(path, sizeof path, "%s/nowhere", folder);
    CHECK(1, jd_open(path) == NULL && errno == ENOENT);
    snprintf(path, sizeof path, "%s/stale", folder);
    close(listen_at(path));
    CHECK(1, jd_open(path) == NULL && errno == ECONNREFUSED);
    memset(path, 'a', sizeof path - 1);
    path[sizeof path - 1] = 0;
    CHECK(1, jd_open(path) == NULL && errno == ENAMETOOLONG);
    jd_close(NULL);
}

/* ---- signals ---- */

enum { SIGNAL_PAUSE = 50, SIGNALS = 600 }; /* milliseconds; so they come for half a minute */
static volatile sig_atomic_t signals_left;

/* Counts a signal. After the last one no more come. */
static void take_signal(int number)
{
    (void)number;
    if (signals_left && --signals_left == 0)
        setitimer(ITIMER_REAL, &(struct itimerval){0}, NULL);
}

static void start_signals(void)
{
    struct timeval pause = {.tv_usec = 1000 * SIGNAL_PAUSE};
    struct sigaction action = {.sa_handler = take_signal}; /* without SA_RESTART */
    signals_left = SIGNALS;
    if (sigaction(SIGALRM, &action, NULL) || setitimer(ITIMER_REAL, &(struct itimerval){pause, pause}, NULL))
        exit(2);
}

/* Whether some signals came, and not all. */
static int stop_signals(void)
{
    setitimer(ITIMER_REAL, &(struct itimerval){0}, NULL);
    return signals_left > 0 && signals_left < SIGNALS;
}

/* Waits end in their time although signals interrupt them more often than that. */
static void check_signals(const char *folder)
{
    char path[100];
    int crowd[100], count = 0;
    snprintf(path, sizeof path, "%s/busy", folder);
    int listener = listen_at(path);
    struct sockaddr_un address = {.sun_family = AF_UNIX};
    jd *c = open_at(path); /* nobody ever accepts */
    jd_timeout(c, 500);
    start_signals();
    CHECK(JD_TIMEOUT, jd_j1_set(c, "a", 1));
    CHECK(1, stop_signals());
    jd_close(c);
    strcpy(address.sun_path, path);
    do { /* fills the queue of those that wait to be accepted */
        crowd[count] = socket(AF_UNIX, SOCK_STREAM, 0);
        fcntl(crowd[count], F_SETFL, O_NONBLOCK);
    } while (connect(crowd[count], (struct sockaddr *)&address, sizeof address) == 0 && ++count < 99);
    start_signals();
    CHECK(1, jd_open(path) == NULL && errno == EAGAIN);
    CHECK(1, stop_signals());
    for (; count >= 0; count--)
        close(crowd[count]);
    close(listener);
}

/* ---- refusals ---- */

static void check_names(jd *c)
{
    static const char *const bad[] = {"", " ", "a b", "a/b", "a\n", "\xc3\xa4", "abcdefghijklmnopqrstuvwxyz0123456", "a\x7f", "@", "[", "`", "{", "/", ":"};
    uint64_t index = 1;
    char key[JD_KEY_ROOM] = "k";
    for (size_t i = 0; i < sizeof bad / sizeof *bad; i++) {
        CHECK(JD_NAME, jd_j1_set(c, bad[i], 1));
        CHECK(JD_NAME, jd_j1_first(c, bad[i], &index));
        CHECK(JD_NAME, jd_jl_count(c, bad[i], 1, 2, NULL));
        CHECK(JD_NAME, jd_jl_free_array(c, bad[i], NULL));
        CHECK(JD_NAME, jd_js_next(c, bad[i], key, NULL));
        CHECK(JD_NAME, jd_jh_ins(c, bad[i], "k", 1, 1, NULL));
        CHECK(JD_NAME, jd_auth(c, bad[i], "abc"));
    }
    static const char *const good[] = {"abcdefghijklmnopqrstuvwxyz012345", "ABCDEFGHIJKLMNOPQRSTUVWXYZ", "6789_-."};
    for (size_t i = 0; i < sizeof good / sizeof *good; i++) {
        CHECK(1, jd_j1_set(c, good[i], 1));
        CHECK(1, jd_j1_unset(c, good[i], 1));
    }
}

static void check_tokens(jd *c)
{
    char token[130];
    memset(token, 'a', 129);
    token[129] = 0;
    CHECK(JD_TOKEN, jd_auth(c, "alice", token));
    CHECK(JD_TOKEN, jd_auth(c, "alice", ""));
    CHECK(JD_TOKEN, jd_auth(c, "alice", "a b"));
    CHECK(JD_TOKEN, jd_auth(c, "alice", "a\nQUIT"));
    CHECK(JD_TOKEN, jd_auth(c, "alice", "\x7f"));
    CHECK(JD_TOKEN, jd_auth(c, "alice", "\xe4"));
    CHECK(0, jd_j1_test(c, "a", 1)); /* still logged in */
    token[128] = 0;
    CHECK(JD_AUTH, jd_auth(c, "alice", token));
    CHECK(JD_AUTH, jd_j1_test(c, "a", 1));
    CHECK(JD_AUTH, jd_auth(c, "nobody", "abc"));
    CHECK(1, jd_auth(c, "alice", "abc"));
}

/* Keys of 1,000 and of 1,001 bytes. */
static void check_keys(jd *c)
{
    char key[JD_KEY_LIMIT + 2], found[JD_KEY_ROOM] = "";
    uint64_t value;
    memset(key, 'k', sizeof key);
    key[JD_KEY_LIMIT + 1] = 0;
    CHECK(JD_KEY, jd_js_ins(c, "a", key, 1, NULL));
    CHECK(JD_KEY, jd_js_get(c, "a", key, NULL));
    CHECK(JD_KEY, jd_js_del(c, "a", key));
    CHECK(JD_KEY, jd_js_first(c, "a", key, NULL));
    CHECK(JD_KEY, jd_jh_ins(c, "a", key, JD_KEY_LIMIT + 1, 1, NULL));
    CHECK(JD_KEY, jd_jh_get(c, "a", key, SIZE_MAX, NULL));
    CHECK(1, jd_jh_ins(c, "a", key, JD_KEY_LIMIT, 5, NULL));
    key[JD_KEY_LIMIT] = 0;
    CHECK(1, jd_js_ins(c, "a", key, 5, NULL));
    CHECK(1, jd_js_first(c, "a", found, &value));
    CHECK(0, strcmp(found, key));
    CHECK(5, (int)value);
    CHECK(1, jd_jh_get(c, "a", key, JD_KEY_LIMIT, &value));
    CHECK(0, jd_jh_get(c, "a", key, 0, &value));
    CHECK(1, jd_jh_ins(c, "a", NULL, 0, 6, NULL));
    CHECK(1, jd_jh_del(c, "a", "", 0));
    CHECK(1, jd_jh_free_array(c, "a", &value));
    CHECK(1, jd_js_free_array(c, "a", &value));
}

/* Results that nobody wants. */
static void check_null(jd *c)
{
    uint64_t index = 0;
    char key[JD_KEY_ROOM] = "";
    CHECK(1, jd_jl_ins(c, "a", 5, 1, NULL));
    CHECK(1, jd_jl_get(c, "a", 5, NULL));
    CHECK(1, jd_jl_count(c, "a", 0, UINT64_MAX, NULL));
    CHECK(1, jd_jl_by_count(c, "a", 1, NULL, NULL));
    CHECK(1, jd_jl_first(c, "a", &index, NULL));
    CHECK(5, (int)index);
    CHECK(1, jd_j1_set(c, "a", 5));
    CHECK(1, jd_j1_by_count(c, "a", 1, NULL));
    CHECK(1, jd_js_ins(c, "a", "k", 1, NULL));
    CHECK(1, jd_js_first(c, "a", key, NULL));
    CHECK(0, strcmp(key, "k"));
    CHECK(1, jd_used(c, NULL));
    CHECK(1, jd_jl_free_array(c, "a", NULL));
    CHECK(1, jd_j1_free_array(c, "a", NULL));
    CHECK(1, jd_js_free_array(c, "a", NULL));
}

static void check_rights(const char *path)
{
    jd *c = open_at(path);
    uint64_t value = UNTOUCHED;
    struct jd_usage usage;
    CHECK(JD_AUTH, jd_j1_set(c, "a", 1));
    CHECK(JD_AUTH, jd_used(c, &usage));
    CHECK(1, jd_ping(c));
    CHECK(1, jd_auth(c, "alice", "look"));
    CHECK(1, jd_ping(c));
    CHECK(JD_READONLY, jd_j1_set(c, "a", 1));
    CHECK(JD_READONLY, jd_jl_ins(c, "a", 1, 1, &value));
    CHECK(JD_READONLY, jd_js_ensure(c, "a", "k", &value));
    CHECK(JD_READONLY, jd_jh_del(c, "a", "k", 1));
    CHECK(JD_READONLY, jd_j1_free_array(c, "a", &value));
    CHECK(UNTOUCHED, (int)value);
    CHECK(0, jd_jl_get(c, "a", 1, &value));
    CHECK(1, jd_used(c, &usage));
    CHECK(1, usage.used == 0 && usage.quota == 1000000 && usage.pieces == 0 && usage.most == 126000000);
    jd_close(c);
}

static void check_quotas(const char *path)
{
    jd *c = log_in(path, "small", "abc");
    uint64_t value = UNTOUCHED;
    struct jd_usage usage;
    CHECK(1, jd_jh_ins(c, "a", "12345678", 8, 1, NULL)); /* two pieces */
    CHECK(JD_FULL, jd_js_ins(c, "a", "1234567890123456", 1, &value));
    CHECK(1, jd_jl_ins(c, "a", 1, 1, NULL));
    CHECK(JD_FULL, jd_j1_set(c, "a", 1));
    CHECK(JD_FULL, jd_jl_ensure(c, "a", 2, &value));
    CHECK(UNTOUCHED, (int)value);
    CHECK(1, jd_used(c, &usage));
    CHECK(1, usage.used == 2 && usage.quota == 2 && usage.pieces == 3 && usage.most == 4);
    CHECK(1, jd_jl_del(c, "a", 1));
    CHECK(1, jd_jh_del(c, "a", "12345678", 8));
    jd_close(c);
}

/* Queued calls: each has its code in its place, also those that are refused here. */
static void check_queue(jd *c)
{
    int codes[6] = {UNTOUCHED, UNTOUCHED, UNTOUCHED, UNTOUCHED, UNTOUCHED, UNTOUCHED};
    uint64_t value = UNTOUCHED;
    struct jd_usage usage;
    CHECK(JD_USE, jd_end(c));
    CHECK(1, jd_begin(c, codes, 5));
    CHECK(JD_USE, jd_begin(c, codes, 5));
    CHECK(JD_QUEUED, jd_jl_ins(c, "a", 1, 5, &value));
    CHECK(JD_NAME, jd_j1_set(c, "", 1));
    CHECK(JD_QUEUED, jd_auth(c, "alice", "wrong"));
    CHECK(JD_QUEUED, jd_used(c, &usage));
    CHECK(JD_QUEUED, jd_auth(c, "alice", "abc"));
    CHECK(JD_ROOM, jd_jl_get(c, "a", 1, &value));
    CHECK(JD_ROOM, jd_jl_get(c, "/", 1, &value));
    CHECK(JD_NAME, jd_end(c)); /* the first refusal */
    CHECK(1, codes[0] == 1 && codes[1] == JD_NAME && codes[2] == JD_AUTH && codes[3] == JD_AUTH && codes[4] == 1 && codes[5] == UNTOUCHED);
    CHECK(0, (int)value);
    CHECK(JD_USE, jd_end(c));
    CHECK(1, jd_begin(c, NULL, 0));
    CHECK(JD_QUEUED, jd_auth(c, "alice", "wrong")); /* the first refusal, though the next is known before */
    CHECK(JD_NAME, jd_j1_set(c, "", 1));
    CHECK(JD_QUEUED, jd_auth(c, "alice", "abc"));
    CHECK(JD_AUTH, jd_end(c));
    CHECK(1, jd_begin(c, NULL, 0)); /* without places for the codes */
    CHECK(JD_QUEUED, jd_jl_get(c, "a", 1, &value));
    CHECK(1, jd_end(c));
    CHECK(5, (int)value);
    CHECK(1, jd_begin(c, codes, 5));
    CHECK(1, jd_end(c)); /* no call at all */
    CHECK(1, jd_jl_del(c, "a", 1));
    CHECK(1, jd_begin(c, NULL, 0));
    CHECK(JD_QUEUED, jd_jl_del(c, "a", 1)); /* closed with a call that waits */
}

static void check_refusals(const char *path)
{
    jd *c = log_in(path, "alice", "abc");
    check_names(c);
    check_tokens(c);
    check_keys(c);
    check_null(c);
    check_queue(c);
    jd_close(c);
    check_rights(path);
    check_quotas(path);
}

/* ---- additions ---- */

static void check_adds(const char *path)
{
    jd *c = log_in(path, "small", "abc");
    char key[JD_KEY_LIMIT + 2];
    uint64_t value = UNTOUCHED;
    memset(key, 'k', sizeof key);
    key[JD_KEY_LIMIT + 1] = 0;
    CHECK(JD_KEY, jd_js_add(c, "a", key, 1, &value));
    CHECK(JD_KEY, jd_jh_add(c, "a", key, JD_KEY_LIMIT + 1, 1, &value));
    CHECK(JD_NAME, jd_jl_add(c, "", 1, 1, &value));
    CHECK(UNTOUCHED, (int)value);
    CHECK(1, jd_jl_add(c, "a", 1, UINT64_MAX, &value)); /* a new entry */
    CHECK(1, value == UINT64_MAX);
    CHECK(1, jd_jl_add(c, "a", 1, 3, &value)); /* past the greatest word */
    CHECK(2, (int)value);
    CHECK(1, jd_jh_add(c, "a", "k", 1, 0, &value));
    CHECK(0, (int)value);
    CHECK(JD_FULL, jd_js_add(c, "a", "k", 1, &value));
    CHECK(1, jd_jl_add(c, "a", 1, 5, NULL)); /* no new entry */
    CHECK(1, jd_jl_get(c, "a", 1, &value));
    CHECK(7, (int)value);
    CHECK(1, jd_jl_del(c, "a", 1));
    CHECK(1, jd_jh_del(c, "a", "k", 1));
    jd_close(c);
    c = log_in(path, "alice", "look");
    CHECK(JD_READONLY, jd_js_add(c, "a", "k", 1, &value));
    jd_close(c);
}

/* ---- calls that decide by a value ---- */

static void check_decisions(const char *path)
{
    jd *c = log_in(path, "small", "abc");
    char key[JD_KEY_LIMIT + 2];
    uint64_t value = UNTOUCHED;
    memset(key, 'k', sizeof key);
    key[JD_KEY_LIMIT + 1] = 0;
    CHECK(JD_KEY, jd_js_keep(c, "a", key, 1, &value));
    CHECK(JD_KEY, jd_jh_exchange(c, "a", key, JD_KEY_LIMIT + 1, 1, 2, &value));
    CHECK(JD_NAME, jd_jl_take(c, "", 1, &value));
    CHECK(JD_NAME, jd_jl_del_if(c, "/", 1, 1));
    CHECK(0, jd_jl_keep(c, "a", 1, 5, &value)); /* a new entry */
    CHECK(0, jd_jl_exchange(c, "a", 2, 0, 5, &value)); /* an absent index has no value */
    CHECK(0, jd_jl_take(c, "a", 2, &value));
    CHECK(UNTOUCHED, (int)value);
    CHECK(1, jd_jl_keep(c, "a", 1, 6, &value));
    CHECK(5, (int)value);
    CHECK(0, jd_jh_keep(c, "a", "k", 1, 7, NULL));
    CHECK(JD_FULL, jd_js_keep(c, "a", "k", 1, &value));
    CHECK(1, jd_jh_exchange(c, "a", "k", 1, 7, UINT64_MAX, NULL));
    CHECK(1, jd_jh_exchange(c, "a", "k", 1, 7, 1, &value)); /* it is another one by now */
    CHECK(1, value == UINT64_MAX);
    CHECK(0, jd_jh_del_if(c, "a", "k", 1, 7));
    CHECK(1, jd_jh_del_if(c, "a", "k", 1, UINT64_MAX));
    CHECK(1, jd_jl_take(c, "a", 1, &value));
    CHECK(5, (int)value);
    CHECK(0, jd_jl_take(c, "a", 1, NULL));
    jd_close(c);
    c = log_in(path, "alice", "look");
    CHECK(JD_READONLY, jd_js_keep(c, "a", "k", 1, &value));
    CHECK(JD_READONLY, jd_js_exchange(c, "a", "k", 1, 2, &value));
    CHECK(JD_READONLY, jd_js_take(c, "a", "k", &value));
    CHECK(JD_READONLY, jd_js_del_if(c, "a", "k", 1));
    jd_close(c);
}

/* ---- a server that is restarted ---- */

static void check_restart(const char *path)
{
    jd *plain = log_in(path, "alice", "abc"), *queued = log_in(path, "alice", "abc");
    int codes[2] = {UNTOUCHED, UNTOUCHED};
    CHECK(1, jd_j1_set(plain, "a", 1));
    puts("ready");
    fflush(stdout);
    if (getchar() != '\n')
        exit(2);
    CHECK(JD_CLOSED, jd_j1_set(plain, "a", 2));
    CHECK(JD_CLOSED, jd_j1_test(plain, "a", 1));
    CHECK(1, jd_begin(queued, codes, 2));
    jd_j1_set(queued, "a", 3);
    jd_j1_set(queued, "a", 4);
    CHECK(JD_CLOSED, jd_end(queued));
    CHECK(1, codes[0] == JD_CLOSED && codes[1] == JD_CLOSED);
    jd_close(queued);
    jd_close(plain);
    plain = log_in(path, "alice", "abc");
    CHECK(0, jd_j1_test(plain, "a", 1));
    jd_close(plain);
}

/* ---- many long lines and replies in flight ---- */

static void check_flood(const char *path, size_t calls)
{
    jd *c = log_in(path, "alice", "abc");
    char (*keys)[JD_KEY_ROOM] = malloc(calls * sizeof *keys), key[JD_KEY_ROOM];
    int *codes = malloc(calls * sizeof *codes);
    if (!keys || !codes)
        exit(2);
    memset(key, 'k', JD_KEY_LIMIT);
    key[JD_KEY_LIMIT] = 0;
    CHECK(1, jd_js_ins(c, "a", key, 1, NULL));
    CHECK(1, jd_begin(c, codes, calls));
    for (size_t i = 0; i < calls; i++) {
        memcpy(keys[i], key, sizeof key);
        keys[i][JD_KEY_LIMIT - 1] = 'a';
        CHECK(JD_QUEUED, jd_js_next(c, "a", keys[i], NULL));
    }
    CHECK(1, jd_end(c));
    for (size_t i = 0; i < calls; i++)
        CHECK(1, codes[i] == 1 && strcmp(keys[i], key) == 0);
    CHECK(1, jd_js_del(c, "a", key));
    free(codes);
    free(keys);
    jd_close(c);
}

int main(int count, char **words)
{
    const char *what = count >= 3 ? words[1] : "";
    if (!strcmp(what, "replies"))
        check_replies(words[2]);
    else if (!strcmp(what, "absent"))
        check_absent(words[2]);
    else if (!strcmp(what, "signals"))
        check_signals(words[2]);
    else if (!strcmp(what, "refusals"))
        check_refusals(words[2]);
    else if (!strcmp(what, "adds"))
        check_adds(words[2]), check_decisions(words[2]);
    else if (!strcmp(what, "restart"))
        check_restart(words[2]);
    else if (!strcmp(what, "flood") && count == 4)
        check_flood(words[2], strtoull(words[3], NULL, 10));
    else {
        fprintf(stderr, "usage: faults replies|absent|signals FOLDER, faults refusals|adds|restart PATH, faults flood PATH CALLS\n");
        return 2;
    }
    return 0;
}
