/* The client: see judyd.h and judyd(3). A call writes its line to a buffer and its result's place to a
 * ring of calls that wait for their replies. A plain call then reads until the ring is empty. Queued
 * calls leave that to jd_end, or to a later call that finds no room. The client reads whenever it
 * writes, so neither side ever waits for the other to read. */
#define _POSIX_C_SOURCE 200809L

#include "judyd.h"
#include "replies.h"

#include <errno.h>
#include <fcntl.h>
#include <poll.h>
#include <stdbool.h>
#include <stdlib.h>
#include <string.h>
#include <sys/socket.h>
#include <sys/time.h>
#include <sys/un.h>
#include <time.h>
#include <unistd.h>

#ifndef JD_PATIENCE /* the tests compile with less */
#define JD_PATIENCE 30000 /* milliseconds that jd_open waits, and a call by default */
#endif

enum {
    NAME_LIMIT = 32,
    TOKEN_LIMIT = 128,
    LINE_ROOM = JD_LINE_LIMIT + 1, /* the longest line, with its line feed */
    OUT_ROOM = 65536,              /* bytes of lines that are not sent yet */
    OUT_READY = 16384,             /* queued lines are sent when there are so many bytes */
    IN_ROOM = 65536,               /* bytes of replies that are not read yet; more than REPLY_LIMIT */
    WAITING = 4096                 /* calls that wait for their replies */
};

/* The fields of a line after the name. */
struct fields {
    const char *other; /* the name of another array, or null */
    bool has_key;
    const void *key;
    size_t length;
    int words;
    uint64_t word[3];
};

/* The first call of a queue with a code of some kind. */
struct first {
    int code;      /* 0 for none */
    size_t number; /* of the call */
};

struct jd {
    int socket;      /* -1 once the connection is closed */
    int timeout;     /* milliseconds, -1 for no limit */
    int64_t moved;   /* when a byte last went either way, or the wait began */
    bool is_sending; /* a write has not failed yet */

    bool is_queueing; /* between jd_begin and jd_end */
    int *codes;
    size_t room, calls;
    struct first refusal, fault; /* since jd_begin */

    size_t first, waiting; /* of the ring */
    size_t out_from, out_to, in_from, in_to;
    struct result ring[WAITING];
    char out[OUT_ROOM], in[IN_ROOM];
};

/* ---- results ---- */

/* Whether a code says that the connection is closed. */
static bool is_fault(int code)
{
    return code == JD_CLOSED || code == JD_TIMEOUT || code == JD_REPLY || code == JD_SYSTEM;
}

/* Stores the code of a call, and remembers the first refusal and the first fault. */
static void store_code(jd *c, const struct result *result, int code)
{
    struct first *first = is_fault(code) ? &c->fault : &c->refusal;
    if (result->code)
        *result->code = code;
    if (code < 0 && (!first->code || result->number < first->number))
        *first = (struct first){code, result->number};
}

/* Closes the connection. The calls that wait get this code. Returns the code. */
static int fail(jd *c, int code)
{
    int reason = errno;
    if (c->socket >= 0)
        close(c->socket);
    c->socket = -1;
    c->out_from = c->out_to = c->in_from = c->in_to = 0;
    for (; c->waiting; c->waiting--) {
        store_code(c, &c->ring[c->first], code);
        c->first = (c->first + 1) % WAITING;
    }
    errno = reason;
    return code;
}

/* The code for a read or a write that the system refused. */
static int code_of_errno(void)
{
    return errno == EPIPE || errno == ECONNRESET ? JD_CLOSED : JD_SYSTEM;
}

/* ---- the socket ---- */

/* Gives a reply to the first call that waits. Returns 0, or JD_REPLY. */
static int take_reply(jd *c, struct text reply)
{
    const struct result *result = &c->ring[c->first];
    if (!c->waiting || reply.end - reply.at > REPLY_LIMIT)
        return JD_REPLY;
    int code = read_result(reply, result);
    if (code == JD_REPLY)
        code = code_of_refusal(reply);
    if (code == JD_REPLY)
        return JD_REPLY;
    store_code(c, result, code);
    c->first = (c->first + 1) % WAITING;
    c->waiting--;
    return 0;
}

/* Takes the whole replies that have come. Returns 0, or JD_REPLY. */
static int take_replies(jd *c)
{
    for (char *end; (end = memchr(c->in + c->in_from, '\n', c->in_to - c->in_from)); c->in_from = (size_t)(end - c->in) + 1)
        if (take_reply(c, (struct text){c->in + c->in_from, end}) < 0)
            return JD_REPLY;
    c->in_to -= c->in_from;
    memmove(c->in, c->in + c->in_from, c->in_to);
    c->in_from = 0;
    return c->in_to > REPLY_LIMIT ? JD_REPLY : 0;
}

/* Nanoseconds of the monotonic clock. */
static int64_t now(void)
{
    struct timespec time;
    clock_gettime(CLOCK_MONOTONIC, &time);
    return 1000000000 * (int64_t)time.tv_sec + time.tv_nsec;
}

/* The milliseconds that are left of so many since a moment, rounded up. */
static int left_of(int milliseconds, int64_t since)
{
    int64_t left = 1000000 * (int64_t)milliseconds - (now() - since);
    return left <= 0 ? 0 : (int)((left + 999999) / 1000000);
}

/* Reads what has come, once. Returns 0, also if nothing has come; or fails. */
static int receive(jd *c)
{
    ssize_t n = recv(c->socket, c->in + c->in_to, IN_ROOM - c->in_to, 0);
    if (n < 0 && (errno == EAGAIN || errno == EWOULDBLOCK || errno == EINTR))
        return 0;
    if (n <= 0)
        return fail(c, n ? code_of_errno() : JD_CLOSED);
    c->moved = now();
    c->in_to += (size_t)n;
    return take_replies(c) < 0 ? fail(c, JD_REPLY) : 0;
}

/* Writes what the socket takes, once. After a failed write, replies to earlier lines may still come:
 * so the lines are dropped, and reading goes on to its end. */
static void transmit(jd *c)
{
    ssize_t n = c->is_sending ? send(c->socket, c->out + c->out_from, c->out_to - c->out_from, MSG_NOSIGNAL) : 0;
    if (n < 0 && errno != EAGAIN && errno != EWOULDBLOCK && errno != EINTR)
        c->is_sending = false;
    if (n > 0) {
        c->moved = now();
        c->out_from += (size_t)n;
    }
    if (!c->is_sending || c->out_from == c->out_to)
        c->out_from = c->out_to = 0;
}

/* Waits until bytes can be read or written, and moves them. Returns 0, or fails. A signal ends the wait,
 * but not the time that it may last. */
static int move(jd *c)
{
    struct pollfd ready = {.fd = c->socket, .events = POLLIN};
    if (c->out_from < c->out_to)
        ready.events |= POLLOUT;
    int left = c->timeout < 0 ? -1 : left_of(c->timeout, c->moved);
    int n = poll(&ready, 1, left);
    if (n < 0 && errno != EINTR)
        return fail(c, JD_SYSTEM);
    if (n <= 0)
        return left == 0 ? fail(c, JD_TIMEOUT) : 0;
    if (ready.revents & POLLOUT)
        transmit(c);
    return ready.revents & ~POLLOUT ? receive(c) : 0;
}

/* Sends all lines, and reads until at most `most` calls wait. Returns 0, or fails. */
static int settle(jd *c, size_t most)
{
    int code = 0;
    c->moved = now();
    if (c->out_from < c->out_to)
        transmit(c);
    while (!code && (c->waiting > most || c->out_from < c->out_to))
        code = move(c);
    return code;
}

/* Makes room for one more call. Returns 0, or fails. */
static int make_room(jd *c)
{
    if (c->socket < 0)
        return JD_CLOSED;
    if (c->waiting < WAITING && OUT_ROOM - c->out_to >= LINE_ROOM)
        return 0;
    return settle(c, WAITING / 2);
}

/* ---- writing a line ---- */

static bool is_name(const char *name)
{
    size_t length = 0;
    for (; name[length]; length++) {
        char b = name[length];
        bool fits = (b >= 'A' && b <= 'Z') || (b >= 'a' && b <= 'z') || (b >= '0' && b <= '9') || b == '_' || b == '-' || b == '.';
        if (!fits || length == NAME_LIMIT)
            return false;
    }
    return length > 0;
}

static bool is_token(const char *token)
{
    size_t length = 0;
    for (; token[length]; length++)
        if (token[length] < 33 || token[length] > 126 || length == TOKEN_LIMIT)
            return false;
    return length > 0;
}

static void put_text(jd *c, const char *text)
{
    size_t length = strlen(text);
    memcpy(c->out + c->out_to, text, length);
    c->out_to += length;
}

static void put_word(jd *c, uint64_t word)
{
    static const char pairs[] = "0001020304050607080910111213141516171819202122232425262728293031323334353637383940414243444546474849"
                                "5051525354555657585960616263646566676869707172737475767778798081828384858687888990919293949596979899";
    char digits[20];
    size_t at = sizeof digits;
    for (; word >= 10; word /= 100) {
        at -= 2;
        memcpy(digits + at, pairs + 2 * (word % 100), 2);
    }
    if (word || at == sizeof digits)
        digits[--at] = (char)('0' + word);
    memcpy(c->out + c->out_to, digits + at, sizeof digits - at);
    c->out_to += sizeof digits - at;
}

static void put_key(jd *c, const unsigned char *key, size_t length)
{
    static const char digits[] = "0123456789abcdef";
    char *to = c->out + c->out_to;
    *to++ = 'x';
    for (size_t i = 0; i < length; i++) {
        *to++ = digits[key[i] / 16];
        *to++ = digits[key[i] % 16];
    }
    c->out_to += 1 + 2 * length;
}

static void put_fields(jd *c, const struct fields *fields)
{
    if (fields->other) {
        put_text(c, " ");
        put_text(c, fields->other);
    }
    if (fields->has_key) {
        put_text(c, " ");
        put_key(c, fields->key, fields->length);
    }
    for (int i = 0; i < fields->words; i++) {
        put_text(c, " ");
        put_word(c, fields->word[i]);
    }
}

/* ---- a call ---- */

/* Takes the next place of a queued call's code. Returns 0, or JD_ROOM. */
static int take_place(jd *c, struct result *result)
{
    result->number = c->calls;
    if (c->codes && c->calls == c->room) {
        store_code(c, result, JD_ROOM);
        return JD_ROOM;
    }
    if (c->codes)
        result->code = &c->codes[c->calls];
    c->calls++;
    return 0;
}

/* A call that is refused here, with nothing sent. */
static int refuse(jd *c, struct result *result, int code)
{
    int place = c->is_queueing ? take_place(c, result) : 0;
    if (place < 0)
        return place;
    if (c->is_queueing)
        store_code(c, result, code);
    return code;
}

/* Ends a line whose result goes to `result`. A plain call waits for its reply. */
static int finish(jd *c, struct result *result)
{
    int code = JD_QUEUED;
    put_text(c, "\n");
    if (!c->is_queueing)
        result->code = &code;
    if (!c->waiting)
        c->first = 0;
    c->ring[(c->first + c->waiting++) % WAITING] = *result;
    if (!c->is_queueing)
        settle(c, 0);
    else if (c->out_to - c->out_from >= OUT_READY) {
        transmit(c);
        receive(c);
    }
    return code;
}

/* Starts a line. Returns 0, or the code of a refusal. */
static int start(jd *c, struct result *result)
{
    int code = make_room(c);
    if (code < 0)
        return refuse(c, result, code);
    return c->is_queueing ? take_place(c, result) : 0;
}

/* A call of an array. */
static int call(jd *c, const char *word, const char *name, const struct fields *fields, struct result *result)
{
    if (!is_name(name) || (fields->other && !is_name(fields->other)))
        return refuse(c, result, JD_NAME);
    if (fields->length > JD_KEY_LIMIT)
        return refuse(c, result, JD_KEY);
    int code = start(c, result);
    if (code < 0)
        return code;
    put_text(c, word);
    put_text(c, " ");
    put_text(c, name);
    put_fields(c, fields);
    return finish(c, result);
}

/* A call with one word. */
static int call_word(jd *c, const char *word, const char *name, uint64_t given, enum form form, uint64_t *index, uint64_t *value)
{
    struct result result = {.form = form, .index = index, .value = value};
    return call(c, word, name, &(struct fields){.words = 1, .word = {given}}, &result);
}

/* A call with a key alone, but no search. */
static int call_key(jd *c, const char *word, const char *name, const void *key, size_t length, enum form form, uint64_t *value)
{
    struct fields fields = {.has_key = true, .key = key, .length = length};
    return call(c, word, name, &fields, &(struct result){.form = form, .value = value});
}

/* A call with a key and a number. */
static int give_key(jd *c, const char *word, const char *name, const void *key, size_t length, uint64_t given, enum form form, uint64_t *value)
{
    struct fields fields = {.has_key = true, .key = key, .length = length, .words = 1, .word = {given}};
    return call(c, word, name, &fields, &(struct result){.form = form, .value = value});
}

static int exchange_key(jd *c, const char *word, const char *name, const void *key, size_t length, uint64_t old, uint64_t given, uint64_t *before)
{
    struct fields fields = {.has_key = true, .key = key, .length = length, .words = 2, .word = {old, given}};
    return call(c, word, name, &fields, &(struct result){.form = FOUND, .value = before});
}

static int count(jd *c, const char *word, const char *name, uint64_t low, uint64_t high, uint64_t *count)
{
    return call(c, word, name, &(struct fields){.words = 2, .word = {low, high}}, &(struct result){.form = COUNT, .value = count});
}

static int free_array(jd *c, const char *word, const char *name, uint64_t *count)
{
    return call(c, word, name, &(struct fields){0}, &(struct result){.form = COUNT, .value = count});
}

/* A search from *index on for an index, present or absent. */
static int search_index(jd *c, const char *word, const char *name, uint64_t *index)
{
    return call_word(c, word, name, *index, INDEX, index, NULL);
}

/* A search of JudyL from *index on. */
static int search_item(jd *c, const char *word, const char *name, uint64_t *index, uint64_t *value)
{
    return call_word(c, word, name, *index, ITEM, index, value);
}

/* A call with *index and another word, whose result is an index, with its value if there is one. */
static int call_words(jd *c, const char *word, const char *name, uint64_t *index, uint64_t given, enum form form, uint64_t *value)
{
    struct result result = {.form = form, .index = index, .value = value};
    return call(c, word, name, &(struct fields){.words = 2, .word = {*index, given}}, &result);
}

static int remove_range(jd *c, const char *word, const char *name, uint64_t low, uint64_t high, uint64_t most, uint64_t *count)
{
    return call(c, word, name, &(struct fields){.words = 3, .word = {low, high, most}}, &(struct result){.form = COUNT, .value = count});
}

/* The length of a string, or more than JD_KEY_LIMIT if it is longer. */
static size_t length_of(const char *key)
{
    return strnlen(key, JD_KEY_LIMIT + 1);
}

/* A search of JudySL from `key` on. */
static int search_string(jd *c, const char *word, const char *name, char *key, uint64_t *value)
{
    struct fields fields = {.has_key = true, .key = key, .length = length_of(key)};
    return call(c, word, name, &fields, &(struct result){.form = STRING, .key = key, .value = value});
}

/* ---- connections ---- */

/* Connects a socket. A server that is busy is waited for, whatever signals come. Returns 0, or -1. */
static int connect_within(int fd, const struct sockaddr_un *address)
{
    int64_t since = now();
    for (int left = JD_PATIENCE; left > 0; left = left_of(JD_PATIENCE, since)) {
        struct timeval patience = {.tv_sec = left / 1000, .tv_usec = 1000 * (left % 1000)};
        setsockopt(fd, SOL_SOCKET, SO_SNDTIMEO, &patience, sizeof patience); /* how long connect waits */
        if (connect(fd, (const struct sockaddr *)address, sizeof *address) == 0)
            return 0;
        if (errno != EINTR)
            return -1;
    }
    errno = EAGAIN; /* as when no signal comes */
    return -1;
}

static int connected(const char *path)
{
    struct sockaddr_un address = {.sun_family = AF_UNIX};
    if (strlen(path) >= sizeof address.sun_path) {
        errno = ENAMETOOLONG;
        return -1;
    }
    strcpy(address.sun_path, path);
    int fd = socket(AF_UNIX, SOCK_STREAM, 0);
    if (fd < 0)
        return -1;
    if (connect_within(fd, &address) < 0 || fcntl(fd, F_SETFL, O_NONBLOCK) < 0 || fcntl(fd, F_SETFD, FD_CLOEXEC) < 0) {
        int reason = errno;
        close(fd);
        errno = reason;
        return -1;
    }
    return fd;
}

jd *jd_open(const char *path)
{
    jd *c = malloc(sizeof *c);
    if (!c)
        return NULL;
    memset(c, 0, offsetof(jd, ring));
    c->is_sending = true;
    c->timeout = JD_PATIENCE;
    c->socket = connected(path);
    if (c->socket < 0) {
        int reason = errno;
        free(c);
        errno = reason;
        return NULL;
    }
    return c;
}

void jd_close(jd *c)
{
    if (!c)
        return;
    fail(c, JD_CLOSED);
    free(c);
}

void jd_timeout(jd *c, int milliseconds)
{
    c->timeout = milliseconds < 0 ? -1 : milliseconds;
}

const char *jd_version(void)
{
    return JD_VERSION;
}

int jd_fd(jd *c)
{
    return c->socket;
}

const char *jd_strerror(int code)
{
    switch (code) {
    case 0: return "no, or not found";
    case 1: return "yes, or found";
    case JD_QUEUED: return "the call waits for jd_end";
    case JD_FULL: return "the quota has no room for a new entry";
    case JD_MEMORY: return "the server is out of memory";
    case JD_READONLY: return "the log-in is read-only";
    case JD_AUTH: return "wrong name or token, or nobody is logged in";
    case JD_SYNTAX: return "the server does not know this line";
    case JD_LONG: return "the line is too long";
    case JD_NAME: return "not a name: 1 to 32 bytes of A-Z a-z 0-9 _ - .";
    case JD_KEY: return "the key has more than 1000 bytes";
    case JD_TOKEN: return "not a token: 1 to 128 bytes from 33 to 126";
    case JD_ROOM: return "no place for the result of a queued call";
    case JD_USE: return "jd_begin after jd_begin, or jd_end without jd_begin";
    case JD_CLOSED: return "the connection is closed";
    case JD_TIMEOUT: return "the server is silent for too long";
    case JD_REPLY: return "not a reply of judyd";
    case JD_SYSTEM: return "the system refuses a read or a write";
    case JD_CLIENTS: return "the tenant has as many connections as it may have";
    case JD_REFUSED: return "the server refuses the line for another reason";
    case JD_LINE: return "a line has a line feed, or more than 4096 bytes";
    case JD_FROZEN: return "the tenant is frozen: its arrays are being restored";
    case JD_JOURNAL: return "the journal takes no records of the tenant now";
    default: return "not a code of this library";
    }
}

int jd_auth(jd *c, const char *tenant, const char *token)
{
    struct result result = {.form = OK};
    if (!is_name(tenant))
        return refuse(c, &result, JD_NAME);
    if (!is_token(token))
        return refuse(c, &result, JD_TOKEN);
    int code = start(c, &result);
    if (code < 0)
        return code;
    put_text(c, "AUTH ");
    put_text(c, tenant);
    put_text(c, " ");
    put_text(c, token);
    return finish(c, &result);
}

int jd_used(jd *c, struct jd_usage *usage)
{
    struct result result = {.form = USAGE, .usage = usage};
    int code = start(c, &result);
    if (code < 0)
        return code;
    put_text(c, "USED");
    return finish(c, &result);
}

int jd_ping(jd *c)
{
    struct result result = {.form = OK};
    int code = start(c, &result);
    if (code < 0)
        return code;
    put_text(c, "PING");
    return finish(c, &result);
}

int jd_line(jd *c, const char *line, char *reply)
{
    struct result result = {.form = LINE, .reply = reply};
    if (strnlen(line, JD_LINE_LIMIT + 1) > JD_LINE_LIMIT || strchr(line, '\n'))
        return refuse(c, &result, JD_LINE);
    int code = start(c, &result);
    if (code < 0)
        return code;
    put_text(c, line);
    return finish(c, &result);
}

int jd_begin(jd *c, int *codes, size_t room)
{
    if (c->is_queueing)
        return JD_USE;
    c->is_queueing = true;
    c->codes = codes;
    c->room = room;
    c->calls = 0;
    c->refusal = c->fault = (struct first){0};
    return 1;
}

int jd_end(jd *c)
{
    if (!c->is_queueing)
        return JD_USE;
    settle(c, 0);
    c->is_queueing = false;
    if (c->fault.code)
        return c->fault.code;
    return c->refusal.code ? c->refusal.code : 1;
}

/* ---- Judy1 ---- */

int jd_j1_set(jd *c, const char *name, uint64_t index) { return call_word(c, "J1S", name, index, FLAG, NULL, NULL); }
int jd_j1_unset(jd *c, const char *name, uint64_t index) { return call_word(c, "J1U", name, index, FLAG, NULL, NULL); }
int jd_j1_test(jd *c, const char *name, uint64_t index) { return call_word(c, "J1T", name, index, FLAG, NULL, NULL); }
int jd_j1_count(jd *c, const char *name, uint64_t low, uint64_t high, uint64_t *found) { return count(c, "J1C", name, low, high, found); }
int jd_j1_by_count(jd *c, const char *name, uint64_t nth, uint64_t *index) { return call_word(c, "J1BC", name, nth, INDEX, index, NULL); }
int jd_j1_first(jd *c, const char *name, uint64_t *index) { return search_index(c, "J1F", name, index); }
int jd_j1_next(jd *c, const char *name, uint64_t *index) { return search_index(c, "J1N", name, index); }
int jd_j1_last(jd *c, const char *name, uint64_t *index) { return search_index(c, "J1L", name, index); }
int jd_j1_prev(jd *c, const char *name, uint64_t *index) { return search_index(c, "J1P", name, index); }
int jd_j1_first_empty(jd *c, const char *name, uint64_t *index) { return search_index(c, "J1FE", name, index); }
int jd_j1_next_empty(jd *c, const char *name, uint64_t *index) { return search_index(c, "J1NE", name, index); }
int jd_j1_last_empty(jd *c, const char *name, uint64_t *index) { return search_index(c, "J1LE", name, index); }
int jd_j1_prev_empty(jd *c, const char *name, uint64_t *index) { return search_index(c, "J1PE", name, index); }
int jd_j1_free_array(jd *c, const char *name, uint64_t *count) { return free_array(c, "J1FA", name, count); }
int jd_j1_add_absent(jd *c, const char *name, uint64_t *index) { return search_index(c, "J1SE", name, index); }
int jd_j1_pop_first(jd *c, const char *name, uint64_t *index, uint64_t high) { return call_words(c, "J1UF", name, index, high, INDEX, NULL); }

int jd_j1_remove_range(jd *c, const char *name, uint64_t low, uint64_t high, uint64_t most, uint64_t *count)
{
    return remove_range(c, "J1UR", name, low, high, most, count);
}

/* ---- JudyL ---- */

int jd_jl_ins(jd *c, const char *name, uint64_t index, uint64_t value, uint64_t *before)
{
    return call(c, "JLI", name, &(struct fields){.words = 2, .word = {index, value}}, &(struct result){.form = VALUE, .value = before});
}

int jd_jl_add(jd *c, const char *name, uint64_t index, uint64_t n, uint64_t *value)
{
    return call(c, "JLA", name, &(struct fields){.words = 2, .word = {index, n}}, &(struct result){.form = VALUE, .value = value});
}

int jd_jl_keep(jd *c, const char *name, uint64_t index, uint64_t given, uint64_t *value)
{
    return call(c, "JLK", name, &(struct fields){.words = 2, .word = {index, given}}, &(struct result){.form = FOUND, .value = value});
}

int jd_jl_exchange(jd *c, const char *name, uint64_t index, uint64_t old, uint64_t given, uint64_t *before)
{
    return call(c, "JLX", name, &(struct fields){.words = 3, .word = {index, old, given}}, &(struct result){.form = FOUND, .value = before});
}

int jd_jl_del_if(jd *c, const char *name, uint64_t index, uint64_t value)
{
    return call(c, "JLD", name, &(struct fields){.words = 2, .word = {index, value}}, &(struct result){.form = FLAG});
}

int jd_jl_insert_absent(jd *c, const char *name, uint64_t *index, uint64_t value) { return call_words(c, "JLIE", name, index, value, INDEX, NULL); }

int jd_jl_pop_first(jd *c, const char *name, uint64_t *index, uint64_t high, uint64_t *value)
{
    return call_words(c, "JLDF", name, index, high, ITEM, value);
}

int jd_jl_remove_range(jd *c, const char *name, uint64_t low, uint64_t high, uint64_t most, uint64_t *count)
{
    return remove_range(c, "JLDR", name, low, high, most, count);
}

int jd_jl_take(jd *c, const char *name, uint64_t index, uint64_t *value) { return call_word(c, "JLT", name, index, FOUND, NULL, value); }
int jd_jl_ensure(jd *c, const char *name, uint64_t index, uint64_t *value) { return call_word(c, "JLI", name, index, VALUE, NULL, value); }
int jd_jl_get(jd *c, const char *name, uint64_t index, uint64_t *value) { return call_word(c, "JLG", name, index, FOUND, NULL, value); }
int jd_jl_del(jd *c, const char *name, uint64_t index) { return call_word(c, "JLD", name, index, FLAG, NULL, NULL); }
int jd_jl_count(jd *c, const char *name, uint64_t low, uint64_t high, uint64_t *found) { return count(c, "JLC", name, low, high, found); }

int jd_jl_by_count(jd *c, const char *name, uint64_t nth, uint64_t *index, uint64_t *value)
{
    return call_word(c, "JLBC", name, nth, ITEM, index, value);
}

int jd_jl_first(jd *c, const char *name, uint64_t *index, uint64_t *value) { return search_item(c, "JLF", name, index, value); }
int jd_jl_next(jd *c, const char *name, uint64_t *index, uint64_t *value) { return search_item(c, "JLN", name, index, value); }
int jd_jl_last(jd *c, const char *name, uint64_t *index, uint64_t *value) { return search_item(c, "JLL", name, index, value); }
int jd_jl_prev(jd *c, const char *name, uint64_t *index, uint64_t *value) { return search_item(c, "JLP", name, index, value); }
int jd_jl_first_empty(jd *c, const char *name, uint64_t *index) { return search_index(c, "JLFE", name, index); }
int jd_jl_next_empty(jd *c, const char *name, uint64_t *index) { return search_index(c, "JLNE", name, index); }
int jd_jl_last_empty(jd *c, const char *name, uint64_t *index) { return search_index(c, "JLLE", name, index); }
int jd_jl_prev_empty(jd *c, const char *name, uint64_t *index) { return search_index(c, "JLPE", name, index); }
int jd_jl_free_array(jd *c, const char *name, uint64_t *count) { return free_array(c, "JLFA", name, count); }

/* ---- JudySL ---- */

int jd_js_ins(jd *c, const char *name, const char *key, uint64_t value, uint64_t *before)
{
    return give_key(c, "JSLI", name, key, length_of(key), value, VALUE, before);
}

int jd_js_add(jd *c, const char *name, const char *key, uint64_t n, uint64_t *value)
{
    return give_key(c, "JSLA", name, key, length_of(key), n, VALUE, value);
}

int jd_js_keep(jd *c, const char *name, const char *key, uint64_t given, uint64_t *value)
{
    return give_key(c, "JSLK", name, key, length_of(key), given, FOUND, value);
}

int jd_js_exchange(jd *c, const char *name, const char *key, uint64_t old, uint64_t given, uint64_t *before)
{
    return exchange_key(c, "JSLX", name, key, length_of(key), old, given, before);
}

int jd_js_del_if(jd *c, const char *name, const char *key, uint64_t value)
{
    return give_key(c, "JSLD", name, key, length_of(key), value, FLAG, NULL);
}

int jd_js_take(jd *c, const char *name, const char *key, uint64_t *value)
{
    return call_key(c, "JSLT", name, key, length_of(key), FOUND, value);
}

int jd_js_ensure(jd *c, const char *name, const char *key, uint64_t *value) { return call_key(c, "JSLI", name, key, length_of(key), VALUE, value); }
int jd_js_get(jd *c, const char *name, const char *key, uint64_t *value) { return call_key(c, "JSLG", name, key, length_of(key), FOUND, value); }
int jd_js_del(jd *c, const char *name, const char *key) { return call_key(c, "JSLD", name, key, length_of(key), FLAG, NULL); }
int jd_js_first(jd *c, const char *name, char *key, uint64_t *value) { return search_string(c, "JSLF", name, key, value); }
int jd_js_next(jd *c, const char *name, char *key, uint64_t *value) { return search_string(c, "JSLN", name, key, value); }
int jd_js_last(jd *c, const char *name, char *key, uint64_t *value) { return search_string(c, "JSLL", name, key, value); }
int jd_js_prev(jd *c, const char *name, char *key, uint64_t *value) { return search_string(c, "JSLP", name, key, value); }
int jd_js_pop_first(jd *c, const char *name, char *key, uint64_t *value) { return search_string(c, "JSLDF", name, key, value); }
int jd_js_free_array(jd *c, const char *name, uint64_t *count) { return free_array(c, "JSLFA", name, count); }

/* ---- JudyHS ---- */

int jd_jh_ins(jd *c, const char *name, const void *key, size_t length, uint64_t value, uint64_t *before)
{
    return give_key(c, "JHSI", name, key, length, value, VALUE, before);
}

int jd_jh_add(jd *c, const char *name, const void *key, size_t length, uint64_t n, uint64_t *value)
{
    return give_key(c, "JHSA", name, key, length, n, VALUE, value);
}

int jd_jh_keep(jd *c, const char *name, const void *key, size_t length, uint64_t given, uint64_t *value)
{
    return give_key(c, "JHSK", name, key, length, given, FOUND, value);
}

int jd_jh_exchange(jd *c, const char *name, const void *key, size_t length, uint64_t old, uint64_t given, uint64_t *before)
{
    return exchange_key(c, "JHSX", name, key, length, old, given, before);
}

int jd_jh_del_if(jd *c, const char *name, const void *key, size_t length, uint64_t value)
{
    return give_key(c, "JHSD", name, key, length, value, FLAG, NULL);
}

int jd_jh_take(jd *c, const char *name, const void *key, size_t length, uint64_t *value)
{
    return call_key(c, "JHST", name, key, length, FOUND, value);
}

int jd_jh_ensure(jd *c, const char *name, const void *key, size_t length, uint64_t *value)
{
    return call_key(c, "JHSI", name, key, length, VALUE, value);
}

int jd_jh_get(jd *c, const char *name, const void *key, size_t length, uint64_t *value)
{
    return call_key(c, "JHSG", name, key, length, FOUND, value);
}

int jd_jh_del(jd *c, const char *name, const void *key, size_t length) { return call_key(c, "JHSD", name, key, length, FLAG, NULL); }
int jd_jh_free_array(jd *c, const char *name, uint64_t *count) { return free_array(c, "JHSFA", name, count); }

/* ---- scans ---- */

#include "scans.h" /* a part of this file: it uses the functions above */
