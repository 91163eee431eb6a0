/* A client of judyd, the server of Judy arrays: the calls of the Judy library over a connection.
 * The manual page is judyd(3). */
#ifndef JUDYD_H
#define JUDYD_H

#include <stddef.h>
#include <stdint.h>

#ifdef __cplusplus
extern "C" {
#endif

/* The most bytes of a key, and of a buffer for a string with its byte 0. */
#define JD_KEY_LIMIT 1000
#define JD_KEY_ROOM (JD_KEY_LIMIT + 1)

/* The most bytes of a line without its line feed, and of a buffer for any reply with a byte 0. */
#define JD_LINE_LIMIT 4096
#define JD_REPLY_ROOM 4097

/* The version of this header. jd_version tells that of the library. */
#define JD_VERSION "1.0.0"

/* What a call returns. 1: yes; results are stored where the caller said. 0: no, or nothing found;
 * nothing is stored. JD_QUEUED: the call waits for jd_end. Negative: a refusal or a fault. */
enum {
    JD_QUEUED = 2,

    /* Refused by the server. Nothing has changed. */
    JD_FULL = -1,     /* the tenant's quota has no room for a new entry */
    JD_MEMORY = -2,   /* the server is out of memory for a new entry */
    JD_READONLY = -3, /* the log-in was with the read-only token */
    JD_AUTH = -4,     /* the name or the token is wrong, or nobody is logged in */
    JD_SYNTAX = -5,   /* the server does not know this line */
    JD_LONG = -6,     /* the line is too long */

    /* Refused by this library, which sends nothing. */
    JD_NAME = -7,  /* a name is not 1 to 32 bytes of A-Z a-z 0-9 _ - . */
    JD_KEY = -8,   /* a key has more than JD_KEY_LIMIT bytes */
    JD_TOKEN = -9, /* a token is not 1 to 128 bytes from 33 to 126 */
    JD_ROOM = -10, /* no place is left for the result of a queued call */
    JD_USE = -11,  /* jd_begin after jd_begin, or jd_end without jd_begin */

    /* The connection is closed. It is unknown whether the calls without a reply were made. */
    JD_CLOSED = -12,  /* the server has closed the connection, or it was closed after an earlier fault */
    JD_TIMEOUT = -13, /* no byte went either way for as long as jd_timeout says */
    JD_REPLY = -14,   /* a reply that the protocol does not have: the server is not a judyd */
    JD_SYSTEM = -15,  /* the system refuses a read or a write; errno has the reason */

    /* Refused by the server, as those above. */
    JD_CLIENTS = -16, /* the tenant has as many connections as it may have; nobody is logged in now */
    JD_REFUSED = -17, /* ERR and a reason that this library does not know */

    /* Refused by this library, as those above. */
    JD_LINE = -18, /* a line of jd_line has a line feed, or more than JD_LINE_LIMIT bytes */

    /* Refused by the server, as those above. */
    JD_FROZEN = -19, /* the tenant is frozen: its arrays are being restored */
    JD_JOURNAL = -20 /* the journal takes no records of the tenant now: its disk is full, or it has too many */
};

/* A connection. One thread may use it at a time. Different threads may use different connections. */
typedef struct jd jd;

/* A tenant's numbers of entries and pieces, and its quota of both. */
struct jd_usage {
    uint64_t used, quota, pieces, most;
};

/* What a scan calls for each entry. Another result than 0 ends the scan. */
typedef int jd_j1_visit(uint64_t index, void *context);
typedef int jd_jl_visit(uint64_t index, uint64_t value, void *context);
typedef int jd_js_visit(const char *key, uint64_t value, void *context);
typedef int jd_jh_visit(const void *key, size_t length, uint64_t value, void *context);

/* The same for each array of the tenant that has entries. A kind is "J1", "JL", "JSL" or "JHS". */
typedef int jd_name_visit(const char *kind, const char *name, uint64_t entries, void *context);

/* A shared library has these names and no others. */
#ifdef __GNUC__
#pragma GCC visibility push(default)
#endif

jd *jd_open(const char *path);
void jd_close(jd *connection);
void jd_timeout(jd *connection, int milliseconds);
const char *jd_strerror(int code);
const char *jd_version(void);
int jd_fd(jd *connection);

int jd_auth(jd *connection, const char *tenant, const char *token);
int jd_used(jd *connection, struct jd_usage *usage);
/* A scan of the tenant's arrays by kind and name: of all, or behind the array of a kind and a name, if they are not null. */
int jd_names(jd *connection, const char *kind, const char *name, jd_name_visit *visit, void *context);
int jd_ping(jd *connection);

/* Any line, without its line feed. The reply, also of a refusal, goes to a buffer of JD_REPLY_ROOM bytes. */
int jd_line(jd *connection, const char *line, char *reply);

/* Many calls in flight: calls between these two are queued. */
int jd_begin(jd *connection, int *codes, size_t room);
int jd_end(jd *connection);

/* Judy1: sets of words.
 * These search and change in one step, of a JudyL too. add_absent inserts the first absent index from *index on.
 * pop_first removes the first index from *index up to `high`. Both store the index that they found. remove_range
 * removes the first indexes from `low` up to `high`, at most `most`, 1 to 65535, and stores how many.
 * intersect is a scan of the indexes that the set shares with another one. */
int jd_j1_set(jd *connection, const char *name, uint64_t index);
int jd_j1_add_absent(jd *connection, const char *name, uint64_t *index);
int jd_j1_unset(jd *connection, const char *name, uint64_t index);
int jd_j1_pop_first(jd *connection, const char *name, uint64_t *index, uint64_t high);
int jd_j1_remove_range(jd *connection, const char *name, uint64_t low, uint64_t high, uint64_t most, uint64_t *count);
int jd_j1_test(jd *connection, const char *name, uint64_t index);
int jd_j1_count(jd *connection, const char *name, uint64_t low, uint64_t high, uint64_t *count);
int jd_j1_by_count(jd *connection, const char *name, uint64_t nth, uint64_t *index);
int jd_j1_first(jd *connection, const char *name, uint64_t *index);
int jd_j1_next(jd *connection, const char *name, uint64_t *index);
int jd_j1_last(jd *connection, const char *name, uint64_t *index);
int jd_j1_prev(jd *connection, const char *name, uint64_t *index);
int jd_j1_first_empty(jd *connection, const char *name, uint64_t *index);
int jd_j1_next_empty(jd *connection, const char *name, uint64_t *index);
int jd_j1_last_empty(jd *connection, const char *name, uint64_t *index);
int jd_j1_prev_empty(jd *connection, const char *name, uint64_t *index);
int jd_j1_free_array(jd *connection, const char *name, uint64_t *count);
int jd_j1_scan(jd *connection, const char *name, uint64_t from, jd_j1_visit *visit, void *context);
int jd_j1_intersect(jd *connection, const char *name, const char *other, uint64_t from, jd_j1_visit *visit, void *context);

/* JudyL: maps from words to words.
 * These look and change in one step, of a JudySL and a JudyHS too. keep stores a value if there is none: 0; a
 * value that is there stays, and is told: 1. exchange tells the value before, and stores the given one if that
 * was `old`. take removes, and tells the value. del_if removes if this is the value. */
int jd_jl_ins(jd *connection, const char *name, uint64_t index, uint64_t value, uint64_t *before);
int jd_jl_ensure(jd *connection, const char *name, uint64_t index, uint64_t *value);
int jd_jl_insert_absent(jd *connection, const char *name, uint64_t *index, uint64_t value);
int jd_jl_add(jd *connection, const char *name, uint64_t index, uint64_t n, uint64_t *value);
int jd_jl_keep(jd *connection, const char *name, uint64_t index, uint64_t given, uint64_t *value);
int jd_jl_exchange(jd *connection, const char *name, uint64_t index, uint64_t old, uint64_t given, uint64_t *before);
int jd_jl_take(jd *connection, const char *name, uint64_t index, uint64_t *value);
int jd_jl_get(jd *connection, const char *name, uint64_t index, uint64_t *value);
int jd_jl_del(jd *connection, const char *name, uint64_t index);
int jd_jl_del_if(jd *connection, const char *name, uint64_t index, uint64_t value);
int jd_jl_pop_first(jd *connection, const char *name, uint64_t *index, uint64_t high, uint64_t *value);
int jd_jl_remove_range(jd *connection, const char *name, uint64_t low, uint64_t high, uint64_t most, uint64_t *count);
int jd_jl_count(jd *connection, const char *name, uint64_t low, uint64_t high, uint64_t *count);
int jd_jl_by_count(jd *connection, const char *name, uint64_t nth, uint64_t *index, uint64_t *value);
int jd_jl_first(jd *connection, const char *name, uint64_t *index, uint64_t *value);
int jd_jl_next(jd *connection, const char *name, uint64_t *index, uint64_t *value);
int jd_jl_last(jd *connection, const char *name, uint64_t *index, uint64_t *value);
int jd_jl_prev(jd *connection, const char *name, uint64_t *index, uint64_t *value);
int jd_jl_first_empty(jd *connection, const char *name, uint64_t *index);
int jd_jl_next_empty(jd *connection, const char *name, uint64_t *index);
int jd_jl_last_empty(jd *connection, const char *name, uint64_t *index);
int jd_jl_prev_empty(jd *connection, const char *name, uint64_t *index);
int jd_jl_free_array(jd *connection, const char *name, uint64_t *count);
int jd_jl_scan(jd *connection, const char *name, uint64_t from, jd_jl_visit *visit, void *context);

/* JudySL: ordered maps from strings to words. A search has a buffer of JD_KEY_ROOM bytes. pop_first is a search
 * whose entry is removed. */
int jd_js_ins(jd *connection, const char *name, const char *key, uint64_t value, uint64_t *before);
int jd_js_ensure(jd *connection, const char *name, const char *key, uint64_t *value);
int jd_js_add(jd *connection, const char *name, const char *key, uint64_t n, uint64_t *value);
int jd_js_keep(jd *connection, const char *name, const char *key, uint64_t given, uint64_t *value);
int jd_js_exchange(jd *connection, const char *name, const char *key, uint64_t old, uint64_t given, uint64_t *before);
int jd_js_take(jd *connection, const char *name, const char *key, uint64_t *value);
int jd_js_get(jd *connection, const char *name, const char *key, uint64_t *value);
int jd_js_del(jd *connection, const char *name, const char *key);
int jd_js_del_if(jd *connection, const char *name, const char *key, uint64_t value);
int jd_js_pop_first(jd *connection, const char *name, char *key, uint64_t *value);
int jd_js_first(jd *connection, const char *name, char *key, uint64_t *value);
int jd_js_next(jd *connection, const char *name, char *key, uint64_t *value);
int jd_js_last(jd *connection, const char *name, char *key, uint64_t *value);
int jd_js_prev(jd *connection, const char *name, char *key, uint64_t *value);
int jd_js_free_array(jd *connection, const char *name, uint64_t *count);
int jd_js_scan(jd *connection, const char *name, const char *from, jd_js_visit *visit, void *context);

/* JudyHS: maps from byte keys to words. A scan is in an order of the server's. It begins behind a key, which may be
 * absent, or with null at the first entry. */
int jd_jh_ins(jd *connection, const char *name, const void *key, size_t length, uint64_t value, uint64_t *before);
int jd_jh_ensure(jd *connection, const char *name, const void *key, size_t length, uint64_t *value);
int jd_jh_add(jd *connection, const char *name, const void *key, size_t length, uint64_t n, uint64_t *value);
int jd_jh_keep(jd *connection, const char *name, const void *key, size_t length, uint64_t given, uint64_t *value);
int jd_jh_exchange(jd *connection, const char *name, const void *key, size_t length, uint64_t old, uint64_t given, uint64_t *before);
int jd_jh_take(jd *connection, const char *name, const void *key, size_t length, uint64_t *value);
int jd_jh_get(jd *connection, const char *name, const void *key, size_t length, uint64_t *value);
int jd_jh_del(jd *connection, const char *name, const void *key, size_t length);
int jd_jh_del_if(jd *connection, const char *name, const void *key, size_t length, uint64_t value);
int jd_jh_free_array(jd *connection, const char *name, uint64_t *count);
int jd_jh_scan(jd *connection, const char *name, const void *behind, size_t length, jd_jh_visit *visit, void *context);

#ifdef __GNUC__
#pragma GCC visibility pop
#endif

#ifdef __cplusplus
}
#endif

#endif
