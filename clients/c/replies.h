/* How judyd.c reads a reply: its forms, its numbers and keys, and the refusals. It is part of judyd.c, and
 * no program includes it. */
#ifndef JUDYD_REPLIES_H
#define JUDYD_REPLIES_H

#include "judyd.h"

#include <stdbool.h>
#include <string.h>

/* The replies that a call may have, besides refusals. */
enum form {
    OK,      /* OK */
    FLAG,    /* 1, 0 */
    INDEX,   /* 1 i, 0 */
    COUNT,   /* N k */
    VALUE,   /* V v */
    FOUND,   /* V v, NULL */
    ITEM,    /* V v i, NULL */
    STRING,  /* V v key, NULL */
    USAGE,   /* Q used quota pieces most */
    LINE     /* any line */
};

enum { REPLY_LIMIT = JD_REPLY_ROOM - 1 }; /* no reply is longer */

/* Where the result of a call goes. Each pointer may be null. */
struct result {
    enum form form;
    int *code;
    size_t number; /* which of the calls since jd_begin it is */
    uint64_t *value;
    union { /* by the form */
        uint64_t *index;
        char *key;
        struct jd_usage *usage;
        char *reply;
    };
};

/* A part of a reply that is not read yet. */
struct text {
    const char *at, *end;
};

static bool is_text(struct text t, const char *wanted)
{
    size_t length = strlen(wanted);
    return (size_t)(t.end - t.at) == length && memcmp(t.at, wanted, length) == 0;
}

static bool skip(struct text *t, const char *start)
{
    size_t length = strlen(start);
    if ((size_t)(t->end - t->at) < length || memcmp(t->at, start, length) != 0)
        return false;
    t->at += length;
    return true;
}

static bool read_word(struct text *t, uint64_t *word)
{
    const char *start = t->at, *sure = t->end - start > 19 ? start + 19 : t->end; /* 19 digits are below 2^64 */
    uint64_t n = 0;
    for (; t->at < sure && *t->at >= '0' && *t->at <= '9'; t->at++)
        n = 10 * n + (uint64_t)(*t->at - '0');
    for (; t->at < t->end && *t->at >= '0' && *t->at <= '9'; t->at++) {
        unsigned digit = (unsigned)(*t->at - '0');
        if (n > (UINT64_MAX - digit) / 10)
            return false;
        n = 10 * n + digit;
    }
    *word = n;
    return t->at > start;
}

static int hex_digit(char c)
{
    return c >= '0' && c <= '9' ? c - '0' : c >= 'a' && c <= 'f' ? c - 'a' + 10 : -1;
}

/* Reads the key at the end of a reply, x and two digits for each byte. A byte 0 is put behind it. */
static bool read_bytes(struct text t, char key[JD_KEY_ROOM], size_t *length)
{
    *length = 0;
    if (!skip(&t, "x") || (t.end - t.at) % 2 != 0 || t.end - t.at > 2 * JD_KEY_LIMIT)
        return false;
    for (; t.at < t.end; t.at += 2) {
        int high = hex_digit(t.at[0]), low = hex_digit(t.at[1]);
        if (high < 0 || low < 0)
            return false;
        key[(*length)++] = (char)(16 * high + low);
    }
    key[*length] = 0;
    return true;
}

/* The same of a string, which has no byte 0. */
static bool read_key(struct text t, char key[JD_KEY_ROOM])
{
    size_t length;
    return read_bytes(t, key, &length) && strlen(key) == length;
}

/* The code of a refusal, or JD_REPLY for any other reply. */
static int code_of_refusal(struct text t)
{
    static const struct {
        const char *reply;
        int code;
    } refusals[] = {
        {"FULL", JD_FULL},     {"ERR MEMORY", JD_MEMORY}, {"ERR READONLY", JD_READONLY},
        {"ERR AUTH", JD_AUTH}, {"ERR SYNTAX", JD_SYNTAX}, {"ERR LONG", JD_LONG},
        {"ERR CLIENTS", JD_CLIENTS}, {"ERR FROZEN", JD_FROZEN},
        {"ERR JOURNAL", JD_JOURNAL},
    };
    for (size_t i = 0; i < sizeof refusals / sizeof *refusals; i++)
        if (is_text(t, refusals[i].reply))
            return refusals[i].code;
    return skip(&t, "ERR ") ? JD_REFUSED : JD_REPLY;
}

/* Reads a value, or a value and what follows it. Returns 1, or JD_REPLY. */
static int read_value(struct text t, const struct result *result)
{
    char key[JD_KEY_ROOM];
    uint64_t value, index = 0;
    if (!skip(&t, "V ") || !read_word(&t, &value))
        return JD_REPLY;
    if (result->form == ITEM && (!skip(&t, " ") || !read_word(&t, &index)))
        return JD_REPLY;
    if (result->form == STRING) {
        if (!skip(&t, " ") || !read_key(t, key))
            return JD_REPLY;
        t.at = t.end;
    }
    if (t.at != t.end)
        return JD_REPLY;
    if (result->value)
        *result->value = value;
    if (result->form == ITEM && result->index)
        *result->index = index;
    if (result->form == STRING && result->key)
        strcpy(result->key, key);
    return 1;
}

/* Reads a number after `start` to the end. Returns 1, or JD_REPLY. */
static int read_number(struct text t, const char *start, uint64_t *place)
{
    uint64_t number;
    if (!skip(&t, start) || !read_word(&t, &number) || t.at != t.end)
        return JD_REPLY;
    if (place)
        *place = number;
    return 1;
}

static int read_usage(struct text t, struct jd_usage *place)
{
    uint64_t n[4];
    if (!skip(&t, "Q"))
        return JD_REPLY;
    for (int i = 0; i < 4; i++)
        if (!skip(&t, " ") || !read_word(&t, &n[i]))
            return JD_REPLY;
    if (t.at != t.end)
        return JD_REPLY;
    if (place)
        *place = (struct jd_usage){n[0], n[1], n[2], n[3]};
    return 1;
}

/* Stores any reply. Returns 1, or the code of a refusal. */
static int read_line(struct text t, char *place)
{
    int code = code_of_refusal(t);
    if (place) {
        memcpy(place, t.at, (size_t)(t.end - t.at));
        place[t.end - t.at] = 0;
    }
    return code == JD_REPLY ? 1 : code;
}

/* Reads a reply, and stores its values. Returns 1, 0, or JD_REPLY, which stands for a refusal too, but that
 * of any line has its code. */
static int read_result(struct text t, const struct result *result)
{
    switch (result->form) {
    case OK: return is_text(t, "OK") ? 1 : JD_REPLY;
    case FLAG: return is_text(t, "1") ? 1 : is_text(t, "0") ? 0 : JD_REPLY;
    case INDEX: return is_text(t, "0") ? 0 : read_number(t, "1 ", result->index);
    case COUNT: return read_number(t, "N ", result->value);
    case USAGE: return read_usage(t, result->usage);
    case VALUE: return read_value(t, result);
    case LINE: return read_line(t, result->reply);
    default: return is_text(t, "NULL") ? 0 : read_value(t, result);
    }
}

#endif
