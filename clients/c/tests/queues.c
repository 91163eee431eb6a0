/* The calls that change what they find: add_absent, insert_absent, pop_first and remove_range, at the ends of the
 * range, without results, and refused. Ends with status 1 and a line for the first that is wrong.
 *
 * usage: queues PATH      a judyd with the tenants alice (token abc, read token look) and small (token abc, two
 *                         entries), both without entries */
#include <stdint.h>
#include <stdio.h>
#include <string.h>

#include "../judyd.h"
#include "checks.h"

enum { UNTOUCHED = 77 };

static jd *log_in(const char *path, const char *tenant, const char *token)
{
    jd *c = open_at(path);
    CHECK(1, jd_auth(c, tenant, token));
    return c;
}

/* A call from an index on, its code, and the index that it leaves. */
#define FROM(wanted, from, left, call) \
    do { \
        uint64_t index = from; \
        CHECK(wanted, call); \
        CHECK(1, index == (left)); \
    } while (0)

static void check_sets(jd *c)
{
    uint64_t count = UNTOUCHED;
    FROM(1, 5, 5, jd_j1_add_absent(c, "a", &index));
    FROM(1, 5, 6, jd_j1_add_absent(c, "a", &index));
    FROM(1, UINT64_MAX, UINT64_MAX, jd_j1_add_absent(c, "a", &index));
    FROM(0, UINT64_MAX, UINT64_MAX, jd_j1_add_absent(c, "a", &index));
    FROM(0, 0, 0, jd_j1_pop_first(c, "a", &index, 4));
    FROM(0, 6, 6, jd_j1_pop_first(c, "a", &index, 5));
    FROM(1, 0, 5, jd_j1_pop_first(c, "a", &index, 5));
    FROM(1, 7, UINT64_MAX, jd_j1_pop_first(c, "a", &index, UINT64_MAX));
    CHECK(1, jd_j1_remove_range(c, "a", 7, UINT64_MAX, 65535, &count));
    CHECK(0, (int)count);
    CHECK(1, jd_j1_remove_range(c, "a", 6, 6, 1, &count));
    CHECK(1, (int)count);
    CHECK(1, jd_j1_remove_range(c, "a", 0, UINT64_MAX, 1, NULL));
    CHECK(JD_SYNTAX, jd_j1_remove_range(c, "a", 0, UINT64_MAX, 0, &count));
    CHECK(JD_SYNTAX, jd_j1_remove_range(c, "a", 0, UINT64_MAX, 65536, &count));
    CHECK(1, (int)count);
}

static void check_word_maps(jd *c)
{
    uint64_t value = UNTOUCHED, count;
    FROM(1, 5, 5, jd_jl_insert_absent(c, "a", &index, 50));
    FROM(1, 5, 6, jd_jl_insert_absent(c, "a", &index, UINT64_MAX));
    FROM(1, UINT64_MAX, UINT64_MAX, jd_jl_insert_absent(c, "a", &index, 0));
    FROM(0, UINT64_MAX, UINT64_MAX, jd_jl_insert_absent(c, "a", &index, 1));
    FROM(0, 7, 7, jd_jl_pop_first(c, "a", &index, UINT64_MAX - 1, &value));
    CHECK(UNTOUCHED, (int)value);
    FROM(1, 0, 5, jd_jl_pop_first(c, "a", &index, 5, &value));
    CHECK(50, (int)value);
    FROM(1, 0, 6, jd_jl_pop_first(c, "a", &index, UINT64_MAX, &value));
    CHECK(1, value == UINT64_MAX);
    FROM(1, UINT64_MAX, UINT64_MAX, jd_jl_pop_first(c, "a", &index, UINT64_MAX, NULL));
    CHECK(1, jd_jl_ins(c, "a", 3, 4, NULL));
    CHECK(1, jd_jl_remove_range(c, "a", 4, 3, 1, &count));
    CHECK(0, (int)count);
    CHECK(1, jd_jl_remove_range(c, "a", 3, 3, 65535, &count));
    CHECK(1, (int)count);
}

static void check_strings(jd *c)
{
    char key[JD_KEY_LIMIT + 2] = "b";
    uint64_t value = UNTOUCHED;
    CHECK(1, jd_js_ins(c, "a", "", 1, NULL));
    CHECK(1, jd_js_ins(c, "a", "bc", 2, NULL));
    CHECK(1, jd_js_pop_first(c, "a", key, &value));
    CHECK(1, value == 2 && strcmp(key, "bc") == 0);
    CHECK(0, jd_js_pop_first(c, "a", key, &value));
    CHECK(1, value == 2 && strcmp(key, "bc") == 0);
    key[0] = 0;
    CHECK(1, jd_js_pop_first(c, "a", key, NULL));
    CHECK(1, key[0] == 0);
    CHECK(0, jd_js_pop_first(c, "a", key, NULL));
    memset(key, 'k', JD_KEY_LIMIT + 1);
    CHECK(JD_KEY, jd_js_pop_first(c, "a", key, NULL));
}

/* Queued calls read where they begin at once, and store what they find at the end. */
static void check_queue(jd *c)
{
    uint64_t index[4] = {5, 5, 0, 9}, value = UNTOUCHED;
    int codes[4];
    CHECK(1, jd_begin(c, codes, 4));
    CHECK(JD_QUEUED, jd_jl_insert_absent(c, "a", &index[0], 7));
    CHECK(JD_QUEUED, jd_jl_insert_absent(c, "a", &index[1], 8));
    CHECK(JD_QUEUED, jd_jl_pop_first(c, "a", &index[2], UINT64_MAX, &value));
    CHECK(JD_QUEUED, jd_jl_pop_first(c, "a", &index[3], UINT64_MAX, NULL));
    CHECK(1, jd_end(c));
    CHECK(1, codes[0] == 1 && codes[1] == 1 && codes[2] == 1 && codes[3] == 0);
    CHECK(1, index[0] == 5 && index[1] == 6 && index[2] == 5 && index[3] == 9 && value == 7);
    CHECK(1, jd_jl_del(c, "a", 6));
}

static void check_refusals(const char *path)
{
    char key[JD_KEY_ROOM] = "k";
    uint64_t value = UNTOUCHED;
    jd *c = log_in(path, "small", "abc");
    FROM(JD_NAME, 5, 5, jd_j1_add_absent(c, "", &index));
    FROM(JD_NAME, 5, 5, jd_j1_pop_first(c, "a b", &index, 9));
    FROM(1, UINT64_MAX, UINT64_MAX, jd_j1_add_absent(c, "a", &index));
    FROM(1, 0, 0, jd_jl_insert_absent(c, "a", &index, 1));
    FROM(JD_FULL, 5, 5, jd_j1_add_absent(c, "a", &index));
    FROM(JD_FULL, 0, 0, jd_jl_insert_absent(c, "a", &index, 1));
    FROM(0, UINT64_MAX, UINT64_MAX, jd_j1_add_absent(c, "a", &index)); /* no new entry is asked for */
    FROM(1, 0, UINT64_MAX, jd_j1_pop_first(c, "a", &index, UINT64_MAX));
    FROM(1, 0, 0, jd_jl_pop_first(c, "a", &index, UINT64_MAX, NULL));
    jd_close(c);
    c = log_in(path, "alice", "look");
    FROM(JD_READONLY, 5, 5, jd_j1_add_absent(c, "a", &index));
    FROM(JD_READONLY, 5, 5, jd_j1_pop_first(c, "a", &index, 9));
    FROM(JD_READONLY, 5, 5, jd_jl_insert_absent(c, "a", &index, 1));
    FROM(JD_READONLY, 5, 5, jd_jl_pop_first(c, "a", &index, 9, &value));
    CHECK(JD_READONLY, jd_j1_remove_range(c, "a", 0, 9, 1, &value));
    CHECK(JD_READONLY, jd_jl_remove_range(c, "a", 0, 9, 1, &value));
    CHECK(JD_READONLY, jd_js_pop_first(c, "a", key, &value));
    CHECK(1, value == UNTOUCHED && strcmp(key, "k") == 0);
    jd_close(c);
}

int main(int count, char **words)
{
    if (count != 2) {
        fprintf(stderr, "usage: queues PATH\n");
        return 2;
    }
    jd *c = log_in(words[1], "alice", "abc");
    check_sets(c);
    check_word_maps(c);
    check_strings(c);
    check_queue(c);
    jd_close(c);
    check_refusals(words[1]);
    return 0;
}
