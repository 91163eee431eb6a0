/* jd_j1_scan, jd_j1_intersect, jd_jl_scan, jd_js_scan, jd_jh_scan and jd_names. Ends with status 1 and a line for the first that is wrong.
 *
 * usage: scans all PATH SEED COUNT      a judyd with the tenant alice (token abc); arrays of about COUNT entries,
 *                                       alone and beside a writer
 *        scans plain PATH COUNT         one scan of a JudyL with the entries 0 to COUNT - 1, and nothing else
 *        scans shared PATH COUNT        what the sets twos and threes, multiples of 2 and of 3 below COUNT, share
 *        scans odd PATH 1|i|l|s|h|n COUNT a server whose last reply on each of COUNT connections is none to a scan of this
 *                                       kind; before it comes the entry 5, 5 with the value 1, a with the value 1, or
 *                                       the array a of the kind JL with one entry
 *        scans refused PATH             one that replies `ERR FROZEN`, `ERR NEW`, `V 1 5` */
#define _POSIX_C_SOURCE 200809L

#include <inttypes.h>
#include <pthread.h>
#include <stdatomic.h>
#include <stdbool.h>
#include <stdio.h>
#include <stdlib.h>
#include <string.h>

#include "../judyd.h"
#include "checks.h"

enum { FAR = 7 /* the value of an index is FAR times it, modulo 2^64 */ };

/* What a scan of words has to visit: sorted indexes from some place on. */
struct wanted {
    jd *c;
    const uint64_t *index;
    size_t count, at, last; /* the visit of place `last` ends the scan */
};

static uint64_t draw(uint64_t *state)
{
    uint64_t z = (*state += 0x9e3779b97f4a7c15u);
    z = (z ^ (z >> 30)) * 0xbf58476d1ce4e5b9u;
    z = (z ^ (z >> 27)) * 0x94d049bb133111ebu;
    return z ^ (z >> 31);
}

static int visit_one(uint64_t index, void *context)
{
    struct wanted *w = context;
    CHECK(1, w->at < w->count && w->index[w->at] == index);
    return w->at++ == w->last;
}

static int visit_long(uint64_t index, uint64_t value, void *context)
{
    CHECK(1, value == FAR * index);
    return visit_one(index, context);
}

static int visit_none(uint64_t index, void *context)
{
    (void)index, (void)context;
    exit(1);
}

/* Leaves a queue open. */
static int visit_and_begin(uint64_t index, void *context)
{
    (void)index;
    return jd_begin(context, NULL, 0) - 1;
}

static int compare(const void *a, const void *b)
{
    uint64_t left = *(const uint64_t *)a, right = *(const uint64_t *)b;
    return left < right ? -1 : left > right;
}

/* Sorted indexes without doubles, in dense runs and anywhere, with both edges. Returns how many. */
static size_t draw_indexes(uint64_t *index, size_t count, uint64_t *state)
{
    size_t kept = 0;
    for (size_t i = 0; i < count; i++)
        index[i] = i == 0 ? 0 : i == 1 ? UINT64_MAX : draw(state) % 4 ? index[i - 1] + 1 + draw(state) % 2 : draw(state);
    qsort(index, count, sizeof *index, compare);
    for (size_t i = 0; i < count; i++)
        if (i == 0 || index[i] != index[kept - 1])
            index[kept++] = index[i];
    return kept;
}

/* Scans of both kinds that begin at an index, and end at their end or at a visit. */
static void check_from(jd *c, const uint64_t *index, size_t count, uint64_t from, size_t visits)
{
    size_t at = 0;
    while (at < count && index[at] < from)
        at++;
    size_t last = visits > 0 ? at + visits - 1 : SIZE_MAX;
    for (int kind = 0; kind < 2; kind++) {
        struct wanted w = {c, index, count, at, last};
        bool is_ended = last < count;
        CHECK(is_ended ? 0 : 1, kind ? jd_jl_scan(c, "l", from, visit_long, &w) : jd_j1_scan(c, "one", from, visit_one, &w));
        CHECK(1, w.at == (is_ended ? last + 1 : count));
    }
}

static void check_words(jd *c, size_t count, uint64_t *state)
{
    uint64_t *index = malloc((count + 1) * sizeof *index), freed;
    if (!index)
        exit(1);
    count = draw_indexes(index, count, state);
    CHECK(1, jd_begin(c, NULL, 0));
    for (size_t i = 0; i < count; i++) {
        jd_j1_set(c, "one", index[i]);
        jd_jl_ins(c, "l", index[i], FAR * index[i], NULL);
    }
    CHECK(1, jd_end(c));
    check_from(c, index, count, 0, 0);
    check_from(c, index, count, UINT64_MAX, 0);
    for (size_t visits = 1; visits < 2 * count; visits *= 5)
        check_from(c, index, count, 0, visits);
    for (int i = 0; i < 8; i++) {
        uint64_t from = count > 0 ? index[draw(state) % count] + draw(state) % 3 : 5;
        check_from(c, index, count, from, 0);
        check_from(c, index, count, from, 1 + draw(state) % 40);
    }
    CHECK(1, jd_j1_free_array(c, "one", &freed));
    CHECK(1, jd_jl_free_array(c, "l", &freed));
    CHECK(1, freed == count);
    free(index);
}

/* ---- what two sets share ---- */

/* The indexes from one on that the sets `one` and `two` share, in both orders, to the end or to a visit. */
static void check_shared_from(jd *c, const uint64_t *index, size_t count, uint64_t from, size_t visits)
{
    size_t at = 0;
    while (at < count && index[at] < from)
        at++;
    size_t last = visits > 0 ? at + visits - 1 : SIZE_MAX;
    for (int order = 0; order < 2; order++) {
        struct wanted w = {c, index, count, at, last};
        bool is_ended = last < count;
        CHECK(is_ended ? 0 : 1, jd_j1_intersect(c, order ? "two" : "one", order ? "one" : "two", from, visit_one, &w));
        CHECK(1, w.at == (is_ended ? last + 1 : count));
    }
}

/* Puts indexes into both sets, or into one of them. Those of both are left, sorted. Returns how many. */
static size_t put_indexes(jd *c, uint64_t *index, size_t count, uint64_t *state)
{
    size_t shared = 0;
    CHECK(1, jd_begin(c, NULL, 0));
    for (size_t i = 0; i < count; i++) {
        uint64_t which = draw(state) % 4, put = index[i];
        if (which != 0)
            jd_j1_set(c, "one", put);
        if (which != 1)
            jd_j1_set(c, "two", put);
        if (which > 1)
            index[shared++] = put;
    }
    CHECK(1, jd_end(c));
    return shared;
}

static void free_sets(jd *c)
{
    CHECK(1, jd_j1_free_array(c, "one", NULL));
    CHECK(1, jd_j1_free_array(c, "two", NULL));
}

static void check_shared(jd *c, size_t count, uint64_t *state)
{
    uint64_t *index = malloc((count + 1) * sizeof *index);
    if (!index)
        exit(1);
    count = put_indexes(c, index, draw_indexes(index, count, state), state);
    check_shared_from(c, index, count, 0, 0);
    check_shared_from(c, index, count, UINT64_MAX, 0);
    for (size_t visits = 1; visits < 2 * count; visits *= 5)
        check_shared_from(c, index, count, 0, visits);
    for (int i = 0; i < 8; i++) {
        uint64_t from = count > 0 ? index[draw(state) % count] + draw(state) % 3 : 5;
        check_shared_from(c, index, count, from, 0);
        check_shared_from(c, index, count, from, 1 + draw(state) % 40);
    }
    free_sets(c);
    free(index);
}

/* Sets whose indexes come in turns, so that lines end without one that they share. At the end comes one. */
static void check_turns(jd *c)
{
    static const uint64_t last[] = {20000};
    CHECK(1, jd_begin(c, NULL, 0));
    for (uint64_t i = 0; i <= last[0]; i++)
        jd_j1_set(c, i % 2 ? "one" : "two", i);
    jd_j1_set(c, "one", last[0]);
    CHECK(1, jd_end(c));
    check_shared_from(c, last, 1, 0, 0);
    check_shared_from(c, last, 1, 1, 1);
    check_shared_from(c, last, 0, last[0] + 1, 0);
    free_sets(c);
}

/* ---- strings ---- */

struct strings {
    char before[JD_KEY_ROOM];
    uint64_t sum, count, last;
};

static int visit_string(const char *key, uint64_t value, void *context)
{
    struct strings *w = context;
    CHECK(1, w->count == 0 || strcmp(w->before, key) < 0);
    strcpy(w->before, key);
    w->sum += value;
    return ++w->count == w->last;
}

static void check_strings(jd *c, size_t count)
{
    char key[JD_KEY_ROOM];
    uint64_t freed, sum = 0;
    CHECK(1, jd_begin(c, NULL, 0));
    for (size_t i = 0; i < count; i++, sum += i) {
        snprintf(key, sizeof key, "%.*s%zu", (int)(i % 3), "\xff\xff\xff", i);
        jd_js_ins(c, "words", key, i + 1, NULL);
    }
    CHECK(1, jd_end(c));
    memset(key, 'k', JD_KEY_LIMIT);
    key[JD_KEY_LIMIT] = 0;
    CHECK(1, jd_js_ins(c, "words", key, 0, NULL));
    struct strings all = {.last = 0}, some = {.last = 3}, late = {.last = 0};
    CHECK(1, jd_js_scan(c, "words", "", visit_string, &all));
    CHECK(1, all.count == count + 1 && all.sum == sum);
    CHECK(0, jd_js_scan(c, "words", "", visit_string, &some));
    CHECK(1, some.count == 3);
    CHECK(1, jd_js_scan(c, "words", "k", visit_string, &late));
    CHECK(1, late.count > 0 && late.count < all.count);
    CHECK(1, jd_js_free_array(c, "words", &freed));
}

/* ---- byte keys ---- */

/* The numbers whose 8 bytes are the keys of a JudyHS, in the order in which a scan visits them. */
struct numbers {
    uint64_t *order;
    bool *was_seen;
    size_t room, count, last; /* the visit of place `last` ends the scan */
};

static int visit_number(const void *key, size_t length, uint64_t value, void *context)
{
    struct numbers *n = context;
    uint64_t number;
    CHECK(sizeof number, (int)length);
    memcpy(&number, key, sizeof number);
    CHECK(1, number < n->room && value == FAR * number && !n->was_seen[number]);
    n->was_seen[number] = true;
    n->order[n->count] = number;
    return n->count++ == n->last;
}

static struct numbers numbers_of(size_t room, size_t last)
{
    struct numbers n = {.order = calloc(room + 1, sizeof *n.order), .was_seen = calloc(room + 1, sizeof *n.was_seen), .room = room, .last = last};
    if (!n.order || !n.was_seen)
        exit(1);
    return n;
}

static void free_numbers(struct numbers *n)
{
    free(n->order);
    free(n->was_seen);
}

/* A scan from a place of the order of another one on, to its end or to a visit. */
static void check_numbers_from(jd *c, const struct numbers *all, size_t at, size_t visits)
{
    struct numbers n = numbers_of(all->room, visits > 0 ? visits - 1 : SIZE_MAX);
    bool is_ended = n.last < all->count - at;
    size_t count = is_ended ? visits : all->count - at;
    const uint64_t *behind = at > 0 ? &all->order[at - 1] : NULL;
    CHECK(is_ended ? 0 : 1, jd_jh_scan(c, "h", behind, sizeof *behind, visit_number, &n));
    CHECK(1, n.count == count && memcmp(n.order, all->order + at, count * sizeof *n.order) == 0);
    free_numbers(&n);
}

static void put_number(jd *c, uint64_t number) { jd_jh_ins(c, "h", &number, sizeof number, FAR * number, NULL); }

static void check_bytes(jd *c, size_t count, uint64_t *state)
{
    struct numbers all = numbers_of(count, SIZE_MAX);
    CHECK(1, jd_begin(c, NULL, 0));
    for (size_t i = 0; i < count; i++)
        put_number(c, i);
    CHECK(1, jd_end(c));
    CHECK(1, jd_jh_scan(c, "h", NULL, 0, visit_number, &all));
    CHECK(1, all.count == count);
    for (size_t visits = 1; visits < 2 * count; visits *= 5)
        check_numbers_from(c, &all, 0, visits);
    for (int i = 0; i < 8; i++) {
        check_numbers_from(c, &all, draw(state) % (count + 1), 0);
        check_numbers_from(c, &all, draw(state) % (count + 1), 1 + draw(state) % 40);
    }
    if (count > 1) { /* behind a key that is absent */
        CHECK(1, jd_jh_del(c, "h", &all.order[count / 2], sizeof *all.order));
        struct numbers rest = numbers_of(count, SIZE_MAX);
        CHECK(1, jd_jh_scan(c, "h", &all.order[count / 2], sizeof *all.order, visit_number, &rest));
        CHECK(1, rest.count == count - count / 2 - 1);
        free_numbers(&rest);
    }
    CHECK(1, jd_jh_free_array(c, "h", NULL));
    free_numbers(&all);
}

static int visit_length(const void *key, size_t length, uint64_t value, void *context)
{
    size_t *sum = context;
    const char *at = key;
    CHECK(1, value == length && (length == 0 || at[length - 1] == 0));
    *sum += length + 1;
    return 0;
}

/* Keys of all lengths that end with a byte 0, and the empty one. */
static void check_lengths(jd *c)
{
    static const size_t lengths[] = {0, 1, 2, 8, 999, JD_KEY_LIMIT};
    static char key[JD_KEY_LIMIT];
    size_t wanted = 0, sum = 0, rest = 0;
    for (size_t i = 0; i < sizeof lengths / sizeof *lengths; wanted += lengths[i++] + 1)
        CHECK(1, jd_jh_ins(c, "h", key, lengths[i], lengths[i], NULL));
    CHECK(1, jd_jh_scan(c, "h", NULL, 0, visit_length, &sum));
    CHECK(1, sum == wanted);
    CHECK(1, jd_jh_scan(c, "h", "", 0, visit_length, &rest));
    CHECK(1, rest < sum);
    CHECK(1, jd_jh_free_array(c, "h", NULL));
}

/* ---- beside a writer ---- */

enum { STAYS = 3 /* an index stays if STAYS divides it; the others come and go */ };

struct writer {
    const char *path;
    void (*change)(jd *c, uint64_t index, uint64_t drawn); /* of an index that does not stay */
    uint64_t state, most;
    atomic_bool ends;
};

static void change_map(jd *c, uint64_t index, uint64_t drawn)
{
    if (drawn % 2)
        jd_jl_ins(c, "l", index, FAR * index, NULL);
    else
        jd_jl_del(c, "l", index);
}

static void change_sets(jd *c, uint64_t index, uint64_t drawn)
{
    const char *name = drawn % 4 < 2 ? "one" : "two";
    if (drawn % 2)
        jd_j1_set(c, name, index);
    else
        jd_j1_unset(c, name, index);
}

static void change_bytes(jd *c, uint64_t index, uint64_t drawn)
{
    if (drawn % 2)
        put_number(c, index);
    else
        jd_jh_del(c, "h", &index, sizeof index);
}

static void *write_on(void *context)
{
    struct writer *w = context;
    jd *c = open_at(w->path);
    CHECK(1, jd_auth(c, "alice", "abc"));
    while (!atomic_load(&w->ends)) {
        CHECK(1, jd_begin(c, NULL, 0));
        for (int i = 0; i < 500; i++) {
            uint64_t index = draw(&w->state) % w->most;
            if (index % STAYS != 0)
                w->change(c, index, draw(&w->state));
        }
        CHECK(1, jd_end(c));
    }
    jd_close(c);
    return NULL;
}

struct seen {
    uint64_t next; /* the least index that may come */
    uint64_t stays; /* the next one of those that stay */
};

static int visit_beside(uint64_t index, uint64_t value, void *context)
{
    struct seen *seen = context;
    CHECK(1, index >= seen->next && value == FAR * index && index <= seen->stays);
    seen->next = index + 1;
    if (index == seen->stays)
        seen->stays += STAYS;
    return 0;
}

static int visit_shared_beside(uint64_t index, void *context)
{
    return visit_beside(index, FAR * index, context);
}

/* Scans below an index that stays. Each entry that stays comes exactly once, and the indexes rise. */
static void scan_map(jd *c, uint64_t most)
{
    struct seen seen = {0, 0};
    CHECK(1, jd_jl_scan(c, "l", 0, visit_beside, &seen));
    CHECK(1, seen.stays == most);
}

static void scan_sets(jd *c, uint64_t most)
{
    struct seen seen = {0, 0};
    CHECK(1, jd_j1_intersect(c, "one", "two", 0, visit_shared_beside, &seen));
    CHECK(1, seen.stays == most);
}

static void scan_bytes(jd *c, uint64_t most)
{
    struct numbers n = numbers_of(most, SIZE_MAX);
    CHECK(1, jd_jh_scan(c, "h", NULL, 0, visit_number, &n));
    for (uint64_t index = 0; index < most; index += STAYS)
        CHECK(1, n.was_seen[index]);
    free_numbers(&n);
}

/* Scans while another client makes changes. */
static void check_beside(const char *path, jd *c, size_t count, uint64_t seed, void (*change)(jd *, uint64_t, uint64_t), void (*scan)(jd *, uint64_t))
{
    struct writer w = {.path = path, .change = change, .state = seed, .most = STAYS * count};
    pthread_t thread;
    CHECK(1, jd_begin(c, NULL, 0));
    for (uint64_t index = 0; index < w.most; index += STAYS) {
        jd_jl_ins(c, "l", index, FAR * index, NULL);
        jd_j1_set(c, "one", index);
        jd_j1_set(c, "two", index);
        put_number(c, index);
    }
    CHECK(1, jd_end(c));
    CHECK(0, pthread_create(&thread, NULL, write_on, &w));
    for (int i = 0; i < 10; i++)
        scan(c, w.most);
    atomic_store(&w.ends, true);
    CHECK(0, pthread_join(thread, NULL));
    CHECK(1, jd_jl_free_array(c, "l", NULL));
    CHECK(1, jd_jh_free_array(c, "h", NULL));
    free_sets(c);
}

/* ---- visits that call ---- */

struct mover {
    jd *c;
    uint64_t count;
    struct wanted inner;
};

/* Removes what it visits, and scans another array meanwhile. */
static int visit_and_remove(uint64_t index, uint64_t value, void *context)
{
    struct mover *m = context;
    m->inner.at = 0;
    CHECK(1, value == FAR * index);
    CHECK(1, jd_jl_del(m->c, "l", index));
    if (m->count++ % 100 == 0)
        CHECK(1, jd_j1_scan(m->c, "one", 0, visit_one, &m->inner));
    return 0;
}

static void check_calls(jd *c, uint64_t count)
{
    static const uint64_t few[] = {3, 4, 9};
    struct mover m = {.c = c, .inner = {c, few, 3, 0, SIZE_MAX}};
    CHECK(1, jd_begin(c, NULL, 0));
    for (uint64_t i = 0; i < count; i++)
        jd_jl_ins(c, "l", 2 * i, FAR * 2 * i, NULL);
    for (int i = 0; i < 3; i++)
        jd_j1_set(c, "one", few[i]);
    CHECK(1, jd_end(c));
    CHECK(1, jd_jl_scan(c, "l", 0, visit_and_remove, &m));
    CHECK(1, m.count == count);
    CHECK(1, jd_jl_count(c, "l", 0, UINT64_MAX, &m.count));
    CHECK(1, m.count == 0);
    CHECK(1, jd_j1_free_array(c, "one", &m.count));
}

/* ---- names ---- */

enum { ARRAYS = 90 /* of each kind: more than fit into one reply */ };

/* What a scan of names has to visit: arrays by kind, and then by number; the visit of place `last` ends the scan. */
struct arrays {
    jd *c;
    size_t at, last;
    bool asks; /* each visit makes a call */
};

/* The name of an array, of 32 bytes. */
static void name_of(size_t at, char name[33])
{
    snprintf(name, 33, "name_%027zu", at % ARRAYS);
}

static int visit_array(const char *kind, const char *name, uint64_t entries, void *context)
{
    static const char *const kinds[] = {"J1", "JL", "JSL", "JHS"};
    struct arrays *w = context;
    char wanted[33];
    name_of(w->at, wanted);
    CHECK(1, w->at < 4 * ARRAYS);
    CHECK(0, strcmp(kind, kinds[w->at / ARRAYS]));
    CHECK(0, strcmp(name, wanted));
    CHECK(1, entries == 1 + w->at % 2);
    if (w->asks)
        CHECK(1, jd_ping(w->c));
    return w->at++ == w->last;
}

static int visit_no_name(const char *kind, const char *name, uint64_t entries, void *context)
{
    (void)kind, (void)name, (void)entries, (void)context;
    exit(1);
}

/* Leaves a queue open. */
static int visit_name_and_begin(const char *kind, const char *name, uint64_t entries, void *context)
{
    (void)kind, (void)name, (void)entries;
    jd_begin(context, NULL, 0);
    return 0;
}

static int visit_and_free(const char *kind, const char *name, uint64_t entries, void *context)
{
    struct arrays *w = context;
    CHECK(1, entries > 0);
    CHECK(0, strcmp(kind, "JSL"));
    CHECK(1, jd_js_free_array(w->c, name, NULL));
    w->at++;
    return 0;
}

/* Makes arrays in another order than they are scanned. */
static void make_arrays(jd *c)
{
    char name[33];
    CHECK(1, jd_begin(c, NULL, 0));
    for (size_t at = 4 * ARRAYS; at-- > 0;)
        for (uint64_t entry = 0; entry < 1 + at % 2; entry++) {
            const char *key = entry ? "b" : "a";
            name_of(at, name);
            switch (at / ARRAYS) {
            case 0: jd_j1_set(c, name, entry); break;
            case 1: jd_jl_ensure(c, name, entry, NULL); break;
            case 2: jd_js_ensure(c, name, key, NULL); break;
            default: jd_jh_ensure(c, name, key, 1, NULL);
            }
        }
    CHECK(1, jd_end(c));
}

static void check_names(jd *c)
{
    static const char *const kinds[] = {"J1", "JL", "JSL", "JHS"};
    struct arrays w = {.c = c, .last = SIZE_MAX};
    char name[33];
    make_arrays(c);
    CHECK(1, jd_names(c, NULL, NULL, visit_array, &w));
    CHECK(1, w.at == 4 * ARRAYS);
    for (size_t behind = 0; behind < 4 * ARRAYS; behind += 7) {
        name_of(behind, name);
        w = (struct arrays){.c = c, .at = behind + 1, .last = behind % 2 ? SIZE_MAX : behind + 1 + behind / 4, .asks = true};
        CHECK(w.last < 4 * ARRAYS ? 0 : 1, jd_names(c, kinds[behind / ARRAYS], name, visit_array, &w));
        CHECK(1, w.at == (w.last < 4 * ARRAYS ? w.last + 1 : 4 * ARRAYS));
    }
    CHECK(JD_USE, jd_names(c, NULL, NULL, visit_name_and_begin, c));
    CHECK(1, jd_end(c));
    for (size_t at = 0; at < ARRAYS; at++) {
        name_of(at, name);
        CHECK(1, jd_j1_free_array(c, name, NULL));
        CHECK(1, jd_jl_free_array(c, name, NULL));
        CHECK(1, jd_jh_free_array(c, name, NULL));
    }
    w = (struct arrays){.c = c};
    CHECK(1, jd_names(c, "JL", "z", visit_and_free, &w));
    CHECK(1, w.at == ARRAYS);
    CHECK(1, jd_names(c, NULL, NULL, visit_no_name, NULL));
}

static void check_refused(jd *c)
{
    char key[JD_KEY_LIMIT + 2];
    int codes[2];
    memset(key, 'k', sizeof key - 1);
    key[sizeof key - 1] = 0;
    CHECK(JD_NAME, jd_j1_scan(c, "no name", 0, visit_none, NULL));
    CHECK(JD_NAME, jd_j1_intersect(c, "no name", "one", 0, visit_none, NULL));
    CHECK(JD_NAME, jd_j1_intersect(c, "one", "no name", 0, visit_none, NULL));
    CHECK(JD_NAME, jd_j1_intersect(c, "one", "", 0, visit_none, NULL));
    CHECK(JD_NAME, jd_jh_scan(c, "no name", NULL, 0, NULL, NULL));
    CHECK(JD_NAME, jd_names(c, "J1", "no name", visit_no_name, NULL));
    CHECK(JD_NAME, jd_names(c, "J1", "", visit_no_name, NULL));
    CHECK(JD_NAME, jd_names(c, "J1", "nnnnnnnnnnnnnnnnnnnnnnnnnnnnnnnnn", visit_no_name, NULL));
    CHECK(JD_NAME, jd_names(c, "J2", "one", visit_no_name, NULL));
    CHECK(JD_NAME, jd_names(c, "", "one", visit_no_name, NULL));
    CHECK(JD_KEY, jd_js_scan(c, "words", key, NULL, NULL));
    CHECK(JD_KEY, jd_jh_scan(c, "h", key, JD_KEY_LIMIT + 1, NULL, NULL));
    CHECK(1, jd_begin(c, codes, 2));
    CHECK(JD_USE, jd_j1_scan(c, "one", 0, visit_none, NULL));
    CHECK(JD_USE, jd_j1_intersect(c, "one", "one", 0, visit_none, NULL));
    CHECK(JD_USE, jd_jl_scan(c, "l", 0, NULL, NULL));
    CHECK(JD_USE, jd_js_scan(c, "words", "", NULL, NULL));
    CHECK(JD_USE, jd_jh_scan(c, "h", NULL, 0, NULL, NULL));
    CHECK(JD_USE, jd_names(c, NULL, NULL, visit_no_name, NULL));
    CHECK(JD_QUEUED, jd_j1_set(c, "one", 5));
    CHECK(1, jd_end(c));
    CHECK(1, codes[0]);
    CHECK(JD_USE, jd_j1_scan(c, "one", 0, visit_and_begin, c));
    CHECK(1, jd_end(c));
    CHECK(JD_USE, jd_j1_intersect(c, "one", "one", 5, visit_and_begin, c));
    CHECK(1, jd_end(c));
    CHECK(JD_AUTH, jd_auth(c, "alice", "wrong"));
    CHECK(JD_AUTH, jd_j1_scan(c, "one", 0, visit_none, NULL));
    CHECK(JD_AUTH, jd_j1_intersect(c, "one", "one", 0, visit_none, NULL));
    CHECK(JD_AUTH, jd_names(c, NULL, NULL, visit_no_name, NULL));
    CHECK(1, jd_auth(c, "alice", "abc"));
    CHECK(1, jd_j1_unset(c, "one", 5));
    CHECK(1, jd_j1_scan(c, "one", 0, visit_none, NULL));
    CHECK(1, jd_j1_intersect(c, "one", "one", 0, visit_none, NULL));
    CHECK(1, jd_names(c, NULL, NULL, visit_no_name, NULL));
    CHECK(1, jd_names(c, "JHS", "zz", visit_no_name, NULL));
}

static void check_all(const char *path, uint64_t seed, size_t count)
{
    uint64_t state = seed;
    jd *c = open_at(path);
    CHECK(1, jd_auth(c, "alice", "abc"));
    check_refused(c);
    for (size_t some = 0; some < 20; some++) {
        check_words(c, some, &state);
        check_shared(c, some, &state);
        check_bytes(c, some, &state);
    }
    check_words(c, 1 + draw(&state) % 2000, &state);
    check_words(c, count, &state);
    check_shared(c, 1 + draw(&state) % 2000, &state);
    check_shared(c, count, &state);
    check_turns(c);
    check_strings(c, count / 10);
    check_bytes(c, count / 10, &state);
    check_lengths(c);
    check_names(c);
    check_calls(c, count / 4);
    check_beside(path, c, count / 4, seed, change_map, scan_map);
    check_beside(path, c, count / 4, seed, change_sets, scan_sets);
    check_beside(path, c, count / 4, seed, change_bytes, scan_bytes);
    jd_close(c);
}

/* ---- other servers ---- */

static int visit_five(uint64_t index, uint64_t value, void *context)
{
    (void)context;
    CHECK(5, (int)index);
    CHECK(1, (int)value);
    return 0;
}

static int visit_index_five(uint64_t index, void *context)
{
    return visit_five(index, 1, context);
}

static int visit_a(const char *key, uint64_t value, void *context)
{
    CHECK(0, strcmp(key, "a"));
    return visit_five(5, value, context);
}

static int visit_byte_a(const void *key, size_t length, uint64_t value, void *context)
{
    CHECK(1, length == 1 && memcmp(key, "a", length) == 0);
    return visit_five(5, value, context);
}

static int visit_array_a(const char *kind, const char *name, uint64_t entries, void *context)
{
    CHECK(0, strcmp(kind, "JL"));
    return visit_a(name, entries, context);
}

/* A scan of a kind, which is `1`, `i` for what two sets share, `l`, `s`, `h`, or `n` for names. */
static int scan(jd *c, char kind)
{
    switch (kind) {
    case '1': return jd_j1_scan(c, "a", 0, visit_index_five, NULL);
    case 'i': return jd_j1_intersect(c, "a", "b", 0, visit_index_five, NULL);
    case 'l': return jd_jl_scan(c, "a", 0, visit_five, NULL);
    case 'h': return jd_jh_scan(c, "a", NULL, 0, visit_byte_a, NULL);
    case 'n': return jd_names(c, NULL, NULL, visit_array_a, NULL);
    default: return jd_js_scan(c, "a", "", visit_a, NULL);
    }
}

/* Replies of which the last one is none to a scan of this kind, on `count` connections. */
static void check_odd(const char *path, char kind, uint64_t count)
{
    for (uint64_t i = 0; i < count; i++) {
        jd *c = open_at(path);
        CHECK(JD_REPLY, scan(c, kind));
        CHECK(JD_CLOSED, scan(c, kind));
        CHECK(-1, jd_fd(c));
        jd_close(c);
    }
}

/* A refusal leaves the connection open. One that the library does not know is a refusal too. */
static void check_unknown(const char *path)
{
    uint64_t index = 5, value = 0;
    jd *c = open_at(path);
    CHECK(JD_FROZEN, jd_jl_scan(c, "l", 0, visit_five, NULL));
    CHECK(JD_REFUSED, jd_jl_scan(c, "l", 0, visit_five, NULL));
    CHECK(1, jd_jl_first(c, "l", &index, &value));
    jd_close(c);
}

static int visit_numbers(uint64_t index, uint64_t value, void *context)
{
    uint64_t *next = context;
    CHECK(1, index == *next && value == index);
    ++*next;
    return 0;
}

static void check_plain(const char *path, uint64_t count)
{
    uint64_t next = 0;
    jd *c = open_at(path);
    CHECK(1, jd_auth(c, "alice", "abc"));
    CHECK(1, jd_jl_scan(c, "numbers", 0, visit_numbers, &next));
    CHECK(1, next == count);
    jd_close(c);
}

static int visit_sixth(uint64_t index, void *context)
{
    uint64_t *next = context;
    CHECK(1, index == *next);
    *next += 6;
    return 0;
}

static void check_sixths(const char *path, uint64_t count)
{
    uint64_t next = 0;
    jd *c = open_at(path);
    CHECK(1, jd_auth(c, "alice", "abc"));
    CHECK(1, jd_j1_intersect(c, "twos", "threes", 0, visit_sixth, &next));
    CHECK(1, next >= count && next < count + 6);
    jd_close(c);
}

int main(int count, char **words)
{
    if (count == 5 && !strcmp(words[1], "all"))
        check_all(words[2], strtoull(words[3], NULL, 10), strtoul(words[4], NULL, 10));
    else if (count == 4 && !strcmp(words[1], "plain"))
        check_plain(words[2], strtoull(words[3], NULL, 10));
    else if (count == 4 && !strcmp(words[1], "shared"))
        check_sixths(words[2], strtoull(words[3], NULL, 10));
    else if (count == 5 && !strcmp(words[1], "odd"))
        check_odd(words[2], words[3][0], strtoull(words[4], NULL, 10));
    else if (count == 3 && !strcmp(words[1], "refused"))
        check_unknown(words[2]);
    else {
        fprintf(stderr, "usage: scans all PATH SEED COUNT, scans plain|shared PATH COUNT, scans odd PATH 1|i|l|s|h|n COUNT, scans refused PATH\n");
        return 2;
    }
    return 0;
}
