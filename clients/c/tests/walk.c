/* Random calls of all four kinds, each made on libjudy in this process and on a judyd through the
 * library. Every result is compared. Ends at the first difference with status 1.
 *
 * usage: walk PATH SEED CALLS BATCH THREADS [add]
 *     PATH is the socket; tenant alice with token abc. Each thread has its own connection, and arrays
 *     of its own. A BATCH of 0 makes plain calls. Otherwise up to BATCH calls are queued at a time. With `add` the
 *     calls that libjudy has not are made too: those that add to a value, decide by one, or change what they find. */
#include <Judy.h>
#include <pthread.h>
#include <stdio.h>
#include <stdlib.h>
#include <string.h>

#include "../judyd.h"

enum { NAMES = 3, ROOTS = 8, THREADS_LIMIT = 16, UNTOUCHED = 77 };

/* One array on this side, and its name on the server. */
struct array {
    char name[33];
    Pvoid_t root;
    Word_t entries;
};

/* A call with its result, wanted and given. */
struct check {
    const char *what;
    int wanted, code;
    uint64_t wanted_index, index, wanted_value, value;
    char wanted_key[JD_KEY_ROOM], key[JD_KEY_ROOM];
};

struct key {
    size_t length;
    uint8_t bytes[JD_KEY_ROOM];
};

struct walker {
    const char *path;
    uint64_t state; /* of the generator */
    size_t calls, batch;
    jd *connection;
    struct array one[NAMES], l[NAMES], string[NAMES], bytes[NAMES];
    struct key roots[ROOTS];
    uint64_t bases[ROOTS];
    int grows; /* of ten changes, how many insert */
    int adds;  /* whether calls are made that libjudy has not */
};

/* ---- drawing ---- */

static uint64_t draw(struct walker *w)
{
    uint64_t z = (w->state += 0x9e3779b97f4a7c15u);
    z = (z ^ (z >> 30)) * 0xbf58476d1ce4e5b9u;
    z = (z ^ (z >> 27)) * 0x94d049bb133111ebu;
    return z ^ (z >> 31);
}

static uint64_t below(struct walker *w, uint64_t limit)
{
    return draw(w) % limit;
}

/* A word: dense, in clusters, at an edge, or anywhere. */
static uint64_t draw_word(struct walker *w)
{
    uint64_t base = w->bases[below(w, ROOTS)];
    switch (below(w, 8)) {
    case 0: return (UINT64_C(1) << below(w, 64)) + below(w, 3) - 1;
    case 1: return UINT64_MAX - below(w, 3);
    case 2: return base + (below(w, 300) << 8 * below(w, 8));
    case 3: return draw(w);
    default: return base + below(w, 600);
    }
}

/* A key that shares its first bytes with others; of 1,000 bytes once in 200. */
static struct key draw_key(struct walker *w, int least)
{
    struct key key = w->roots[below(w, ROOTS)];
    size_t more = below(w, 12);
    if (below(w, 200) == 0)
        more = JD_KEY_LIMIT - key.length - below(w, 3);
    else if (below(w, 3) == 0)
        key.length = below(w, key.length + 1);
    for (; more && key.length < JD_KEY_LIMIT; more--)
        key.bytes[key.length++] = (uint8_t)((uint64_t)least + (below(w, 4) ? below(w, 3) : below(w, 256 - (uint64_t)least)));
    key.bytes[key.length] = 0;
    return key;
}

/* ---- results of libjudy ---- */

static void want_flag(struct check *k, int flag)
{
    k->wanted = flag;
}

static void want_value(struct check *k, const void *place)
{
    k->wanted = place != NULL;
    if (place)
        k->wanted_value = *(const Word_t *)place;
}

/* A change of the value at `place`, which is 0 if it is new. */
enum change { STORE, ENSURE, ADD };

static enum change draw_change(struct walker *w)
{
    uint64_t drawn = below(w, 8);
    return drawn < 2 ? ENSURE : drawn < 4 && w->adds ? ADD : STORE;
}

/* Makes the change here, with v, and says what the server should give. */
static void want_change(struct check *k, enum change change, Word_t *place, uint64_t v)
{
    k->wanted = 1, k->wanted_value = *place;
    if (change == STORE)
        *place = v;
    if (change == ADD)
        k->wanted_value = *place += v;
}

/* A call that decides by the value at `place`, which is NULL if there is none. */
enum decision { KEEP, EXCHANGE, TAKE, DELETE_IF };

static enum decision draw_decision(struct walker *w)
{
    return (enum decision)below(w, 4);
}

/* The value that a call asks for: in one half of the calls the one that is there. */
static uint64_t draw_old(struct walker *w, const Word_t *place)
{
    return place && below(w, 2) ? *place : below(w, 3);
}

/* Exchanges the value here, and says what the server should give. Returns whether the caller is to remove the
 * entry, or with KEEP to insert it. */
static int want_decision(struct check *k, enum decision decision, Word_t *place, uint64_t old, uint64_t v)
{
    int has_old = place && *place == old;
    if (decision == DELETE_IF) {
        want_flag(k, has_old);
        return has_old;
    }
    want_value(k, place);
    if (decision == EXCHANGE && has_old)
        *place = v;
    return decision == KEEP ? !place : decision == TAKE && place;
}

/* ---- Judy1 and JudyL ---- */

typedef int search_index(jd *, const char *, uint64_t *);
typedef int judy_search_index(Pcvoid_t, Word_t *, JError_t *);
typedef int search_item(jd *, const char *, uint64_t *, uint64_t *);
typedef PPvoid_t judy_search_item(Pcvoid_t, Word_t *, JError_t *);

static const struct {
    const char *what;
    search_index *call;
    judy_search_index *judy;
} ONE_SEARCHES[] = {
    {"jd_j1_first", jd_j1_first, Judy1First},
    {"jd_j1_next", jd_j1_next, Judy1Next},
    {"jd_j1_last", jd_j1_last, Judy1Last},
    {"jd_j1_prev", jd_j1_prev, Judy1Prev},
    {"jd_j1_first_empty", jd_j1_first_empty, Judy1FirstEmpty},
    {"jd_j1_next_empty", jd_j1_next_empty, Judy1NextEmpty},
    {"jd_j1_last_empty", jd_j1_last_empty, Judy1LastEmpty},
    {"jd_j1_prev_empty", jd_j1_prev_empty, Judy1PrevEmpty},
}, LONG_GAPS[] = {
    {"jd_jl_first_empty", jd_jl_first_empty, JudyLFirstEmpty},
    {"jd_jl_next_empty", jd_jl_next_empty, JudyLNextEmpty},
    {"jd_jl_last_empty", jd_jl_last_empty, JudyLLastEmpty},
    {"jd_jl_prev_empty", jd_jl_prev_empty, JudyLPrevEmpty},
};

static const struct {
    const char *what;
    search_item *call;
    judy_search_item *judy;
} LONG_SEARCHES[] = {
    {"jd_jl_first", jd_jl_first, JudyLFirst},
    {"jd_jl_next", jd_jl_next, JudyLNext},
    {"jd_jl_last", jd_jl_last, JudyLLast},
    {"jd_jl_prev", jd_jl_prev, JudyLPrev},
};

static int free_one(struct walker *w, struct array *a, struct check *k)
{
    k->what = "jd_j1_free_array";
    k->wanted = 1, k->wanted_value = Judy1Count(a->root, 0, UINT64_MAX, PJE0);
    Judy1FreeArray(&a->root, PJE0);
    return jd_j1_free_array(w->connection, a->name, &k->value);
}

/* A look-up, a count, a rank or a search of a Judy1. */
static int ask_one(struct walker *w, struct array *a, struct check *k)
{
    uint64_t x = draw_word(w), y = draw_word(w), which = below(w, 8);
    switch (below(w, 4)) {
    case 0: k->what = "jd_j1_test"; want_flag(k, Judy1Test(a->root, x, PJE0)); return jd_j1_test(w->connection, a->name, x);
    case 1:
        k->what = "jd_j1_count", k->wanted = 1, k->wanted_value = Judy1Count(a->root, x, y, PJE0);
        return jd_j1_count(w->connection, a->name, x, y, &k->value);
    case 2:
        k->what = "jd_j1_by_count", x = below(w, 400);
        want_flag(k, x && Judy1ByCount(a->root, x, &k->wanted_index, PJE0));
        return jd_j1_by_count(w->connection, a->name, x, &k->index);
    default:
        k->what = ONE_SEARCHES[which].what, k->index = k->wanted_index = x;
        want_flag(k, ONE_SEARCHES[which].judy(a->root, &k->wanted_index, PJE0));
        if (!k->wanted)
            k->wanted_index = x;
        return ONE_SEARCHES[which].call(w->connection, a->name, &k->index);
    }
}

/* The end of a range that begins at a word; now and then one that is less. */
static uint64_t draw_end(struct walker *w, uint64_t x)
{
    uint64_t more = below(w, 600);
    return below(w, 4) == 0 ? draw_word(w) : x <= UINT64_MAX - more ? x + more : UINT64_MAX;
}

/* A call of a Judy1 that changes what it finds. */
static int find_one(struct walker *w, struct array *a, struct check *k)
{
    uint64_t x = draw_word(w), high = draw_end(w, x), most = 1 + below(w, 20), which = below(w, 5);
    k->index = k->wanted_index = x;
    if (which == 0) {
        k->what = "jd_j1_remove_range", k->wanted = 1, k->wanted_value = 0;
        for (; k->wanted_value < most && Judy1First(a->root, &x, PJE0) && x <= high; k->wanted_value++)
            Judy1Unset(&a->root, x, PJE0);
        return jd_j1_remove_range(w->connection, a->name, k->index, high, most, &k->value);
    }
    if (which <= 2) {
        k->what = "jd_j1_add_absent";
        want_flag(k, Judy1FirstEmpty(a->root, &x, PJE0));
        if (k->wanted)
            k->wanted_index = x, Judy1Set(&a->root, x, PJE0);
        return jd_j1_add_absent(w->connection, a->name, &k->index);
    }
    k->what = "jd_j1_pop_first";
    want_flag(k, Judy1First(a->root, &x, PJE0) && x <= high);
    if (k->wanted)
        k->wanted_index = x, Judy1Unset(&a->root, x, PJE0);
    return jd_j1_pop_first(w->connection, a->name, &k->index, high);
}

static int call_one(struct walker *w, struct check *k)
{
    struct array *a = &w->one[below(w, NAMES)];
    uint64_t x = draw_word(w);
    if (below(w, 4000) == 0)
        return free_one(w, a, k);
    if (below(w, 2))
        return ask_one(w, a, k);
    if (w->adds && below(w, 4) == 0)
        return find_one(w, a, k);
    if ((int)below(w, 10) < w->grows) {
        k->what = "jd_j1_set";
        want_flag(k, Judy1Set(&a->root, x, PJE0));
        return jd_j1_set(w->connection, a->name, x);
    }
    k->what = "jd_j1_unset";
    want_flag(k, Judy1Unset(&a->root, x, PJE0));
    return jd_j1_unset(w->connection, a->name, x);
}

/* A look-up, a count, a rank or a search of a JudyL. */
static int ask_long(struct walker *w, struct array *a, struct check *k)
{
    uint64_t x = draw_word(w), y = draw_word(w), which = below(w, 4);
    switch (below(w, 5)) {
    case 0: k->what = "jd_jl_get"; want_value(k, JudyLGet(a->root, x, PJE0)); return jd_jl_get(w->connection, a->name, x, &k->value);
    case 1:
        k->what = "jd_jl_count", k->wanted = 1, k->wanted_value = JudyLCount(a->root, x, y, PJE0);
        return jd_jl_count(w->connection, a->name, x, y, &k->value);
    case 2:
        k->what = "jd_jl_by_count", x = below(w, 400);
        want_value(k, x ? JudyLByCount(a->root, x, &k->wanted_index, PJE0) : NULL);
        return jd_jl_by_count(w->connection, a->name, x, &k->index, &k->value);
    case 3:
        k->what = LONG_GAPS[which].what, k->index = k->wanted_index = x;
        want_flag(k, LONG_GAPS[which].judy(a->root, &k->wanted_index, PJE0));
        if (!k->wanted)
            k->wanted_index = x;
        return LONG_GAPS[which].call(w->connection, a->name, &k->index);
    default:
        k->what = LONG_SEARCHES[which].what, k->index = k->wanted_index = x;
        want_value(k, LONG_SEARCHES[which].judy(a->root, &k->wanted_index, PJE0));
        if (!k->wanted)
            k->wanted_index = x;
        return LONG_SEARCHES[which].call(w->connection, a->name, &k->index, &k->value);
    }
}

static int decide_long(struct walker *w, struct array *a, uint64_t x, uint64_t v, struct check *k)
{
    Word_t *place = (Word_t *)JudyLGet(a->root, x, PJE0);
    enum decision decision = draw_decision(w);
    uint64_t old = draw_old(w, place);
    if (want_decision(k, decision, place, old, v)) {
        if (decision == KEEP)
            *(Word_t *)JudyLIns(&a->root, x, PJE0) = v;
        else
            JudyLDel(&a->root, x, PJE0);
    }
    switch (decision) {
    case KEEP: k->what = "jd_jl_keep"; return jd_jl_keep(w->connection, a->name, x, v, &k->value);
    case EXCHANGE: k->what = "jd_jl_exchange"; return jd_jl_exchange(w->connection, a->name, x, old, v, &k->value);
    case TAKE: k->what = "jd_jl_take"; return jd_jl_take(w->connection, a->name, x, &k->value);
    default: k->what = "jd_jl_del_if"; return jd_jl_del_if(w->connection, a->name, x, old);
    }
}

/* A call of a JudyL that changes what it finds. */
static int find_long(struct walker *w, struct array *a, uint64_t v, struct check *k)
{
    uint64_t x = draw_word(w), high = draw_end(w, x), most = 1 + below(w, 20), which = below(w, 5);
    k->index = k->wanted_index = x;
    if (which == 0) {
        k->what = "jd_jl_remove_range", k->wanted = 1, k->wanted_value = 0;
        for (; k->wanted_value < most && JudyLFirst(a->root, &x, PJE0) && x <= high; k->wanted_value++)
            JudyLDel(&a->root, x, PJE0);
        return jd_jl_remove_range(w->connection, a->name, k->index, high, most, &k->value);
    }
    if (which <= 2) {
        k->what = "jd_jl_insert_absent";
        want_flag(k, JudyLFirstEmpty(a->root, &x, PJE0));
        if (k->wanted)
            k->wanted_index = x, *(Word_t *)JudyLIns(&a->root, x, PJE0) = v;
        return jd_jl_insert_absent(w->connection, a->name, &k->index, v);
    }
    k->what = "jd_jl_pop_first";
    Word_t *place = (Word_t *)JudyLFirst(a->root, &x, PJE0);
    want_value(k, x <= high ? place : NULL);
    if (k->wanted)
        k->wanted_index = x, JudyLDel(&a->root, x, PJE0);
    return jd_jl_pop_first(w->connection, a->name, &k->index, high, &k->value);
}

static int call_long(struct walker *w, struct check *k)
{
    struct array *a = &w->l[below(w, NAMES)];
    uint64_t x = draw_word(w), v = draw(w) >> below(w, 64);
    if (below(w, 4000) == 0) {
        k->what = "jd_jl_free_array", k->wanted = 1, k->wanted_value = JudyLCount(a->root, 0, UINT64_MAX, PJE0);
        JudyLFreeArray(&a->root, PJE0);
        return jd_jl_free_array(w->connection, a->name, &k->value);
    }
    if (below(w, 2))
        return ask_long(w, a, k);
    if (w->adds && below(w, 3) == 0)
        return below(w, 2) ? decide_long(w, a, x, v, k) : find_long(w, a, v, k);
    if ((int)below(w, 10) >= w->grows) {
        k->what = "jd_jl_del";
        want_flag(k, JudyLDel(&a->root, x, PJE0));
        return jd_jl_del(w->connection, a->name, x);
    }
    enum change change = draw_change(w);
    want_change(k, change, (Word_t *)JudyLIns(&a->root, x, PJE0), v);
    if (change == ADD) {
        k->what = "jd_jl_add";
        return jd_jl_add(w->connection, a->name, x, v, &k->value);
    }
    if (change == ENSURE) {
        k->what = "jd_jl_ensure";
        return jd_jl_ensure(w->connection, a->name, x, &k->value);
    }
    k->what = "jd_jl_ins";
    return jd_jl_ins(w->connection, a->name, x, v, &k->value);
}

/* ---- JudySL and JudyHS ---- */

static const struct {
    const char *what;
    int (*call)(jd *, const char *, char *, uint64_t *);
    PPvoid_t (*judy)(Pcvoid_t, uint8_t *, JError_t *);
} STRING_SEARCHES[] = {
    {"jd_js_first", jd_js_first, JudySLFirst},
    {"jd_js_next", jd_js_next, JudySLNext},
    {"jd_js_last", jd_js_last, JudySLLast},
    {"jd_js_prev", jd_js_prev, JudySLPrev},
};

static int ask_string(struct walker *w, struct array *a, const struct key *key, struct check *k)
{
    uint64_t which = below(w, 5);
    if (which == 4) {
        k->what = "jd_js_get";
        want_value(k, JudySLGet(a->root, key->bytes, PJE0));
        return jd_js_get(w->connection, a->name, (const char *)key->bytes, &k->value);
    }
    k->what = STRING_SEARCHES[which].what;
    memcpy(k->wanted_key, key->bytes, key->length + 1);
    memcpy(k->key, key->bytes, key->length + 1);
    want_value(k, STRING_SEARCHES[which].judy(a->root, (uint8_t *)k->wanted_key, PJE0));
    if (!k->wanted)
        memcpy(k->wanted_key, key->bytes, key->length + 1);
    return STRING_SEARCHES[which].call(w->connection, a->name, k->key, &k->value);
}

static int decide_string(struct walker *w, struct array *a, const struct key *key, uint64_t v, struct check *k)
{
    Word_t *place = (Word_t *)JudySLGet(a->root, key->bytes, PJE0);
    enum decision decision = draw_decision(w);
    uint64_t old = draw_old(w, place);
    if (want_decision(k, decision, place, old, v)) {
        if (decision == KEEP)
            *(Word_t *)JudySLIns(&a->root, key->bytes, PJE0) = v;
        else
            JudySLDel(&a->root, key->bytes, PJE0);
        a->entries += decision == KEEP ? 1 : (Word_t)-1;
    }
    switch (decision) {
    case KEEP: k->what = "jd_js_keep"; return jd_js_keep(w->connection, a->name, (const char *)key->bytes, v, &k->value);
    case EXCHANGE: k->what = "jd_js_exchange"; return jd_js_exchange(w->connection, a->name, (const char *)key->bytes, old, v, &k->value);
    case TAKE: k->what = "jd_js_take"; return jd_js_take(w->connection, a->name, (const char *)key->bytes, &k->value);
    default: k->what = "jd_js_del_if"; return jd_js_del_if(w->connection, a->name, (const char *)key->bytes, old);
    }
}

/* Removes the first string from a key on. */
static int pop_string(struct walker *w, struct array *a, const struct key *key, struct check *k)
{
    k->what = "jd_js_pop_first";
    memcpy(k->wanted_key, key->bytes, key->length + 1);
    memcpy(k->key, key->bytes, key->length + 1);
    want_value(k, JudySLFirst(a->root, (uint8_t *)k->wanted_key, PJE0));
    if (k->wanted)
        JudySLDel(&a->root, (uint8_t *)k->wanted_key, PJE0);
    else
        memcpy(k->wanted_key, key->bytes, key->length + 1);
    a->entries -= (Word_t)k->wanted;
    return jd_js_pop_first(w->connection, a->name, k->key, &k->value);
}

static int call_string(struct walker *w, struct check *k)
{
    struct array *a = &w->string[below(w, NAMES)];
    struct key key = draw_key(w, 1);
    const char *text = (const char *)key.bytes;
    uint64_t v = draw(w);
    if (below(w, 4000) == 0) {
        k->what = "jd_js_free_array", k->wanted = 1, k->wanted_value = a->entries, a->entries = 0;
        JudySLFreeArray(&a->root, PJE0);
        return jd_js_free_array(w->connection, a->name, &k->value);
    }
    if (below(w, 2))
        return ask_string(w, a, &key, k);
    if (w->adds && below(w, 3) == 0)
        return below(w, 3) ? decide_string(w, a, &key, v, k) : pop_string(w, a, &key, k);
    if ((int)below(w, 10) >= w->grows) {
        k->what = "jd_js_del";
        want_flag(k, JudySLDel(&a->root, key.bytes, PJE0));
        a->entries -= (Word_t)k->wanted;
        return jd_js_del(w->connection, a->name, text);
    }
    a->entries += !JudySLGet(a->root, key.bytes, PJE0);
    enum change change = draw_change(w);
    want_change(k, change, (Word_t *)JudySLIns(&a->root, key.bytes, PJE0), v);
    if (change == ADD) {
        k->what = "jd_js_add";
        return jd_js_add(w->connection, a->name, text, v, &k->value);
    }
    if (change == ENSURE) {
        k->what = "jd_js_ensure";
        return jd_js_ensure(w->connection, a->name, text, &k->value);
    }
    k->what = "jd_js_ins";
    return jd_js_ins(w->connection, a->name, text, v, &k->value);
}

static int decide_bytes(struct walker *w, struct array *a, const struct key *key, uint64_t v, struct check *k)
{
    Word_t *place = (Word_t *)JudyHSGet(a->root, (void *)key->bytes, key->length);
    enum decision decision = draw_decision(w);
    uint64_t old = draw_old(w, place);
    if (want_decision(k, decision, place, old, v)) {
        if (decision == KEEP)
            *(Word_t *)JudyHSIns(&a->root, (void *)key->bytes, key->length, PJE0) = v;
        else
            JudyHSDel(&a->root, (void *)key->bytes, key->length, PJE0);
        a->entries += decision == KEEP ? 1 : (Word_t)-1;
    }
    switch (decision) {
    case KEEP: k->what = "jd_jh_keep"; return jd_jh_keep(w->connection, a->name, key->bytes, key->length, v, &k->value);
    case EXCHANGE: k->what = "jd_jh_exchange"; return jd_jh_exchange(w->connection, a->name, key->bytes, key->length, old, v, &k->value);
    case TAKE: k->what = "jd_jh_take"; return jd_jh_take(w->connection, a->name, key->bytes, key->length, &k->value);
    default: k->what = "jd_jh_del_if"; return jd_jh_del_if(w->connection, a->name, key->bytes, key->length, old);
    }
}

static int call_bytes(struct walker *w, struct check *k)
{
    struct array *a = &w->bytes[below(w, NAMES)];
    struct key key = draw_key(w, 0);
    uint64_t v = draw(w);
    if (below(w, 4000) == 0) {
        k->what = "jd_jh_free_array", k->wanted = 1, k->wanted_value = a->entries, a->entries = 0;
        JudyHSFreeArray(&a->root, PJE0);
        return jd_jh_free_array(w->connection, a->name, &k->value);
    }
    if (below(w, 2)) {
        k->what = "jd_jh_get";
        want_value(k, JudyHSGet(a->root, key.bytes, key.length));
        return jd_jh_get(w->connection, a->name, key.bytes, key.length, &k->value);
    }
    if (w->adds && below(w, 3) == 0)
        return decide_bytes(w, a, &key, v, k);
    if ((int)below(w, 10) >= w->grows) {
        k->what = "jd_jh_del";
        want_flag(k, JudyHSDel(&a->root, key.bytes, key.length, PJE0));
        a->entries -= (Word_t)k->wanted;
        return jd_jh_del(w->connection, a->name, key.bytes, key.length);
    }
    a->entries += !JudyHSGet(a->root, key.bytes, key.length);
    enum change change = draw_change(w);
    want_change(k, change, (Word_t *)JudyHSIns(&a->root, key.bytes, key.length, PJE0), v);
    if (change == ADD) {
        k->what = "jd_jh_add";
        return jd_jh_add(w->connection, a->name, key.bytes, key.length, v, &k->value);
    }
    if (change == ENSURE) {
        k->what = "jd_jh_ensure";
        return jd_jh_ensure(w->connection, a->name, key.bytes, key.length, &k->value);
    }
    k->what = "jd_jh_ins";
    return jd_jh_ins(w->connection, a->name, key.bytes, key.length, v, &k->value);
}

/* ---- comparing ---- */

static void differ(const struct check *k, const char *part)
{
    fprintf(stderr, "walk: %s: %s differs: wanted %d %llu %llu, got %d %llu %llu\n", k->what, part, k->wanted, (unsigned long long)k->wanted_index,
            (unsigned long long)k->wanted_value, k->code, (unsigned long long)k->index, (unsigned long long)k->value);
    exit(1);
}

static void compare(const struct check *k)
{
    if (k->code != k->wanted)
        differ(k, "the code");
    if (k->index != k->wanted_index)
        differ(k, "the index");
    if (k->value != k->wanted_value)
        differ(k, "the value");
    if (strcmp(k->key, k->wanted_key) != 0)
        differ(k, "the key");
}

/* Makes one call of any kind. Returns its code. */
static int make_call(struct walker *w, struct check *k)
{
    *k = (struct check){.index = UNTOUCHED, .wanted_index = UNTOUCHED, .value = UNTOUCHED, .wanted_value = UNTOUCHED};
    if (below(w, 1000) == 0)
        w->grows = 2 + (int)below(w, 8);
    switch (below(w, 4)) {
    case 0: return call_one(w, k);
    case 1: return call_long(w, k);
    case 2: return call_string(w, k);
    default: return call_bytes(w, k);
    }
}

/* Makes `count` calls that are queued together, and compares their results. */
static void make_batch(struct walker *w, size_t count)
{
    struct check *checks = malloc(count * sizeof *checks);
    int *codes = malloc(count * sizeof *codes), code;
    if (!checks || !codes || jd_begin(w->connection, codes, count) != 1)
        exit(2);
    for (size_t i = 0; i < count; i++)
        if ((code = make_call(w, &checks[i])) != JD_QUEUED) {
            fprintf(stderr, "walk: %s is not queued but gives %d\n", checks[i].what, code);
            exit(1);
        }
    if ((code = jd_end(w->connection)) != 1) {
        fprintf(stderr, "walk: jd_end gives %d\n", code);
        exit(1);
    }
    for (size_t i = 0; i < count; i++) {
        checks[i].code = codes[i];
        compare(&checks[i]);
    }
    free(checks);
    free(codes);
}

/* ---- threads ---- */

static void prepare(struct walker *w, int number)
{
    struct array *const kinds[] = {w->one, w->l, w->string, w->bytes};
    for (int i = 0; i < NAMES; i++)
        for (int kind = 0; kind < 4; kind++)
            snprintf(kinds[kind][i].name, sizeof kinds[kind][i].name, i ? "%d_%d" : "Thread-%d.%023d", number, i);
    for (int i = 0; i < ROOTS; i++) {
        w->bases[i] = draw(w) >> 8 * below(w, 8);
        w->roots[i].length = below(w, 20);
        for (size_t k = 0; k < w->roots[i].length; k++)
            w->roots[i].bytes[k] = (uint8_t)(1 + below(w, 255));
    }
    w->grows = 8;
    w->connection = jd_open(w->path);
    if (!w->connection || jd_auth(w->connection, "alice", "abc") != 1) {
        fprintf(stderr, "walk: no connection, or no log-in\n");
        exit(2);
    }
}

/* Frees the arrays on both sides. The counts are compared. */
static void clear(struct walker *w)
{
    uint64_t freed = 0, wanted = 0;
    for (int i = 0; i < NAMES; i++) {
        wanted += Judy1Count(w->one[i].root, 0, UINT64_MAX, PJE0) + JudyLCount(w->l[i].root, 0, UINT64_MAX, PJE0);
        wanted += w->string[i].entries + w->bytes[i].entries;
        uint64_t counts[4] = {0};
        jd_j1_free_array(w->connection, w->one[i].name, &counts[0]);
        jd_jl_free_array(w->connection, w->l[i].name, &counts[1]);
        jd_js_free_array(w->connection, w->string[i].name, &counts[2]);
        jd_jh_free_array(w->connection, w->bytes[i].name, &counts[3]);
        freed += counts[0] + counts[1] + counts[2] + counts[3];
        Judy1FreeArray(&w->one[i].root, PJE0);
        JudyLFreeArray(&w->l[i].root, PJE0);
        JudySLFreeArray(&w->string[i].root, PJE0);
        JudyHSFreeArray(&w->bytes[i].root, PJE0);
    }
    if (freed != wanted) {
        fprintf(stderr, "walk: %llu entries freed, and %llu wanted\n", (unsigned long long)freed, (unsigned long long)wanted);
        exit(1);
    }
    jd_close(w->connection);
}

static void *walk(void *given)
{
    struct walker *w = given;
    struct check check;
    for (size_t made = 0, count; made < w->calls; made += count) {
        count = w->batch ? 1 + below(w, w->batch) : 1;
        if (w->batch) {
            make_batch(w, count);
            continue;
        }
        check.code = make_call(w, &check);
        compare(&check);
    }
    return NULL;
}

int main(int count, char **words)
{
    static struct walker walkers[THREADS_LIMIT];
    pthread_t threads[THREADS_LIMIT];
    int adds = count == 7 && !strcmp(words[6], "add"), running = count == 6 + adds ? atoi(words[5]) : 0;
    uint64_t seed = running ? strtoull(words[2], NULL, 10) : 0;
    if (running < 1 || running > THREADS_LIMIT) {
        fprintf(stderr, "usage: walk PATH SEED CALLS BATCH THREADS [add]\n");
        return 2;
    }
    for (int i = 0; i < running; i++) {
        struct walker *w = &walkers[i];
        w->path = words[1], w->state = (seed << 8) + (uint64_t)i;
        w->adds = adds;
        w->calls = strtoull(words[3], NULL, 10), w->batch = strtoull(words[4], NULL, 10);
        prepare(w, i);
        if (pthread_create(&threads[i], NULL, walk, w) != 0)
            return 2;
    }
    for (int i = 0; i < running; i++) {
        pthread_join(threads[i], NULL);
        clear(&walkers[i]);
    }
    return 0;
}
