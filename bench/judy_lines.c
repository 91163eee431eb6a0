/* The line protocol over libjudy, without JHSF and JHSN: libjudy cannot walk a JudyHS. tests/against_libjudy compares
 * its replies with judyd's, bench/run.py its speed. Build: cc -O2 -o judy_lines judy_lines.c -lJudy
 *
 * usage: judy_lines [TENANT TOKEN QUOTA PIECES READ_TOKEN]..
 *            serves standard input, and writes each reply before the next line
 *        judy_lines --socket PATH [TENANT ..]..
 *            serves connections to a Unix socket, one after another
 *        judy_lines --calls [TENANT ..]..
 *            reads all of standard input, then makes its calls without lines and replies, and prints
 *            seconds of wall time and of CPU time, calls, and bytes of the arrays of words
 * A READ_TOKEN of - means none.
 */
#include <Judy.h>
#include <errno.h>
#include <stdarg.h>
#include <stddef.h>
#include <stdint.h>
#include <stdio.h>
#include <stdlib.h>
#include <string.h>
#include <sys/socket.h>
#include <sys/un.h>
#include <time.h>
#include <unistd.h>

enum { LINE_LIMIT = 4096, KEY_LIMIT = 1000, LIST_LIMIT = 4088, SHARED_LIMIT = 4067, SHARED_STEPS = 2048, MOST_ENTRIES = 65535, FIELDS = 6 };
enum kind { ONE, LONG, STRING, BYTES };
enum call { INSERT, ADD, KEEP, FILL, EXCHANGE, REMOVE, TAKE, POP, CUT, FREE, LOOK, COUNT, INTERSECT, NTH, FIRST, NEXT, LAST, PREV, FIRST_EMPTY, NEXT_EMPTY, LAST_EMPTY, PREV_EMPTY };

struct array {
    Pvoid_t root;
    Word_t entries, pieces;
};

struct tenant {
    const char *name, *token, *read_token;
    Word_t quota, most, used, pieces;
    Pvoid_t arrays; /* JudySL from a letter for the kind and the name to a struct array */
};

struct field {
    const uint8_t *at;
    size_t len;
};

struct command {
    const char *word;
    enum kind kind;
    enum call call;
    int must, may; /* how many fields must and may follow the name */
};

struct request {
    const struct command *command;
    char name[40];  /* a letter for the kind, and the name */
    char other[40]; /* the same of the other set of an intersection */
    Word_t words[3];
    int given; /* how many words were given */
    size_t key_len;
    uint8_t key[KEY_LIMIT + 1];
};

/* python3 tests/calls.py --write writes these rows */
static const struct command COMMANDS[] = {
    {"J1S", ONE, INSERT, 1, 0},
    {"J1SE", ONE, FILL, 1, 0},
    {"J1U", ONE, REMOVE, 1, 0},
    {"J1UF", ONE, POP, 2, 0},
    {"J1UR", ONE, CUT, 3, 0},
    {"J1T", ONE, LOOK, 1, 0},
    {"J1C", ONE, COUNT, 2, 0},
    {"J1BC", ONE, NTH, 1, 0},
    {"J1F", ONE, FIRST, 1, 1},
    {"J1N", ONE, NEXT, 1, 1},
    {"J1L", ONE, LAST, 1, 1},
    {"J1P", ONE, PREV, 1, 1},
    {"J1FE", ONE, FIRST_EMPTY, 1, 1},
    {"J1NE", ONE, NEXT_EMPTY, 1, 1},
    {"J1LE", ONE, LAST_EMPTY, 1, 1},
    {"J1PE", ONE, PREV_EMPTY, 1, 1},
    {"J1I", ONE, INTERSECT, 3, 0},
    {"J1FA", ONE, FREE, 0, 0},
    {"JLI", LONG, INSERT, 1, 1},
    {"JLIE", LONG, FILL, 2, 0},
    {"JLA", LONG, ADD, 2, 0},
    {"JLK", LONG, KEEP, 2, 0},
    {"JLX", LONG, EXCHANGE, 3, 0},
    {"JLD", LONG, REMOVE, 1, 1},
    {"JLDF", LONG, POP, 2, 0},
    {"JLDR", LONG, CUT, 3, 0},
    {"JLT", LONG, TAKE, 1, 0},
    {"JLG", LONG, LOOK, 1, 0},
    {"JLC", LONG, COUNT, 2, 0},
    {"JLBC", LONG, NTH, 1, 0},
    {"JLF", LONG, FIRST, 1, 1},
    {"JLN", LONG, NEXT, 1, 1},
    {"JLL", LONG, LAST, 1, 1},
    {"JLP", LONG, PREV, 1, 1},
    {"JLFE", LONG, FIRST_EMPTY, 1, 1},
    {"JLNE", LONG, NEXT_EMPTY, 1, 1},
    {"JLLE", LONG, LAST_EMPTY, 1, 1},
    {"JLPE", LONG, PREV_EMPTY, 1, 1},
    {"JLFA", LONG, FREE, 0, 0},
    {"JSLI", STRING, INSERT, 1, 1},
    {"JSLA", STRING, ADD, 2, 0},
    {"JSLK", STRING, KEEP, 2, 0},
    {"JSLX", STRING, EXCHANGE, 3, 0},
    {"JSLD", STRING, REMOVE, 1, 1},
    {"JSLDF", STRING, POP, 1, 0},
    {"JSLT", STRING, TAKE, 1, 0},
    {"JSLG", STRING, LOOK, 1, 0},
    {"JSLF", STRING, FIRST, 1, 1},
    {"JSLN", STRING, NEXT, 1, 1},
    {"JSLL", STRING, LAST, 1, 1},
    {"JSLP", STRING, PREV, 1, 1},
    {"JSLFA", STRING, FREE, 0, 0},
    {"JHSI", BYTES, INSERT, 1, 1},
    {"JHSA", BYTES, ADD, 2, 0},
    {"JHSK", BYTES, KEEP, 2, 0},
    {"JHSX", BYTES, EXCHANGE, 3, 0},
    {"JHSD", BYTES, REMOVE, 1, 1},
    {"JHST", BYTES, TAKE, 1, 0},
    {"JHSG", BYTES, LOOK, 1, 0},
    {"JHSFA", BYTES, FREE, 0, 0},
};

#include "judy_requests.h" /* a part of this file: it uses the types above */

static struct tenant tenants[64];
static size_t tenant_count;

static void die(const char *what)
{
    fprintf(stderr, "judy_lines: %s: %s\n", what, strerror(errno));
    exit(4);
}

/* ---- replies ---- */

static char reply[LINE_LIMIT];
static size_t reply_len;
static int is_silent;

static void say(const char *format, ...)
{
    va_list given;
    if (is_silent)
        return;
    va_start(given, format);
    reply_len = (size_t)vsnprintf(reply, sizeof reply, format, given);
    va_end(given);
}

/* Says the value of an entry, or that there is none. */
static void say_value(const Word_t *value)
{
    if (value)
        say("V %lu", *value);
    else
        say("NULL");
}

static void say_string(Word_t value, const uint8_t *key)
{
    if (is_silent)
        return;
    reply_len = (size_t)snprintf(reply, sizeof reply, "V %lu x", value);
    for (; *key; key++) {
        reply[reply_len++] = "0123456789abcdef"[*key / 16];
        reply[reply_len++] = "0123456789abcdef"[*key % 16];
    }
}

/* ---- calls ---- */

static struct array *array_of(struct tenant *t, const char *name, int make)
{
    Word_t *place = make ? (Word_t *)JudySLIns(&t->arrays, (const uint8_t *)name, PJE0) : (Word_t *)JudySLGet(t->arrays, (const uint8_t *)name, PJE0);
    if (!place)
        return NULL;
    if (!*place)
        *place = (Word_t)calloc(1, sizeof(struct array));
    return (struct array *)*place;
}

/* The array of libjudy under a name. */
static Pvoid_t root_of(struct tenant *t, const char *name)
{
    struct array *a = array_of(t, name, 0);
    return a ? a->root : NULL;
}

static Word_t *find(const struct array *a, const struct request *r)
{
    static Word_t zero;
    switch (r->command->kind) {
    case ONE: return Judy1Test(a->root, r->words[0], PJE0) ? &zero : NULL;
    case LONG: return (Word_t *)JudyLGet(a->root, r->words[0], PJE0);
    case STRING: return (Word_t *)JudySLGet(a->root, r->key, PJE0);
    default: return (Word_t *)JudyHSGet(a->root, (void *)r->key, r->key_len);
    }
}

/* Inserts the entry of a request, unless it is present. The place of its value, or NULL if the quota has no room. */
static Word_t *add(struct tenant *t, const struct request *r)
{
    static Word_t zero;
    struct array *a = array_of(t, r->name, 0);
    Word_t *there = a ? find(a, r) : NULL;
    Word_t pieces = r->command->kind >= STRING ? r->key_len / 8 + 1 : 1;
    if (there)
        return there;
    if (t->used >= t->quota || t->pieces + pieces > t->most)
        return NULL;
    a = array_of(t, r->name, 1);
    a->entries++, t->used++;
    a->pieces += pieces, t->pieces += pieces;
    switch (r->command->kind) {
    case ONE: Judy1Set(&a->root, r->words[0], PJE0); return &zero;
    case LONG: return (Word_t *)JudyLIns(&a->root, r->words[0], PJE0);
    case STRING: return (Word_t *)JudySLIns(&a->root, r->key, PJE0);
    default: return (Word_t *)JudyHSIns(&a->root, (void *)r->key, r->key_len, PJE0);
    }
}

static int remove_entry(struct tenant *t, struct array *a, const struct request *r)
{
    int removed;
    Word_t pieces = r->command->kind >= STRING ? r->key_len / 8 + 1 : 1;
    switch (r->command->kind) {
    case ONE: removed = Judy1Unset(&a->root, r->words[0], PJE0); break;
    case LONG: removed = JudyLDel(&a->root, r->words[0], PJE0); break;
    case STRING: removed = JudySLDel(&a->root, r->key, PJE0); break;
    default: removed = JudyHSDel(&a->root, (void *)r->key, r->key_len, PJE0);
    }
    if (removed) {
        a->entries--, t->used--;
        a->pieces -= pieces, t->pieces -= pieces;
    }
    return removed;
}

/* Inserts an entry, and stores the value of the request, if it has one. */
static void insert(struct tenant *t, const struct request *r)
{
    enum kind kind = r->command->kind;
    Word_t entries = t->used, *value = add(t, r);
    if (!value) {
        say("FULL");
    } else if (kind == ONE) {
        say(t->used > entries ? "1" : "0");
    } else {
        say("V %lu", *value);
        if (r->given > (kind == LONG))
            *value = r->words[r->given - 1];
    }
}

/* Adds to the value of an entry. */
static void add_to(struct tenant *t, const struct request *r)
{
    Word_t *value = add(t, r);
    if (value)
        say("V %lu", *value += r->words[r->given - 1]);
    else
        say("FULL");
}

/* Keeps the value of an entry that is present, and otherwise inserts it with the value of the request. */
static void keep(struct tenant *t, const struct array *a, const struct request *r)
{
    Word_t *value = find(a, r);
    if (value) {
        say_value(value);
    } else if ((value = add(t, r))) {
        *value = r->words[r->given - 1];
        say("NULL");
    } else {
        say("FULL");
    }
}

/* Stores the second value of the request if the entry has the first. */
static void exchange(const struct array *a, const struct request *r)
{
    Word_t *value = find(a, r);
    say_value(value);
    if (value && *value == r->words[r->given - 2])
        *value = r->words[r->given - 1];
}

/* Removes the entry of a request. If the request has a value, the entry must have it. */
static int remove_if(struct tenant *t, struct array *a, const struct request *r)
{
    if (r->given > (r->command->kind <= LONG)) {
        const Word_t *value = find(a, r);
        if (!value || *value != r->words[r->given - 1])
            return 0;
    }
    return remove_entry(t, a, r);
}

static Word_t free_array(struct tenant *t, struct array *a, enum kind kind)
{
    Word_t entries = a->entries;
    switch (kind) {
    case ONE: Judy1FreeArray(&a->root, PJE0); break;
    case LONG: JudyLFreeArray(&a->root, PJE0); break;
    case STRING: JudySLFreeArray(&a->root, PJE0); break;
    default: JudyHSFreeArray(&a->root, PJE0);
    }
    t->used -= entries, t->pieces -= a->pieces;
    a->entries = a->pieces = 0;
    return entries;
}

/* A search or ByCount of Judy1, or an empty search of JudyL. Whether it finds an index; *x is the index. */
static int find_index(const struct array *a, enum kind kind, enum call call, Word_t *x)
{
    Word_t n = *x;
    if (kind == LONG)
        switch (call) {
        case FIRST_EMPTY: return JudyLFirstEmpty(a->root, x, PJE0);
        case NEXT_EMPTY: return JudyLNextEmpty(a->root, x, PJE0);
        case LAST_EMPTY: return JudyLLastEmpty(a->root, x, PJE0);
        default: return JudyLPrevEmpty(a->root, x, PJE0);
        }
    switch (call) {
    case NTH: return n && Judy1ByCount(a->root, n, x, PJE0);
    case FIRST: return Judy1First(a->root, x, PJE0);
    case NEXT: return Judy1Next(a->root, x, PJE0);
    case LAST: return Judy1Last(a->root, x, PJE0);
    case PREV: return Judy1Prev(a->root, x, PJE0);
    case FIRST_EMPTY: return Judy1FirstEmpty(a->root, x, PJE0);
    case NEXT_EMPTY: return Judy1NextEmpty(a->root, x, PJE0);
    case LAST_EMPTY: return Judy1LastEmpty(a->root, x, PJE0);
    default: return Judy1PrevEmpty(a->root, x, PJE0);
    }
}

/* A search or ByCount of JudyL. The place of the value; *x is the index. */
static Word_t *find_value(const struct array *a, enum call call, Word_t *x)
{
    Word_t n = *x;
    switch (call) {
    case NTH: return n ? (Word_t *)JudyLByCount(a->root, n, x, PJE0) : NULL;
    case FIRST: return (Word_t *)JudyLFirst(a->root, x, PJE0);
    case NEXT: return (Word_t *)JudyLNext(a->root, x, PJE0);
    case LAST: return (Word_t *)JudyLLast(a->root, x, PJE0);
    default: return (Word_t *)JudyLPrev(a->root, x, PJE0);
    }
}

/* A search of JudySL. The place of the value; the buffer has the string. */
static Word_t *find_string(const struct array *a, enum call call, uint8_t *key)
{
    switch (call) {
    case FIRST: return (Word_t *)JudySLFirst(a->root, key, PJE0);
    case NEXT: return (Word_t *)JudySLNext(a->root, key, PJE0);
    case LAST: return (Word_t *)JudySLLast(a->root, key, PJE0);
    default: return (Word_t *)JudySLPrev(a->root, key, PJE0);
    }
}

/* The bytes of a request that are kept of it. */
static size_t size_of(const struct request *r)
{
    return offsetof(struct request, key) + (r->command->kind >= STRING ? r->key_len + 1 : 0);
}

/* Whether a search finds an index alone, without a value. */
static int is_of_indexes(enum kind kind, enum call call)
{
    return kind == ONE || call >= FIRST_EMPTY;
}

/* Whether a search finds something: *x or the key is it, and *value the place of its value, if it has one. */
static int finds(const struct array *a, enum kind kind, enum call call, Word_t *x, uint8_t *key, Word_t **value)
{
    if (is_of_indexes(kind, call))
        return find_index(a, kind, call, x);
    *value = kind == LONG ? find_value(a, call, x) : find_string(a, call, key);
    return *value != NULL;
}

static void say_found(enum kind kind, enum call call, Word_t x, const uint8_t *key, const Word_t *value)
{
    if (is_of_indexes(kind, call))
        say("1 %lu", x);
    else if (kind == LONG)
        say("V %lu %lu", *value, x);
    else
        say_string(*value, key);
}

static void say_nothing(enum kind kind, enum call call)
{
    say(is_of_indexes(kind, call) ? "0" : "NULL");
}

/* Removes the first entries from the one of the request on, of words up to its second, at most `most` of them. How
 * many it removed. A pop says the one that it removed. */
static Word_t remove_first(struct tenant *t, struct array *a, const struct request *r, Word_t most)
{
    static struct request found;
    enum kind kind = r->command->kind;
    Word_t count = 0, *value;
    memcpy(&found, r, size_of(r));
    for (; count < most && finds(a, kind, FIRST, found.words, found.key, &value) && (kind == STRING || found.words[0] <= r->words[1]); count++) {
        if (r->command->call == POP)
            say_found(kind, FIRST, found.words[0], found.key, value);
        found.key_len = kind == STRING ? strlen((const char *)found.key) : 0;
        remove_entry(t, a, &found);
    }
    return count;
}

/* Inserts the first absent word from the one of the request on, and says it. */
static void fill(struct tenant *t, const struct array *a, const struct request *r)
{
    static struct request found;
    Word_t *value;
    memcpy(&found, r, size_of(r));
    if (!find_index(a, r->command->kind, FIRST_EMPTY, found.words)) {
        say("0");
    } else if (!(value = add(t, &found))) {
        say("FULL");
    } else {
        if (r->command->kind == LONG)
            *value = r->words[1];
        say("1 %lu", found.words[0]);
    }
}

/* The search that goes on behind what a search found. */
static enum call behind(enum call call)
{
    switch (call) {
    case FIRST: case NEXT: return NEXT;
    case LAST: case PREV: return PREV;
    case FIRST_EMPTY: case NEXT_EMPTY: return NEXT_EMPTY;
    default: return PREV_EMPTY;
    }
}

/* The text of what a search finds, after a space. Returns its bytes, or 0 if there is nothing. */
static int text_found(const struct array *a, enum kind kind, enum call call, Word_t *x, uint8_t *key, char *text)
{
    Word_t *value;
    int size;
    if (!finds(a, kind, call, x, key, &value))
        return 0;
    if (is_of_indexes(kind, call))
        return sprintf(text, " %lu", *x);
    if (kind == LONG)
        return sprintf(text, " %lu %lu", *value, *x);
    size = sprintf(text, " %lu x", *value);
    for (; *key; key++)
        size += sprintf(text + size, "%02x", *key);
    return size;
}

/* A search with a number of entries. */
static void walk(const struct array *a, const struct request *r)
{
    static char text[2 * KEY_LIMIT + 64], listed[LIST_LIMIT];
    static uint8_t key[2 * KEY_LIMIT];
    enum call call = r->command->call;
    Word_t x = r->words[0], count, len = 0;
    if (r->command->kind == STRING)
        memcpy(key, r->key, r->key_len + 1);
    for (count = 0; count < entries_asked(r); count++) {
        int size = text_found(a, r->command->kind, call, &x, key, text);
        if (size == 0 || len + (Word_t)size > LIST_LIMIT)
            break;
        memcpy(listed + len, text, (size_t)size);
        len += (Word_t)size;
        call = behind(call);
    }
    say("E %lu%.*s", count, (int)len, listed);
}

/* Whether two sets have indexes from *x on. If so, *x is then the least index of the second from that of the first on,
 * and *is_shared says whether it is an index of the first too. */
static int meets(Pvoid_t one, Pvoid_t other, Word_t *x, int *is_shared)
{
    Word_t least = *x;
    if (!Judy1First(one, &least, PJE0))
        return 0;
    *x = least;
    if (!Judy1First(other, x, PJE0))
        return 0;
    *is_shared = *x == least;
    return 1;
}

/* The indexes that two sets share, up to the first that does not fit into the reply. */
static void intersect(Pvoid_t one, Pvoid_t other, const struct request *r)
{
    static char text[32], listed[SHARED_LIMIT];
    Word_t x = r->words[0], count = 0, len = 0;
    int is_shared, more = 1;
    for (int step = 0; more && step < SHARED_STEPS && count < entries_asked(r); step++) {
        more = meets(one, other, &x, &is_shared);
        if (!more || !is_shared)
            continue;
        Word_t size = (Word_t)sprintf(text, " %lu", x);
        if (len + size > SHARED_LIMIT)
            break;
        memcpy(listed + len, text, size);
        len += size, count++;
        more = ++x != 0;
    }
    say("I %lu %lu%.*s", more ? x : 0, count, (int)len, listed);
}

/* A search of a request in an array. */
static void search(const struct array *a, const struct request *r)
{
    static uint8_t key[2 * KEY_LIMIT];
    Word_t x = r->words[0], *value;
    enum kind kind = r->command->kind;
    enum call call = r->command->call;
    if (is_walk(r)) {
        walk(a, r);
        return;
    }
    if (kind == STRING)
        memcpy(key, r->key, r->key_len + 1);
    if (finds(a, kind, call, &x, key, &value))
        say_found(kind, call, x, key, value);
    else
        say_nothing(kind, call);
}

/* A call of an array, by a tenant who may change it. */
static void make_call(struct tenant *t, const struct request *r)
{
    static struct array none;
    struct array *a = array_of(t, r->name, 0);
    enum kind kind = r->command->kind;
    none = (struct array){0};
    if (!a)
        a = &none;
    switch (r->command->call) {
    case INSERT: insert(t, r); break;
    case ADD: add_to(t, r); break;
    case KEEP: keep(t, a, r); break;
    case FILL: fill(t, a, r); break;
    case EXCHANGE: exchange(a, r); break;
    case REMOVE: say(remove_if(t, a, r) ? "1" : "0"); break;
    case TAKE:
        say_value(find(a, r));
        remove_entry(t, a, r);
        break;
    case POP:
        if (!remove_first(t, a, r, 1))
            say_nothing(kind, FIRST);
        break;
    case CUT: say("N %lu", remove_first(t, a, r, entries_asked(r))); break;
    case FREE: say("N %lu", free_array(t, a, kind)); break;
    case LOOK:
        if (kind == ONE)
            say(find(a, r) ? "1" : "0");
        else
            say_value(find(a, r));
        break;
    case COUNT:
        say("N %lu", kind == ONE ? Judy1Count(a->root, r->words[0], r->words[1], PJE0) : JudyLCount(a->root, r->words[0], r->words[1], PJE0));
        break;
    case INTERSECT: intersect(a->root, root_of(t, r->other), r); break;
    default: search(a, r);
    }
}

/* Says the arrays that have entries, by kind and name, behind the place of the request. */
static void say_names(struct tenant *t, const struct request *r)
{
    static const char *const kinds[] = {"J1", "JL", "JSL", "JHS"};
    static char items[LIST_LIMIT + 1];
    uint8_t place[40];
    size_t len = 0;
    Word_t count = 0;
    strcpy((char *)place, r->name);
    items[0] = 0;
    for (Word_t *p; count < r->words[0] && (p = (Word_t *)JudySLNext(t->arrays, place, PJE0));) {
        const struct array *a = (const struct array *)*p;
        char item[80];
        size_t more = (size_t)snprintf(item, sizeof item, " %s %s %lu", kinds[place[0] - 'a'], place + 1, a->entries);
        if (!a->entries)
            continue;
        if (len + more > LIST_LIMIT)
            break;
        memcpy(items + len, item, more + 1);
        len += more;
        count++;
    }
    say("E %lu%s", count, items);
}

/* ---- connections ---- */

struct connection {
    int in, out;
    struct tenant *speaker;
    int may_change;
};

static void log_in(struct connection *c, struct field name, struct field token)
{
    c->speaker = NULL;
    for (size_t i = 0; i < tenant_count; i++) {
        struct tenant *t = &tenants[i];
        if (!is_word(name, t->name))
            continue;
        c->may_change = is_word(token, t->token);
        if (c->may_change || is_word(token, t->read_token))
            c->speaker = t;
    }
    say(c->speaker ? "OK" : "ERR AUTH");
}

/* Answers a line. Whether the connection goes on. */
static int answer(struct connection *c, const uint8_t *line, size_t len)
{
    static struct request r;
    struct field fields[FIELDS];
    if (len > LINE_LIMIT) {
        say("ERR LONG");
        return 1;
    }
    if (len && line[len - 1] == '\r')
        len--;
    int count = cut(line, len, fields);
    if (count == 1 && is_word(fields[0], "QUIT")) {
        say("BYE");
        return 0;
    }
    if (count == 1 && is_word(fields[0], "PING")) {
        say("OK");
        return 1;
    }
    if (count == 1 && is_word(fields[0], "HELLO")) {
        say("JUDYD 1 line 4096 reply 4096 name 32 token 128 key 1000");
        return 1;
    }
    if (count == 3 && is_word(fields[0], "AUTH") && is_name(fields[1]) && is_token(fields[2])) {
        log_in(c, fields[1], fields[2]);
        return 1;
    }
    int is_used = count == 1 && is_word(fields[0], "USED");
    int is_names = count > 0 && read_names(fields, count, &r);
    if (!is_used && !is_names && (count == 0 || !read_call(fields, count, &r)))
        say("ERR SYNTAX");
    else if (!c->speaker)
        say("ERR AUTH");
    else if (is_used)
        say("Q %lu %lu %lu %lu", c->speaker->used, c->speaker->quota, c->speaker->pieces, c->speaker->most);
    else if (is_names)
        say_names(c->speaker, &r);
    else if (!c->may_change && r.command->call <= FREE)
        say("ERR READONLY");
    else
        make_call(c->speaker, &r);
    return 1;
}

static int send_reply(int out)
{
    size_t sent = 0;
    reply[reply_len++] = '\n';
    while (sent < reply_len) {
        ssize_t n = write(out, reply + sent, reply_len - sent);
        if (n <= 0)
            return 0;
        sent += (size_t)n;
    }
    return 1;
}

static void serve(struct connection *c)
{
    static uint8_t held[LINE_LIMIT + 1 + 4096];
    size_t len = 0;
    for (;;) {
        ssize_t n = read(c->in, held + len, 4096);
        size_t from = 0;
        if (n <= 0)
            return;
        len += (size_t)n;
        for (uint8_t *end; (end = memchr(held + from, '\n', len - from)); from = (size_t)(end - held) + 1) {
            int goes_on = answer(c, held + from, (size_t)(end - held) - from);
            if (!send_reply(c->out) || !goes_on)
                return;
        }
        memmove(held, held + from, len - from);
        len -= from;
        if (len > LINE_LIMIT + 1)
            len = LINE_LIMIT + 1; /* the line is too long, whatever else it holds */
    }
}

static void serve_socket(const char *path)
{
    struct sockaddr_un at = {.sun_family = AF_UNIX};
    int listener = socket(AF_UNIX, SOCK_STREAM, 0);
    snprintf(at.sun_path, sizeof at.sun_path, "%s", path);
    if (listener < 0 || bind(listener, (struct sockaddr *)&at, sizeof at) || listen(listener, 128))
        die(path);
    for (;;) {
        int client = accept(listener, NULL, NULL);
        struct connection c = {.in = client, .out = client};
        if (client < 0)
            die("accept");
        serve(&c);
        close(client);
    }
}

/* ---- calls without lines ---- */

static Word_t bytes_of(struct tenant *t)
{
    uint8_t name[40] = "";
    Word_t bytes = 0;
    for (Word_t *p = (Word_t *)JudySLFirst(t->arrays, name, PJE0); p; p = (Word_t *)JudySLNext(t->arrays, name, PJE0)) {
        struct array *a = (struct array *)*p;
        bytes += name[0] == 'a' ? Judy1MemUsed(a->root) : name[0] == 'b' ? JudyLMemUsed(a->root) : 0;
    }
    return bytes;
}

static double seconds(clockid_t clock)
{
    struct timespec now;
    clock_gettime(clock, &now);
    return (double)now.tv_sec + 1e-9 * (double)now.tv_nsec;
}

static void time_calls(void)
{
    static struct request r;
    struct request **calls = NULL;
    struct field fields[FIELDS];
    double wall, cpu;
    char *line = NULL;
    size_t room = 0, count = 0, space = 0;
    for (ssize_t len; (len = getline(&line, &room, stdin)) > 0;) {
        if (line[len - 1] == '\n')
            len--;
        int cut_off = cut((uint8_t *)line, (size_t)len, fields);
        if (!cut_off || !read_call(fields, cut_off, &r))
            continue;
        size_t size = size_of(&r);
        if (count == space)
            calls = realloc(calls, (space = 2 * space + 1024) * sizeof *calls);
        calls[count++] = memcpy(malloc(size), &r, size);
    }
    is_silent = 1;
    wall = seconds(CLOCK_MONOTONIC);
    cpu = seconds(CLOCK_PROCESS_CPUTIME_ID);
    for (size_t i = 0; i < count; i++)
        make_call(&tenants[0], calls[i]);
    cpu = seconds(CLOCK_PROCESS_CPUTIME_ID) - cpu;
    wall = seconds(CLOCK_MONOTONIC) - wall;
    printf("%.6f %.6f %zu %lu\n", wall, cpu, count, bytes_of(&tenants[0]));
}

int main(int count, char **words)
{
    int at = 1;
    const char *path = NULL;
    int is_timed = count > 1 && !strcmp(words[1], "--calls");
    if (is_timed)
        at = 2;
    if (count > 2 && !strcmp(words[1], "--socket"))
        path = words[2], at = 3;
    for (; at + 4 < count && tenant_count < 64; at += 5)
        tenants[tenant_count++] = (struct tenant){.name = words[at],
                                                  .token = words[at + 1],
                                                  .quota = strtoul(words[at + 2], NULL, 10),
                                                  .most = strtoul(words[at + 3], NULL, 10),
                                                  .read_token = strcmp(words[at + 4], "-") ? words[at + 4] : ""};
    if (at != count || !tenant_count) {
        fprintf(stderr, "usage: judy_lines [--socket PATH | --calls] [TENANT TOKEN QUOTA PIECES READ_TOKEN]..\n");
        return 2;
    }
    if (is_timed)
        time_calls();
    else if (path)
        serve_socket(path);
    else
        serve(&(struct connection){.in = 0, .out = 1});
    return 0;
}
