/* The scans of judyd.c: one call visits many entries. It is part of judyd.c, and no program includes it.
 *
 * A scan asks for as many entries as fit into a reply, visits them, and goes on by Next behind the last of
 * them, or where the reply of an intersection says. So it finds its place again whatever other clients insert
 * and remove meanwhile. */
#ifndef JUDYD_SCANS_H
#define JUDYD_SCANS_H

enum {
    FEW = 16,    /* entries that the first line asks for: a visit may end the scan early */
    MANY = 65535 /* and each other line */
};

/* A reply with many entries, and what is not read of it. */
struct listing {
    char reply[JD_REPLY_ROOM];
    struct text rest;
    uint64_t count;
};

/* What is not read of a reply that came. */
static struct text text_of(const struct listing *l)
{
    return (struct text){.at = l->reply, .end = l->reply + strlen(l->reply)};
}

/* Asks for a line. Returns 1 with nothing of it read, or a fault. */
static int ask_line(jd *c, const char *word, const char *name, const struct fields *fields, struct listing *l)
{
    int code = call(c, word, name, fields, &(struct result){.form = LINE, .reply = l->reply});
    if (code > 0)
        l->rest = text_of(l);
    return code;
}

/* The number of entries of a reply is read, if it came: 1, or a fault. */
static int begin_entries(jd *c, int code, struct listing *l)
{
    if (code <= 0)
        return code;
    l->rest = text_of(l);
    if (skip(&l->rest, "E ") && read_word(&l->rest, &l->count) && (l->count > 0 || l->rest.at == l->rest.end))
        return 1;
    return fail(c, JD_REPLY);
}

/* Asks for entries. Returns 1 with the number of them read, or a fault. */
static int ask_entries(jd *c, const char *word, const char *name, const struct fields *fields, struct listing *l)
{
    return begin_entries(c, ask_line(c, word, name, fields, l), l);
}

/* Asks for indexes that two sets share. Returns 1 with the number of them read, and where the next line goes on, 0
 * if they share no more; or a fault. */
static int ask_shared(jd *c, const char *name, const struct fields *fields, struct listing *l, uint64_t *next)
{
    int code = ask_line(c, "J1I", name, fields, l);
    if (code <= 0)
        return code;
    if (skip(&l->rest, "I ") && read_word(&l->rest, next) && skip(&l->rest, " ") && read_word(&l->rest, &l->count))
        return 1;
    return fail(c, JD_REPLY);
}

/* Reads the next number of an entry. */
static bool read_next(struct listing *l, uint64_t *number)
{
    return skip(&l->rest, " ") && read_word(&l->rest, number);
}

/* Cuts off the field of an entry's key, which may be empty. */
static struct text next_field(struct listing *l)
{
    if (!skip(&l->rest, " "))
        return (struct text){.at = l->rest.at, .end = l->rest.at};
    const char *space = memchr(l->rest.at, ' ', (size_t)(l->rest.end - l->rest.at));
    struct text field = {.at = l->rest.at, .end = space ? space : l->rest.end};
    l->rest.at = field.end;
    return field;
}

/* What a visit leads to. Returns 1 to go on, 0 if the visit ended the scan, or JD_USE if it left a queue. */
static int after_visit(const jd *c, int result)
{
    return result ? 0 : c->is_queueing ? JD_USE : 1;
}

/* A scan of a Judy1, which has `visit_one`, or of a JudyL, which has `visit_long`. */
struct scan {
    jd *c;
    const char *name;
    jd_j1_visit *visit_one;
    jd_jl_visit *visit_long;
    void *context;
    uint64_t last; /* the index where the scan goes on */
    bool is_begun; /* and that index was visited */
};

/* Visits the entries of a reply. Returns as after_visit does, or a fault. */
static int visit_words(struct scan *s, struct listing *l)
{
    for (uint64_t i = 0; i < l->count; i++) {
        uint64_t value = 0, index;
        if ((s->visit_long && !read_next(l, &value)) || !read_next(l, &index))
            return fail(s->c, JD_REPLY);
        if (s->is_begun ? index <= s->last : index < s->last)
            return fail(s->c, JD_REPLY);
        s->last = index;
        s->is_begun = true;
        int code = after_visit(s->c, s->visit_one ? s->visit_one(index, s->context) : s->visit_long(index, value, s->context));
        if (code <= 0)
            return code;
    }
    return l->rest.at == l->rest.end ? 1 : fail(s->c, JD_REPLY);
}

/* Scans from an index on. */
static int scan_words(struct scan *s, const char *first, const char *next)
{
    struct listing l;
    if (s->c->is_queueing)
        return JD_USE;
    for (uint64_t most = FEW;; most = MANY) {
        struct fields fields = {.words = 2, .word = {s->last, most}};
        int code = ask_entries(s->c, s->is_begun ? next : first, s->name, &fields, &l);
        if (code <= 0 || l.count == 0)
            return code;
        code = visit_words(s, &l);
        if (code <= 0)
            return code;
    }
}

/* The place of a scan of names: behind an array, or with no kind at the first. */
struct place {
    int kind; /* in KINDS, or -1 */
    char name[NAME_LIMIT + 1];
};

static const char *const KINDS[] = {"J1", "JL", "JSL", "JHS"};

/* The place of a kind in KINDS, or -1. */
static int kind_of(struct text kind)
{
    int at = 3;
    while (at >= 0 && !is_text(kind, KINDS[at]))
        at--;
    return at;
}

/* Asks for the arrays behind a place. Returns 1 with the number of them read, or a fault. */
static int ask_names(jd *c, const struct place *behind, struct listing *l)
{
    struct result result = {.form = LINE, .reply = l->reply};
    int code = start(c, &result);
    if (code < 0)
        return code;
    put_text(c, "NAMES ");
    if (behind->kind >= 0) {
        put_text(c, KINDS[behind->kind]);
        put_text(c, " ");
        put_text(c, behind->name);
        put_text(c, " ");
    }
    put_word(c, MANY);
    return begin_entries(c, finish(c, &result), l);
}

/* Reads an array, whose place must be behind the one before. */
static bool read_array(struct listing *l, struct place *place, uint64_t *entries)
{
    int before = place->kind, kind = kind_of(next_field(l));
    struct text field = next_field(l);
    size_t length = (size_t)(field.end - field.at);
    char name[NAME_LIMIT + 1];
    if (kind < 0 || length > NAME_LIMIT || !read_next(l, entries))
        return false;
    memcpy(name, field.at, length);
    name[length] = 0;
    if (!is_name(name) || kind < before || (kind == before && strcmp(name, place->name) <= 0))
        return false;
    place->kind = kind;
    strcpy(place->name, name);
    return true;
}

/* ---- the functions of the header ---- */

int jd_names(jd *c, const char *kind, const char *name, jd_name_visit *visit, void *context)
{
    struct place place = {.kind = -1};
    struct listing l;
    if (c->is_queueing)
        return JD_USE;
    if (kind && name) {
        place.kind = kind_of((struct text){.at = kind, .end = kind + strlen(kind)});
        if (place.kind < 0 || !is_name(name))
            return JD_NAME;
        strcpy(place.name, name);
    }
    for (;;) {
        int code = ask_names(c, &place, &l);
        if (code <= 0 || l.count == 0)
            return code;
        for (uint64_t i = 0, entries; i < l.count; i++) {
            if (!read_array(&l, &place, &entries))
                return fail(c, JD_REPLY);
            code = after_visit(c, visit(KINDS[place.kind], place.name, entries, context));
            if (code <= 0)
                return code;
        }
        if (l.rest.at != l.rest.end)
            return fail(c, JD_REPLY);
    }
}

int jd_j1_scan(jd *c, const char *name, uint64_t from, jd_j1_visit *visit, void *context)
{
    struct scan s = {.c = c, .name = name, .visit_one = visit, .context = context, .last = from};
    return scan_words(&s, "J1F", "J1N");
}

int jd_j1_intersect(jd *c, const char *name, const char *other, uint64_t from, jd_j1_visit *visit, void *context)
{
    struct scan s = {.c = c, .name = name, .visit_one = visit, .context = context, .last = from};
    struct listing l;
    if (c->is_queueing)
        return JD_USE;
    for (uint64_t most = FEW, next;; most = MANY, s.last = next, s.is_begun = false) {
        struct fields fields = {.other = other, .words = 2, .word = {s.last, most}};
        int code = ask_shared(c, name, &fields, &l, &next);
        if (code <= 0)
            return code;
        code = visit_words(&s, &l);
        if (code <= 0 || next == 0)
            return code;
        if (next <= s.last)
            return fail(c, JD_REPLY);
    }
}

int jd_jl_scan(jd *c, const char *name, uint64_t from, jd_jl_visit *visit, void *context)
{
    struct scan s = {.c = c, .name = name, .visit_long = visit, .context = context, .last = from};
    return scan_words(&s, "JLF", "JLN");
}

int jd_js_scan(jd *c, const char *name, const char *from, jd_js_visit *visit, void *context)
{
    char key[JD_KEY_ROOM], before[JD_KEY_ROOM];
    struct listing l;
    bool is_begun = false;
    if (c->is_queueing)
        return JD_USE;
    if (length_of(from) > JD_KEY_LIMIT)
        return JD_KEY;
    strcpy(key, from);
    for (uint64_t most = FEW;; most = MANY) {
        struct fields fields = {.has_key = true, .key = key, .length = strlen(key), .words = 1, .word = {most}};
        int code = ask_entries(c, is_begun ? "JSLN" : "JSLF", name, &fields, &l);
        if (code <= 0 || l.count == 0)
            return code;
        for (uint64_t i = 0; i < l.count; i++) {
            uint64_t value;
            strcpy(before, key);
            if (!read_next(&l, &value) || !read_key(next_field(&l), key) || strcmp(key, before) < is_begun)
                return fail(c, JD_REPLY);
            is_begun = true;
            code = after_visit(c, visit(key, value, context));
            if (code <= 0)
                return code;
        }
        if (l.rest.at != l.rest.end)
            return fail(c, JD_REPLY);
    }
}

int jd_jh_scan(jd *c, const char *name, const void *behind, size_t length, jd_jh_visit *visit, void *context)
{
    char key[JD_KEY_ROOM], last[JD_KEY_ROOM];
    struct fields fields = {.has_key = behind != NULL, .key = behind, .length = behind ? length : 0, .words = 1, .word = {FEW}};
    struct listing l;
    if (c->is_queueing)
        return JD_USE;
    for (;; fields.word[0] = MANY) {
        int code = ask_entries(c, fields.has_key ? "JHSN" : "JHSF", name, &fields, &l);
        if (code <= 0 || l.count == 0)
            return code;
        for (uint64_t i = 0; i < l.count; i++) {
            uint64_t value;
            if (!read_next(&l, &value) || !read_bytes(next_field(&l), key, &length))
                return fail(c, JD_REPLY);
            if (fields.has_key && length == fields.length && memcmp(key, fields.key, length) == 0)
                return fail(c, JD_REPLY);
            memcpy(last, key, length);
            fields.has_key = true, fields.key = last, fields.length = length;
            code = after_visit(c, visit(key, length, value, context));
            if (code <= 0)
                return code;
        }
        if (l.rest.at != l.rest.end)
            return fail(c, JD_REPLY);
    }
}

#endif
