/* How judy_lines.c reads a line: its fields, and the call of an array that they spell. It is part of judy_lines.c, and no
 * other program includes it. */
#ifndef JUDY_REQUESTS_H
#define JUDY_REQUESTS_H

static int is_word(struct field f, const char *word)
{
    return f.len == strlen(word) && memcmp(f.at, word, f.len) == 0;
}

static int is_name(struct field f)
{
    static const char letters[] = "ABCDEFGHIJKLMNOPQRSTUVWXYZabcdefghijklmnopqrstuvwxyz0123456789_-.";
    if (f.len < 1 || f.len > 32)
        return 0;
    for (size_t i = 0; i < f.len; i++)
        if (f.at[i] == 0 || !strchr(letters, f.at[i]))
            return 0;
    return 1;
}

static int is_token(struct field f)
{
    if (f.len < 1 || f.len > 128)
        return 0;
    for (size_t i = 0; i < f.len; i++)
        if (f.at[i] < 33 || f.at[i] > 126)
            return 0;
    return 1;
}

static int read_word(struct field f, Word_t *word)
{
    unsigned __int128 n = 0;
    if (is_word(f, "-1")) {
        *word = UINT64_MAX;
        return 1;
    }
    if (f.len < 1 || f.len > 20)
        return 0;
    for (size_t i = 0; i < f.len; i++) {
        if (f.at[i] < '0' || f.at[i] > '9')
            return 0;
        n = 10 * n + (f.at[i] - '0');
    }
    *word = (Word_t)n;
    return n <= UINT64_MAX;
}

static int digit(uint8_t c)
{
    return c >= '0' && c <= '9' ? c - '0' : c >= 'a' && c <= 'f' ? c - 'a' + 10 : c >= 'A' && c <= 'F' ? c - 'A' + 10 : -1;
}

static int read_key(struct field f, enum kind kind, struct request *r)
{
    if (f.len < 1 || f.at[0] != 'x' || f.len % 2 == 0 || f.len > 2 * KEY_LIMIT + 1)
        return 0;
    r->key_len = f.len / 2;
    for (size_t i = 0; i < r->key_len; i++) {
        int high = digit(f.at[1 + 2 * i]), low = digit(f.at[2 + 2 * i]);
        if (high < 0 || low < 0 || (kind == STRING && high + low == 0))
            return 0;
        r->key[i] = (uint8_t)(16 * high + low);
    }
    r->key[r->key_len] = 0;
    return 1;
}

/* Cuts a line into at most FIELDS fields, and counts them. */
static int cut(const uint8_t *line, size_t len, struct field *fields)
{
    int count = 0;
    for (size_t i = 0; i < len && count < FIELDS;) {
        size_t start = i;
        while (i < len && line[i] != ' ')
            i++;
        if (i > start)
            fields[count++] = (struct field){line + start, i - start};
        while (i < len && line[i] == ' ')
            i++;
    }
    return count;
}

/* Whether a search has a number of entries. */
static int is_walk(const struct request *r)
{
    return r->command->call >= FIRST && r->given > (r->command->kind != STRING);
}

/* The number of entries of a search, of an intersection, or of a removal of many. */
static Word_t entries_asked(const struct request *r)
{
    return r->words[r->given - 1];
}

/* Reads the name of an array: a letter for its kind, and the name. */
static int read_name(struct field f, enum kind kind, char name[40])
{
    if (!is_name(f))
        return 0;
    name[0] = (char)('a' + kind);
    memcpy(name + 1, f.at, f.len);
    name[1 + f.len] = 0;
    return 1;
}

/* Reads NAMES: the place behind which it begins, a letter for a kind and a name, and how many arrays it asks for. */
static int read_names(const struct field *fields, int count, struct request *r)
{
    static const char *const kinds[] = {"J1", "JL", "JSL", "JHS"};
    int kind = 0;
    if (!is_word(fields[0], "NAMES") || (count != 2 && count != 4))
        return 0;
    r->name[0] = 0;
    if (count == 4) {
        while (kind < 4 && !is_word(fields[1], kinds[kind]))
            kind++;
        if (kind == 4 || !read_name(fields[2], (enum kind)kind, r->name))
            return 0;
    }
    r->given = 1;
    return read_word(fields[count - 1], &r->words[0]) && r->words[0] >= 1 && r->words[0] <= MOST_ENTRIES;
}

/* Reads the call of an array that the fields spell. */
static int read_call(const struct field *fields, int count, struct request *r)
{
    size_t i, commands = sizeof COMMANDS / sizeof *COMMANDS;
    for (i = 0; i < commands && !is_word(fields[0], COMMANDS[i].word); i++)
        ;
    if (i == commands || count < 2)
        return 0;
    const struct command *c = &COMMANDS[i];
    int given = count - 2, at = 2;
    if (given < c->must || given > c->must + c->may || !read_name(fields[1], c->kind, r->name))
        return 0;
    r->command = c;
    r->given = 0;
    if (c->call == INTERSECT && !read_name(fields[at++], c->kind, r->other))
        return 0;
    if (c->kind >= STRING && c->must > 0)
        if (!read_key(fields[at++], c->kind, r))
            return 0;
    while (at < count)
        if (!read_word(fields[at++], &r->words[r->given++]))
            return 0;
    if (c->call != CUT && c->call != INTERSECT && !is_walk(r))
        return 1;
    return entries_asked(r) >= 1 && entries_asked(r) <= MOST_ENTRIES;
}

#endif
