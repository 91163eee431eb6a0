/* How long FreeArray of libjudy takes, an entry: the calls that bench/freeing.py times in judyd.

   usage: cc -O2 -o freeing bench/freeing.c -lJudy && ./freeing [ENTRIES]      by default 5,000,000

   Random words and dense words; strings and byte keys of 4 to 20 random bytes. It prints the processor
   time of each call, and that of an entry. */
#include <Judy.h>
#include <stdint.h>
#include <stdio.h>
#include <stdlib.h>
#include <time.h>

#define MOST_BYTES 20
#define LEAST_BYTES 4

static uint64_t state = 88172645463325252u;

/* The next random word (xorshift). */
static uint64_t draw(void) {
    state ^= state << 13;
    state ^= state >> 7;
    state ^= state << 17;
    return state;
}

/* The processor time of this process, in seconds. */
static double seconds(void) {
    struct timespec now;
    clock_gettime(CLOCK_PROCESS_CPUTIME_ID, &now);
    return (double)now.tv_sec + (double)now.tv_nsec * 1e-9;
}

/* Prints the row of a call that began at this second. */
static void row(const char *what, long count, double began) {
    double used = seconds() - began;
    printf("| %s | %ld | %.2f | %.0f |\n", what, count, used, used * 1e9 / (double)count);
    fflush(stdout);
}

/* Ends the program if memory ran out. */
static void need(int there) {
    if (!there) {
        fprintf(stderr, "freeing: no memory\n");
        exit(1);
    }
}

/* Draws a key without a zero byte, and returns its length. */
static size_t draw_key(uint8_t *key) {
    size_t length = LEAST_BYTES + draw() % (MOST_BYTES - LEAST_BYTES + 1);
    for (size_t at = 0; at < length; at++) {
        key[at] = (uint8_t)(1 + draw() % 255);
    }
    key[length] = 0;
    return length;
}

static void sets(const char *what, long count, int dense) {
    Pvoid_t array = NULL;
    Word_t freed;
    int is_new;
    for (long at = 0; at < count; at++) {
        J1S(is_new, array, dense ? (Word_t)at : draw());
        need(is_new != JERR);
    }
    double began = seconds();
    J1FA(freed, array);
    row(what, count, began);
}

static void maps(const char *what, long count, int dense) {
    Pvoid_t array = NULL;
    Word_t freed, *value;
    for (long at = 0; at < count; at++) {
        JLI(value, array, dense ? (Word_t)at : draw());
        need(value != PJERR);
        *value = (Word_t)at;
    }
    double began = seconds();
    JLFA(freed, array);
    row(what, count, began);
}

static void strings(long count) {
    Pvoid_t array = NULL;
    Word_t freed, *value;
    uint8_t key[MOST_BYTES + 1];
    for (long at = 0; at < count; at++) {
        draw_key(key);
        JSLI(value, array, key);
        need(value != PJERR);
        *value = (Word_t)at;
    }
    double began = seconds();
    JSLFA(freed, array);
    row("JSLFA, strings of 4 to 20 bytes", count, began);
}

static void byte_keys(long count) {
    Pvoid_t array = NULL;
    Word_t freed, *value;
    uint8_t key[MOST_BYTES + 1];
    for (long at = 0; at < count; at++) {
        size_t length = draw_key(key);
        JHSI(value, array, key, length);
        need(value != PJERR);
        *value = (Word_t)at;
    }
    double began = seconds();
    JHSFA(freed, array);
    row("JHSFA, keys of 4 to 20 bytes", count, began);
}

int main(int many, char **words) {
    long count = many > 1 ? atol(words[1]) : 5000000;
    sets("J1FA, random words", count, 0);
    sets("J1FA, dense words", count, 1);
    maps("JLFA, random words", count, 0);
    maps("JLFA, dense words", count, 1);
    strings(count);
    byte_keys(count);
    return 0;
}
