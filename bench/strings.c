/* The calls of libjudy's JudySL over the same strings as `strings` of crates/bench: strings KIND COUNT READS WALKS FREES MAKES. */
#include <Judy.h>
#include <inttypes.h>
#include <stdint.h>
#include <stdio.h>
#include <stdlib.h>
#include <string.h>

enum { LONGEST = 64 };

static const char shared[] = "/srv/tenants/alpha/records/2026/11/late/";

static uint64_t mixed(uint64_t seed) {
    return seed * UINT64_C(6364136223846793005) + UINT64_C(1442695040888963407);
}

/* The string of a number, as crates/bench makes it. */
static void make_key(int paths, uint64_t i, uint8_t *text) {
    uint64_t seed = mixed(i);
    uint64_t letters = 4 + seed % 17;
    if (paths) {
        memcpy(text, shared, sizeof shared - 1);
        text += sizeof shared - 1;
        letters = 8;
    }
    for (uint64_t k = 0; k < letters; k++) {
        seed = mixed(seed);
        text[k] = (uint8_t)('a' + (seed >> 40) % 26);
    }
    text[letters] = 0;
}

int main(int count, char **words) {
    if (count != 7 || (strcmp(words[1], "words") != 0 && strcmp(words[1], "paths") != 0)) {
        fputs("strings words|paths COUNT READS WALKS FREES MAKES\n", stderr);
        return 2;
    }
    int paths = words[1][0] == 'p';
    uint64_t strings = strtoull(words[2], 0, 10);
    uint64_t reads = strtoull(words[3], 0, 10);
    uint64_t walks = strtoull(words[4], 0, 10);
    uint64_t frees = strtoull(words[5], 0, 10);
    uint64_t makes = strtoull(words[6], 0, 10);
    uint64_t read = 0, passed = 0, freed = 0, made = 0;
    uint8_t text[LONGEST];
    Pvoid_t map = NULL;
    Word_t *value;
    for (uint64_t turn = 0; turn < makes; turn++)
        for (uint64_t i = 0; i < strings; i++) {
            make_key(paths, i, text);
            made += ((volatile uint8_t *)text)[0] != 0;
        }
    for (uint64_t i = 0; i < strings; i++) {
        make_key(paths, i, text);
        JSLI(value, map, text);
        if (value == PJERR)
            return 4;
        *value = i;
    }
    for (uint64_t turn = 0; turn < reads; turn++)
        for (uint64_t i = 0; i < strings; i++) {
            make_key(paths, i, text);
            JSLG(value, map, text);
            read += value != NULL;
        }
    for (uint64_t turn = 0; turn < walks; turn++) {
        text[0] = 0;
        JSLF(value, map, text);
        while (value != NULL) {
            passed++;
            JSLN(value, map, text);
        }
    }
    if (frees != 0) {
        JSLFA(freed, map);
        freed = strings;
    }
    printf("read %" PRIu64 ", passed %" PRIu64 ", made %" PRIu64 "\n", read, passed, made);
    return 0;
}
