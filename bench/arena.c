/* What the calls of `arena` of crates/bench do, with a plain array and with calloc and free: arena ROUNDS.
   Standard output has the sums, standard error the time of one call in tenths of a nanosecond. */
#include <stdint.h>
#include <stdio.h>
#include <stdlib.h>
#include <time.h>

enum { KEPT = 1000 };

static uint64_t start;

static uint64_t now(void) {
    struct timespec t;
    clock_gettime(CLOCK_MONOTONIC, &t);
    return (uint64_t)t.tv_sec * 1000000000u + (uint64_t)t.tv_nsec;
}

static void tell(const char *call, uint64_t rounds, uint64_t sum) {
    uint64_t spent = now() - start;
    printf("%s %llu\n", call, (unsigned long long)sum);
    fprintf(stderr, "%s %llu\n", call, (unsigned long long)(rounds ? spent * 10 / rounds : 0));
    start = now();
}

__attribute__((noinline)) static uint64_t write_all(volatile uint64_t *words, uint64_t rounds) {
    for (uint64_t i = 0; i < rounds; i++) words[i * 37 % 512] = i;
    return words[511];
}

__attribute__((noinline)) static uint64_t read_all(const volatile uint64_t *words, uint64_t rounds) {
    uint64_t sum = 0;
    for (uint64_t i = 0; i < rounds; i++) sum += words[i * 37 % 512];
    return sum;
}

__attribute__((noinline)) static uint64_t take_and_release(size_t len, uint64_t rounds) {
    uint64_t sum = 0;
    for (uint64_t i = 0; i < rounds; i++) {
        volatile uint64_t *words = calloc(len, 8);
        if (!words) exit(1);
        sum += words[0];
        free((void *)words);
    }
    return sum;
}

static uint64_t take_many(uint64_t rounds) {
    static uint64_t *blocks[KEPT];
    uint64_t sum = 0;
    for (uint64_t i = 0; i < rounds / KEPT; i++) {
        for (int place = 0; place < KEPT; place++) {
            size_t len = (size_t)4 << place % 5;
            blocks[place] = calloc(len, 8);
            if (!blocks[place]) exit(1);
            sum += len;
        }
        for (int place = 0; place < KEPT; place++) free(blocks[place]);
    }
    return sum;
}

int main(int argc, char **argv) {
    uint64_t rounds = argc > 1 ? strtoull(argv[1], NULL, 10) : 10000;
    uint64_t *words = calloc(512, 8);
    if (!words) return 1;
    start = now();
    tell("set", rounds, write_all(words, rounds));
    tell("get", rounds, read_all(words, rounds));
    tell("take and release 4", rounds, take_and_release(4, rounds));
    tell("take and release 512", rounds, take_and_release(512, rounds));
    tell("take many and release", rounds, take_many(rounds));
    free(words);
    return 0;
}
