/* The calls of libjudy's Judy1 and JudyL over the same keys as `words` of crates/bench: words COUNT.
   Standard output has the sums of the results, standard error the processor time of one call in
   tenths of a nanosecond. */
#include <Judy.h>
#include <stdint.h>
#include <stdio.h>
#include <stdlib.h>
#include <time.h>

enum { RANDOM, SEQUENTIAL, DENSE, STRIDED };

static const char *const patterns[] = {"Random", "Sequential", "Dense", "Strided"};

static uint64_t mixed(uint64_t word) {
    uint64_t a = word + 0x9E3779B97F4A7C15u;
    uint64_t b = (a ^ (a >> 30)) * 0xBF58476D1CE4E5B9u;
    uint64_t c = (b ^ (b >> 27)) * 0x94D049BB133111EBu;
    return c ^ (c >> 31);
}

static uint64_t key_of(int pattern, uint64_t i) {
    switch (pattern) {
    case RANDOM: return mixed(i);
    case SEQUENTIAL: return i;
    case DENSE: return i * 7919 % 1048576;
    default: return i * 4096;
    }
}

static uint64_t start;

static uint64_t now(void) {
    struct timespec t;
    clock_gettime(CLOCK_PROCESS_CPUTIME_ID, &t);
    return (uint64_t)t.tv_sec * 1000000000u + (uint64_t)t.tv_nsec;
}

static void tell(const char *kind, int pattern, const char *call, uint64_t count, uint64_t sum) {
    uint64_t spent = now() - start;
    printf("%s %s %s %llu\n", kind, patterns[pattern], call, (unsigned long long)sum);
    fprintf(stderr, "%s %s %s %llu\n", kind, patterns[pattern], call, (unsigned long long)(count ? spent * 10 / count : 0));
    start = now();
}

/* Makes a call for each i below count, adds its result to sum, and prints both. */
#define TIMED(kind, call, ...)                        \
    do {                                              \
        sum = 0;                                      \
        for (uint64_t i = 0; i < count; i++) {        \
            __VA_ARGS__;                              \
        }                                             \
        tell(kind, pattern, call, count, sum);        \
    } while (0)

static void set(int pattern, uint64_t count) {
    void *array = NULL;
    uint64_t sum;
    start = now();
    TIMED("Judy1", "Insert", sum += (uint64_t)Judy1Set(&array, key_of(pattern, i), NULL));
    fprintf(stderr, "Judy1 %s: %llu words for %llu keys\n", patterns[pattern], (unsigned long long)(Judy1MemUsed(array) / 8), (unsigned long long)count);
    start = now();
    TIMED("Judy1", "Get", sum += (uint64_t)Judy1Test(array, key_of(pattern, i), NULL));
    TIMED("Judy1", "Next", {
        Word_t key = key_of(pattern, i);
        sum += Judy1Next(array, &key, NULL) ? key : 0;
    });
    TIMED("Judy1", "Prev", {
        Word_t key = key_of(pattern, i);
        sum += Judy1Prev(array, &key, NULL) ? key : 0;
    });
    TIMED("Judy1", "FirstEmpty", {
        Word_t key = key_of(pattern, i);
        sum += Judy1FirstEmpty(array, &key, NULL) ? key : 0;
    });
    TIMED("Judy1", "Count", sum += Judy1Count(array, 0, key_of(pattern, i), NULL));
    TIMED("Judy1", "Span", sum += Judy1Count(array, key_of(pattern, i / 2), key_of(pattern, i), NULL));
    TIMED("Judy1", "ByCount", {
        Word_t key = 0;
        sum += Judy1ByCount(array, i + 1, &key, NULL) ? key : 0;
    });
    TIMED("Judy1", "Select", {
        Word_t key = 0;
        sum += Judy1ByCount(array, mixed(i) % count + 1, &key, NULL) ? key : 0;
    });
    TIMED("Judy1", "Remove", sum += (uint64_t)Judy1Unset(&array, key_of(pattern, i), NULL));
    TIMED("Judy1", "Refill", sum += (uint64_t)Judy1Set(&array, key_of(pattern, i), NULL));
    Judy1FreeArray(&array, NULL);
    tell("Judy1", pattern, "FreeArray", count, sum);
}

static void map(int pattern, uint64_t count) {
    void *array = NULL;
    uint64_t sum;
    start = now();
    TIMED("JudyL", "Insert", {
        Word_t *value = (Word_t *)JudyLIns(&array, key_of(pattern, i), NULL);
        sum += *value == 0;
        *value = i;
    });
    fprintf(stderr, "JudyL %s: %llu words for %llu keys\n", patterns[pattern], (unsigned long long)(JudyLMemUsed(array) / 8), (unsigned long long)count);
    start = now();
    TIMED("JudyL", "Get", {
        Word_t *value = (Word_t *)JudyLGet(array, key_of(pattern, i), NULL);
        sum += value ? *value : 0;
    });
    TIMED("JudyL", "Next", {
        Word_t key = key_of(pattern, i);
        Word_t *value = (Word_t *)JudyLNext(array, &key, NULL);
        sum += value ? key + *value : 0;
    });
    TIMED("JudyL", "Prev", {
        Word_t key = key_of(pattern, i);
        Word_t *value = (Word_t *)JudyLPrev(array, &key, NULL);
        sum += value ? key + *value : 0;
    });
    TIMED("JudyL", "FirstEmpty", {
        Word_t key = key_of(pattern, i);
        sum += JudyLFirstEmpty(array, &key, NULL) ? key : 0;
    });
    TIMED("JudyL", "Count", sum += JudyLCount(array, 0, key_of(pattern, i), NULL));
    TIMED("JudyL", "Span", sum += JudyLCount(array, key_of(pattern, i / 2), key_of(pattern, i), NULL));
    TIMED("JudyL", "ByCount", {
        Word_t key = 0;
        Word_t *value = (Word_t *)JudyLByCount(array, i + 1, &key, NULL);
        sum += value ? key + *value : 0;
    });
    TIMED("JudyL", "Select", {
        Word_t key = 0;
        Word_t *value = (Word_t *)JudyLByCount(array, mixed(i) % count + 1, &key, NULL);
        sum += value ? key + *value : 0;
    });
    TIMED("JudyL", "Remove", sum += (uint64_t)JudyLDel(&array, key_of(pattern, i), NULL));
    TIMED("JudyL", "Refill", {
        Word_t *value = (Word_t *)JudyLIns(&array, key_of(pattern, i), NULL);
        sum += *value == 0;
        *value = i;
    });
    JudyLFreeArray(&array, NULL);
    tell("JudyL", pattern, "FreeArray", count, sum);
}

int main(int argc, char **argv) {
    uint64_t count = argc > 1 ? strtoull(argv[1], NULL, 10) : 1000;
    for (int pattern = RANDOM; pattern <= STRIDED; pattern++) {
        set(pattern, count);
        map(pattern, count);
    }
    return 0;
}
