/* The resident memory of libjudy's arrays, for bench/memory.py. Build: cc -O2 -o memory memory.c -lJudy
 *
 * usage: memory KIND COUNT..
 *        KIND is 1, L, S or H, for Judy1, JudyL, JudySL or JudyHS. Keys come on standard input: words of 8 bytes,
 *        or keys of 12 bytes. For each count, from the least to the greatest, it prints by how many bytes its
 *        resident memory, without pages of files, has grown since it had no entry. A value is the number of entries
 *        before it. Each entry must be a new one.
 */
#include <Judy.h>
#include <stdint.h>
#include <stdio.h>
#include <stdlib.h>
#include <unistd.h>

/* The bytes of the resident pages that are in no file. */
static long resident(void)
{
    char line[256];
    long held = -1;
    FILE *file = fopen("/proc/self/smaps_rollup", "r");
    if (!file)
        exit(1);
    while (held < 0 && fgets(line, sizeof line, file))
        sscanf(line, "Anonymous: %ld", &held);
    fclose(file);
    if (held < 0)
        exit(1);
    return 1024 * held;
}

int main(int count, char **words)
{
    Pvoid_t root = NULL;
    uint8_t key[13] = {0};
    uint64_t word, done = 0;
    char kind = count > 2 ? words[1][0] : 0;
    int is_long = kind == 'S' || kind == 'H';
    if (!kind)
        return 2;
    if (fread(is_long ? (void *)key : (void *)&word, is_long ? 12 : 8, 1, stdin) != 1)
        return 1;
    long empty = resident();
    for (int at = 2; at < count; at++) {
        for (uint64_t most = strtoull(words[at], NULL, 10); done < most; done++) {
            Word_t *value = NULL;
            int is_new;
            if (done && fread(is_long ? (void *)key : (void *)&word, is_long ? 12 : 8, 1, stdin) != 1)
                return 1;
            if (kind == '1') {
                is_new = Judy1Set(&root, word, PJE0) == 1;
            } else {
                value = (Word_t *)(kind == 'L' ? JudyLIns(&root, word, PJE0) : kind == 'S' ? JudySLIns(&root, key, PJE0) : JudyHSIns(&root, key, 12, PJE0));
                is_new = value && value != (Word_t *)PPJERR && !*value;
            }
            if (!is_new) {
                fprintf(stderr, "memory: entry %lu is not a new one\n", done);
                return 1;
            }
            if (value)
                *value = done;
        }
        printf("%ld\n", resident() - empty);
        fflush(stdout);
    }
    return 0;
}
