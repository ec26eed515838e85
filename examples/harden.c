/* Which gate is worth hardening: for each gate of the image on standard input, in how many of all patterns its flip makes an output wrong. */
#include "bench.h"
#include <stdio.h>

int main(void) {
    static uint8_t image[BENCH_IMAGE_MAX + 1];
    static uint32_t area[BENCH_WORDS_MAX], patterns[BENCH_LISTED_MAX], counts[BENCH_GATES_MAX];
    uint32_t live, all;
    uint64_t answer;
    size_t length = fread(image, 1, sizeof image, stdin);
    if (ferror(stdin)) return perror("standard input"), 2;
    answer = bench_open(area, BENCH_WORDS_MAX, image, length, &live);
    if (answer == 0) {
        all = UINT32_C(1) << area[0];
        for (uint32_t q = 0; q < all; q++) patterns[q] = q;
        answer = bench_counts_by_mask(area, BENCH_WORDS_MAX, patterns, all, counts, BENCH_GATES_MAX);
    }
    if (answer == 0)
        for (uint32_t j = 0; j < area[1]; j++) printf("gate %u: seen in %u of %u\n", j, counts[j], all);
    else
        printf("refused %u %u\n", BENCH_NUMBER(answer), BENCH_PLACE(answer));
    if (fflush(stdout) || ferror(stdout)) return perror("standard output"), 2;
    return answer != 0;
}
