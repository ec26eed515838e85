/* Which of two modules to order: the averages of the two images that are named, which one stands higher, and under how many patterns. */
#include "bench.h"
#include <stdio.h>

/* Answers whether the file could be read. */
static int read_image(const char *name, uint8_t image[BENCH_IMAGE_MAX + 1], size_t *length) {
    FILE *file = fopen(name, "rb");
    int good;
    if (file == NULL) return perror(name), 0;
    *length = fread(image, 1, BENCH_IMAGE_MAX + 1, file);
    good = !ferror(file);
    if (!good) perror(name);
    fclose(file);
    return good;
}

int main(int count, char **names) {
    static uint8_t first[BENCH_IMAGE_MAX + 1], second[BENCH_IMAGE_MAX + 1];
    static const char *const verdicts[] = {"undecided", "the first", "the second"};
    size_t first_len, second_len;
    bench_comparison result;
    uint64_t answer;
    if (count != 3) return fprintf(stderr, "two images are wanted\n"), 2;
    if (!read_image(names[1], first, &first_len) || !read_image(names[2], second, &second_len)) return 2;
    answer = bench_compare(first, first_len, second, second_len, &result);
    if (answer == 0) {
        printf("%.9f and %.9f: %s\n", (double)result.first.average / BENCH_ONE, (double)result.second.average / BENCH_ONE, verdicts[result.verdict]);
        printf("patterns: first %u, second %u, neither %u\n", result.first_higher, result.second_higher, result.neither_higher);
    } else {
        printf("%s: refused %u %u\n", names[BENCH_IMAGE(answer)], BENCH_NUMBER(answer), BENCH_PLACE(answer));
    }
    if (fflush(stdout) || ferror(stdout)) return perror("standard output"), 2;
    return answer != 0;
}
