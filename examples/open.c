#include "bench.h"
#include <stdio.h>

int main(void) {
    static uint8_t image[BENCH_IMAGE_MAX + 1];
    static uint32_t area[BENCH_WORDS_MAX];
    uint32_t live, pattern, units;
    double reliability;
    uint64_t answer;
    size_t length = fread(image, 1, sizeof image, stdin);
    if (ferror(stdin)) return perror("standard input"), 2;
    answer = bench_open(area, BENCH_WORDS_MAX, image, length, &live);
    if (answer == 0) answer = bench_read_netlist(area, BENCH_WORDS_MAX, &pattern, &units, &reliability);
    if (answer == 0) printf("live %u, pattern %u: %u units, %.9f\n", live, pattern, units, reliability);
    else printf("refused %u %u\n", BENCH_NUMBER(answer), BENCH_PLACE(answer));
    if (fflush(stdout) || ferror(stdout)) return perror("standard output"), 2;
    return answer != 0;
}
