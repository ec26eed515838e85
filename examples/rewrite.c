/* The one written form of the image on standard input: without its heading, and with every flip as the chance that its units are. */
#include "bench.h"
#include <stdio.h>

int main(void) {
    static uint8_t image[BENCH_IMAGE_MAX + 1], written[BENCH_WRITTEN_MAX];
    static uint32_t area[BENCH_WORDS_MAX];
    uint32_t live, bytes;
    uint64_t answer;
    size_t length = fread(image, 1, sizeof image, stdin);
    if (ferror(stdin)) return perror("standard input"), 2;
    answer = bench_open(area, BENCH_WORDS_MAX, image, length, &live);
    if (answer == 0) answer = bench_write_image(area, BENCH_WORDS_MAX, written, BENCH_WRITTEN_MAX, &bytes);
    if (answer != 0) {
        fprintf(stderr, "refused %u %u\n", BENCH_NUMBER(answer), BENCH_PLACE(answer));
        return 1;
    }
    if (fwrite(written, 1, bytes, stdout) != bytes || fflush(stdout)) return perror("standard output"), 2;
    return 0;
}
