/* The reliability of the image on standard input under every pattern; gates may be shared, as in what synthesis tools write. */
#include "bench.h"
#include <stdio.h>

int main(void) {
    static uint8_t image[BENCH_IMAGE_MAX + 1];
    size_t length = fread(image, 1, sizeof image, stdin);
    uint32_t patterns = 1, units;
    uint64_t answer = 0;
    if (ferror(stdin)) return perror("standard input"), 2;
    for (uint32_t q = 0; q < patterns && answer == 0; q++) {
        answer = bench_shared_reliability(image, length, q, &units);
        if (answer == 0) {
            patterns = UINT32_C(1) << image[length - 16]; /* the trailer begins with the number of inputs */
            printf("pattern %u: %u units\n", q, units);
        }
    }
    if (answer != 0) printf("refused %u %u\n", BENCH_NUMBER(answer), BENCH_PLACE(answer));
    if (fflush(stdout) || ferror(stdout)) return perror("standard output"), 2;
    return answer != 0;
}
