/* Times bench_compare on two modules beside two openings and two averages with weight 1 for every pattern, and bench_error_of_image beside one opening. A
 * line for each netlist, tab-separated: the best time of each in ns. The second module is the first with another first byte in the last gate's flip field. */
#include "netlists.h"

static uint32_t area[WORDS], weights[4096];
static uint8_t other[sizeof image];

/* Both averages, by opening and averaging one after the other. */
static void apart(uint32_t units[2]) {
    uint32_t live;
    for (int k = 0; k < 2; k++) {
        uint64_t answer = bench_open(area, WORDS, k ? other : image, image_len, &live);
        if (!answer) answer = bench_average(area, WORDS, weights, 4096, &units[k]);
        if (answer) printf("refused\t%u\n", BENCH_NUMBER(answer));
    }
}

int main(void) {
    for (int q = 0; q < 4096; q++) weights[q] = 1;
    for (int kind = 0; kind < KINDS; kind++) {
        double best[4] = {1e18, 1e18, 1e18, 1e18};
        uint32_t units[2] = {0, 0}, live, halves, known;
        bench_comparison result;
        make_kind(kind);
        memcpy(other, image, image_len);
        other[image_len - 16 - 2 * (image[image_len - 12] | image[image_len - 11] << 8) - 8] ^= 1;
        for (int t = 0; t < 12; t++) {
            uint64_t answer = 0;
            TIME(best[0], 1, apart(units));
            TIME(best[1], 1, answer = bench_compare(image, image_len, other, image_len, &result));
            if (answer || result.first.average != units[0] || result.second.average != units[1]) printf("differs\t%s\n", kinds[kind]);
            TIME(best[2], 24, answer = bench_open(area, WORDS, image, image_len, &live));
            TIME(best[3], 24, answer |= bench_error_of_image(image, image_len, &halves, &known));
            if (answer || known != live || halves != result.first.error) printf("differs\t%s\n", kinds[kind]);
        }
        printf("%s\t%.0f\t%.0f\t%.0f\t%.0f\n", kinds[kind], best[0], best[1], best[2], best[3]);
    }
    return 0;
}
