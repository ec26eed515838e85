/* Times the calls of two builds of the library in turn, on the same area and netlists. Build and run: speed/run-two COMMIT, which gives the functions of
   the older build the names before_... Prints a line for each call and netlist, parted by tabs: call, netlist, best time before and now in ns; and a line
   "differs" where the two builds left other words, counts or averages. */
#include "netlists.h"

#define AREA uint32_t *area, size_t area_len
#define LIST const uint32_t *area, size_t area_len, const uint32_t *patterns, size_t patterns_len, uint32_t *counts, size_t counts_len
uint64_t before_open(AREA, const uint8_t *image, size_t image_len, uint32_t *live);
uint64_t before_toggle_input(AREA, uint32_t input);
uint64_t before_set_flip(AREA, uint32_t gate, uint8_t kind, uint64_t field);
uint64_t before_average(AREA, const uint32_t *weights, size_t weights_len, uint32_t *units);
uint64_t before_counts_by_flip(LIST);
uint64_t before_counts_by_mask(LIST);

static const struct {
    uint64_t (*open)(AREA, const uint8_t *, size_t, uint32_t *);
    uint64_t (*toggle)(AREA, uint32_t);
    uint64_t (*set)(AREA, uint32_t, uint8_t, uint64_t);
    uint64_t (*average)(AREA, const uint32_t *, size_t, uint32_t *);
    uint64_t (*by_flip)(LIST);
    uint64_t (*by_mask)(LIST);
} builds[2] = {
    {before_open, before_toggle_input, before_set_flip, before_average, before_counts_by_flip, before_counts_by_mask},
    {bench_open, bench_toggle_input, bench_set_flip, bench_average, bench_counts_by_flip, bench_counts_by_mask},
};

#define CALLS 6
static const char *const calls[CALLS] = {"open", "toggle_input", "set_flip", "average", "counts_by_flip", "counts_by_mask"};

/* one area for both builds, since where an area stands changes the time too */
static uint32_t area[WORDS] __attribute__((aligned(4096))), weights[4096], listed[4096];
static uint32_t left[2][WORDS], flips[2][G], masks[2][G], units[2];

/* A refused call would look fast. */
static void done(uint64_t answer) {
    if (answer) { fprintf(stderr, "two: a call was refused with %u\n", (unsigned)(answer >> 32)); exit(1); }
}

/* One round of the short calls of build b; an opening comes first, so that both builds begin with the same words. */
static void round_of(int b, uint64_t field, double best[CALLS][2]) {
    uint32_t live;
    TIME(best[0][b], 4, done(builds[b].open(area, WORDS, image, image_len, &live)));
    TIME(best[1][b], 24, done(builds[b].toggle(area, WORDS, r_ % N)));
    TIME(best[2][b], 24, done(builds[b].set(area, WORDS, 40 * r_ % G, 1, field)));
}

static void long_round_of(int b, double best[CALLS][2]) {
    TIME(best[3][b], 1, done(builds[b].average(area, WORDS, weights, 1 << N, &units[b])));
    memcpy(left[b], area, sizeof area);
    TIME(best[4][b], 1, done(builds[b].by_flip(area, WORDS, listed, 4096, flips[b], G)));
    TIME(best[5][b], 1, done(builds[b].by_mask(area, WORDS, listed, 4096, masks[b], G)));
}

/* the netlists of netlists.h, and the first of them with other flips */
#define NETLISTS (KINDS + 2)
static const char *const netlists[2] = {"never flip", "strikes"};

/* Every gate of the image gets kind 0, or kind 2 with a strike chance of 0.5 and twice the chance that it had as the window. */
static void make_flips(unsigned kind) {
    for (uint8_t *gate = image; gate < image + 20 * G; gate += 20) {
        double chance;
        memcpy(&chance, gate + 12, 8);
        float strike[2] = {kind == 0 ? 0 : 0.5f, kind == 0 ? 0 : (float)(2 * chance)};
        gate[1] = (uint8_t)kind;
        memcpy(gate + 12, strike, 8);
    }
}

static const char *make_netlist(int k) {
    if (k < KINDS) { make_kind(k); return kinds[k]; }
    make_kind(0);
    make_flips(k == KINDS ? 0 : 2);
    return netlists[k - KINDS];
}

int main(void) {
    double chance = 0.3;
    uint64_t field, kept = seed;
    memcpy(&field, &chance, 8);
    for (int q = 0; q < 4096; q++) weights[q] = 1, listed[q] = next() % (1 << N);
    seed = kept; /* the netlists of speed/calls.c */
    for (int k = 0; k < NETLISTS; k++) {
        double best[CALLS][2];
        const char *netlist = make_netlist(k);
        for (int c = 0; c < CALLS; c++) best[c][0] = best[c][1] = 1e18;
        for (int t = 0; t < 60; t++) for (int b = 0; b < 2; b++) round_of((t + b) % 2, field, best);
        for (int t = 0; t < 4; t++) for (int b = 0; b < 2; b++) round_of((t + b) % 2, field, best), long_round_of((t + b) % 2, best);
        for (int c = 0; c < CALLS; c++) printf("%s\t%s\t%.0f\t%.0f\n", calls[c], netlist, best[c][0], best[c][1]);
        int same_counts = !memcmp(flips[0], flips[1], sizeof flips[0]) && !memcmp(masks[0], masks[1], sizeof masks[0]);
        if (!same_counts || memcmp(left[0], left[1], sizeof area) || units[0] != units[1]) printf("differs\t%s\n", netlist);
    }
    return 0;
}
