/* The caller's rounding mode moves no figure: no float operation of the library rounds. Each chance below, most of them at or beside half a unit or 0.5,
 * is set under each of the four modes, and a figure is read back as a float; those above 0.5 are refused under each. */
#include "bench.h"
#include <fenv.h>
#include <stdio.h>
#include <string.h>

enum { LENGTH = 38 };

#define ABOVE_HALF UINT32_MAX /* in the place of units */

/* One buffer on one input, and it is the output: its failure is its flip, in units. */
static const uint8_t BUFFER[LENGTH] = {
    1, BENCH_FLIP_NEVER, 2, 0, 0, 0, 0, 0, 0, 0, 0, 0, 0, 0, 0, 0, 0, 0, 0, 0,
    1, 0, 1, 0, 1, 0, 1, 0, 1, 0, 22, 0, 0, 0, 38, 0, 0, 0,
};

static const struct {
    uint8_t kind;
    uint64_t field;
    uint32_t units;
} CHANCES[] = {
    {BENCH_FLIP_CHANCE, 0x0000000000000001, 0},              /* 2^-1074 */
    {BENCH_FLIP_CHANCE, 0x8000000000000000, 0},              /* minus zero */
    {BENCH_FLIP_CHANCE, 0x3DFFFFFFFFFFFFFF, 0},              /* the f64 before 2^-31 */
    {BENCH_FLIP_CHANCE, 0x3E00000000000000, 0},              /* 2^-31 */
    {BENCH_FLIP_CHANCE, 0x3E00000000000001, 1},              /* the f64 after it */
    {BENCH_FLIP_CHANCE, 0x3E17FFFFFFFFFFFF, 1},              /* the f64 before 3 x 2^-31 */
    {BENCH_FLIP_CHANCE, 0x3E18000000000000, 2},              /* 3 x 2^-31 */
    {BENCH_FLIP_CHANCE, 0x3E24000000000000, 2},              /* 5 x 2^-31 */
    {BENCH_FLIP_CHANCE, 0x3E24000000000001, 3},              /* the f64 after it */
    {BENCH_FLIP_CHANCE, 0x3FA999999999999A, 53687091},       /* 0.05 */
    {BENCH_FLIP_CHANCE, 0x3FDFFFFFFFFFFFFF, BENCH_FLIP_MAX}, /* the f64 before 0.5 */
    {BENCH_FLIP_CHANCE, 0x3FE0000000000000, BENCH_FLIP_MAX}, /* 0.5 */
    {BENCH_FLIP_CHANCE, 0x3FE0000000000001, ABOVE_HALF},     /* the f64 after 0.5 */
    {BENCH_FLIP_STRIKE, 0x3800000037800000, 0},              /* 2^-16 times 2^-15 */
    {BENCH_FLIP_STRIKE, 0x3800000037800001, 1},              /* the f32 after 2^-16, times 2^-15 */
    {BENCH_FLIP_STRIKE, 0x3F4A66913F21E58F, BENCH_FLIP_MAX}, /* 0.5 - 2^-48 */
    {BENCH_FLIP_STRIKE, 0x3F7FE0023F001001, ABOVE_HALF},     /* 0.5 + 2^-47 */
};

static const struct {
    const char *name;
    int mode;
} MODES[] = {{"nearest", FE_TONEAREST}, {"up", FE_UPWARD}, {"down", FE_DOWNWARD}, {"zero", FE_TOWARDZERO}};

int main(void) {
    uint32_t area[BENCH_WORDS(1, 1)], live, pattern, units, right, failure, average, weights[2] = {1, 1};
    for (size_t m = 0; m < sizeof MODES / sizeof *MODES; m++) {
        if (fesetround(MODES[m].mode) != 0 || bench_open(area, BENCH_WORDS(1, 1), BUFFER, LENGTH, &live) != 0) return 1;
        for (size_t k = 0; k < sizeof CHANCES / sizeof *CHANCES; k++) {
            uint32_t right_by = BENCH_ONE - CHANCES[k].units;
            double fraction, expected;
            uint64_t answer = bench_set_flip(area, BENCH_WORDS(1, 1), 0, CHANCES[k].kind, CHANCES[k].field);
            if (CHANCES[k].units == ABOVE_HALF && BENCH_NUMBER(answer) == BENCH_REFUSED_ABOVE_HALF) continue;
            if (answer != 0) {
                printf("modes: %s: chance %zu is refused with %u\n", MODES[m].name, k, BENCH_NUMBER(answer));
                return 1;
            }
            if (bench_read_gate(area, BENCH_WORDS(1, 1), 0, &right, &failure) != 0) return 1;
            if (bench_read_netlist(area, BENCH_WORDS(1, 1), &pattern, &units, &fraction) != 0) return 1;
            if (bench_average(area, BENCH_WORDS(1, 1), weights, 2, &average) != 0) return 1;
            expected = (double)right_by / BENCH_ONE; /* exact under every mode */
            if (failure != CHANCES[k].units || units != right_by || average != right_by || memcmp(&fraction, &expected, sizeof fraction) != 0) {
                printf("modes: %s: chance %zu is %u units, %.17g\n", MODES[m].name, k, failure, fraction);
                return 1;
            }
        }
    }
    printf("modes: the same figures under four rounding modes\n");
    return 0;
}
