/* Holds the names and limits of include/bench.h to what the library does, one refusal after the other. */
#include "bench.h"
#include <stdio.h>
#include <stdlib.h>
#include <string.h>

enum { GATE = 20, OUTPUT = 60, TRAILER = 62, LENGTH = 78 };

/* The image that is damaged below: two buffers at chance 0.5 on two inputs, and an AND that never flips. */
static const uint8_t WHOLE[LENGTH] = {
    1, BENCH_FLIP_CHANCE, 2, 0, 0, 0, 0, 0, 0, 0, 0, 0, 0, 0, 0, 0, 0, 0, 0xE0, 0x3F, /* gate 0 */
    1, BENCH_FLIP_CHANCE, 2, 0, 1, 0, 0, 0, 0, 0, 0, 0, 0, 0, 0, 0, 0, 0, 0xE0, 0x3F, /* gate 1 */
    2, BENCH_FLIP_NEVER,  8, 0, 2, 0, 3, 0, 0, 0, 0, 0, 0, 0, 0, 0, 0, 0, 0,    0,    /* gate 2 */
    4, 0, 2, 0, 3, 0, 1, 0, 1, 0, 62, 0, 0, 0, 78, 0, 0, 0,
};

static uint32_t area[BENCH_WORDS_MAX];

static void expect(const char *name, uint64_t answer, uint32_t number, uint32_t place) {
    if (answer == ((uint64_t)number << 32 | place) && BENCH_NUMBER(answer) == number && BENCH_PLACE(answer) == place) return;
    printf("header: %s: the library answers %u %u\n", name, BENCH_NUMBER(answer), BENCH_PLACE(answer));
    exit(1);
}

/* Opens the image with two bytes changed, the low one first. */
static uint64_t damaged(size_t at, uint16_t bytes) {
    uint8_t image[LENGTH];
    uint32_t live;
    memcpy(image, WHOLE, LENGTH);
    image[at] = bytes & 255;
    image[at + 1] = bytes >> 8;
    return bench_open(area, BENCH_WORDS_MAX, image, LENGTH, &live);
}

static void images(void) {
    uint16_t kind = BENCH_FLIP_CHANCE << 8; /* stands beside the pin count */
    expect("the whole image", damaged(0, 1 | kind), 0, 0);
    expect("BENCH_PINS_MAX", damaged(GATE, BENCH_PINS_MAX | kind), 0, 0);
    expect("BENCH_INPUTS_MAX", damaged(TRAILER, BENCH_INPUTS_MAX), 0, 0);
    expect("BENCH_GATES_MAX", damaged(TRAILER + 2, BENCH_GATES_MAX), BENCH_REFUSED_BACK, 0);
    expect("BENCH_OUTPUTS_MAX", damaged(TRAILER + 4, BENCH_OUTPUTS_MAX), BENCH_REFUSED_BACK, 0);
    expect("BENCH_REFUSED_LENGTH", damaged(TRAILER + 12, LENGTH + 1), BENCH_REFUSED_LENGTH, 0);
    expect("BENCH_REFUSED_FORMAT", damaged(TRAILER + 6, 2), BENCH_REFUSED_FORMAT, 0);
    expect("too many inputs", damaged(TRAILER, BENCH_INPUTS_MAX + 1), BENCH_REFUSED_COUNTS, 0);
    expect("too many gates", damaged(TRAILER + 2, BENCH_GATES_MAX + 1), BENCH_REFUSED_COUNTS, 0);
    expect("too many outputs", damaged(TRAILER + 4, BENCH_OUTPUTS_MAX + 1), BENCH_REFUSED_COUNTS, 0);
    expect("BENCH_REFUSED_BACK", damaged(TRAILER + 8, 61), BENCH_REFUSED_BACK, 0);
    expect("BENCH_REFUSED_GATE", damaged(GATE, (BENCH_PINS_MAX + 1) | kind), BENCH_REFUSED_GATE, 1);
    expect("BENCH_REFUSED_PIN", damaged(GATE + 4, 3), BENCH_REFUSED_PIN, 1);
    expect("BENCH_REFUSED_FLIP", damaged(GATE, 1 | (BENCH_FLIP_STRIKE + 1) << 8), BENCH_REFUSED_FLIP, 1);
    expect("BENCH_REFUSED_ABOVE_HALF", damaged(GATE + 18, 0x3FF0), BENCH_REFUSED_ABOVE_HALF, 1);
    expect("just above 0.5", damaged(GATE + 12, 1), BENCH_REFUSED_ABOVE_HALF, 1);
    expect("BENCH_REFUSED_OUTPUT", damaged(OUTPUT, 5), BENCH_REFUSED_OUTPUT, 0);
    expect("BENCH_REFUSED_SHARED", damaged(2 * GATE + 6, 2), BENCH_REFUSED_SHARED, 0);
}

static void calls(void) {
    static uint8_t longest[BENCH_IMAGE_MAX + 1];
    uint32_t weights[4] = {1, BENCH_WEIGHT_MAX, 1, 1}, live, units;
    uint64_t strike = UINT64_C(0x3F0000003F800000); /* 1 times 0.5 */
    uint64_t above = UINT64_C(0x3F0000013F800000);  /* 1 times the float after 0.5 */
    expect("the whole image", damaged(OUTPUT, 4), 0, 0);
    if (BENCH_FLIP_SUM(area) != BENCH_ONE) exit(printf("header: BENCH_FLIP_SUM is not that of two chances of 0.5\n"));
    expect("BENCH_FLIP_STRIKE", bench_set_flip(area, BENCH_WORDS(3, 1), 0, BENCH_FLIP_STRIKE, strike), 0, 0);
    if (area[8 + 6] != BENCH_FLIP_MAX) exit(printf("header: BENCH_FLIP_MAX is not a chance of 0.5\n"));
    area[8 + 6]++, area[5]++; /* one unit more in gate 0, and in the sum */
    expect("above BENCH_FLIP_MAX", bench_toggle_input(area, BENCH_WORDS(3, 1), 0), BENCH_REFUSED_AREA, 0);
    area[8 + 6]--, area[5]--;
    expect("BENCH_WEIGHT_MAX", bench_average(area, BENCH_WORDS(3, 1), weights, 4, &units), 0, 0);
    weights[1]++;
    expect("BENCH_REFUSED_WEIGHTS", bench_average(area, BENCH_WORDS(3, 1), weights, 4, &units), BENCH_REFUSED_WEIGHTS, 1);
    expect("BENCH_REFUSED_NAMED", bench_toggle_input(area, BENCH_WORDS(3, 1), 2), BENCH_REFUSED_NAMED, 2);
    expect("BENCH_REFUSED_NEW_FLIP", bench_set_flip(area, BENCH_WORDS(3, 1), 0, BENCH_FLIP_NEVER, 1), BENCH_REFUSED_NEW_FLIP, 0);
    expect("BENCH_REFUSED_ABOVE_HALF", bench_set_flip(area, BENCH_WORDS(3, 1), 2, BENCH_FLIP_STRIKE, above), BENCH_REFUSED_ABOVE_HALF, 2);
    expect("BENCH_REFUSED_SHORT_AREA", bench_toggle_input(area, BENCH_WORDS(3, 1) - 1, 0), BENCH_REFUSED_SHORT_AREA, 0);
    memcpy(longest + BENCH_IMAGE_MAX - LENGTH, WHOLE, LENGTH);
    longest[BENCH_IMAGE_MAX - 4] = BENCH_IMAGE_MAX & 255; /* the total */
    longest[BENCH_IMAGE_MAX - 3] = BENCH_IMAGE_MAX >> 8;
    expect("BENCH_IMAGE_MAX", bench_open(area, BENCH_WORDS_MAX, longest, BENCH_IMAGE_MAX, &live), 0, 0);
    expect("BENCH_IMAGE_MAX", bench_open(area, BENCH_WORDS_MAX, longest, BENCH_IMAGE_MAX + 1, &live), BENCH_REFUSED_LENGTH, 0);
    area[5] = 1;
    expect("BENCH_REFUSED_AREA", bench_toggle_input(area, BENCH_WORDS(3, 1), 0), BENCH_REFUSED_AREA, 0);
}

static void written(void) {
    uint8_t image[LENGTH + 1];
    uint32_t bytes = 7, live;
    size_t words = BENCH_WORDS(3, 1);
    expect("the whole image", damaged(OUTPUT, 4), 0, 0);
    image[LENGTH] = 9;
    expect("BENCH_REFUSED_SHORT_WRITTEN", bench_write_image(area, words, image, LENGTH - 1, &bytes), BENCH_REFUSED_SHORT_WRITTEN, 0);
    if (bytes != 7) exit(printf("header: a refused writing changes the length to %u\n", bytes));
    expect("writing", bench_write_image(area, words, image, LENGTH + 1, &bytes), 0, 0);
    if (bytes != BENCH_WRITTEN(3, 1) || memcmp(image, WHOLE, LENGTH) != 0 || image[LENGTH] != 9) {
        exit(printf("header: the image without a heading is not written as it was\n"));
    }
    expect("what was written", bench_open(area, words, image, bytes, &live), 0, 0);
    if (BENCH_WRITTEN_MAX != BENCH_BLIF_IMAGE_MAX) exit(printf("header: BENCH_WRITTEN_MAX is not the longest image without a heading\n"));
}

typedef uint64_t Counts(const uint32_t *, size_t, const uint32_t *, size_t, uint32_t *, size_t);

static void counts(Counts *by) {
    static const uint32_t list[BENCH_LISTED_MAX + 1];
    uint32_t four[4] = {0, 1, 2, 3}, seen[3];
    size_t words = BENCH_WORDS(3, 1), most = BENCH_LISTED_MAX;
    expect("the whole image", damaged(OUTPUT, 4), 0, 0);
    expect("four patterns", by(area, words, four, 4, seen, 3), 0, 0);
    if (seen[0] != 2 || seen[1] != 2 || seen[2] != 4) {
        printf("header: four patterns: the library counts %u, %u, %u\n", seen[0], seen[1], seen[2]);
        exit(1);
    }
    expect("BENCH_LISTED_MAX", by(area, words, list, most, seen, 3), 0, 0);
    expect("BENCH_REFUSED_LIST", by(area, words, list, most + 1, seen, 3), BENCH_REFUSED_LIST, 0);
    four[2] = 4;
    expect("BENCH_REFUSED_PATTERN", by(area, words, four, 4, seen, 3), BENCH_REFUSED_PATTERN, 2);
    expect("BENCH_REFUSED_SHORT_COUNTS", by(area, words, list, most, seen, 2), BENCH_REFUSED_SHORT_COUNTS, 0);
}

/* A text of `count` gates, each the constant 0, and as many outputs as there may be; how long it is. */
static size_t gates(char *text, int count) {
    size_t at = (size_t)sprintf(text, ".model m\n.outputs");
    for (int i = 0; i < BENCH_OUTPUTS_MAX; i++) at += (size_t)sprintf(text + at, " g0");
    for (int j = 0; j < count; j++) at += (size_t)sprintf(text + at, "\n.names g%d", j);
    return at + (size_t)sprintf(text + at, "\n.end\n");
}

static void texts(void) {
    static char text[BENCH_TEXT_MAX + 1];
    static uint8_t image[BENCH_BLIF_IMAGE_MAX];
    const uint8_t *bytes = (const uint8_t *)text;
    uint32_t written = 7;
    size_t length = gates(text, BENCH_GATES_MAX + 1), most = BENCH_BLIF_IMAGE_MAX;
    expect("one gate too many", bench_read_blif(bytes, length, image, most, &written), BENCH_REFUSED_TEXT_MODEL, 3 + BENCH_GATES_MAX);
    length = gates(text, BENCH_GATES_MAX);
    expect("BENCH_REFUSED_SHORT_IMAGE", bench_read_blif(bytes, length, image, most - 1, &written), BENCH_REFUSED_SHORT_IMAGE, 0);
    expect("BENCH_REFUSED_TEXT_LINE", bench_read_blif(bytes, length - 2, image, most, &written), BENCH_REFUSED_TEXT_LINE, 3 + BENCH_GATES_MAX);
    if (written != 7) {
        printf("header: a refused text changes the length to %u\n", written);
        exit(1);
    }
    memset(text + length, ' ', sizeof text - length);
    expect("BENCH_TEXT_MAX", bench_read_blif(bytes, BENCH_TEXT_MAX, image, most, &written), 0, 0);
    if (written != BENCH_BLIF_IMAGE_MAX) {
        printf("header: the longest image of a text has %u bytes\n", written);
        exit(1);
    }
    expect("BENCH_TEXT_MAX", bench_read_blif(bytes, BENCH_TEXT_MAX + 1, image, most, &written), BENCH_REFUSED_TEXT_LINE, 0);
}

/* Compares two images, one of them perhaps cut short by a byte; the result must stay as it was where one is refused. */
static uint64_t compared(size_t first_len, size_t second_len, bench_comparison *result) {
    bench_comparison before;
    uint64_t answer;
    memset(&before, 77, sizeof before);
    *result = before;
    answer = bench_compare(WHOLE, first_len, WHOLE, second_len, result);
    if (answer && memcmp(result, &before, sizeof before)) exit(printf("header: a refused comparison changes its result\n"));
    return answer;
}

static void comparisons(void) {
    static const bench_module printed = {2, 3, 1, 3, 671088640, 5};
    static const bench_comparison same = {BENCH_UNDECIDED, {2, 3, 1, 3, 671088640, 5}, {2, 3, 1, 3, 671088640, 5}, 0, 0, 4};
    bench_comparison result;
    uint32_t halves = 77, live = 77;
    uint8_t never[LENGTH];
    uint64_t answer = compared(LENGTH, LENGTH, &result);
    expect("the image and itself", answer, 0, 0);
    if (memcmp(&result, &same, sizeof same)) exit(printf("header: the image and itself: verdict %u\n", result.verdict));
    answer = compared(LENGTH - 1, LENGTH - 1, &result);
    if (BENCH_IMAGE(answer) != BENCH_FIRST || BENCH_NUMBER(answer) != BENCH_REFUSED_LENGTH || BENCH_PLACE(answer))
        exit(printf("header: the first image is not named\n"));
    answer = compared(LENGTH, LENGTH - 1, &result);
    if (BENCH_IMAGE(answer) != BENCH_SECOND || BENCH_NUMBER(answer) != BENCH_REFUSED_LENGTH || BENCH_PLACE(answer))
        exit(printf("header: the second image is not named\n"));
    memcpy(never, WHOLE, LENGTH);
    memset(never + 12, 0, 8);
    never[1] = BENCH_FLIP_NEVER; /* the buffer on input 0 does not flip any more */
    expect("one flip less", bench_compare(never, LENGTH, WHOLE, LENGTH, &result), 0, 0);
    if (result.verdict != BENCH_FIRST || result.first.error != 3 || result.first_higher != 3 || memcmp(&result.second, &printed, sizeof printed))
        exit(printf("header: one flip less does not stand higher\n"));
    expect("one flip more", bench_compare(WHOLE, LENGTH, never, LENGTH, &result), 0, 0);
    if (result.verdict != BENCH_SECOND || result.second.error != 3 || result.second_higher != 3 || memcmp(&result.first, &printed, sizeof printed))
        exit(printf("header: one flip more does not stand lower\n"));
    expect("the error of the image", bench_error_of_image(WHOLE, LENGTH, &halves, &live), 0, 0);
    if (halves != 5 || live != 3) exit(printf("header: the error is %u, the live gates %u\n", halves, live));
    expect("no error", bench_error_of_image(WHOLE, LENGTH - 1, &halves, &live), BENCH_REFUSED_LENGTH, 0);
    if (halves != 5 || live != 3) exit(printf("header: a refused image changes a result\n"));
}

static void sharing(void) {
    uint8_t shared[LENGTH];
    uint32_t units = 77;
    expect("the image under pattern 3", bench_shared_reliability(WHOLE, LENGTH, 7, &units), 0, 0);
    if (units != 268435456) exit(printf("header: the shared reliability is %u\n", units));
    memcpy(shared, WHOLE, LENGTH);
    shared[40 + 6] = 2; /* the AND reads the first buffer twice */
    expect("a shared gate", bench_shared_reliability(shared, LENGTH, 0, &units), 0, 0);
    if (units != 536870912) exit(printf("header: with a shared gate it is %u\n", units));
    expect("no shared gate", bench_shared_reliability(shared, LENGTH - 1, 0, &units), BENCH_REFUSED_LENGTH, 0);
    if (units != 536870912) exit(printf("header: a refused image changes the units\n"));
}

int main(void) {
    images();
    calls();
    written();
    counts(bench_counts_by_flip);
    counts(bench_counts_by_mask);
    texts();
    comparisons();
    sharing();
    printf("header: every name is the library's\n");
    return 0;
}
