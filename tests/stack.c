/* How much stack the calls take: each runs on a thread whose stack is painted, and the bytes below its caller that lost their paint are counted. Most run on
 * every netlist of the timing programs, a comparison on each beside itself, the shared reliability on each with one to eight gates read twice, and reading
 * BLIF on a text that is written, one that is refused for a loop and one that is refused at once. The arguments are the figures that the header states, in
 * KB of 1024 bytes, in the order of `calls`; none may be passed, and none may be more than 8 KB too large. */
#define _GNU_SOURCE
#include "../speed/netlists.h"
#include <pthread.h>

enum { PAINT = 0xA5, STACK = 512 * 1024, SLACK = 8 * 1024, LISTED = 100 };

static uint8_t *stack;
static uint32_t area[WORDS], weights[1 << N], listed[LISTED], counts[G];
static uint8_t written[BENCH_IMAGE_MAX];
static char text[BENCH_TEXT_MAX + 1];
static uint64_t answer;
static size_t caller; /* where in the stack the caller stands */

static uint64_t open_image(uint32_t *live) { return bench_open(area, WORDS, image, image_len, live); }
static uint64_t average(uint32_t *units) { return bench_average(area, WORDS, weights, 1 << N, units); }
static uint64_t by_flip(uint32_t *unused) { return *unused = 0, bench_counts_by_flip(area, WORDS, listed, LISTED, counts, G); }
static uint64_t by_mask(uint32_t *unused) { return *unused = 0, bench_counts_by_mask(area, WORDS, listed, LISTED, counts, G); }
static uint64_t read_blif(uint32_t *bytes) { return bench_read_blif((const uint8_t *)text, strlen(text), written, sizeof written, bytes); }
static uint64_t error_of_image(uint32_t *halves) {
    uint32_t live;
    return bench_error_of_image(image, image_len, halves, &live);
}
static uint64_t shared(uint32_t *units) { return bench_shared_reliability(image, image_len, 5, units); }
static uint64_t compare(uint32_t *unused) {
    static bench_comparison result;
    return *unused = 0, bench_compare(image, image_len, image, image_len, &result);
}

enum { OPEN, AVERAGE, BY_FLIP, BY_MASK, ERROR_OF_IMAGE, COMPARE, READ_BLIF, SHARED, CALLS };
static const struct {
    const char *name;
    uint64_t (*call)(uint32_t *result);
} calls[CALLS] = {{"open", open_image}, {"average", average}, {"counts_by_flip", by_flip}, {"counts_by_mask", by_mask},
                  {"error_of_image", error_of_image}, {"compare", compare}, {"read_blif", read_blif},
                  {"shared_reliability", shared}};

static size_t most[CALLS];

static void *run(void *which) {
    uint32_t result = 0;
    caller = (size_t)((uint8_t *)&result - stack);
    answer = calls[*(int *)which].call(&result);
    return NULL;
}

/* Makes a call, which is to be answered with this number, and notes what it takes. */
static void measure(int which, uint32_t number) {
    pthread_attr_t with;
    pthread_t thread;
    size_t at = 0;
    memset(stack, PAINT, STACK);
    if (pthread_attr_init(&with) || pthread_attr_setstack(&with, stack, STACK) || pthread_create(&thread, &with, run, &which))
        exit(printf("stack: no thread\n"));
    pthread_join(thread, NULL);
    pthread_attr_destroy(&with);
    if (BENCH_NUMBER(answer) != number) exit(printf("stack: %s is answered with %u\n", calls[which].name, BENCH_NUMBER(answer)));
    while (at < caller && stack[at] == PAINT) at++;
    if (caller - at > most[which]) most[which] = caller - at;
}

/* 1,024 gates, the last first; with a loop: the first two read each other */
static void make_text(int loop) {
    size_t at = (size_t)sprintf(text, ".model m\n.inputs a\n.outputs g0\n");
    for (int j = 0; j < BENCH_GATES_MAX; j++) {
        int next = j + 1 < BENCH_GATES_MAX ? j + 1 : loop ? j - 1 : -1;
        at += (size_t)(next < 0 ? sprintf(text + at, ".names a g%d\n1 1\n", j) : sprintf(text + at, ".names g%d g%d\n1 1\n", next, j));
    }
    sprintf(text + at, ".end\n");
}

int main(int count, char **stated) {
    void *memory;
    if (count != 1 + CALLS || posix_memalign(&memory, 4096, STACK)) return 1;
    stack = memory;
    for (int q = 0; q < 1 << N; q++) weights[q] = 1;
    for (int kind = 0; kind < KINDS; kind++) {
        make_kind(kind);
        for (int which = OPEN; which <= COMPARE; which++) measure(which, 0);
        for (unsigned j = G - 1; j > G - 17; j -= 2) put16(20 * j + 4, N + j - 1), put16(20 * j + 6, N + j - 1), measure(SHARED, 0);
    }
    make_text(0), measure(READ_BLIF, 0);
    make_text(1), measure(READ_BLIF, BENCH_REFUSED_TEXT_MODEL);
    strcpy(text, ".end"), measure(READ_BLIF, BENCH_REFUSED_TEXT_LINE);
    for (int which = 0; which < CALLS; which++) {
        size_t bytes = strtoul(stated[1 + which], NULL, 10) * 1024;
        printf("stack: %s takes %zu bytes, %zu stated\n", calls[which].name, most[which], bytes);
        if (most[which] > bytes || bytes > most[which] + SLACK) return 1;
    }
    free(memory);
    return 0;
}
