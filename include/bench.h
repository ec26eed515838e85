/*
 * The soft-error bench for C: nine calls on a work area of 32-bit words, one that reads BLIF, and three
 * that take images and no area: how far its figures can be from the exact ones, its reliability where
 * gates are shared, and which of two modules stands higher.
 *
 * Link with target/staticlib/libbench_c.a, which `tests/library` writes (x86-64). Every
 * function below is proved to do what its contract in crates/bench_c/src/lib.rt says, for all
 * arguments that keep the rules on pointers. docs/SCOPE.md says in full what is computed.
 *
 *
 * AN EXAMPLE
 *
 * This is examples/open.c. It opens the image on standard input and reads the netlist:
 *
 *     #include "bench.h"
 *     #include <stdio.h>
 *
 *     int main(void) {
 *         static uint8_t image[BENCH_IMAGE_MAX + 1];
 *         static uint32_t area[BENCH_WORDS_MAX];
 *         uint32_t live, pattern, units;
 *         double reliability;
 *         uint64_t answer;
 *         size_t length = fread(image, 1, sizeof image, stdin);
 *         if (ferror(stdin)) return perror("standard input"), 2;
 *         answer = bench_open(area, BENCH_WORDS_MAX, image, length, &live);
 *         if (answer == 0) answer = bench_read_netlist(area, BENCH_WORDS_MAX, &pattern, &units, &reliability);
 *         if (answer == 0) printf("live %u, pattern %u: %u units, %.9f\n", live, pattern, units, reliability);
 *         else printf("refused %u %u\n", BENCH_NUMBER(answer), BENCH_PLACE(answer));
 *         if (fflush(stdout) || ferror(stdout)) return perror("standard output"), 2;
 *         return answer != 0;
 *     }
 *
 *
 * UNITS
 *
 * Failures and reliabilities are whole numbers of units. One is BENCH_ONE units, 2^30: a figure of c
 * units stands for c / 2^30. Whatever is rounded goes to the nearest unit, and a half to the even one,
 * whatever rounding mode the caller has set for floats.
 *
 *
 * THE WORK AREA
 *
 * The caller owns the area and lends it to each call. An opened netlist with G gates and K outputs
 * takes BENCH_WORDS(G, K) words, and BENCH_WORDS_MAX are enough for every netlist. The words:
 *
 *     0 inputs   1 gates   2 outputs   3 pattern   4 reliability
 *     5 and 6 the raw flip sum, low 32 bits first   7 zero
 *     then eight a gate: pin count, truth table, four pins, flip units, 2 * failure + right value
 *     then one a output: its source
 *
 * The raw flip sum is that of the live gates' flip units, as opening and setting flips have left them;
 * BENCH_FLIP_SUM(area) reads it. Words past these are never written. Bit i of the pattern is input i.
 * The library keeps nothing between two calls: an area may be copied, stored, and used again later.
 *
 *
 * THE IMAGE
 *
 * An image describes a netlist in at most BENCH_IMAGE_MAX bytes, every number little-endian: a heading
 * of any bytes, which is not looked at; G gate records; K output words; a trailer.
 *
 *     gate record, 20 bytes         0 u8 pin count   1 u8 flip kind   2 u16 truth table
 *                                   4 four u16 pins, unused ones 0   12 eight bytes of flip field
 *     output word, 2 bytes          u16 source
 *     trailer, the last 16 bytes    0 u16 inputs   2 u16 gates   4 u16 outputs   6 u16 format
 *                                   8 u32 bytes from the first gate record to the trailer, 20 G + 2 K
 *                                  12 u32 bytes of the whole image
 *
 * With n inputs, source i below n is input i, and source n + j is gate j. Bit r of the truth table is
 * the gate's answer where r is the sum of 2^i over the used pins i that are 1: 8 is AND of two pins, 1
 * an inverter. bench_set_flip explains flip kind and field. bench_read_blif makes images from BLIF, a
 * tool in rust/ makes them from a text with flips, and bench_write_image from an area.
 *
 *
 * ANSWERS
 *
 * Each call returns 0 when its work is done. Otherwise it refuses, and the returned number holds the
 * refusal: BENCH_NUMBER says which one, BENCH_PLACE where, and of bench_compare, which takes two
 * images, BENCH_IMAGE which of them: BENCH_FIRST or BENCH_SECOND. Bits 0 to 31 hold the place, 32 to 39
 * the number, 40 and 41 the image. A refused call has changed nothing: no word of the area, no count, no
 * byte of an image, and nothing that an out-pointer points to. Of several reasons the call gives the
 * first in the order that stands with it.
 *
 * BENCH_REFUSED_... name the numbers.
 *
 *     no.  refused because                                                     place
 *      1   image length not 16 to 32768, or not the total in its trailer       0
 *      2   image format is not 1                                               0
 *      3   more than 12 inputs or 1024 gates, or outputs not 1 to 64           0
 *      4   the way back to the first gate record is not 20 G + 2 K, or starts
 *          before the image                                                    0
 *      5   gate: more than 4 pins, a table bit that no pin value selects, or
 *          an unused pin that is not 0                                         gate
 *      6   gate: a used pin reads neither an input nor an earlier gate         gate
 *      7   gate: flip kind above 2, or a field that its kind does not allow    gate
 *      8   output: its source does not exist                                   output
 *      9   a live gate has more than one live reader                           gate
 *     10   the call names an input or a gate that does not exist               that number
 *     11   the call's flip kind or field is one that 7 would refuse            gate
 *     12   weights: not one for each pattern; else one above 1048575;
 *          else all of them zero                                               0; weight; 0
 *     13   the area is too short                                               0
 *     14   the area's words are not those of a netlist                         0
 *     15   the list has no pattern, or more than 4096                          0
 *     16   a listed pattern is 2^n or more, with n inputs                      position
 *     17   there is room for fewer counts than the netlist has gates           0
 *     18   the text has more than 32768 bytes; else a line of it does not fit  0; line
 *     19   the text's model: counts that no image has, a name with two
 *          definitions or with none, gates in a loop                           line
 *     20   the slice for the text's image is shorter than the image            0
 *     21   the slice for the area's image is shorter than the image            0
 *     22   a chance above 0.5: a gate's in an image, or the call's             gate
 *     23   more than 8 live gates have more than one live reader               0
 *
 * Where a place is a position in a list, it is the lowest one that is wrong.
 *
 * Every call on an area but bench_open first judges it, in this order: 13 if it has fewer than 8
 * words, 14 if one of its three counts is out of range, 13 if it is shorter than the counts need, 14
 * if any other word breaks a rule. An area that bench_open filled and only these calls changed since
 * never gets 14, and gets 13 only if it is lent with fewer words than the netlist takes.
 *
 *
 * POINTERS, STACK, THREADS
 *
 * A pointer with a length stands for that many elements, all readable (writable where the pointer is
 * not const). No pointer may be null, not even with the length 0: the address of any object of the
 * type will do. Pointers are aligned for their type. What one pointer of a call can write must not
 * overlap what another pointer of the same call names, and no other thread touches it meanwhile.
 *
 * bench_compare takes up to 228 KB of stack, bench_average 168 KB, bench_read_blif 96 KB,
 * bench_error_of_image 74 KB, bench_shared_reliability 54 KB, bench_open 46 KB, bench_counts_by_flip and
 * bench_counts_by_mask 36 KB, the other calls less. No call allocates memory, and calls that name no area
 * or slice in common may run at the same time.
 */
#ifndef BENCH_H
#define BENCH_H

#include <stddef.h>
#include <stdint.h>

#ifdef __cplusplus
extern "C" {
#endif

/* Raised with every change to a function, a number, a layout or a figure that this file speaks of. */
#define BENCH_VERSION 8

#define BENCH_ONE UINT32_C(1073741824)
#define BENCH_FLIP_MAX UINT32_C(536870912)
#define BENCH_INPUTS_MAX 12
#define BENCH_GATES_MAX 1024
#define BENCH_OUTPUTS_MAX 64
#define BENCH_PINS_MAX 4
#define BENCH_IMAGE_MAX 32768
#define BENCH_WEIGHT_MAX UINT32_C(1048575)
#define BENCH_LISTED_MAX 4096
#define BENCH_SHARED_MAX 8
#define BENCH_TEXT_MAX 32768
#define BENCH_BLIF_IMAGE_MAX 20624
#define BENCH_WORDS(gates, outputs) (8 + 8 * (size_t)(gates) + (size_t)(outputs))
#define BENCH_WORDS_MAX BENCH_WORDS(BENCH_GATES_MAX, BENCH_OUTPUTS_MAX)
#define BENCH_WRITTEN(gates, outputs) (20 * (size_t)(gates) + 2 * (size_t)(outputs) + 16)
#define BENCH_WRITTEN_MAX BENCH_WRITTEN(BENCH_GATES_MAX, BENCH_OUTPUTS_MAX)
#define BENCH_FLIP_SUM(area) ((area)[5] | (uint64_t)(area)[6] << 32)

#define BENCH_FLIP_NEVER 0
#define BENCH_FLIP_CHANCE 1
#define BENCH_FLIP_STRIKE 2

#define BENCH_NUMBER(answer) ((uint32_t)((uint64_t)(answer) >> 32 & 255))
#define BENCH_PLACE(answer) ((uint32_t)((uint64_t)(answer) & UINT32_C(0xffffffff)))

/* Of bench_compare: the image that is refused, and its verdicts. */
#define BENCH_IMAGE(answer) ((uint32_t)((uint64_t)(answer) >> 40))
#define BENCH_UNDECIDED 0
#define BENCH_FIRST 1
#define BENCH_SECOND 2

#define BENCH_REFUSED_LENGTH 1
#define BENCH_REFUSED_FORMAT 2
#define BENCH_REFUSED_COUNTS 3
#define BENCH_REFUSED_BACK 4
#define BENCH_REFUSED_GATE 5
#define BENCH_REFUSED_PIN 6
#define BENCH_REFUSED_FLIP 7
#define BENCH_REFUSED_OUTPUT 8
#define BENCH_REFUSED_SHARED 9
#define BENCH_REFUSED_NAMED 10
#define BENCH_REFUSED_NEW_FLIP 11
#define BENCH_REFUSED_WEIGHTS 12
#define BENCH_REFUSED_SHORT_AREA 13
#define BENCH_REFUSED_AREA 14
#define BENCH_REFUSED_LIST 15
#define BENCH_REFUSED_PATTERN 16
#define BENCH_REFUSED_SHORT_COUNTS 17
#define BENCH_REFUSED_TEXT_LINE 18
#define BENCH_REFUSED_TEXT_MODEL 19
#define BENCH_REFUSED_SHORT_IMAGE 20
#define BENCH_REFUSED_SHORT_WRITTEN 21
#define BENCH_REFUSED_ABOVE_HALF 22
#define BENCH_REFUSED_MANY_SHARED 23

/*
 * Opens a netlist image in the area, with pattern 0 and every figure worked out. What the area held
 * before does not matter.
 *
 * Done: *live is the number of live gates (those that an output reads, or a live gate), and the area
 * holds the netlist. Words past those that it takes are as before.
 *
 * Refused, in this order: 1, 2, 3, 4; then gate by gate 5, 6, 7, 22; then output by output 8; then 9;
 * then 13, where the area is shorter than the image's counts need.
 */
uint64_t bench_open(uint32_t *area, size_t area_len, const uint8_t *image, size_t image_len, uint32_t *live);

/*
 * Toggles one input of the pattern.
 *
 * Done: the pattern has that bit inverted; the gates that depend on the input are worked out again,
 * and so is the reliability. The words of every other gate are as before.
 *
 * Refused, in this order: 13 and 14 of the area; 10 with place `input`.
 */
uint64_t bench_toggle_input(uint32_t *area, size_t area_len, uint32_t input);

/*
 * Sets the flip of one gate. `field` holds the eight bytes that stand in an image's gate record, as a
 * little-endian number: byte i is field >> 8 * i & 255. By `kind`:
 *
 *     BENCH_FLIP_NEVER    field is 0
 *     BENCH_FLIP_CHANCE   field is the bits of a double: the chance
 *     BENCH_FLIP_STRIKE   the low half is the bits of a float, the strike chance, the high half those of
 *                         another, the latching window; the two multiplied exactly are the chance
 *
 * Refused with 11 is a float that is not finite, is below 0 or is above 1; minus zero is taken for zero.
 * Refused with 22 is a chance above 0.5, by however little, as it stands before rounding; the caller may
 * have meant 1 minus it. Every other chance is rounded to units once, to the nearest, a half to the even
 * one, and so comes to at most BENCH_FLIP_MAX.
 *
 * Done: the gate has the new flip; it and the gates that depend on it are worked out again, and so are
 * the reliability and, where the gate is live, the raw flip sum. The words of every other gate are as
 * before.
 *
 * Refused, in this order: 13 and 14 of the area; 10, 11 and 22, each with place `gate`.
 */
uint64_t bench_set_flip(uint32_t *area, size_t area_len, uint32_t gate, uint8_t kind, uint64_t field);

/*
 * Reads the pattern and the reliability. It writes no word of the area.
 *
 * Done: *pattern is the pattern, *units the reliability in units, and *reliability the same as a
 * double, which is exactly *units / 2^30.
 *
 * Refused: 13 and 14 of the area.
 */
uint64_t bench_read_netlist(const uint32_t *area, size_t area_len, uint32_t *pattern, uint32_t *units, double *reliability);

/*
 * Reads one gate. It writes no word of the area.
 *
 * Done: *right is the gate's right value under the pattern, 0 or 1, and *failure its failure in units.
 *
 * Refused, in this order: 13 and 14 of the area; 10 with place `gate`.
 */
uint64_t bench_read_gate(const uint32_t *area, size_t area_len, uint32_t gate, uint32_t *right, uint32_t *failure);

/*
 * The weighted average of the reliability over all patterns. weights[q] is the weight of pattern q, so
 * with n inputs there are 2^n of them.
 *
 * Done: *units is the sum of weight times reliability, divided by the sum of the weights, to the
 * nearest unit, a half to the even one. The pattern is as before, and every figure in the area is what
 * working it out afresh for that pattern gives.
 *
 * Refused, in this order: 13 and 14 of the area; 12 with place 0 where weights_len is not 2^n; 12 with
 * the place of the first weight above 1048575; 12 with place 0 where all weights are zero.
 */
uint64_t bench_average(uint32_t *area, size_t area_len, const uint32_t *weights, size_t weights_len, uint32_t *units);

/*
 * Counts for every gate the listed patterns in which an output goes wrong if this gate flips and no other.
 * The list has 1 to BENCH_LISTED_MAX patterns in any order; one that is listed twice counts twice.
 * Right values are worked out for each listed pattern from pins and tables: the pattern, the flips and
 * the figures that the area holds have no part in it.
 *
 * By the flip itself: the gate's value is inverted, the later gates get the values that their tables
 * then give, and the pattern is counted where some output has not its right value. That holds for
 * every area that 14 does not refuse, also for one with shared gates, which no opening would let in.
 *
 * Done: counts[j] is the count of gate j, for each of the netlist's gates; a dead gate's is 0. Counts
 * past these are as before. The area and the list are only read.
 *
 * Refused, in this order: 13 and 14 of the area; 15; 16 with the place of the first such pattern; 17.
 */
uint64_t bench_counts_by_flip(const uint32_t *area, size_t area_len, const uint32_t *patterns, size_t patterns_len,
                              uint32_t *counts, size_t counts_len);

/*
 * The same by masks that go back from the outputs. Under a pattern, with every right value known, a
 * gate's mask is 1 where an output reads the gate, and where a used pin of a gate whose mask is 1
 * reads it and that reader's answer changes when this pin alone is inverted. Else the mask is 0. The
 * pattern is counted where the mask is 1.
 *
 * One way back tells of all gates, so it takes far less time than a flip for each. The counts are those
 * of bench_counts_by_flip wherever 9 would not refuse the netlist, and so in every area that came from
 * bench_open. With shared gates they may be more or fewer: of a gate on both pins of an XOR the flip is
 * never seen at the output, yet each pin alone would pass it on, and so the gate's mask is 1.
 *
 * Done and refused: as bench_counts_by_flip.
 */
uint64_t bench_counts_by_mask(const uint32_t *area, size_t area_len, const uint32_t *patterns, size_t patterns_len,
                              uint32_t *counts, size_t counts_len);

/*
 * Writes the image of the netlist that the area holds: an empty heading; for a gate whose flip is 0
 * units BENCH_FLIP_NEVER with the field 0, for every other BENCH_FLIP_CHANCE with the double that is
 * exactly units / 2^30. The pattern, the reliability and the failures are not written.
 *
 * The bytes of two areas that 14 does not refuse are the same just where their counts, pin counts,
 * tables, pins, flip units and outputs are, whatever images they came from. bench_open accepts the
 * image wherever the area has room and its netlist has no shared gate, so always where the area came
 * from bench_open. It then holds what the first area holds once its pattern is 0 and every figure is
 * worked out. An area that these calls have left is led there by bench_toggle_input on each input that
 * is 1, in any order. Written from there, the bytes are the same again.
 *
 * Done: *bytes is the image's length, BENCH_WRITTEN(gates, outputs), at most BENCH_WRITTEN_MAX, and that
 * many bytes of image are the image. The bytes past it are as before. The area is only read.
 *
 * Refused, in this order: 13 and 14 of the area; 21 where image_len is less than the image's length.
 */
uint64_t bench_write_image(const uint32_t *area, size_t area_len, uint8_t *image, size_t image_len, uint32_t *bytes);

/*
 * Reads a text in the Berkeley Logic Interchange Format (BLIF) and writes its image: an empty heading,
 * no flips. It takes no area. The text has at most BENCH_TEXT_MAX bytes, and these statements in this
 * order, one a line:
 *
 *     .model NAME
 *     .inputs NAME ...         and .outputs NAME ..., in any number and mixture, with any count of names
 *     .names SOURCE ... NAME   a gate of up to four sources, then its cover lines; any number of gates
 *     .end                     after it only blanks and comments
 *
 * A cover line of a gate with n sources has two words: n bytes, each 0, 1 or -, and the gate's value, 0
 * or 1; where n is 0 the value stands alone. A cover says one value in all its lines. The gate has it in
 * each row that a line meets, and the other in the rest; with no cover line it is 0. Lines are ended by
 * line feeds, words parted by spaces, tabs and CRs. A comment goes from # to the end of its line. Lines
 * are continued by a backslash as the last byte before the line feed. Names are made of up to 32 bytes
 * from 33 to 126, of which # and backslash are left out. Outputs may be inputs, and may be repeated.
 *
 * The image has the inputs, outputs and pins in the order of the text. Gates may be listed before what
 * they read: the image always goes on with the first in the text that reads only what is there already.
 *
 * Done: *bytes is the image's length, 20 G + 2 K + 16, at most BENCH_BLIF_IMAGE_MAX, and that many bytes
 * of image are the image, which passes refusals 1 to 8 and 22; bench_open may give 9, where gates are
 * shared.
 * The bytes past it are as before. The text is only read.
 *
 * Refused, in this order. The first line is line 1; continued lines are told by their first one.
 *
 *     no.  refused because                                          place
 *     18   the text has more than BENCH_TEXT_MAX bytes              0
 *     18   a line does not fit                                      the first; without .end, if all
 *                                                                   fit, 1 + the number of line feeds
 *     19   more than 12 inputs, 64 outputs or 1024 gates,           the lowest that has one too many;
 *          or no output                                             .end
 *     19   inputs and gates define a name twice                     the lowest that defines one again
 *     19   a source or an output is not defined                     the lowest that uses one
 *     19   a gate depends on itself                                 the lowest .names line of such a gate
 *     20   image_len is less than the image's length                0
 */
uint64_t bench_read_blif(const uint8_t *text, size_t text_len, uint8_t *image, size_t image_len, uint32_t *bytes);

/*
 * How far the figures of an image can be from the exact ones. It takes no area.
 *
 * Done: *halves is the error in half units: under every pattern the reliability of the image, opened,
 * is at most so much away from the exact chance, with the chances before conversion and over all flip
 * patterns; an average, one half unit more. It counts 2 for each live gate whose flip kind is not
 * BENCH_FLIP_NEVER, 1 for each pin after the first with which a live gate reads a gate, and 1 for each
 * output after the first that reads one. *live is the number of live gates.
 *
 * Refused: 1 to 9 and 22 as bench_open does.
 */
uint64_t bench_error_of_image(const uint8_t *image, size_t image_len, uint32_t *halves, uint32_t *live);

/*
 * The reliability of an image in which gates may be shared, under one pattern. It takes no area.
 *
 * A live gate with more than one live reader is shared. Of each such gate it is supposed that it is right,
 * and that it is wrong, and what reads it takes 0 or BENCH_ONE for its failure. A set of suppositions has a
 * figure: BENCH_ONE times, for the shared gates in order, what is left of BENCH_ONE by the failure worked out
 * there, or that failure where the gate is supposed wrong, then as reliability goes over the outputs, each
 * product divided by BENCH_ONE and rounded. The figures of all sets are added; there are 2^s for s shared
 * gates.
 *
 * Done: *units is that sum, or BENCH_ONE where it is more. It is at most 1.5 units for each live gate and
 * each set away from the exact chance that every output is right. With no gate shared it is what
 * bench_read_netlist gives once the image is opened and turned to the pattern. Only the low bits of
 * pattern count, one for each input.
 *
 * Refused: 1 to 8 and 22 as bench_open does, never 9; then 23, where more than BENCH_SHARED_MAX gates are
 * shared.
 */
uint64_t bench_shared_reliability(const uint8_t *image, size_t image_len, uint32_t pattern, uint32_t *units);

/* One of two modules that are compared. */
typedef struct bench_module {
    uint32_t inputs, gates, outputs, live;
    uint32_t average; /* in units, as bench_average gives it with weight 1 for every pattern */
    uint32_t error;   /* in half units, as bench_error_of_image gives it */
} bench_module;

/* What bench_compare gives. */
typedef struct bench_comparison {
    uint32_t verdict; /* BENCH_FIRST, BENCH_SECOND or BENCH_UNDECIDED */
    bench_module first, second;
    uint32_t first_higher, second_higher, neither_higher; /* numbers of patterns */
} bench_comparison;

/*
 * Which of two modules stands higher: whose reliability, averaged over all patterns with weight 1, is
 * the greater one. It takes no area.
 *
 * Done: with averages a1 and a2 in units, and errors e1 and e2 in half units, the verdict is
 *
 *     BENCH_FIRST       if 2 * a1 > 2 * a2 + e1 + e2 + 2; then the first's exact average is greater
 *     BENCH_SECOND      if 2 * a2 > 2 * a1 + e1 + e2 + 2; then the second's is
 *     BENCH_UNDECIDED   otherwise; nothing is said of the exact averages
 *
 * Where both have the same number of inputs, first_higher counts the patterns with 2 * r1 > 2 * r2 + e1 + e2,
 * r1 and r2 being the reliabilities, second_higher those with 2 * r2 > 2 * r1 + e1 + e2, and neither_higher the
 * others; under each pattern of the first two the exact chances differ in the same direction. With unlike
 * inputs all three are 0.
 *
 * Refused: 1 to 9 and 22 of the first image as bench_open does, then of the second. BENCH_IMAGE says
 * which it is.
 */
uint64_t bench_compare(const uint8_t *first, size_t first_len, const uint8_t *second, size_t second_len,
                       bench_comparison *result);

#ifdef __cplusplus
}
#endif

#endif
