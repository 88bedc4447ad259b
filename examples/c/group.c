/*
 * Decodes four frames of the Hamming code of 7 bits in one call. One of them has a cost of -32768; the others are decoded all the
 * same.
 *
 *     (cd crates/c_api && rt lib)
 *     cc -Iinclude examples/c/group.c crates/c_api/out/libc_api.a -o group && ./group
 */
#include <inttypes.h>
#include <stdio.h>
#include <stdlib.h>

#include "widagbe.h"

/* 7 bits, 3 checks of degree 4, so 6 triples; up to four frames need a work list of 4 (4T + 3V + 3n) entries. */
enum {
    BITS = 7,
    CHECKS = 3,
    TRIPLES = 6,
    VARIABLES = BITS + TRIPLES - CHECKS,
    FRAMES = 4,
    WORK = 4 * (4 * TRIPLES + 3 * VARIABLES + 3 * BITS)
};

static const uint8_t code[] = {
    0x4c, 0x48, 0, BITS, 0, CHECKS,
    0x4c, 0x43, 4, 0, 0, 0, 1, 0, 2, 0, 4,     /* bits 0, 1, 2, 4 */
    0x4c, 0x43, 4, 0, 0, 0, 1, 0, 3, 0, 5,     /* bits 0, 1, 3, 5 */
    0x4c, 0x43, 4, 0, 0, 0, 2, 0, 3, 0, 6,     /* bits 0, 2, 3, 6 */
};

/* The frames one behind the other. */
static const int16_t costs[FRAMES * BITS] = {
    -900, 1100, -1200, -800, -100, 700, -1000, /* the codeword 1011001, with bit 4 received as 1 */
    -700, 800, 1200, 300, -900, -1000, -800,   /* the codeword 1000111 */
    -900, 1100, INT16_MIN, -800, -100, 700, 0, /* a cost that is refused */
    0, 0, 0, 0, 0, 0, 0,                       /* nothing received */
};

int main(void)
{
    uint16_t triples[3 * TRIPLES] = {0}, counts[VARIABLES] = {0};
    int64_t sums[FRAMES * VARIABLES] = {0};
    int16_t values[FRAMES * VARIABLES] = {0};
    int32_t rows[FRAMES * 4 * TRIPLES] = {0}, work[WORK] = {0};
    uint8_t word[FRAMES * BITS] = {0};

    widagbe_group_answer group = widagbe_decode_group(
        code, sizeof code, 8000, 150, 300, 1000000, FRAMES, costs, FRAMES * BITS,
        triples, 3 * TRIPLES, counts, VARIABLES, sums, FRAMES * VARIABLES, values, FRAMES * VARIABLES,
        rows, FRAMES * 4 * TRIPLES, word, FRAMES * BITS, work, WORK);
    printf("group: number %" PRIu32 "\n", group.number);
    if (group.number != WIDAGBE_OK)
        return EXIT_FAILURE;
    for (size_t f = 0; f < FRAMES; f++) {
        widagbe_decode_answer answer = group.frames[f];
        printf("frame %zu: number %" PRIu32 ", place %zu, %" PRIu32 " iterations", f, answer.number, answer.place, answer.k);
        if (answer.number == WIDAGBE_OK) {
            printf(", word ");
            for (size_t i = 0; i < BITS; i++)
                printf("%d", word[f * BITS + i]);
        }
        printf("\n");
    }

    /* A group of more than eight frames is refused, and so is one of none. */
    group = widagbe_decode_group(
        code, sizeof code, 8000, 150, 300, 1000000, WIDAGBE_MAX_FRAMES + 1, costs, FRAMES * BITS,
        triples, 3 * TRIPLES, counts, VARIABLES, sums, FRAMES * VARIABLES, values, FRAMES * VARIABLES,
        rows, FRAMES * 4 * TRIPLES, word, FRAMES * BITS, work, WORK);
    printf("with nine frames: number %" PRIu32 "\n", group.number);
    return EXIT_SUCCESS;
}
