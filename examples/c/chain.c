/*
 * A chain of reflected frames of the Hamming code of 7 bits: two reflections in turn are one by the sum of their codewords.
 *
 *     (cd crates/c_api && rt lib)
 *     cc -Iinclude examples/c/chain.c crates/c_api/out/libc_api.a -o chain && ./chain
 */
#include <inttypes.h>
#include <stdio.h>
#include <stdlib.h>
#include <string.h>

#include "widagbe.h"

/* 7 bits, 3 checks of degree 4, so 6 triples. */
enum { BITS = 7, CHECKS = 3, TRIPLES = 6, VARIABLES = BITS + TRIPLES - CHECKS };

static const uint8_t code[] = {
    0x4c, 0x48, 0, BITS, 0, CHECKS,
    0x4c, 0x43, 4, 0, 0, 0, 1, 0, 2, 0, 4,     /* bits 0, 1, 2, 4 */
    0x4c, 0x43, 4, 0, 0, 0, 1, 0, 3, 0, 5,     /* bits 0, 1, 3, 5 */
    0x4c, 0x43, 4, 0, 0, 0, 2, 0, 3, 0, 6,     /* bits 0, 2, 3, 6 */
};

/* A noisy frame of the codeword 1011001, and two other codewords. */
static const int16_t costs[BITS] = {-900, 1100, -1200, -800, -100, 700, -1000};
static const uint8_t first[BITS] = {1, 0, 0, 0, 1, 1, 1};
static const uint8_t second[BITS] = {0, 1, 0, 1, 1, 0, 1};

/* Ends the program where a call answered with another number than 0. */
static void demand(const char *call, uint32_t number)
{
    if (number != WIDAGBE_OK) {
        printf("%s: number %" PRIu32 "\n", call, number);
        exit(EXIT_FAILURE);
    }
}

static void show_costs(const char *name, const int16_t *list)
{
    printf("%s:", name);
    for (size_t i = 0; i < BITS; i++)
        printf(" %" PRId16, list[i]);
    printf("\n");
}

static void show_word(const char *name, const uint8_t *word)
{
    printf("%s: ", name);
    for (size_t i = 0; i < BITS; i++)
        printf("%d", word[i]);
    printf("\n");
}

static void reflect(const int16_t *list, const uint8_t *word, int16_t *result)
{
    demand("reflect", widagbe_reflect(list, BITS, word, BITS, result, BITS));
}

static void add(const uint8_t *word, const uint8_t *other, uint8_t *sum)
{
    demand("add_words", widagbe_add_words(word, BITS, other, BITS, sum, BITS));
}

static void decode(const int16_t *list, uint8_t *word)
{
    uint16_t triples[3 * TRIPLES] = {0}, counts[VARIABLES] = {0};
    int64_t sums[VARIABLES] = {0};
    int16_t values[VARIABLES] = {0};
    int32_t rows[4 * TRIPLES] = {0};
    demand("decode", widagbe_decode(code, sizeof code, 8000, 150, 300, 1000000, list, BITS,
                                    triples, 3 * TRIPLES, counts, VARIABLES, sums, VARIABLES,
                                    values, VARIABLES, rows, 4 * TRIPLES, word, BITS).number);
}

int main(void)
{
    int16_t once[BITS] = {0}, twice[BITS] = {0}, at_once[BITS] = {0};
    show_costs("costs", costs);
    reflect(costs, first, once);
    show_word("first codeword", first);
    show_costs("reflected by it", once);
    reflect(once, second, twice);
    show_word("second codeword", second);
    show_costs("reflected by it too", twice);

    uint8_t sum[BITS] = {0};
    add(first, second, sum);
    demand("test", widagbe_test(code, sizeof code, sum, BITS).number);
    show_word("their sum", sum);
    reflect(costs, sum, at_once);
    show_costs("reflected by the sum", at_once);
    if (memcmp(at_once, twice, sizeof twice) != 0)
        return EXIT_FAILURE;

    /* The last frame decodes to the first frame's word plus the sum. */
    uint8_t word[BITS] = {0}, last[BITS] = {0}, back[BITS] = {0};
    decode(costs, word);
    show_word("first frame decoded", word);
    decode(twice, last);
    show_word("last frame decoded", last);
    add(last, sum, back);
    show_word("plus the sum", back);
    return memcmp(back, word, sizeof word) == 0 ? EXIT_SUCCESS : EXIT_FAILURE;
}
