/*
 * Decodes one frame of the Hamming code of 7 bits from noisy samples.
 *
 *     (cd crates/c_api && rt lib)
 *     cc -Iinclude examples/c/main.c crates/c_api/out/libc_api.a -o decode && ./decode
 */
#include <inttypes.h>
#include <stdio.h>
#include <stdlib.h>

#include "widagbe.h"

/* 7 bits, 3 checks of degree 4. */
static const uint8_t code[] = {
    0x4c, 0x48, 0, 7, 0, 3,                    /* n = 7, m = 3 */
    0x4c, 0x43, 4, 0, 0, 0, 1, 0, 2, 0, 4,     /* bits 0, 1, 2, 4 */
    0x4c, 0x43, 4, 0, 0, 0, 1, 0, 3, 0, 5,     /* bits 0, 1, 3, 5 */
    0x4c, 0x43, 4, 0, 0, 0, 2, 0, 3, 0, 6,     /* bits 0, 2, 3, 6 */
};

/* The codeword 1011001, sent as -1 for 1 and +1 for 0, with noise: bit 4 is received as 1. */
static const float samples[] = {-0.9f, 1.1f, -1.2f, -0.8f, -0.1f, 0.7f, -1.0f};

enum { BITS = sizeof samples / sizeof samples[0] };

static void *entries(size_t count, size_t size)
{
    void *list = calloc(count, size);
    if (list == NULL) {
        fputs("out of memory\n", stderr);
        exit(EXIT_FAILURE);
    }
    return list;
}

int main(void)
{
    widagbe_code_answer sizes = widagbe_read(code, sizeof code);
    if (sizes.number != WIDAGBE_OK) {
        printf("code refused: %" PRIu32 "\n", sizes.number);
        return EXIT_FAILURE;
    }
    size_t n = sizes.bits, t = sizes.triples, v = n + t - sizes.checks;
    printf("code: %zu bits, %zu checks, %zu triples, %zu variables\n", n, sizes.checks, t, v);

    int16_t costs[BITS];
    uint32_t number = widagbe_channel_gaussian(1000.0f, samples, BITS, costs, BITS);
    if (number != WIDAGBE_OK) {
        printf("samples refused: %" PRIu32 "\n", number);
        return EXIT_FAILURE;
    }
    printf("costs:");
    for (size_t i = 0; i < BITS; i++)
        printf(" %" PRId16, costs[i]);
    printf("\n");

    uint16_t *triples = entries(3 * t, sizeof *triples);
    uint16_t *counts = entries(v, sizeof *counts);
    int64_t *sums = entries(v, sizeof *sums);
    int16_t *values = entries(v, sizeof *values);
    int32_t *rows = entries(4 * t, sizeof *rows);
    uint8_t *word = entries(n, sizeof *word);

    widagbe_decode_answer answer = widagbe_decode(
        code, sizeof code, 8000, 150, 300, 1000000, costs, BITS,
        triples, 3 * t, counts, v, sums, v, values, v, rows, 4 * t, word, n);
    printf("decoded: number %" PRIu32 ", place %zu, %" PRIu32 " iterations, %s\n",
           answer.number, answer.place, answer.k, answer.settled ? "settled" : "not settled");
    if (answer.number == WIDAGBE_OK) {
        printf("word: ");
        for (size_t i = 0; i < n; i++)
            printf("%d", word[i]);
        printf("\n");
    }

    /* A list that is too short is refused and stays as it was. */
    answer = widagbe_decode(
        code, sizeof code, 8000, 150, 300, 1000000, costs, BITS,
        triples, 3 * t - 1, counts, v, sums, v, values, v, rows, 4 * t, word, n);
    printf("with a list too short: number %" PRIu32 "\n", answer.number);

    free(triples);
    free(counts);
    free(sums);
    free(values);
    free(rows);
    free(word);
    return EXIT_SUCCESS;
}
