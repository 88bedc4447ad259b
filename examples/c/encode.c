/*
 * Encodes messages of the Hamming code of 7 bits, one alone and two in one call, and reads a message back.
 *
 *     (cd crates/c_api && rt lib)
 *     cc -Iinclude examples/c/encode.c crates/c_api/out/libc_api.a -o encode && ./encode
 */
#include <inttypes.h>
#include <stdio.h>
#include <stdlib.h>
#include <string.h>

#include "widagbe.h"

/* 7 bits, 3 checks of degree 4. Columns 0, 1 and 2 are no sums of earlier ones, so bits 3 to 6 are the message. */
enum { BITS = 7, CHECKS = 3, LENGTH = 4 };

static const uint8_t code[] = {
    0x4c, 0x48, 0, BITS, 0, CHECKS,
    0x4c, 0x43, 4, 0, 0, 0, 1, 0, 2, 0, 4,     /* bits 0, 1, 2, 4 */
    0x4c, 0x43, 4, 0, 0, 0, 1, 0, 3, 0, 5,     /* bits 0, 1, 3, 5 */
    0x4c, 0x43, 4, 0, 0, 0, 2, 0, 3, 0, 6,     /* bits 0, 2, 3, 6 */
};

/* Two messages, one behind the other. */
static const uint8_t messages[2 * LENGTH] = {1, 0, 0, 1, 0, 1, 1, 1};

/* Ends the program where a call answered with another number than 0. */
static void demand(const char *call, uint32_t number)
{
    if (number != WIDAGBE_OK) {
        printf("%s: number %" PRIu32 "\n", call, number);
        exit(EXIT_FAILURE);
    }
}

static void show(const char *name, const uint8_t *list, size_t length)
{
    printf("%s: ", name);
    for (size_t i = 0; i < length; i++)
        printf("%d", list[i]);
    printf("\n");
}

int main(void)
{
    widagbe_length_answer answer = widagbe_message_length(code, sizeof code);
    demand("message_length", answer.number);
    printf("entries of a message: %zu\n", answer.length);
    if (answer.length != LENGTH)
        return EXIT_FAILURE;

    uint8_t word[BITS] = {0};
    show("message", messages, LENGTH);
    demand("encode", widagbe_encode(code, sizeof code, messages, LENGTH, word, BITS));
    show("its word", word, BITS);
    demand("test", widagbe_test(code, sizeof code, word, BITS).number);

    uint8_t message[LENGTH] = {0};
    demand("read_message", widagbe_read_message(code, sizeof code, word, BITS, message, LENGTH).number);
    show("read back", message, LENGTH);
    if (memcmp(message, messages, LENGTH) != 0)
        return EXIT_FAILURE;

    uint8_t words[2 * BITS] = {0};
    demand("encode_frames", widagbe_encode_frames(code, sizeof code, 2, messages, sizeof messages, words, sizeof words));
    show("both words", words, sizeof words);

    /* A word off the code has no message; the list stays as it was. */
    word[0] ^= 1;
    widagbe_word_answer odd = widagbe_read_message(code, sizeof code, word, BITS, message, LENGTH);
    printf("with bit 0 changed: number %" PRIu32 ", check %zu\n", odd.number, odd.place);
    return memcmp(message, messages, LENGTH) == 0 ? EXIT_SUCCESS : EXIT_FAILURE;
}
