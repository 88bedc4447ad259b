/*
 * Widagbe: a decoder for binary LDPC codes by QP-ADMM, in whole numbers.
 *
 * Link with crates/c_api/out/libc_api.a, which `rt lib` in crates/c_api writes (Linux on x86-64, for processors of the level
 * x86-64-v2: with SSE4.2 and POPCNT).
 *
 * Lists
 *   A list is a pointer and its number of entries, not of bytes. Code, text, costs, samples, words and messages are whole lists:
 *   their length is exact (else 12; for a code 1 or 9, for a text 18). Lists that a call fills may be longer than needed: the
 *   entries past those needed stay as they were, but those of a group's work list. One that is too short is refused with 10.
 *
 *   The sizes of a code are n (bits), m (checks), T (triples: degree - 2 for each check, but 1 for a check of two bits) and V
 *   (variables):
 *
 *       V = n + T - m
 *
 *   widagbe_read hands back n, m and T. Whatever the code, n <= 4096, m <= 2048, T <= 8192, V <= 12288; so the constants
 *   below are always enough.
 *
 * Answers
 *   Every call answers with a number: 0, or one of enum widagbe_number. A call refused with 1 to 15 or 18 to 21 leaves every list
 *   as it was, and all other fields of its answer are 0. Where more than one cause holds, the first in this order is told: 18,
 *   19, those of the records (1 to 6 as they are read, then 9, 7, 8), then 20, 11, 21, 12, 13, 14, 15, 10, and last 16 and 17.
 *   Of a group of frames, 13, 16 and 17 belong to one frame and never to the group (widagbe_decode_group).
 *
 * What the caller owes
 *   - No pointer is null, also where the length is 0; each is aligned for its type.
 *   - Each list has as many entries as its length says, all of them set to some value.
 *   - A list that a call fills shares no memory with any other list of that call. Lists that are only read may overlap.
 *   - Nothing else writes to any list of a call, or reads a list that it fills, until the call returns.
 *   No call keeps a pointer, allocates memory or has state of its own: calls in different threads do not disturb each other.
 *   A call needs less than 16 kilobytes of stack, but widagbe_import, which needs less than 272, widagbe_export and
 *   widagbe_export_size, which need less than 56, and the functions of the encoder, which need less than 80.
 */
#ifndef WIDAGBE_H
#define WIDAGBE_H

#include <stddef.h>
#include <stdint.h>

#ifdef __cplusplus
extern "C" {
#endif

/* Room that is enough for every code. */
#define WIDAGBE_MAX_BITS 4096       /* n */
#define WIDAGBE_MAX_CHECKS 2048     /* m */
#define WIDAGBE_MAX_TRIPLES 8192    /* T */
#define WIDAGBE_MAX_VARIABLES 12288 /* V */

/* In third place of a triple: the blank of a check of two bits, which is no variable. */
#define WIDAGBE_BLANK 0xFFFF

/* The most iterations that a run may be asked for. */
#define WIDAGBE_MAX_ITERATIONS 4000

/* The most bits of a code that the encoder takes. */
#define WIDAGBE_MAX_ENCODED_BITS 256

/* The most frames of a group, and entries of a work list that are enough for every group. */
#define WIDAGBE_MAX_FRAMES 8
#define WIDAGBE_MAX_WORK 655360

enum widagbe_number {
    WIDAGBE_OK = 0,
    WIDAGBE_CUT = 1,              /* the bytes end inside a record */
    WIDAGBE_MARK = 2,             /* another mark than the due one */
    WIDAGBE_SIZE = 3,             /* n outside 3..4096, or m outside 1..2048 */
    WIDAGBE_DEGREE = 4,           /* a degree outside 2..32 */
    WIDAGBE_INDEX = 5,            /* an index of n or above */
    WIDAGBE_NOT_RISING = 6,       /* an index not above the one before */
    WIDAGBE_TRIPLES = 7,          /* more than 8192 triples */
    WIDAGBE_BIT_IN_NO_CHECK = 8,  /* a bit in no check */
    WIDAGBE_BYTES_LEFT = 9,       /* bytes after the last check */
    WIDAGBE_NO_ROOM = 10,         /* a list to fill is too short */
    WIDAGBE_SETTING = 11,         /* a run or channel setting outside its range */
    WIDAGBE_LENGTHS = 12,         /* lengths that must agree do not */
    WIDAGBE_COST = 13,            /* a cost of -32768 */
    WIDAGBE_SAMPLE = 14,          /* a sample that is not finite */
    WIDAGBE_NOT_BINARY = 15,      /* a word entry that is neither 0 nor 1 */
    WIDAGBE_UNDECIDED = 16,       /* the run left a bit undecided */
    WIDAGBE_NOT_A_CODEWORD = 17,  /* a check has an odd sum */
    WIDAGBE_NOT_ALIST = 18,       /* a text that is no alist file */
    WIDAGBE_PLACES_DIFFER = 19,   /* columns and rows of a text do not name the same places, each equally often */
    WIDAGBE_TOO_LONG = 20,        /* a code of more than 256 bits, for the encoder */
    WIDAGBE_FRAMES = 21           /* a group of no frames, or of more than 8 */
};

/*
 * ---- Codes
 *
 * A code is a list of bytes; two-byte numbers have the high byte first:
 *   header: 0x4C 0x48, n (two bytes), m (two bytes);
 *   then m checks: 0x4C 0x43, degree d (one byte, 2 to 32), d bit indices from 0, strictly rising (two bytes each).
 * Each bit lies in some check.
 */

/* number 0: the sizes of the code. */
typedef struct {
    uint32_t number;
    size_t bits;    /* n */
    size_t checks;  /* m */
    size_t triples; /* T */
} widagbe_code_answer;

/*
 * Reads a code.
 * Numbers: 0 to 9.
 */
widagbe_code_answer widagbe_read(const uint8_t *code, size_t code_len);

/*
 * Splits the checks of a code into triples of variables: the bits are 0 to n - 1, the auxiliaries n to V - 1. A check of two bits
 * is one triple and makes no auxiliary: its two bits and, in third place, WIDAGBE_BLANK. The blank is no variable: it has no entry
 * in the lists of counts, sums and values nor in a point, however long they are. Its value is -16384 in every run.
 *   triples  3T entries: the three variables of each triple, or two and WIDAGBE_BLANK
 *   counts   V entries: in how many triples each variable is
 * Numbers: 0 to 10.
 */
uint32_t widagbe_split(const uint8_t *code, size_t code_len,
                       uint16_t *triples, size_t triples_len,
                       uint16_t *counts, size_t counts_len);

/*
 * ---- Codes as alist text
 *
 * Numbers in decimal digits, at most 65535, between spaces or line feeds, any count of them: n and m; the largest column degree
 * and the largest row degree (0 where there is none); n column degrees; m row degrees; n lists of columns; m lists of rows. A
 * list has its degree's count of indices from 1, and zeros up to the largest degree. Rows rise strictly, columns stand in any
 * order. Column c is bit c - 1 and names the checks that it lies in; row r is check r - 1 and names its bits.
 */

/* number 0: the bytes written. */
typedef struct {
    uint32_t number;
    size_t bytes;
} widagbe_bytes_answer;

/*
 * Writes the code records of an alist text.
 *   text     the whole text
 *   code     as many bytes as the records have, 6 and 3 + 2d for each check of degree d; text_len bytes are always enough
 * The time is bounded by the text: docs/PERFORMANCE.md has the worst texts.
 * Numbers: 0, 3, 4, 6, 7, 8, 10, 18, 19.
 */
widagbe_bytes_answer widagbe_import(const uint8_t *text, size_t text_len,
                                    uint8_t *code, size_t code_len);

/*
 * Writes the alist text of a code: rising columns, one space between numbers, a line feed behind each pair or list. Importing
 * it gives the same records.
 *   text     as many bytes as widagbe_export_size tells
 * Numbers: 0 to 10.
 */
widagbe_bytes_answer widagbe_export(const uint8_t *code, size_t code_len,
                                    uint8_t *text, size_t text_len);

/*
 * Tells how many bytes the alist text of a code has.
 * Numbers: 0 to 9.
 */
widagbe_bytes_answer widagbe_export_size(const uint8_t *code, size_t code_len);

/*
 * ---- Costs
 *
 * A cost is a whole number from -32767 to 32767, one for each bit; a cost above 0 speaks for bit 0, one below 0 for bit 1.
 * The three channels turn samples into costs, rounded to nearest, halves away from zero, and limited.
 *   costs    samples_len entries
 * Numbers: 0, 10, 11, 14. No samples at all are accepted.
 */

/* Each sample times the scale, which is finite and above 0. */
uint32_t widagbe_channel_gaussian(float scale,
                                  const float *samples, size_t samples_len,
                                  int16_t *costs, size_t costs_len);

/* The weight, which is finite and above 0, for a sample above 0; its negative for one below; 0 at zero. */
uint32_t widagbe_channel_hard(float weight,
                              const float *samples, size_t samples_len,
                              int16_t *costs, size_t costs_len);

/* The same, and 0 for a sample whose size is below the floor, which is finite and not below 0. */
uint32_t widagbe_channel_erasing(float floor, float weight,
                                 const float *samples, size_t samples_len,
                                 int16_t *costs, size_t costs_len);

/*
 * Costs, negated where the word has 1. Reflecting the result by another word is reflecting the costs by the sum of both words
 * (widagbe_add_words), and is accepted where both words have the costs' length; the zero word changes nothing, and the same word
 * twice restores the costs.
 *   word     costs_len entries, each 0 or 1
 *   result   costs_len entries
 * Numbers: 0, 10, 12, 13, 15. No costs at all are accepted.
 */
uint32_t widagbe_reflect(const int16_t *costs, size_t costs_len,
                         const uint8_t *word, size_t word_len,
                         int16_t *result, size_t result_len);

/*
 * ---- Words
 *
 * A word has one entry 0 or 1 for each bit. It is a codeword when its sum over each check is even. The sum of two codewords is a
 * codeword, and its point is the sum of their points.
 */

/*
 * Adds two words of the same length, bit by bit modulo 2.
 *   word     any number of entries, each 0 or 1
 *   other    word_len entries, each 0 or 1
 *   sum      word_len entries
 * Numbers: 0, 10, 12, 15. Words of length 0 are accepted.
 */
uint32_t widagbe_add_words(const uint8_t *word, size_t word_len,
                           const uint8_t *other, size_t other_len,
                           uint8_t *sum, size_t sum_len);

/* number 17: place is the first check with an odd sum, from 0. */
typedef struct {
    uint32_t number;
    size_t place;
} widagbe_word_answer;

/*
 * Tests whether a word is a codeword.
 *   word     n entries
 * Numbers: 0 to 9, 12, 15, 17.
 */
widagbe_word_answer widagbe_test(const uint8_t *code, size_t code_len,
                                 const uint8_t *word, size_t word_len);

/*
 * Extends a codeword to its point: an entry 0 or 1 for each variable, the word first. 17 leaves the point as it was.
 *   word     n entries
 *   point    V entries
 * Numbers: 0 to 10, 12, 15, 17.
 */
widagbe_word_answer widagbe_extend(const uint8_t *code, size_t code_len,
                                   const uint8_t *word, size_t word_len,
                                   uint8_t *point, size_t point_len);

/*
 * ---- The encoder
 *
 * For codes of at most 256 bits (WIDAGBE_MAX_ENCODED_BITS; else 20). The bits are the columns of the check matrix. A bit is a
 * pivot where its column is no sum modulo 2 of earlier columns. A message has one entry 0 or 1 for each of the other bits, in
 * rising order; its word has these entries there, and at the pivots what makes it a codeword. Checks may depend on each other.
 * Every codeword is the word of exactly one message, and the sum of two messages has the sum of their words.
 */

/* number 0: how many entries a message of the code has, n less the pivots; it may be 0. */
typedef struct {
    uint32_t number;
    size_t length;
} widagbe_length_answer;

/*
 * Tells how long a message is.
 * Numbers: 0 to 9, 20.
 */
widagbe_length_answer widagbe_message_length(const uint8_t *code, size_t code_len);

/*
 * Writes the word of a message.
 *   message  as many entries as widagbe_message_length tells, each 0 or 1
 *   word     n entries
 * Numbers: 0 to 10, 12, 15, 20.
 */
uint32_t widagbe_encode(const uint8_t *code, size_t code_len,
                        const uint8_t *message, size_t message_len,
                        uint8_t *word, size_t word_len);

/*
 * Writes the words of many messages of one code. Each is what widagbe_encode writes; the check matrix is reduced once for all.
 *   frames    how many
 *   messages  so many messages, one behind the other
 *   words     frames times n entries: the words, one behind the other
 * Numbers: 0 to 10, 12, 15, 20. No frames at all are accepted.
 */
uint32_t widagbe_encode_frames(const uint8_t *code, size_t code_len, size_t frames,
                               const uint8_t *messages, size_t messages_len,
                               uint8_t *words, size_t words_len);

/*
 * Writes the message of a codeword. 17 leaves the message as it was.
 *   word     n entries
 *   message  as many entries as widagbe_message_length tells
 * Numbers: 0 to 10, 12, 15, 17, 20.
 */
widagbe_word_answer widagbe_read_message(const uint8_t *code, size_t code_len,
                                         const uint8_t *word, size_t word_len,
                                         uint8_t *message, size_t message_len);

/*
 * ---- The decoder
 */

/* number 16: place is the lowest undecided bit; 17: place is the first check with an odd sum; both from 0. */
typedef struct {
    uint32_t number;
    size_t place;
    uint32_t k;       /* iterations made; with the numbers 0, 16 and 17 */
    uint32_t settled; /* 1 where the run stopped because it settled, 0 where the limit ended it */
} widagbe_decode_answer;

/*
 * Decodes one frame.
 *   weight     1 to 65535: how much the costs weigh
 *   ratio      0 to 1023: the penalty that drives values away from the middle, in parts of 256
 *   limit      1 to 4000 (WIDAGBE_MAX_ITERATIONS): the most iterations
 *   tolerance  any: the run settles when, after an iteration, neither the squares of the changes of all multipliers nor those of
 *              all slacks add up to more
 *   costs      n entries
 *   triples    3T entries, as widagbe_split fills it
 *   counts     V entries, as widagbe_split fills it
 *   sums       V entries: the sum of each variable in the last iteration
 *   values     V entries, -16384 to 16384: the value of each variable, above 0 for bit 1, below 0 for bit 0
 *   rows       4T entries, -65536 to 32768 k: for each row the multiplier where above 0, the slack negated where below 0
 *   word       n entries: the codeword, written with number 0 only
 * With 16 and 17 all lists but the word are filled. What they held before does not matter.
 * Numbers: 0 to 13, 16, 17.
 */
widagbe_decode_answer widagbe_decode(const uint8_t *code, size_t code_len,
                                     uint32_t weight, uint32_t ratio, uint32_t limit, uint32_t tolerance,
                                     const int16_t *costs, size_t costs_len,
                                     uint16_t *triples, size_t triples_len,
                                     uint16_t *counts, size_t counts_len,
                                     int64_t *sums, size_t sums_len,
                                     int16_t *values, size_t values_len,
                                     int32_t *rows, size_t rows_len,
                                     uint8_t *word, size_t word_len);

/*
 * number 0: an answer for each frame of the group, 13 for one with a cost of -32768. The answers past the given frames, and all
 * eight of a refused group, are 0 in every field.
 */
typedef struct {
    uint32_t number;
    widagbe_decode_answer frames[WIDAGBE_MAX_FRAMES];
} widagbe_group_answer;

/*
 * Decodes up to eight frames of one code with the same settings: each walk through the code takes every frame that still runs one
 * iteration on. A frame's answer and its parts of the lists are what widagbe_decode gives for its costs alone, whatever the other
 * frames are. In each list that is kept per frame the frames stand one behind the other: of a list with size entries for each,
 * those of frame f, from 0, begin at f * size.
 *   weight, ratio, limit, tolerance  as widagbe_decode takes them, for all frames
 *   frames     F, 1 to 8 (WIDAGBE_MAX_FRAMES): how many frames are given
 *   costs      n F entries: n for each frame
 *   triples    3T entries, as widagbe_split fills it, once for the group
 *   counts     V entries, as widagbe_split fills it, once for the group
 *   sums       V F entries: V for each frame
 *   values     V F entries: V for each frame
 *   rows       4T F entries: 4T for each frame
 *   word       n F entries: n for each frame; a frame's part is written where its number is 0 only
 *   work       L (4T + 3V + 3n) entries, where L is 4 for up to 4 frames and 8 for more; never above WIDAGBE_MAX_WORK. What it
 *              held before does not matter, and what all of it holds after an accepted call is open
 * A frame with a cost of -32768 gets the number 13 in its answer, and its parts of sums, values, rows and word stay as they were;
 * the others are decoded. Triples and counts are filled and the group's number is 0, even if every frame has 13. A list that is
 * too short, the work list too, refuses the group with 10, also where a cost is -32768.
 * Numbers: 0 to 12, 21; 10 comes last of them. Numbers of a frame: 0, 13, 16, 17.
 */
widagbe_group_answer widagbe_decode_group(const uint8_t *code, size_t code_len,
                                          uint32_t weight, uint32_t ratio, uint32_t limit, uint32_t tolerance,
                                          size_t frames,
                                          const int16_t *costs, size_t costs_len,
                                          uint16_t *triples, size_t triples_len,
                                          uint16_t *counts, size_t counts_len,
                                          int64_t *sums, size_t sums_len,
                                          int16_t *values, size_t values_len,
                                          int32_t *rows, size_t rows_len,
                                          uint8_t *word, size_t word_len,
                                          int32_t *work, size_t work_len);

#ifdef __cplusplus
}
#endif

#endif
