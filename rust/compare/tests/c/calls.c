/* Every call of the header once, with all that it answers and fills; tests/examples.rs makes the same calls from Rust. */
#include <inttypes.h>
#include <stdio.h>

#include "widagbe.h"

enum { N = 5, M = 2, T = 3, V = N + T - M, L = N - M };

static const uint8_t code[] = {
    0x4c, 0x48, 0, N, 0, M,
    0x4c, 0x43, 4, 0, 0, 0, 1, 0, 2, 0, 3,
    0x4c, 0x43, 3, 0, 1, 0, 3, 0, 4,
};

#define LIST(list) list, sizeof list / sizeof list[0]

#define SHOW(list)                                           \
    do {                                                     \
        for (size_t i = 0; i < sizeof list / sizeof list[0]; i++) \
            printf(" %" PRId64, (int64_t)list[i]);           \
        printf("\n");                                        \
    } while (0)

int main(void)
{
    widagbe_code_answer sizes = widagbe_read(LIST(code));
    printf("read %" PRIu32 " %zu %zu %zu\n", sizes.number, sizes.bits, sizes.checks, sizes.triples);

    uint16_t triples[3 * T + 1] = {0}, counts[V + 1] = {0};
    printf("split %" PRIu32 "\n", widagbe_split(LIST(code), LIST(triples), LIST(counts)));
    SHOW(triples);
    SHOW(counts);

    uint8_t text[64] = {0}, records[sizeof code + 1] = {0};
    widagbe_bytes_answer written = widagbe_export_size(LIST(code));
    printf("export_size %" PRIu32 " %zu\n", written.number, written.bytes);
    written = widagbe_export(LIST(code), LIST(text));
    printf("export %" PRIu32 " %zu\n", written.number, written.bytes);
    SHOW(text);
    written = widagbe_import(text, written.bytes, LIST(records));
    printf("import %" PRIu32 " %zu\n", written.number, written.bytes);
    SHOW(records);

    static const float samples[N] = {-1.5f, 0.25f, 2.0f, -0.125f, 1.0f};
    int16_t costs[N] = {0}, result[N + 1] = {0};
    printf("hard %" PRIu32 "\n", widagbe_channel_hard(300.0f, LIST(samples), LIST(costs)));
    SHOW(costs);
    printf("erasing %" PRIu32 "\n", widagbe_channel_erasing(0.2f, 300.0f, LIST(samples), LIST(costs)));
    SHOW(costs);
    printf("gaussian %" PRIu32 "\n", widagbe_channel_gaussian(300.0f, LIST(samples), LIST(costs)));
    SHOW(costs);

    static const uint8_t codeword[N] = {1, 0, 0, 1, 1}, other[N] = {1, 0, 1, 0, 1};
    printf("reflect %" PRIu32 "\n", widagbe_reflect(LIST(costs), LIST(codeword), LIST(result)));
    SHOW(result);

    widagbe_word_answer answer = widagbe_test(LIST(code), LIST(other));
    printf("test %" PRIu32 " %zu\n", answer.number, answer.place);
    uint8_t point[V + 1] = {0};
    answer = widagbe_extend(LIST(code), LIST(codeword), LIST(point));
    printf("extend %" PRIu32 " %zu\n", answer.number, answer.place);
    SHOW(point);
    uint8_t sum[N + 1] = {0};
    printf("add_words %" PRIu32 "\n", widagbe_add_words(LIST(codeword), LIST(other), LIST(sum)));
    SHOW(sum);

    static const uint8_t messages[2 * L] = {1, 0, 1, 0, 1, 1};
    widagbe_length_answer length = widagbe_message_length(LIST(code));
    printf("message_length %" PRIu32 " %zu\n", length.number, length.length);
    uint8_t encoded[N + 1] = {0}, words[2 * N + 1] = {0}, message[L + 1] = {0};
    printf("encode %" PRIu32 "\n", widagbe_encode(LIST(code), messages, L, LIST(encoded)));
    SHOW(encoded);
    printf("encode_frames %" PRIu32 "\n", widagbe_encode_frames(LIST(code), 2, LIST(messages), LIST(words)));
    SHOW(words);
    answer = widagbe_read_message(LIST(code), LIST(codeword), LIST(message));
    printf("read_message %" PRIu32 " %zu\n", answer.number, answer.place);
    SHOW(message);
    answer = widagbe_read_message(LIST(code), LIST(other), LIST(message));
    printf("read_message %" PRIu32 " %zu\n", answer.number, answer.place);
    SHOW(message);

    int64_t sums[V + 1] = {0};
    int16_t values[V + 1] = {0};
    int32_t rows[4 * T + 1] = {0};
    uint8_t word[N + 1] = {0};
    widagbe_decode_answer run = widagbe_decode(LIST(code), 8000, 150, 300, 1000000, LIST(costs), LIST(triples), LIST(counts),
                                               LIST(sums), LIST(values), LIST(rows), LIST(word));
    printf("decode %" PRIu32 " %zu %" PRIu32 " %" PRIu32 "\n", run.number, run.place, run.k, run.settled);
    SHOW(sums);
    SHOW(values);
    SHOW(rows);
    SHOW(word);

    enum { F = 3 };
    int16_t frames[F * N] = {0};
    for (size_t i = 0; i < N; i++) {
        frames[i] = costs[i];
        frames[N + i] = INT16_MIN;
        frames[2 * N + i] = result[i];
    }
    int64_t all_sums[F * V + 1] = {0};
    int16_t all_values[F * V + 1] = {0};
    int32_t all_rows[F * 4 * T + 1] = {0}, work[4 * (4 * T + 3 * V + 3 * N)] = {0};
    uint8_t all_words[F * N + 1] = {0};
    widagbe_group_answer group = widagbe_decode_group(LIST(code), 8000, 150, 300, 1000000, F, LIST(frames), LIST(triples),
                                                      LIST(counts), LIST(all_sums), LIST(all_values), LIST(all_rows),
                                                      LIST(all_words), LIST(work));
    printf("decode_group %" PRIu32 "\n", group.number);
    for (size_t f = 0; f < WIDAGBE_MAX_FRAMES; f++)
        printf(" %" PRIu32 " %zu %" PRIu32 " %" PRIu32 "\n", group.frames[f].number, group.frames[f].place,
               group.frames[f].k, group.frames[f].settled);
    SHOW(all_sums);
    SHOW(all_values);
    SHOW(all_rows);
    SHOW(all_words);
    return 0;
}
