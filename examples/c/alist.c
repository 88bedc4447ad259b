/*
 * Imports a code from alist text, exports it in normal form, and shows a refusal.
 *
 *     (cd crates/c_api && rt lib)
 *     cc -Iinclude examples/c/alist.c crates/c_api/out/libc_api.a -o alist && ./alist
 */
#include <inttypes.h>
#include <stdio.h>
#include <stdlib.h>

#include "widagbe.h"

/* The Hamming code of 7 bits; columns stand in any order, and spaces and line feeds wherever they like. */
static const char planned[] =
    "7 3  3 4\n"
    "3 2 2 2 1 1 1  4 4 4\n"
    "3 1 2  2 1 0  1 3 0  3 2 0  1 0 0  2 0 0  3 0 0\n"
    "1 2 3 5  1 2 4 6  1 3 4 7";

int main(void)
{
    const uint8_t *text = (const uint8_t *)planned;
    size_t text_len = sizeof planned - 1;

    /* As many bytes as the text has are always enough. */
    uint8_t *code = malloc(text_len);
    if (code == NULL)
        return EXIT_FAILURE;
    widagbe_bytes_answer imported = widagbe_import(text, text_len, code, text_len);
    printf("import: number %" PRIu32 ", %zu bytes\n", imported.number, imported.bytes);

    widagbe_code_answer sizes = widagbe_read(code, imported.bytes);
    printf("code: %zu bits, %zu checks, %zu triples\n", sizes.bits, sizes.checks, sizes.triples);

    widagbe_bytes_answer size = widagbe_export_size(code, imported.bytes);
    uint8_t *normal = malloc(size.bytes);
    if (normal == NULL)
        return EXIT_FAILURE;
    widagbe_bytes_answer exported = widagbe_export(code, imported.bytes, normal, size.bytes);
    printf("export: number %" PRIu32 ", %zu bytes\n", exported.number, exported.bytes);
    fwrite(normal, 1, exported.bytes, stdout);

    /* Without its last number it is refused, and the records stay as they were. */
    widagbe_bytes_answer refused = widagbe_import(text, text_len - 1, code, text_len);
    printf("import of a cut text: number %" PRIu32 ", %zu bytes\n", refused.number, refused.bytes);

    free(normal);
    free(code);
    return EXIT_SUCCESS;
}
