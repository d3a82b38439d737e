/* Decodes a row, reads its values, writes a message, says what is wrong with a damaged one, and builds a row column by column. */
#include <stdio.h>
#include <string.h>

#include "tusweram.h"

int main(void) {
    static const uint8_t row[] = "D\0\0\0\x10\0\x02\0\0\0\x02"
                                 "ab\xff\xff\xff\xff";
    size_t frame_len = sizeof row - 1;
    size_t out[TUSWERAM_NUMBERS];

    /* Decode: the kind, and where its list of values begins. */
    tusweram_decode(TUSWERAM_BACKEND, row, frame_len, out);
    if (out[0] != TUSWERAM_THERE || out[4] != TUSWERAM_DATA_ROW) return 1;
    size_t consumed = out[3], at = out[5], count = out[6];
    printf("a row of %zu values, %zu bytes\n", count, consumed);

    /* Walk its values. */
    for (size_t i = 0; i < count; i++) {
        tusweram_value(row, consumed, at, out);
        if (out[0] != TUSWERAM_THERE) return 1;
        if (out[4] == TUSWERAM_NULL)
            printf("value %zu is NULL\n", i);
        else
            printf("value %zu is %.*s\n", i, (int)out[6], (const char *)row + out[5]);
        at = out[3];
    }

    /* Write a message. */
    uint8_t frame[64];
    const char *query = "select $1";
    uint32_t types[] = {23};
    size_t n = tusweram_encode_lists(TUSWERAM_PARSE, 0, NULL, 0, (const uint8_t *)query, strlen(query), NULL, 0, types, 1, NULL, 0, NULL, 0,
                                     NULL, 0, frame, sizeof frame);
    if (tusweram_refusal_of(n) != 0) return 1;
    printf("a Parse of %zu bytes:", n);
    for (size_t i = 0; i < n; i++) printf(" %02x", frame[i]);
    printf("\n");

    /* Cut its last byte, with the length mended: what is wrong, and where. */
    frame[4]--;
    tusweram_decode(TUSWERAM_FRONTEND, frame, n - 1, out);
    printf("cut, it is refused with %zu at %zu\n", out[1], out[2]);

    /* Build the first row again, column by column, with a third one that is dropped. */
    tusweram_row built;
    if (tusweram_row_begin(&built, frame, sizeof frame) != 0) return 1;
    if (tusweram_row_append(&built, frame, sizeof frame, (const uint8_t *)"ab", 2) != 0) return 1;
    if (tusweram_row_append_null(&built, frame, sizeof frame) != 0) return 1;
    if (tusweram_row_append(&built, frame, sizeof frame, (const uint8_t *)"cd", 2) != 0) return 1;
    if (tusweram_row_drop_last(&built, frame, sizeof frame) != 0) return 1;
    if (tusweram_row_finish(&built, frame, sizeof frame) != 0) return 1;
    if (built.size != frame_len || memcmp(frame, row, frame_len) != 0) return 1;
    printf("built, a row of %zu columns, %zu bytes\n", built.columns, built.size);
    return 0;
}
