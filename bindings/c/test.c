/* Each function of tusweram.h with known answers, worked out from docs/FORMAT.md; NULL with length 0; numbers, places and lengths that reach past
 * what is lent; the longest lists and rows. Every buffer ends at the end of a page with nothing behind it, so a read or write past it stops the
 * program. */
#define _DEFAULT_SOURCE
#include <stdarg.h>
#include <stdio.h>
#include <stdlib.h>
#include <string.h>
#include <sys/mman.h>
#include <unistd.h>

#include "tusweram.h"

_Static_assert(sizeof(size_t) == 8, "the archives have numbers of 64 bits");
_Static_assert(sizeof(struct tusweram_field_description) == 40, "the layout of a field");
_Static_assert(offsetof(struct tusweram_field_description, type_id) == 24, "the layout of a field");
_Static_assert(offsetof(struct tusweram_field_description, format_code) == 36, "the layout of a field");
_Static_assert(sizeof(tusweram_row) == sizeof(size_t[2]), "a row is two numbers");
_Static_assert(offsetof(tusweram_row, size) == sizeof(size_t), "a row is two numbers");

static int checks, wrong;

#define CHECK(ok)                                                   \
    do {                                                            \
        checks++;                                                   \
        if (!(ok)) {                                                \
            wrong++;                                                \
            printf("%s:%d: wrong: %s\n", __FILE__, __LINE__, #ok);  \
        }                                                           \
    } while (0)

/* The bytes of a literal, without its zero byte. */
#define BYTES(text) ((const uint8_t *)(text)), (sizeof(text) - 1)
#define NONE NULL, 0
/* A number that will be no kind's: theirs are small, one after another. */
#define NO_KIND 255

/* ---- buffers that end where the memory ends */

/* The longest frame here, a row at its limit, has some 257 pages. */
enum { PAGES = 288 };

/* The end of fresh pages, before one that cannot be touched. */
static uint8_t *edge(void) {
    size_t page = (size_t)sysconf(_SC_PAGESIZE);
    uint8_t *at = mmap(NULL, (PAGES + 1) * page, PROT_READ | PROT_WRITE, MAP_PRIVATE | MAP_ANONYMOUS, -1, 0);
    if (at == MAP_FAILED || mprotect(at + PAGES * page, page, PROT_NONE) != 0) {
        printf("no pages\n");
        exit(1);
    }
    return at + PAGES * page;
}

static uint8_t *input_edge, *output_edge, *numbers_edge;

static const uint8_t *lent(const uint8_t *bytes, size_t n) {
    if (n != 0) memcpy(input_edge - n, bytes, n);
    return input_edge - n;
}

/* ---- reading */

static size_t row[TUSWERAM_NUMBERS];

static void stale(void) {
    for (int i = 0; i < TUSWERAM_NUMBERS; i++) row[i] = 0xdeadbeef;
}

static void decode(uint8_t mode, const uint8_t *bytes, size_t n) {
    stale();
    tusweram_decode(mode, lent(bytes, n), n, row);
}

static void element(uint8_t mode, const uint8_t *bytes, size_t n, size_t list, size_t number) {
    stale();
    tusweram_element(mode, lent(bytes, n), n, list, number, row);
}

static void value(const uint8_t *bytes, size_t n, size_t at) {
    stale();
    tusweram_value(lent(bytes, n), n, at, row);
}

static void field(const uint8_t *bytes, size_t n, size_t at) {
    stale();
    tusweram_field(lent(bytes, n), n, at, row);
}

static void error_field(const uint8_t *bytes, size_t n, size_t at) {
    stale();
    tusweram_error_field(lent(bytes, n), n, at, row);
}

static void pair(const uint8_t *bytes, size_t n, size_t at) {
    stale();
    tusweram_pair(lent(bytes, n), n, at, row);
}

/* Are these the row's numbers, with zeros behind them? */
static int is(int count, ...) {
    va_list numbers;
    va_start(numbers, count);
    int same = 1;
    for (int i = 0; i < TUSWERAM_NUMBERS; i++) same &= row[i] == (i < count ? va_arg(numbers, size_t) : 0);
    va_end(numbers);
    return same;
}

#define Z(n) ((size_t)(n))
#define REFUSED(number, place) is(3, Z(2), Z(number), Z(place))
#define NEED_MORE is(1, Z(1))

#define ROW BYTES("D\0\0\0\x10\0\x02\0\0\0\x02" "ab\xff\xff\xff\xff")
#define FIELD_BYTES                                                                                                                      \
    "T\0\0\0\x2d\0\x02" "a\0\0\0\0\x02\0\x03\0\0\0\x04\0\x05\xff\xff\xff\xff\0\x01"                                                      \
    "\0\x80\0\0\0\xff\xfe\xff\xff\xff\xff\xff\xff\0\0\0\x07\xff\xfd"
#define ERROR_BYTES "E\0\0\0\x0aSx\0M\0\0"
#define FIELDS BYTES(FIELD_BYTES)
#define ERRORS BYTES(ERROR_BYTES)
/* two pairs: user, bob; xy, empty */
#define STARTUP_BYTES "\0\0\0\x16\0\x03\0\0user\0bob\0xy\0\0\0"
#define STARTUP BYTES(STARTUP_BYTES)
#define BIND BYTES("B\0\0\0\x15\0\0\0\x01\xff\xfe\0\x01\0\0\0\x01" "a\0\x01\0\x01")

/* Mode 5: its four kinds, and then each refusal with its place. */
static void first_packets(void) {
    decode(5, STARTUP);
    CHECK(is(7, Z(0), Z(0), Z(0), Z(22), Z(31), Z(8), Z(2)));
    decode(5, BYTES("\0\0\0\x09\0\x03\0\0\0"));
    CHECK(is(6, Z(0), Z(0), Z(0), Z(9), Z(31), Z(8)));
    decode(5, BYTES("\0\0\0\x08\x04\xd2\x16\x2f"));
    CHECK(is(5, Z(0), Z(0), Z(0), Z(8), Z(32)));
    decode(5, BYTES("\0\0\0\x08\x04\xd2\x16\x30"));
    CHECK(is(5, Z(0), Z(0), Z(0), Z(8), Z(33)));
    decode(5, BYTES("\0\0\0\x10\x04\xd2\x16\x2e\0\0\0\x07\x80\0\0\0"));
    CHECK(is(7, Z(0), Z(0), Z(0), Z(16), Z(28), Z(7), Z(2147483648)));
    /* every cut waits, with nothing behind it to read */
    for (size_t n = 0; n < 22; n++) {
        decode(5, (const uint8_t *)STARTUP_BYTES, n);
        CHECK(NEED_MORE);
    }
}

static void first_packets_refused(void) {
    /* the code is looked at before the length */
    decode(5, BYTES("\0\0\0\0\0\0\0"));
    CHECK(NEED_MORE);
    decode(5, BYTES("\0\0\0\0\0\x03\0\x02"));
    CHECK(REFUSED(2, 4));
    decode(5, BYTES("\0\0\0\x08\0\x03\0\0"));
    CHECK(REFUSED(3, 0));
    decode(5, BYTES("\xff\xff\xff\xff\x04\xd2\x16\x2f"));
    CHECK(REFUSED(3, 0));
    decode(5, BYTES("\0\0\x20\x01\x04\xd2\x16\x30"));
    CHECK(REFUSED(4, 0));
    decode(5, BYTES("\0\0\x20\0\x04\xd2\x16\x30"));
    CHECK(NEED_MORE);
    /* no zero byte ends the name; the value is missing; none ends it; none ends the list */
    decode(5, BYTES("\0\0\0\x0a\0\x03\0\0ab"));
    CHECK(REFUSED(6, 8));
    decode(5, BYTES("\0\0\0\x0a\0\x03\0\0" "a\0"));
    CHECK(REFUSED(6, 10));
    decode(5, BYTES("\0\0\0\x0b\0\x03\0\0" "a\0b"));
    CHECK(REFUSED(6, 10));
    decode(5, BYTES("\0\0\0\x0b\0\x03\0\0" "a\0\0"));
    CHECK(REFUSED(6, 11));
    decode(5, BYTES("\0\0\0\x0a\0\x03\0\0\0\0"));
    CHECK(REFUSED(8, 9));
    decode(5, BYTES("\0\0\0\x09\x04\xd2\x16\x2f\0"));
    CHECK(REFUSED(8, 8));
    decode(5, BYTES("\0\0\0\x11\x04\xd2\x16\x2e\0\0\0\x07\0\0\0\x09\0"));
    CHECK(REFUSED(8, 16));
}

/* The other kinds of a session's start and end. */
static void session_kinds(void) {
    decode(0, BYTES("Q\0\0\0\x07ok\0"));
    CHECK(is(7, Z(0), Z(0), Z(0), Z(8), Z(34), Z(5), Z(2)));
    decode(0, BYTES("X\0\0\0\x04"));
    CHECK(is(5, Z(0), Z(0), Z(0), Z(5), Z(35)));
    decode(1, BYTES("S\0\0\0\x09" "a\0bc\0"));
    CHECK(is(9, Z(0), Z(0), Z(0), Z(10), Z(36), Z(5), Z(1), Z(7), Z(2)));
    decode(1, BYTES("K\0\0\0\x0c\0\0\0\x07\xff\xff\xff\xfe"));
    CHECK(is(7, Z(0), Z(0), Z(0), Z(13), Z(37), Z(7), Z(4294967294)));
    decode(1, BYTES("S\0\0\0\x04"));
    CHECK(REFUSED(3, 1));
    decode(1, BYTES("S\0\0\0\x06" "a\0"));
    CHECK(REFUSED(6, 7));
    decode(1, BYTES("K\0\0\0\x0b"));
    CHECK(REFUSED(3, 1));
    decode(0, BYTES("Q\0\0\x20\x01"));
    CHECK(REFUSED(4, 1));
    decode(0, BYTES("X\0\0\0\x05\0"));
    CHECK(REFUSED(8, 5));
}

static void decoding(void) {
    decode(1, ROW);
    CHECK(is(7, Z(0), Z(0), Z(0), Z(17), Z(19), Z(7), Z(2)));
    decode(0, BIND);
    CHECK(is(15, Z(0), Z(0), Z(0), Z(22), Z(2), Z(5), Z(0), Z(6), Z(0), Z(9), Z(1), Z(13), Z(1), Z(20), Z(1)));
    decode(0, BYTES("E\0\0\0\x09\0\xff\xff\xff\xfe"));
    CHECK(is(8, Z(0), Z(0), Z(0), Z(10), Z(5), Z(5), Z(0), Z(4294967294)));
    CHECK((int32_t)row[7] == -2);
    decode(2, BYTES("\0\0\0\x10\x04\xd2\x16\x2e\0\0\0\x07\0\0\0\x09"));
    CHECK(is(7, Z(0), Z(0), Z(0), Z(16), Z(28), Z(7), Z(9)));
    decode(3, BYTES("N"));
    CHECK(is(6, Z(0), Z(0), Z(0), Z(1), Z(29), Z(1)));
    decode(4, BYTES("G"));
    CHECK(is(5, Z(0), Z(0), Z(0), Z(1), Z(30)));
    decode(1, BYTES("C\0\0\0\x06OK"));
    CHECK(REFUSED(6, 5));
    decode(0, BYTES("S\0\0\0\x05\0"));
    CHECK(REFUSED(8, 5));
    for (int mode = 6; mode <= 255; mode++) {
        decode((uint8_t)mode, ROW);
        CHECK(REFUSED(1, 0));
    }
    for (int mode = 0; mode <= 5; mode++) {
        stale();
        tusweram_decode((uint8_t)mode, NONE, row);
        CHECK(NEED_MORE);
    }
    /* every cut waits, with nothing behind it to read */
    for (size_t n = 0; n < 17; n++) {
        decode(1, (const uint8_t *)"D\0\0\0\x10\0\x02\0\0\0\x02" "ab\xff\xff\xff\xff", n);
        CHECK(NEED_MORE);
    }
    /* every length word and byte behind the type byte: whatever the answer is, a frame that is taken is inside the buffer */
    for (int type = 0; type < 256; type++) {
        for (int length = 0; length < 16; length++) {
            for (int fill = 0; fill < 256; fill += 51) {
                uint8_t bytes[12];
                memset(bytes, fill, sizeof bytes);
                memcpy(bytes, (uint8_t[]){(uint8_t)type, 0, 0, 0, (uint8_t)length}, 5);
                for (uint8_t mode = 0; mode < 2; mode++) {
                    decode(mode, bytes, sizeof bytes);
                    CHECK(row[0] <= 2 && row[3] <= sizeof bytes);
                }
            }
        }
    }
}

static void elements(void) {
    element(0, BYTES("P\0\0\0\x0c\0\0\0\x01\xff\0\0\x02"), 0, 0);
    CHECK(is(6, Z(0), Z(0), Z(0), Z(0), Z(1), Z(0xff000002)));
    element(0, BIND, 0, 0);
    CHECK(is(6, Z(0), Z(0), Z(0), Z(0), Z(2), Z(4294967294)));
    element(1, ROW, 0, 1);
    CHECK(is(5, Z(0), Z(0), Z(0), Z(0), Z(3)));
    element(0, BIND, 1, 0);
    CHECK(is(7, Z(0), Z(0), Z(0), Z(0), Z(4), Z(17), Z(1)));
    element(1, BYTES("T\0\0\0\x1a\0\x01" "a\0\0\0\0\x02\0\x03\0\0\0\x04\0\x05\xff\xff\xff\xff\0\x01"), 0, 0);
    CHECK(is(13, Z(0), Z(0), Z(0), Z(0), Z(5), Z(7), Z(1), Z(2), Z(3), Z(4), Z(5), Z(4294967295), Z(1)));
    element(1, BYTES("E\0\0\0\x08Sx\0\0"), 0, 0);
    CHECK(is(8, Z(0), Z(0), Z(0), Z(0), Z(6), Z(83), Z(6), Z(1)));
    element(5, STARTUP, 0, 0);
    CHECK(is(9, Z(0), Z(0), Z(0), Z(0), Z(7), Z(8), Z(4), Z(13), Z(3)));
    element(5, STARTUP, 0, 1);
    CHECK(is(8, Z(0), Z(0), Z(0), Z(0), Z(7), Z(17), Z(2), Z(20)));
    element(5, STARTUP, 0, 2);
    CHECK(REFUSED(11, 0));
    element(5, STARTUP, 1, 0);
    CHECK(REFUSED(11, 0));
    /* numbers and lists that are not there */
    size_t past[] = {2, 3, 65536, SIZE_MAX / 4, SIZE_MAX / 4 + 1, SIZE_MAX - 1, SIZE_MAX};
    for (size_t i = 0; i < sizeof past / sizeof *past; i++) {
        element(1, ROW, 0, past[i]);
        CHECK(REFUSED(11, 0));
        element(1, ROW, past[i], 0);
        CHECK(REFUSED(11, 0));
        element(0, BIND, 1, past[i]);
        CHECK(REFUSED(11, 0));
        element(0, BIND, past[i] + 1, past[i]);
        CHECK(REFUSED(11, 0));
    }
    stale();
    tusweram_element(1, NONE, 0, 0, row);
    CHECK(NEED_MORE);
    element(9, ROW, 0, 0);
    CHECK(REFUSED(1, 0));
}

static void values(void) {
    value(ROW, 7);
    CHECK(is(7, Z(0), Z(0), Z(0), Z(13), Z(4), Z(11), Z(2)));
    value(ROW, 13);
    CHECK(is(5, Z(0), Z(0), Z(0), Z(17), Z(3)));
    value(BYTES("\0\0\0\0"), 0);
    CHECK(is(6, Z(0), Z(0), Z(0), Z(4), Z(4), Z(4)));
    value(BYTES("\xff\xff\xff\xfe"), 0);
    CHECK(REFUSED(7, 0));
    value(BYTES("\0\0\0\x02" "a"), 0);
    CHECK(REFUSED(6, 0));
    value(BYTES("\x7f\xff\xff\xff" "a"), 0);
    CHECK(REFUSED(6, 0));
    size_t past[] = {14, 16, 17, 18, SIZE_MAX / 2, SIZE_MAX - 4, SIZE_MAX - 3, SIZE_MAX};
    for (size_t i = 0; i < sizeof past / sizeof *past; i++) {
        value(ROW, past[i]);
        CHECK(REFUSED(6, past[i]));
        stale();
        tusweram_value(NONE, past[i], row);
        CHECK(REFUSED(6, past[i]));
    }
}

static void fields(void) {
    field(FIELDS, 7);
    CHECK(is(13, Z(0), Z(0), Z(0), Z(27), Z(5), Z(7), Z(1), Z(2), Z(3), Z(4), Z(5), Z(4294967295), Z(1)));
    field(FIELDS, 27);
    CHECK(is(13, Z(0), Z(0), Z(0), Z(46), Z(5), Z(27), Z(0), Z(2147483648), Z(4294967294), Z(4294967295), Z(4294967295), Z(7), Z(4294967293)));
    /* cut at each byte: the place of the name, then of each number */
    static const size_t cut_at[] = {7, 7, 9, 9, 9, 9, 13, 13, 15, 15, 15, 15, 19, 19, 21, 21, 21, 21, 25, 25};
    const uint8_t *bytes = (const uint8_t *)FIELD_BYTES;
    for (size_t i = 0; i < 20; i++) {
        field(bytes, 7 + i, 7);
        CHECK(REFUSED(6, cut_at[i]));
    }
    field(bytes, 27, 7);
    CHECK(row[0] == 0 && row[3] == 27);
    field(BYTES("abc"), 1);
    CHECK(REFUSED(6, 1));
    size_t past[] = {46, 47, 48, SIZE_MAX / 2, SIZE_MAX - 18, SIZE_MAX - 1, SIZE_MAX};
    for (size_t i = 0; i < sizeof past / sizeof *past; i++) {
        field(FIELDS, past[i]);
        CHECK(REFUSED(6, past[i]));
        stale();
        tusweram_field(NONE, past[i], row);
        CHECK(REFUSED(6, past[i]));
    }
    stale();
    tusweram_field(NONE, 0, row);
    CHECK(REFUSED(6, 0));
}

static void error_fields(void) {
    error_field(ERRORS, 5);
    CHECK(is(8, Z(0), Z(0), Z(0), Z(8), Z(6), Z(83), Z(6), Z(1)));
    error_field(ERRORS, 8);
    CHECK(is(7, Z(0), Z(0), Z(0), Z(10), Z(6), Z(77), Z(9)));
    /* the list's end is a code as any other: here no text follows it, and here one does */
    error_field(ERRORS, 10);
    CHECK(REFUSED(6, 11));
    error_field(BYTES("\0ab\0"), 0);
    CHECK(is(8, Z(0), Z(0), Z(0), Z(4), Z(6), Z(0), Z(1), Z(2)));
    error_field(BYTES("\xff\0"), 0);
    CHECK(is(7, Z(0), Z(0), Z(0), Z(2), Z(6), Z(255), Z(1)));
    /* cut: no code, no text, no zero byte */
    static const size_t cut_at[] = {5, 6, 6};
    const uint8_t *bytes = (const uint8_t *)ERROR_BYTES;
    for (size_t i = 0; i < 3; i++) {
        error_field(bytes, 5 + i, 5);
        CHECK(REFUSED(6, cut_at[i]));
    }
    size_t past[] = {11, 12, 13, SIZE_MAX / 2, SIZE_MAX - 1, SIZE_MAX};
    for (size_t i = 0; i < sizeof past / sizeof *past; i++) {
        error_field(ERRORS, past[i]);
        CHECK(REFUSED(6, past[i]));
        stale();
        tusweram_error_field(NONE, past[i], row);
        CHECK(REFUSED(6, past[i]));
    }
    stale();
    tusweram_error_field(NONE, 0, row);
    CHECK(REFUSED(6, 0));
}

static void pairs(void) {
    pair(STARTUP, 8);
    CHECK(is(9, Z(0), Z(0), Z(0), Z(17), Z(7), Z(8), Z(4), Z(13), Z(3)));
    pair(STARTUP, 17);
    CHECK(is(8, Z(0), Z(0), Z(0), Z(21), Z(7), Z(17), Z(2), Z(20)));
    /* the list's end is a name as any other: here no value follows it, and here one does */
    pair(STARTUP, 21);
    CHECK(REFUSED(6, 22));
    pair(BYTES("\0ab\0"), 0);
    CHECK(is(9, Z(0), Z(0), Z(0), Z(4), Z(7), Z(0), Z(0), Z(1), Z(2)));
    /* cut: the place of the name, then of the value */
    for (size_t n = 8; n < 17; n++) {
        pair((const uint8_t *)STARTUP_BYTES, n, 8);
        CHECK(REFUSED(6, n < 13 ? 8 : 13));
    }
    size_t past[] = {22, 23, 24, SIZE_MAX / 2, SIZE_MAX - 1, SIZE_MAX};
    for (size_t i = 0; i < sizeof past / sizeof *past; i++) {
        pair(STARTUP, past[i]);
        CHECK(REFUSED(6, past[i]));
        stale();
        tusweram_pair(NONE, past[i], row);
        CHECK(REFUSED(6, past[i]));
    }
    stale();
    tusweram_pair(NONE, 0, row);
    CHECK(REFUSED(6, 0));
}

static void rows(void) {
    size_t starts[3] = {5, 5, 5};
    int32_t lengths[3] = {6, 6, 6};
    size_t n = 17;
    const uint8_t *bytes = lent(ROW);
    stale();
    tusweram_data_row(bytes, n, NONE, NONE, row);
    CHECK(REFUSED(9, 0));
    tusweram_data_row(bytes, n, starts, 1, lengths, 3, row);
    CHECK(REFUSED(9, 0));
    tusweram_data_row(bytes, n, starts, 3, lengths, 1, row);
    CHECK(REFUSED(9, 0));
    tusweram_data_row(bytes, n - 1, starts, 3, lengths, 3, row);
    CHECK(NEED_MORE);
    tusweram_data_row(NONE, starts, 3, lengths, 3, row);
    CHECK(NEED_MORE);
    CHECK(starts[0] == 5 && starts[2] == 5 && lengths[0] == 6 && lengths[2] == 6);
    tusweram_data_row(bytes, n, starts, 3, lengths, 3, row);
    CHECK(is(7, Z(0), Z(0), Z(0), Z(17), Z(19), Z(7), Z(2)));
    CHECK(starts[0] == 11 && starts[1] == 0 && starts[2] == 5);
    CHECK(lengths[0] == 2 && lengths[1] == -1 && lengths[2] == 6);
    /* slices of just the row's count, with nothing behind them */
    size_t *just = (size_t *)(void *)output_edge - 2;
    int32_t *long_ = (int32_t *)(void *)numbers_edge - 2;
    tusweram_data_row(bytes, n, just, 2, long_, 2, row);
    CHECK(row[0] == 0 && just[0] == 11 && long_[0] == 2 && long_[1] == -1);
    bytes = lent(BYTES("D\0\0\0\x06\0\0"));
    tusweram_data_row(bytes, 7, NONE, NONE, row);
    CHECK(is(6, Z(0), Z(0), Z(0), Z(7), Z(19), Z(7)));
    bytes = lent(BYTES("1\0\0\0\x04"));
    tusweram_data_row(bytes, 5, NONE, NONE, row);
    CHECK(REFUSED(11, 0));
}

/* ---- writing: an output of some length, filled with 0x55, that ends where the memory ends */

static uint8_t *fresh(size_t n) {
    memset(output_edge - n, 0x55, n);
    return output_edge - n;
}

/* Is the answer the bytes' number, and do they stand at the output's start with the rest as it was? */
static int wrote(size_t answer, const uint8_t *out, size_t out_len, const uint8_t *bytes, size_t n) {
    if (answer != n || memcmp(out, bytes, n) != 0) return 0;
    for (size_t i = n; i < out_len; i++)
        if (out[i] != 0x55) return 0;
    return 1;
}

/* Is the answer that refusal, and the output as it was? */
static int refused(size_t answer, unsigned number, const uint8_t *out, size_t out_len) {
    if (answer != SIZE_MAX - number || tusweram_refusal_of(answer) != number) return 0;
    for (size_t i = 0; i < out_len; i++)
        if (out[i] != 0x55) return 0;
    return 1;
}

/* The same call with an output that is longer, just long enough, one byte too short, and none. */
#define WRITES(call, ...)                                                                      \
    do {                                                                                       \
        static const uint8_t want[] = __VA_ARGS__;                                             \
        size_t size = sizeof want - 1, longer[] = {size + 9, size, size - 1, 0};               \
        for (int k = 0; k < 4; k++) {                                                          \
            size_t out_len = longer[k];                                                        \
            uint8_t *out = fresh(out_len);                                                     \
            size_t answer = call;                                                              \
            CHECK(k < 2 ? wrote(answer, out, out_len, want, size) : refused(answer, 9, out, out_len)); \
        }                                                                                      \
        uint8_t *out = NULL;                                                                   \
        size_t out_len = 0;                                                                    \
        CHECK(call == SIZE_MAX - 9);                                                           \
    } while (0)

#define REFUSES(number, call)                                \
    do {                                                     \
        size_t out_len = 64;                                 \
        uint8_t *out = fresh(out_len);                       \
        CHECK(refused(call, number, out, out_len));          \
        out = NULL;                                          \
        out_len = 0;                                         \
        CHECK(call == SIZE_MAX - number);                    \
    } while (0)

static void encoding(void) {
    WRITES(tusweram_encode(3, 'S', 0, 0, BYTES("ab"), NONE, out, out_len), "C\0\0\0\x08Sab\0");
    WRITES(tusweram_encode(4, 'P', 0, 0, NONE, NONE, out, out_len), "D\0\0\0\x06P\0");
    WRITES(tusweram_encode(5, 0, -2, 0, BYTES("p"), NONE, out, out_len), "E\0\0\0\x0ap\0\xff\xff\xff\xfe");
    WRITES(tusweram_encode(6, 0, 0, 0, NONE, NONE, out, out_len), "H\0\0\0\x04");
    WRITES(tusweram_encode(7, 0, 0, 0, NONE, NONE, out, out_len), "S\0\0\0\x04");
    WRITES(tusweram_encode(8, 0, 0, 0, NONE, NONE, out, out_len), "c\0\0\0\x04");
    WRITES(tusweram_encode(9, 0, 0, 0, BYTES("a\0b"), NONE, out, out_len), "d\0\0\0\x07" "a\0b");
    WRITES(tusweram_encode(9, 0, 0, 0, NONE, NONE, out, out_len), "d\0\0\0\x04");
    WRITES(tusweram_encode(10, 0, 0, 0, BYTES("no"), NONE, out, out_len), "f\0\0\0\x07no\0");
    WRITES(tusweram_encode(11, 0, 0, 0, NONE, NONE, out, out_len), "1\0\0\0\x04");
    WRITES(tusweram_encode(12, 0, 0, 0, NONE, NONE, out, out_len), "2\0\0\0\x04");
    WRITES(tusweram_encode(13, 0, 0, 0, NONE, NONE, out, out_len), "3\0\0\0\x04");
    WRITES(tusweram_encode(14, 0, 0, 0, NONE, NONE, out, out_len), "s\0\0\0\x04");
    WRITES(tusweram_encode(15, 0, 0, 0, NONE, NONE, out, out_len), "n\0\0\0\x04");
    WRITES(tusweram_encode(16, 0, 0, 0, NONE, NONE, out, out_len), "I\0\0\0\x04");
    WRITES(tusweram_encode(20, 0, 0, 0, BYTES("OK"), NONE, out, out_len), "C\0\0\0\x07OK\0");
    WRITES(tusweram_encode(21, 'T', 0, 0, NONE, NONE, out, out_len), "Z\0\0\0\x05T");
    WRITES(tusweram_encode(27, 0, 7, 0, BYTES("c"), BYTES("pq"), out, out_len), "A\0\0\0\x0d\0\0\0\x07" "c\0pq\0");
    WRITES(tusweram_encode(28, 0, 7, INT32_MIN, NONE, NONE, out, out_len), "\0\0\0\x10\x04\xd2\x16\x2e\0\0\0\x07\x80\0\0\0");
    WRITES(tusweram_encode(29, 0, 0, 0, NONE, NONE, out, out_len), "S");
    WRITES(tusweram_encode(29, 1, 0, 0, NONE, NONE, out, out_len), "N");
    WRITES(tusweram_encode(30, 0, 0, 0, NONE, NONE, out, out_len), "G");
    WRITES(tusweram_encode(30, 1, 0, 0, NONE, NONE, out, out_len), "N");
    size_t others[] = {/* kinds with a list */ TUSWERAM_PARSE, TUSWERAM_BIND, TUSWERAM_ROW_DESCRIPTION, TUSWERAM_PARAMETER_DESCRIPTION,
                       TUSWERAM_DATA_ROW, TUSWERAM_ERROR_RESPONSE, TUSWERAM_NOTICE_RESPONSE, TUSWERAM_COPY_IN_RESPONSE,
                       TUSWERAM_COPY_OUT_RESPONSE, TUSWERAM_COPY_BOTH_RESPONSE, TUSWERAM_STARTUP, /* and none */ 0, NO_KIND, 256 + TUSWERAM_SYNC,
                       SIZE_MAX};
    for (size_t i = 0; i < sizeof others / sizeof *others; i++)
        REFUSES(2, tusweram_encode(others[i], 'S', 0, 0, NONE, NONE, out, out_len));
    REFUSES(2, tusweram_encode(29, 2, 0, 0, NONE, NONE, out, out_len));
    REFUSES(2, tusweram_encode(30, 255, 0, 0, NONE, NONE, out, out_len));
    REFUSES(10, tusweram_encode(3, 'X', 0, 0, NONE, NONE, out, out_len));
    REFUSES(10, tusweram_encode(21, 0, 0, 0, NONE, NONE, out, out_len));
    REFUSES(10, tusweram_encode(20, 0, 0, 0, BYTES("a\0"), NONE, out, out_len));
    static uint8_t much[8192];
    memset(much, 'a', sizeof much);
    REFUSES(4, tusweram_encode(20, 0, 0, 0, much, sizeof much, NONE, out, out_len));
}

static void encoding_session_kinds(void) {
    WRITES(tusweram_encode(32, 0, 0, 0, NONE, NONE, out, out_len), "\0\0\0\x08\x04\xd2\x16\x2f");
    WRITES(tusweram_encode(33, 0, 0, 0, NONE, NONE, out, out_len), "\0\0\0\x08\x04\xd2\x16\x30");
    WRITES(tusweram_encode(34, 0, 0, 0, BYTES("ok"), NONE, out, out_len), "Q\0\0\0\x07ok\0");
    WRITES(tusweram_encode(35, 0, 0, 0, NONE, NONE, out, out_len), "X\0\0\0\x04");
    WRITES(tusweram_encode(36, 0, 0, 0, BYTES("a"), BYTES("bc"), out, out_len), "S\0\0\0\x09" "a\0bc\0");
    WRITES(tusweram_encode(37, 0, 7, -2, NONE, NONE, out, out_len), "K\0\0\0\x0c\0\0\0\x07\xff\xff\xff\xfe");
    REFUSES(10, tusweram_encode(34, 0, 0, 0, BYTES("a\0"), NONE, out, out_len));
    REFUSES(10, tusweram_encode(36, 0, 0, 0, BYTES("a"), BYTES("\0"), out, out_len));
    static uint8_t much[8192];
    memset(much, 'a', sizeof much);
    REFUSES(4, tusweram_encode(34, 0, 0, 0, much, sizeof much, NONE, out, out_len));
    REFUSES(4, tusweram_encode(36, 0, 0, 0, NONE, much, sizeof much, out, out_len));
}

/* A call of tusweram_encode_lists, by the slices that a kind has. */
static size_t lists(size_t kind, int8_t format, const uint8_t *one, size_t one_len, const uint8_t *two, size_t two_len, const uint8_t *joined,
                    size_t joined_len, uint8_t *out, size_t out_len, const uint32_t *words, size_t words_len, const int32_t *lengths,
                    size_t lengths_len, const int16_t *formats, size_t formats_len, const int16_t *results, size_t results_len) {
    return tusweram_encode_lists(kind, format, one, one_len, two, two_len, joined, joined_len, words, words_len, lengths, lengths_len, formats,
                                 formats_len, results, results_len, out, out_len);
}

static void encoding_lists(void) {
    static const uint32_t oids[] = {23, 0xfffffffe}, three[] = {3, 0}, wide[] = {UINT32_MAX, 1};
    static const int32_t given[] = {2, -1, 0}, below[] = {-2}, past[] = {INT32_MAX, INT32_MAX, 4};
    static const int16_t formats[] = {1, -1}, one[] = {1};
    WRITES(lists(1, 0, BYTES("n"), BYTES("q"), NONE, out, out_len, oids, 2, NONE, NONE, NONE),
           "P\0\0\0\x12n\0q\0\0\x02\0\0\0\x17\xff\xff\xff\xfe");
    WRITES(lists(1, 0, NONE, NONE, NONE, out, out_len, NONE, NONE, NONE, NONE), "P\0\0\0\x08\0\0\0\0");
    WRITES(lists(2, 0, BYTES("p"), BYTES("st"), BYTES("ab"), out, out_len, NONE, given, 3, formats, 2, one, 1),
           "B\0\0\0\x23p\0st\0\0\x02\0\x01\xff\xff\0\x03\0\0\0\x02" "ab\xff\xff\xff\xff\0\0\0\0\0\x01\0\x01");
    WRITES(lists(2, 0, NONE, NONE, NONE, out, out_len, NONE, NONE, NONE, NONE), "B\0\0\0\x0c\0\0\0\0\0\0\0\0");
    WRITES(lists(18, 0, NONE, NONE, NONE, out, out_len, oids, 2, NONE, NONE, NONE), "t\0\0\0\x0e\0\x02\0\0\0\x17\xff\xff\xff\xfe");
    WRITES(lists(19, 0, NONE, NONE, BYTES("ab"), out, out_len, NONE, given, 3, NONE, NONE),
           "D\0\0\0\x14\0\x03\0\0\0\x02" "ab\xff\xff\xff\xff\0\0\0\0");
    WRITES(lists(22, 0, BYTES("SM"), NONE, BYTES("bad"), out, out_len, three, 2, NONE, NONE, NONE), "E\0\0\0\x0cSbad\0M\0\0");
    WRITES(lists(23, 0, NONE, NONE, NONE, out, out_len, NONE, NONE, NONE, NONE), "N\0\0\0\x05\0");
    WRITES(lists(24, 1, NONE, NONE, NONE, out, out_len, NONE, NONE, formats, 2, NONE), "G\0\0\0\x0b\x01\0\x02\0\x01\xff\xff");
    WRITES(lists(25, -1, NONE, NONE, NONE, out, out_len, NONE, NONE, NONE, NONE), "H\0\0\0\x07\xff\0\0");
    WRITES(lists(26, -128, NONE, NONE, NONE, out, out_len, NONE, NONE, one, 1, NONE), "W\0\0\0\x09\x80\0\x01\0\x01");
    size_t others[] = {/* kinds with no list, or with row fields */ TUSWERAM_CLOSE, TUSWERAM_EMPTY_QUERY_RESPONSE,
                       TUSWERAM_ROW_DESCRIPTION, TUSWERAM_COMMAND_COMPLETE, TUSWERAM_READY_FOR_QUERY, TUSWERAM_NOTIFICATION_RESPONSE,
                       TUSWERAM_GSS_ENC_RESPONSE, TUSWERAM_SSL_REQUEST, TUSWERAM_QUERY, TUSWERAM_BACKEND_KEY_DATA, /* and none */ 0, NO_KIND,
                       SIZE_MAX};
    for (size_t i = 0; i < sizeof others / sizeof *others; i++)
        REFUSES(2, lists(others[i], 0, NONE, NONE, NONE, out, out_len, NONE, NONE, NONE, NONE));
    /* lengths that say more or less than is lent */
    REFUSES(10, lists(19, 0, NONE, NONE, NONE, out, out_len, NONE, given, 3, NONE, NONE));
    REFUSES(10, lists(19, 0, NONE, NONE, BYTES("a"), out, out_len, NONE, given, 3, NONE, NONE));
    REFUSES(10, lists(19, 0, NONE, NONE, BYTES("abc"), out, out_len, NONE, given, 3, NONE, NONE));
    REFUSES(10, lists(19, 0, NONE, NONE, BYTES("ab"), out, out_len, NONE, past, 3, NONE, NONE));
    REFUSES(10, lists(2, 0, NONE, NONE, NONE, out, out_len, NONE, past, 3, NONE, NONE));
    REFUSES(10, lists(19, 0, NONE, NONE, NONE, out, out_len, NONE, below, 1, NONE, NONE));
    REFUSES(10, lists(22, 0, BYTES("SM"), NONE, NONE, out, out_len, wide, 2, NONE, NONE, NONE));
    REFUSES(10, lists(22, 0, BYTES("SM"), NONE, NONE, out, out_len, NONE, NONE, NONE, NONE));
    REFUSES(10, lists(22, 0, NONE, NONE, BYTES("bad"), out, out_len, three, 2, NONE, NONE, NONE));
}

static void encoding_startup(void) {
    static const uint32_t two[] = {4, 3, 2, 0}, same[] = {1, 0, 1, 1}, unnamed[] = {0, 1}, wide[] = {1, UINT32_MAX}, odd[] = {1, 0, 0};
    WRITES(lists(31, 0, NONE, NONE, BYTES("userbobxy"), out, out_len, two, 4, NONE, NONE, NONE), STARTUP_BYTES);
    WRITES(lists(31, 0, NONE, NONE, BYTES("bba"), out, out_len, same, 4, NONE, NONE, NONE), "\0\0\0\x10\0\x03\0\0b\0\0b\0a\0\0");
    WRITES(lists(31, 0, NONE, NONE, NONE, out, out_len, NONE, NONE, NONE, NONE), "\0\0\0\x09\0\x03\0\0\0");
    /* lengths that do not add up; an odd number of them; an empty name; a zero byte in a name, and in a value */
    REFUSES(10, lists(31, 0, NONE, NONE, NONE, out, out_len, two, 4, NONE, NONE, NONE));
    REFUSES(10, lists(31, 0, NONE, NONE, BYTES("userbobx"), out, out_len, two, 4, NONE, NONE, NONE));
    REFUSES(10, lists(31, 0, NONE, NONE, BYTES("userbobxyz"), out, out_len, two, 4, NONE, NONE, NONE));
    REFUSES(10, lists(31, 0, NONE, NONE, BYTES("a"), out, out_len, NONE, NONE, NONE, NONE));
    REFUSES(10, lists(31, 0, NONE, NONE, BYTES("a"), out, out_len, wide, 2, NONE, NONE, NONE));
    REFUSES(10, lists(31, 0, NONE, NONE, BYTES("user"), out, out_len, two, 1, NONE, NONE, NONE));
    REFUSES(10, lists(31, 0, NONE, NONE, BYTES("a"), out, out_len, odd, 3, NONE, NONE, NONE));
    REFUSES(10, lists(31, 0, NONE, NONE, BYTES("a"), out, out_len, unnamed, 2, NONE, NONE, NONE));
    REFUSES(10, lists(31, 0, NONE, NONE, BYTES("us\0rbobxy"), out, out_len, two, 4, NONE, NONE, NONE));
    REFUSES(10, lists(31, 0, NONE, NONE, BYTES("userb\0bxy"), out, out_len, two, 4, NONE, NONE, NONE));
    /* 10 comes before 4, and 4 before 9 */
    static const uint32_t long_value[] = {1, 8191}, long_unnamed[] = {0, 8192};
    static uint8_t much[8192];
    memset(much, 'a', sizeof much);
    REFUSES(4, lists(31, 0, NONE, NONE, much, sizeof much, out, out_len, long_value, 2, NONE, NONE, NONE));
    REFUSES(10, lists(31, 0, NONE, NONE, much, sizeof much, out, out_len, long_unnamed, 2, NONE, NONE, NONE));
}

static void encoding_row_description(void) {
    struct tusweram_field_description field = {1, 1, 2, 3, 4, 5, -1, 1};
    WRITES(tusweram_encode_row_description(&field, 1, BYTES("xay"), out, out_len),
           "T\0\0\0\x1a\0\x01" "a\0\0\0\0\x02\0\x03\0\0\0\x04\0\x05\xff\xff\xff\xff\0\x01");
    struct tusweram_field_description two[] = {{0, 2, INT32_MIN, -1, UINT32_MAX, -2, 7, -3}, {2, 0, 0, 0, 0, 0, 0, 0}};
    WRITES(tusweram_encode_row_description(two, 2, BYTES("id"), out, out_len),
           "T\0\0\0\x2e\0\x02id\0\x80\0\0\0\xff\xff\xff\xff\xff\xff\xff\xfe\0\0\0\x07\xff\xfd"
           "\0\0\0\0\0\0\0\0\0\0\0\0\0\0\0\0\0\0\0");
    WRITES(tusweram_encode_row_description(NONE, NONE, out, out_len), "T\0\0\0\x06\0\0");
    /* names that reach outside the run, also by numbers whose sum is past the largest */
    size_t outside[][2] = {{0, 4}, {3, 1}, {4, 0}, {SIZE_MAX, 0}, {SIZE_MAX, 1}, {1, SIZE_MAX}, {SIZE_MAX, SIZE_MAX}, {SIZE_MAX - 2, 3}};
    for (size_t i = 0; i < sizeof outside / sizeof *outside; i++) {
        field.name_start = outside[i][0];
        field.name_len = outside[i][1];
        REFUSES(10, tusweram_encode_row_description(&field, 1, BYTES("xay"), out, out_len));
        REFUSES(10, tusweram_encode_row_description(&field, 1, NONE, out, out_len));
    }
}

/* ---- lists as long as their counts can say */

enum { SIGNED_MOST = 32767, UNSIGNED_MOST = 65535, DEVICES = 40000 };

/* Element i is the word 4294967295 - i, the code i - 32768, or an empty value. */
static uint32_t words[UNSIGNED_MOST + 1];
static int16_t codes[UNSIGNED_MOST + 1];
static const int32_t empty_values[UNSIGNED_MOST + 1];

/* A list of a kind that has oids, or a list of a BIND, with so many elements; its other fields are empty. */
static size_t long_list(size_t kind, size_t list, size_t n, uint8_t *out, size_t out_len) {
    return lists(kind, 0, NONE, NONE, NONE, out, out_len, words, n, empty_values, list == 1 ? n : 0, codes, list == 0 ? n : 0, codes,
                 list == 2 ? n : 0);
}

/* The lists with an unsigned count: 65,535 elements are written and read, and one more is refused. The list stands in row[place] and behind it; the
 * first and the last element are known by their number, or by where the value starts. */
static void unsigned_counts(void) {
    static const struct {
        uint8_t mode;
        size_t kind, list, size, place, start, sort, first, last;
    } known[] = {
        {0, TUSWERAM_PARSE, 0, 262149, 9, 9, TUSWERAM_OID, 4294967295, 4294901761},
        {0, TUSWERAM_BIND, 0, 131083, 9, 9, TUSWERAM_FORMAT, 4294934528, 32766},
        {0, TUSWERAM_BIND, 1, 262153, 11, 11, TUSWERAM_VALUE, 15, 262151},
        {0, TUSWERAM_BIND, 2, 131083, 13, 13, TUSWERAM_FORMAT, 4294934528, 32766},
        {1, TUSWERAM_PARAMETER_DESCRIPTION, 0, 262147, 5, 7, TUSWERAM_OID, 4294967295, 4294901761},
    };
    for (uint32_t i = 0; i <= UNSIGNED_MOST; i++) {
        words[i] = UINT32_MAX - i;
        codes[i] = (int16_t)((int32_t)i - 32768);
    }
    for (size_t k = 0; k < sizeof known / sizeof *known; k++) {
        uint8_t mode = known[k].mode;
        size_t kind = known[k].kind, list = known[k].list, size = known[k].size, place = known[k].place, sort = known[k].sort;
        uint8_t *frame = fresh(size);
        CHECK(long_list(kind, list, UNSIGNED_MOST, frame, size) == size);
        decode(mode, frame, size);
        CHECK(row[0] == TUSWERAM_THERE && row[3] == size && row[4] == kind);
        CHECK(row[place] == known[k].start && row[place + 1] == UNSIGNED_MOST);
        element(mode, frame, size, list, 0);
        CHECK(is(6, Z(0), Z(0), Z(0), Z(0), sort, known[k].first));
        element(mode, frame, size, list, UNSIGNED_MOST - 1);
        CHECK(is(6, Z(0), Z(0), Z(0), Z(0), sort, known[k].last));
        element(mode, frame, size, list, UNSIGNED_MOST);
        CHECK(REFUSED(11, 0));
        REFUSES(10, long_list(kind, list, UNSIGNED_MOST + 1, out, out_len));
    }
}

static void signed_counts(void) {
    static const struct tusweram_field_description fields[SIGNED_MOST + 1];
    size_t size = 7 + 4 * SIGNED_MOST;
    uint8_t *frame = fresh(size);
    CHECK(lists(19, 0, NONE, NONE, NONE, frame, size, NONE, empty_values, SIGNED_MOST, NONE, NONE) == size);
    decode(1, frame, size);
    CHECK(is(7, Z(0), Z(0), Z(0), size, Z(19), Z(7), Z(SIGNED_MOST)));
    /* a row that could be written but for the short output */
    REFUSES(9, tusweram_encode_row_description(fields, SIGNED_MOST, NONE, out, out_len));
    REFUSES(10, lists(19, 0, NONE, NONE, NONE, out, out_len, NONE, empty_values, SIGNED_MOST + 1, NONE, NONE));
    REFUSES(10, tusweram_encode_row_description(fields, SIGNED_MOST + 1, NONE, out, out_len));
    /* all bytes of 32,768 empty values */
    frame = fresh(size + 4);
    memset(frame, 0, size + 4);
    memcpy(frame, "D\0\x02\0\x06\x80", 6);
    decode(1, frame, size + 4);
    CHECK(REFUSED(5, 5));
}

/* Reads n values of a frame in one pass. The answer is where the last one ends, or 0 where one is not as it was given. */
static size_t read_values(const uint8_t *frame, size_t size, size_t at, const int32_t *lengths, size_t n, const uint8_t *joined) {
    for (size_t i = 0; i < n; i++) {
        size_t start = at + 4, len = lengths[i] < 0 ? 0 : (size_t)lengths[i];
        stale();
        tusweram_value(frame, size, at, row);
        if (!(lengths[i] < 0 ? is(5, Z(0), Z(0), Z(0), start, Z(3)) : is(7, Z(0), Z(0), Z(0), start + len, Z(4), start, len))) return 0;
        if (memcmp(frame + start, joined, len) != 0) return 0;
        joined += len;
        at = start + len;
    }
    return at;
}

/* A Bind of 40,000 device numbers, of which each seventh is NULL. */
static void a_long_bind(void) {
    static int32_t lengths[DEVICES];
    static uint8_t joined[5 * DEVICES + 1];
    size_t joined_len = 0;
    for (int i = 0; i < DEVICES; i++) {
        lengths[i] = i % 7 == 0 ? -1 : sprintf((char *)joined + joined_len, "%d", i);
        joined_len += lengths[i] < 0 ? 0 : (size_t)lengths[i];
    }
    size_t size = 13 + 4 * DEVICES + joined_len;
    uint8_t *frame = fresh(size);
    CHECK(lists(2, 0, NONE, NONE, joined, joined_len, frame, size, NONE, lengths, DEVICES, NONE, NONE) == size);
    CHECK(memcmp(frame + 9, "\x9c\x40", 2) == 0);
    decode(0, frame, size);
    CHECK(is(14, Z(0), Z(0), Z(0), size, Z(2), Z(5), Z(0), Z(6), Z(0), Z(9), Z(0), Z(11), Z(DEVICES), size));
    CHECK(read_values(lent(frame, size), size, 11, lengths, DEVICES, joined) == size - 2);
    /* 39,998 is NULL, and the last value ends where the count of result formats stands */
    element(0, frame, size, 1, 39998);
    CHECK(is(5, Z(0), Z(0), Z(0), Z(0), Z(3)));
    element(0, frame, size, 1, 39999);
    CHECK(is(7, Z(0), Z(0), Z(0), Z(0), Z(4), size - 7, Z(5)));
    element(0, frame, size, 1, DEVICES);
    CHECK(REFUSED(11, 0));
}

/* ---- a row that is built: its room, and its two numbers, end where the memory ends */

enum { LIMIT = 1048576, FULL = LIMIT + 1 };

static tusweram_row *built;

static void number(size_t columns, size_t size) { *built = (tusweram_row){columns, size}; }

static uint8_t begin(uint8_t *room, size_t room_len) { return tusweram_row_begin(built, room, room_len); }

static uint8_t append(uint8_t *room, size_t room_len, const uint8_t *bytes, size_t n) {
    return tusweram_row_append(built, room, room_len, lent(bytes, n), n);
}

static uint8_t append_null(uint8_t *room, size_t room_len) { return tusweram_row_append_null(built, room, room_len); }

static uint8_t drop_last(uint8_t *room, size_t room_len) { return tusweram_row_drop_last(built, room, room_len); }

static uint8_t finish(uint8_t *room, size_t room_len) { return tusweram_row_finish(built, room, room_len); }

/* The answer is 0, the numbers are these, and the room has these bytes, of which all are given. */
#define BUILDS(call, columns_, size_, ...)                                                            \
    do {                                                                                              \
        static const uint8_t want[] = __VA_ARGS__;                                                    \
        CHECK(sizeof want - 1 == room_len);                                                           \
        CHECK(call == 0 && built->columns == (columns_) && built->size == (size_));                   \
        CHECK(memcmp(room, want, room_len) == 0);                                                     \
    } while (0)

/* The answer is that number, and the numbers and the room are as they were. */
#define KEEPS(number, call)                                                                           \
    do {                                                                                              \
        static uint8_t before[FULL + 8];                                                              \
        tusweram_row was = *built;                                                                    \
        if (room_len != 0) memcpy(before, room, room_len);                                            \
        CHECK(call == (number) && built->columns == was.columns && built->size == was.size);          \
        CHECK(room_len == 0 || memcmp(room, before, room_len) == 0);                                  \
    } while (0)

/* The room does not begin with the row: each call that looks is refused. */
static void no_row(uint8_t *room, size_t room_len) {
    KEEPS(10, append(room, room_len, BYTES("x")));
    KEEPS(10, append(room, room_len, NONE));
    KEEPS(10, append_null(room, room_len));
    KEEPS(10, drop_last(room, room_len));
    KEEPS(10, finish(room, room_len));
}

/* The room begins with the row. */
static void a_row(uint8_t *room, size_t room_len) { KEEPS(0, finish(room, room_len)); }

static void a_row_built(void) {
    size_t room_len = 20;
    uint8_t *room = fresh(room_len);
    number(SIZE_MAX, SIZE_MAX);
    BUILDS(begin(room, room_len), 0, 7, "D\0\0\0\x06\0\0UUUUUUUUUUUUU");
    KEEPS(11, drop_last(room, room_len));
    a_row(room, room_len);
    BUILDS(append(room, room_len, BYTES("ab")), 1, 13, "D\0\0\0\x0c\0\x01\0\0\0\x02" "abUUUUUUU");
    a_row(room, room_len);
    BUILDS(append_null(room, room_len), 2, 17, "D\0\0\0\x10\0\x02\0\0\0\x02" "ab\xff\xff\xff\xffUUU");
    a_row(room, room_len);
    KEEPS(9, append_null(room, room_len));
    KEEPS(9, append(room, room_len, NONE));
    /* a dropped column's bytes stay, and are written over by the next one, as far as it goes */
    BUILDS(drop_last(room, room_len), 1, 13, "D\0\0\0\x0c\0\x01\0\0\0\x02" "ab\xff\xff\xff\xffUUU");
    BUILDS(tusweram_row_append(built, room, room_len, NONE), 2, 17, "D\0\0\0\x10\0\x02\0\0\0\x02" "ab\0\0\0\0UUU");
    BUILDS(drop_last(room, room_len), 1, 13, "D\0\0\0\x0c\0\x01\0\0\0\x02" "ab\0\0\0\0UUU");
    BUILDS(drop_last(room, room_len), 0, 7, "D\0\0\0\x06\0\0\0\0\0\x02" "ab\0\0\0\0UUU");
    KEEPS(11, drop_last(room, room_len));
    a_row(room, room_len);
    BUILDS(append(room, room_len, BYTES("\0xy")), 1, 14, "D\0\0\0\x0d\0\x01\0\0\0\x03\0xy\0\0\0UUU");
    BUILDS(begin(room, room_len), 0, 7, "D\0\0\0\x06\0\0\0\0\0\x03\0xy\0\0\0UUU");
    BUILDS(append_null(room, room_len), 1, 11, "D\0\0\0\x0a\0\x01\xff\xff\xff\xff\0xy\0\0\0UUU");
    BUILDS(append(room, room_len, BYTES("12345")), 2, 20, "D\0\0\0\x13\0\x02\xff\xff\xff\xff\0\0\0\x05" "12345");
    /* 9 comes behind 4 */
    static const uint8_t much[LIMIT];
    KEEPS(9, append(room, room_len, much, LIMIT - 23));
    KEEPS(4, append(room, room_len, much, LIMIT - 22));
}

/* Rooms of each length, up to one that the row fits in. */
static void rooms_for_a_row(void) {
    for (size_t room_len = 0; room_len <= 18; room_len++) {
        uint8_t *room = fresh(room_len);
        number(3, 19);
        if (room_len < 7) {
            KEEPS(9, begin(room, room_len));
            continue;
        }
        CHECK(begin(room, room_len) == 0);
        if (room_len < 13)
            KEEPS(9, append(room, room_len, BYTES("ab")));
        else
            CHECK(append(room, room_len, BYTES("ab")) == 0 && built->columns == 1 && built->size == 13);
        if (room_len < 11 || (room_len >= 13 && room_len < 17))
            KEEPS(9, append_null(room, room_len));
        else
            CHECK(append_null(room, room_len) == 0 && built->size == (room_len < 13 ? 11 : 17));
        a_row(room, room_len);
    }
    uint8_t *room = NULL;
    size_t room_len = 0;
    number(3, 19);
    KEEPS(9, begin(room, room_len));
    no_row(room, room_len);
    number(0, 0);
    no_row(room, room_len);
}

#define COLUMNS "D\0\0\0\x10\0\x02\0\0\0\x02" "ab\xff\xff\xff\xff"

/* Each byte of a small row, changed to each other byte: only those of its value can be. */
static void a_changed_room(void) {
    size_t size = sizeof COLUMNS - 1, room_len = size + 5;
    uint8_t *room = fresh(room_len);
    memcpy(room, COLUMNS, size);
    for (size_t i = 0; i < room_len; i++) {
        for (int changed = 0; changed < 256; changed++) {
            uint8_t old = room[i];
            if (changed == old) continue;
            room[i] = (uint8_t)changed;
            number(2, size);
            if (i == 11 || i == 12 || i >= size)
                a_row(room, room_len);
            else
                no_row(room, room_len);
            room[i] = old;
        }
    }
    /* another row with the same numbers, an empty value and `ab`, is a row: what is dropped is its last column */
    memcpy(room + 7, "\0\0\0\0\0\0\0\x02" "ab", 10);
    BUILDS(drop_last(room, room_len), 1, 11, "D\0\0\0\x0a\0\x01\0\0\0\0\0\0\0\x02" "abUUUUU");
    BUILDS(drop_last(room, room_len), 0, 7, "D\0\0\0\x06\0\0\0\0\0\0\0\0\0\x02" "abUUUUU");
}

/* Numbers that are not the row's, and rooms that begin with none. */
static void forged_rows(void) {
    static const size_t numbers[] = {0, 1, 2, 3, 6, 7, 11, 13, 16, 17, 18, 22, 23, 32767, 32768, 65536 + 2, LIMIT, FULL, SIZE_MAX / 2,
                                     SIZE_MAX - 4, SIZE_MAX - 1, SIZE_MAX};
    enum { NUMBERS = sizeof numbers / sizeof *numbers };
    size_t size = sizeof COLUMNS - 1, room_len = size + 5;
    uint8_t *room = fresh(room_len);
    memcpy(room, COLUMNS, size);
    for (int i = 0; i < NUMBERS; i++) {
        for (int k = 0; k < NUMBERS; k++) {
            number(numbers[i], numbers[k]);
            if (numbers[i] == 2 && numbers[k] == size)
                a_row(room, room_len);
            else
                no_row(room, room_len);
        }
    }
    /* a row that is longer than the room */
    for (room_len = 0; room_len < size; room_len++) {
        room = fresh(room_len);
        memcpy(room, COLUMNS, room_len);
        number(2, size);
        no_row(room, room_len);
        number(2, room_len);
        no_row(room, room_len);
    }
    /* 10 comes before 11: with no column, a size that is another */
    room_len = 8;
    room = fresh(room_len);
    CHECK(begin(room, room_len) == 0);
    number(0, 8);
    no_row(room, room_len);
    /* two words, two formats and no value at all: other kinds; a target with a name, which the frontend sends by the same type byte */
    static const struct {
        const char *bytes;
        size_t size, columns;
    } others[] = {
        {"t\0\0\0\x0e\0\x02\0\0\0\x17\xff\xff\xff\xfe", 15, 2},
        {"G\0\0\0\x0b\x01\0\x02\0\x01\xff\xff", 12, 2},
        {"T\0\0\0\x06\0\0", 7, 0},
        {"t\0\0\0\x06\0\0", 7, 0},
        {"d\0\0\0\x06\0\0", 7, 0},
        {"D\0\0\0\x06S\0", 7, 0},
    };
    for (size_t k = 0; k < sizeof others / sizeof *others; k++) {
        room_len = others[k].size;
        room = fresh(room_len);
        memcpy(room, others[k].bytes, room_len);
        number(others[k].columns, others[k].size);
        no_row(room, room_len);
    }
}

/* The frame's length up to 1,048,576, and one above. */
static void a_row_at_the_limit(void) {
    static uint8_t much[LIMIT];
    memset(much, 'a', sizeof much);
    /* one value that is all the limit leaves: just the room, a byte of room too few, and a byte of value too many */
    size_t room_len = FULL;
    uint8_t *room = fresh(room_len);
    CHECK(begin(room, room_len) == 0);
    KEEPS(4, append(room, room_len, much, LIMIT - 9));
    CHECK(append(room, room_len, much, LIMIT - 10) == 0 && built->columns == 1 && built->size == FULL);
    CHECK(memcmp(room, "D\0\x10\0\0\0\x01\0\x0f\xff\xf6", 11) == 0 && memcmp(room + 11, much, LIMIT - 10) == 0);
    KEEPS(4, append_null(room, room_len));
    KEEPS(4, append(room, room_len, NONE));
    KEEPS(4, append(room, room_len, much, 1));
    a_row(room, room_len);
    room_len = FULL - 1;
    room = fresh(room_len);
    CHECK(begin(room, room_len) == 0);
    KEEPS(9, append(room, room_len, much, LIMIT - 10));
    KEEPS(4, append(room, room_len, much, LIMIT - 9));
    /* and NULL, behind a value that leaves 4 bytes, and behind one that leaves 3 */
    for (size_t left = 3; left <= 4; left++) {
        room_len = FULL + 8;
        room = fresh(room_len);
        CHECK(begin(room, room_len) == 0 && append(room, room_len, much, LIMIT - 10 - left) == 0);
        if (left == 3)
            KEEPS(4, append_null(room, room_len));
        else
            CHECK(append_null(room, room_len) == 0 && built->columns == 2 && built->size == FULL);
        a_row(room, room_len);
        CHECK(drop_last(room, room_len) == 0 && built->columns == (left == 3 ? 0 : 1));
        CHECK(memcmp(room + FULL, "UUUUUUUU", 8) == 0);
    }
}

/* 32,767 columns, and one more. */
static void a_row_of_all_columns(void) {
    static const uint8_t much[LIMIT];
    size_t size = 7 + 4 * SIGNED_MOST, room_len = size + 9;
    uint8_t *room = fresh(room_len);
    CHECK(lists(19, 0, NONE, NONE, NONE, room, room_len, NONE, empty_values, SIGNED_MOST, NONE, NONE) == size);
    number(SIGNED_MOST, size);
    a_row(room, room_len);
    KEEPS(10, append(room, room_len, NONE));
    KEEPS(10, append_null(room, room_len));
    /* 10 comes before 4 and 9 */
    KEEPS(10, append(room, room_len, much, LIMIT));
    KEEPS(10, append(room, room_len, much, 6));
    CHECK(drop_last(room, room_len) == 0 && built->columns == SIGNED_MOST - 1 && built->size == size - 4);
    CHECK(memcmp(room, "D\0\x01\xff\xfe\x7f\xfe", 7) == 0);
    KEEPS(9, append(room, room_len, much, 10));
    CHECK(append(room, room_len, BYTES("123456789")) == 0 && built->columns == SIGNED_MOST && built->size == size + 9);
    CHECK(memcmp(room, "D\0\x02\0\x0b\x7f\xff", 7) == 0 && memcmp(room + size - 4, "\0\0\0\x09" "123456789", 13) == 0);
    KEEPS(10, append_null(room, room_len));
    a_row(room, room_len);
    /* all bytes of 32,768 empty values are no row */
    room_len = size + 4;
    room = fresh(room_len);
    memset(room, 0, room_len);
    memcpy(room, "D\0\x02\0\x06\x80", 6);
    number(SIGNED_MOST + 1, size + 4);
    no_row(room, room_len);
}

int main(void) {
    input_edge = edge();
    output_edge = edge();
    numbers_edge = edge();
    built = (tusweram_row *)(void *)numbers_edge - 1;
    decoding();
    session_kinds();
    first_packets();
    first_packets_refused();
    elements();
    values();
    fields();
    error_fields();
    pairs();
    rows();
    encoding();
    encoding_session_kinds();
    encoding_lists();
    encoding_startup();
    encoding_row_description();
    unsigned_counts();
    signed_counts();
    a_long_bind();
    a_row_built();
    rooms_for_a_row();
    a_changed_room();
    forged_rows();
    a_row_at_the_limit();
    a_row_of_all_columns();
    printf("%d checks, %d wrong\n", checks, wrong);
    return wrong != 0;
}
