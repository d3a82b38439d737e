/* Tusweram for a C host: messages of the PostgreSQL wire protocol, version 3, read and written in lent buffers.
 *
 * Link the two archives that `bindings/archives` makes (target/staticlib/libhost.a and libhost_parts.a, for x86-64). They
 * need nothing else, keep nothing between calls, allocate nothing, and may be called from any thread.
 *
 * A slice is two arguments: a pointer, and how many elements it has. NULL is allowed where the length is 0. What a host must see to: each
 * pointer has its length's elements, and what is written to (out, starts, lengths, row, room) overlaps no other argument. Anything else may
 * have any value: every call is proved to read and write inside its slices, and to answer as below, for every input.
 *
 * Places and parts are counted from the buffer's first byte.
 */
#ifndef TUSWERAM_H
#define TUSWERAM_H

#include <stddef.h>
#include <stdint.h>

#ifdef __cplusplus
extern "C" {
#endif

/* ---- Answers of reading: sixteen numbers, all written by each call, zeros behind what an answer has.
 *
 *   out[0]    the status, one of the three below
 *   out[1]    refused: the refusal's number
 *   out[2]    refused: the refusal's place
 *   out[3]    the bytes that the frame took; of a call that is given a place, the next place
 *   out[4]    the kind, or the sort of an element
 *   out[5]..  its fields, in the order of the tables below:
 *             a part (text, value or rest)   its first byte, its length
 *             a list                         its first element's place, its count
 *             a signed number                its 32 bits: (int32_t)out[i]
 */
#define TUSWERAM_NUMBERS 16

enum tusweram_status {
    TUSWERAM_THERE = 0,     /* there is an answer */
    TUSWERAM_NEED_MORE = 1, /* the frame's end is not in the buffer yet: read more, and call again from the same place */
    TUSWERAM_REFUSED = 2
};

/* What a buffer holds. */
enum tusweram_mode {
    TUSWERAM_FRONTEND = 0, /* messages that a client sends */
    TUSWERAM_BACKEND = 1,  /* messages that a server sends */
    TUSWERAM_CANCEL = 2,   /* a first packet that can only be a request to cancel */
    TUSWERAM_TLS = 3,      /* the answer to a request for TLS, one byte */
    TUSWERAM_GSS = 4,      /* the answer to a request for GSS encryption, one byte */
    TUSWERAM_FIRST = 5     /* a client's first packet: STARTUP, SSL_REQUEST, GSS_ENC_REQUEST or CANCEL_REQUEST; after the answer to a
                              request for encryption comes another */
};

/* Kinds, with their fields from out[5] on; the numbers are those of crates/protocol/src/kinds.rt, and .ci/kinds compares. */
enum tusweram_kind {
    TUSWERAM_PARSE = 1,                  /* part name, part query, list of oids */
    TUSWERAM_BIND = 2,                   /* part portal, part statement, list of formats, list of values, list of result formats */
    TUSWERAM_CLOSE = 3,                  /* target byte 'S' or 'P', part name */
    TUSWERAM_DESCRIBE = 4,               /* the same */
    TUSWERAM_EXECUTE = 5,                /* part name, signed max rows */
    TUSWERAM_FLUSH = 6,                  /* none */
    TUSWERAM_SYNC = 7,                   /* none */
    TUSWERAM_COPY_DONE = 8,              /* none; from either side */
    TUSWERAM_COPY_DATA = 9,              /* part data; from either side */
    TUSWERAM_COPY_FAIL = 10,             /* part message */
    TUSWERAM_PARSE_COMPLETE = 11,        /* none */
    TUSWERAM_BIND_COMPLETE = 12,         /* none */
    TUSWERAM_CLOSE_COMPLETE = 13,        /* none */
    TUSWERAM_PORTAL_SUSPENDED = 14,      /* none */
    TUSWERAM_NO_DATA = 15,               /* none */
    TUSWERAM_EMPTY_QUERY_RESPONSE = 16,  /* none */
    TUSWERAM_ROW_DESCRIPTION = 17,       /* list of fields */
    TUSWERAM_PARAMETER_DESCRIPTION = 18, /* list of oids */
    TUSWERAM_DATA_ROW = 19,              /* list of values */
    TUSWERAM_COMMAND_COMPLETE = 20,      /* part tag */
    TUSWERAM_READY_FOR_QUERY = 21,       /* status byte 'I', 'T' or 'E' */
    TUSWERAM_ERROR_RESPONSE = 22,        /* list of error fields */
    TUSWERAM_NOTICE_RESPONSE = 23,       /* list of error fields */
    TUSWERAM_COPY_IN_RESPONSE = 24,      /* signed format, list of formats */
    TUSWERAM_COPY_OUT_RESPONSE = 25,     /* the same */
    TUSWERAM_COPY_BOTH_RESPONSE = 26,    /* the same */
    TUSWERAM_NOTIFICATION_RESPONSE = 27, /* signed pid, part channel, part payload */
    TUSWERAM_CANCEL_REQUEST = 28,        /* signed pid, signed secret key */
    TUSWERAM_SSL_RESPONSE = 29,          /* 0 accept, 1 refuse */
    TUSWERAM_GSS_ENC_RESPONSE = 30,      /* 0 accept, 1 refuse */
    TUSWERAM_STARTUP = 31,               /* list of pairs, in the order of the packet; a name may stand there more than once */
    TUSWERAM_SSL_REQUEST = 32,           /* none */
    TUSWERAM_GSS_ENC_REQUEST = 33,       /* none */
    TUSWERAM_QUERY = 34,                 /* part query */
    TUSWERAM_TERMINATE = 35,             /* none */
    TUSWERAM_PARAMETER_STATUS = 36,      /* part name, part value */
    TUSWERAM_BACKEND_KEY_DATA = 37       /* signed pid, signed secret key */
};

/* Sorts of elements, with their fields from out[5] on. */
enum tusweram_sort {
    TUSWERAM_OID = 1,         /* the number */
    TUSWERAM_FORMAT = 2,      /* signed number */
    TUSWERAM_NULL = 3,        /* none */
    TUSWERAM_VALUE = 4,       /* part */
    TUSWERAM_FIELD = 5,       /* part name, signed table, signed column, type oid, signed size, signed modifier, signed format */
    TUSWERAM_ERROR_FIELD = 6, /* code byte, part text */
    TUSWERAM_PAIR = 7         /* part name, part value */
};

/* Numbers of refusals. */
enum tusweram_refusal {
    TUSWERAM_MODE_UNKNOWN = 1,       /* the mode is none of 0 to 5 */
    TUSWERAM_TYPE_UNKNOWN = 2,       /* the type byte, answer byte or code is unknown; encoding: no such kind */
    TUSWERAM_LENGTH_TOO_SMALL = 3,   /* the length is too small */
    TUSWERAM_LENGTH_ABOVE_LIMIT = 4, /* the length is above the kind's limit */
    TUSWERAM_BAD_COUNT = 5,          /* a signed count is negative, or a count is too large for the frame */
    TUSWERAM_CUT = 6,                /* a number, code byte, string or value is cut by the frame's end, or its zero byte is missing */
    TUSWERAM_NOT_ALLOWED = 7,        /* a target or status that is none, or a value's length below -1 */
    TUSWERAM_BYTES_LEFT = 8,         /* bytes are left over after the last field */
    TUSWERAM_OUTPUT_TOO_SHORT = 9,   /* the output, or a slice lent for a row, is too short */
    TUSWERAM_NOT_REPRESENTABLE = 10, /* the message cannot be written from what was given, as a text with a zero byte; a row being built: the
                                        room does not begin with it, or it is full */
    TUSWERAM_NO_SUCH_ELEMENT = 11    /* the element's number is too large, or there is no such list, or no column to drop */
};

/* The first message of a buffer; any bytes may follow it. */
void tusweram_decode(uint8_t mode, const uint8_t *buf, size_t buf_len, size_t out[TUSWERAM_NUMBERS]);

/* libhost_parts.a has this function, the five below and the five of a row that is built; libhost.a has the others.
 *
 * An element of a list of the buffer's first message. BIND has lists 0 (formats), 1 (values) and 2 (result formats), every other kind with a
 * list has list 0. Each call decodes the message anew. */
void tusweram_element(uint8_t mode, const uint8_t *buf, size_t buf_len, size_t list, size_t number, size_t out[TUSWERAM_NUMBERS]);

/* The value at a place of a frame: TUSWERAM_NULL or TUSWERAM_VALUE in out[4], and the next place in out[3]. For all values of a row or a
 * BIND, start at the list's first place, and give as frame_len the bytes that decoding said the frame took. */
void tusweram_value(const uint8_t *frame, size_t frame_len, size_t at, size_t out[TUSWERAM_NUMBERS]);

/* The field of a ROW_DESCRIPTION at a place of a frame, as the element TUSWERAM_FIELD, with the next place in out[3]; refusal 6 with the place
 * where it is cut. All fields are read as all values are. */
void tusweram_field(const uint8_t *frame, size_t frame_len, size_t at, size_t out[TUSWERAM_NUMBERS]);

/* The same of an ERROR_RESPONSE or NOTICE_RESPONSE, as the element TUSWERAM_ERROR_FIELD. Go by the list's count: the zero byte that ends the
 * list is read as any code is. */
void tusweram_error_field(const uint8_t *frame, size_t frame_len, size_t at, size_t out[TUSWERAM_NUMBERS]);

/* The same of a STARTUP, as the element TUSWERAM_PAIR. Go by the list's count: the zero byte that ends the list is read as an empty name. */
void tusweram_pair(const uint8_t *frame, size_t frame_len, size_t at, size_t out[TUSWERAM_NUMBERS]);

/* The values of a DATA_ROW from the backend, the buffer's first message, in one pass: value i has lengths[i] bytes from starts[i] on, and is
 * NULL where lengths[i] is -1 (starts[i] is then 0). Later entries are kept. out as of tusweram_decode; refusal 9 where a slice has
 * fewer entries than the row, 11 where the message is another. */
void tusweram_data_row(const uint8_t *buf, size_t buf_len, size_t *starts, size_t starts_len, int32_t *lengths, size_t lengths_len,
                       size_t out[TUSWERAM_NUMBERS]);

/* ---- Writing. The answer is one number: the bytes written, or SIZE_MAX less a refusal's number. The frame stands at the output's start, every
 * later byte is kept, and where the answer is a refusal, nothing was written. A field that a kind does not have is not looked at. */

/* The refusal's number of an encoder's answer, 0 where the message was written. */
static inline unsigned tusweram_refusal_of(size_t answer) { return answer > SIZE_MAX - 256 ? (unsigned)(SIZE_MAX - answer) : 0; }

/* A message of a kind with no list:
 *
 *   CLOSE, DESCRIBE          byte target, one name       COPY_DATA               one data
 *   EXECUTE                  one name, first max rows    COPY_FAIL               one message
 *   COMMAND_COMPLETE         one tag                     READY_FOR_QUERY         byte status
 *   NOTIFICATION_RESPONSE    first pid, one channel, two payload
 *   CANCEL_REQUEST, BACKEND_KEY_DATA  first pid, second secret key
 *   PARAMETER_STATUS         one name, two value         QUERY                   one query
 *   SSL_RESPONSE, GSS_ENC_RESPONSE    byte 0 accept, 1 refuse
 *   and the kinds with no field
 */
size_t tusweram_encode(size_t kind, uint8_t byte, int32_t first, int32_t second, const uint8_t *one, size_t one_len, const uint8_t *two,
                       size_t two_len, uint8_t *out, size_t out_len);

/* A message of a kind with lists. Values are given as lengths (-1 for NULL) and their joined bytes, an error's fields as codes, lengths and
 * joined texts, a start-up packet's pairs as the lengths of names and values by turns and joined texts; a name is not empty:
 *
 *   PARSE                    one name, two query, words oids
 *   BIND                     one portal, two statement, formats, lengths and joined values, results result formats
 *   PARAMETER_DESCRIPTION    words oids
 *   DATA_ROW                 lengths and joined values
 *   ERROR_RESPONSE, NOTICE_RESPONSE    one codes, words lengths, joined texts
 *   COPY_IN_RESPONSE, COPY_OUT_RESPONSE, COPY_BOTH_RESPONSE    format, formats
 *   STARTUP                  words lengths, joined texts
 *
 * A list of PARSE, BIND or PARAMETER_DESCRIPTION has at most 65,535 elements, one of DATA_ROW or a copy response at most 32,767; a longer one is
 * refusal 10. */
size_t tusweram_encode_lists(size_t kind, int8_t format, const uint8_t *one, size_t one_len, const uint8_t *two, size_t two_len,
                             const uint8_t *joined, size_t joined_len, const uint32_t *words, size_t words_len, const int32_t *lengths,
                             size_t lengths_len, const int16_t *formats, size_t formats_len, const int16_t *results, size_t results_len,
                             uint8_t *out, size_t out_len);

/* A field of a ROW_DESCRIPTION; its name is a part of the run of names. */
struct tusweram_field_description {
    size_t name_start;
    size_t name_len;
    int32_t table_id;
    int16_t column_id;
    uint32_t type_id;
    int16_t type_size;
    int32_t type_modifier;
    int16_t format_code;
};

/* A ROW_DESCRIPTION, of at most 32,767 fields; more are refusal 10. */
size_t tusweram_encode_row_description(const struct tusweram_field_description *fields, size_t fields_len, const uint8_t *run, size_t run_len,
                                       uint8_t *out, size_t out_len);

/* ---- A DATA_ROW that is built column by column, at the start of a lent room. The host keeps the row's two numbers beside the room. The answer
 * is 0, or a refusal's number.
 *
 * After an answer of 0 the numbers are the new row's, the room begins with the frame of its columns, and every later byte is kept; those of a
 * dropped column stay where they stood. Where the answer is a refusal, the numbers and the room are as they were.
 *
 * The room begins with the row where tusweram_decode of it, as from the backend, gives a DATA_ROW of that count and takes that many bytes. Every
 * call but tusweram_row_begin looks, so the numbers and the room may be anything, also changed between two calls. To look is a pass over the
 * lengths of all columns: n columns, appended one by one, cost in the order of n times n. Where all values are at hand,
 * tusweram_encode_lists writes the row at once.
 *
 * What a host must see to: row, room and value do not overlap. So no value is appended from the room itself. */
typedef struct tusweram_row {
    size_t columns; /* how many there are */
    size_t size;    /* the bytes of the frame, with its type byte */
} tusweram_row;

/* A row with no column, 7 bytes; what the numbers were is not looked at. Refusal 9 where the room is shorter. */
uint8_t tusweram_row_begin(tusweram_row *row, uint8_t *room, size_t room_len);

/* One column more, behind the last: a value, which may be empty. Refusals, in this order: 10 where the room does not begin with the row, or the
 * row has 32,767 columns; 4 where the frame's length would be above 1,048,576; 9 where the frame would be longer than the room. */
uint8_t tusweram_row_append(tusweram_row *row, uint8_t *room, size_t room_len, const uint8_t *value, size_t value_len);

/* The same of NULL. */
uint8_t tusweram_row_append_null(tusweram_row *row, uint8_t *room, size_t room_len);

/* One column fewer: the last goes. Refusal 10 where the room does not begin with the row, then 11 where it has no column. */
uint8_t tusweram_row_drop_last(tusweram_row *row, uint8_t *room, size_t room_len);

/* Whether the first row->size bytes of the room are the row's frame, to hand them out: refusal 10 where the room does not begin with the row. It
 * changes nothing, and the row can be built on. */
uint8_t tusweram_row_finish(const tusweram_row *row, const uint8_t *room, size_t room_len);

#ifdef __cplusplus
}
#endif

#endif
