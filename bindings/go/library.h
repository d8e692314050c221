/* The calls of the library in a form for Go. Each file with `import "C"` includes it. A call takes
 * texts in place, and returns a value or fills a buffer, so that C gets no Go pointers except those
 * to texts, to buffers and to the values of a column, and none of these contains a pointer. */
#ifndef LIBRARY_H
#define LIBRARY_H

#include "chinese_number.h"

#define TEXT(text) cn_bytes(_GoStringPtr(text), _GoStringLen(text)), _GoStringLen(text)

typedef struct { uint32_t status; cn_reading result; } number_read;
typedef struct { uint32_t status; cn_quantity result; } quantity_read;
typedef struct { uint32_t status; cn_amount result; } amount_read;
typedef struct { uint32_t status; cn_signed_amount result; } signed_amount_read;
typedef struct { uint32_t status; cn_date result; } date_read;
typedef struct { uint32_t status; cn_expected result; } input_expected;
typedef struct { uint32_t status; cn_repair result; } input_repair;
typedef struct { uint32_t status; uint32_t result; } explained;

static inline number_read read_number(_GoString_ text, uint32_t kind, uint32_t way) {
    number_read it;
    it.status = chinese_number_read(TEXT(text), kind, way, &it.result);
    return it;
}

static inline explained explain_number(_GoString_ text, uint32_t kind, uint32_t way) {
    explained it;
    it.status = chinese_number_explain(TEXT(text), kind, way, &it.result);
    return it;
}

/* The calls that take only a text. */
#define READER(name, answer, call)                  \
    static inline answer name(_GoString_ text) {    \
        answer it;                                  \
        it.status = call(TEXT(text), &it.result);   \
        return it;                                  \
    }

READER(read_amount, amount_read, chinese_amount_read)
READER(read_typed_amount, amount_read, chinese_typed_amount_read)
READER(read_signed_amount, signed_amount_read, chinese_signed_amount_read)
READER(read_typed_signed_amount, signed_amount_read, chinese_typed_signed_amount_read)
READER(read_figures, signed_amount_read, chinese_figures_read)
READER(read_date, date_read, chinese_date_read)

/* The calls that take a text and a code. */
#define READER_BY_CODE(name, answer, call)                      \
    static inline answer name(_GoString_ text, uint32_t code) { \
        answer it;                                              \
        it.status = call(TEXT(text), code, &it.result);         \
        return it;                                              \
    }

READER_BY_CODE(read_quantity, quantity_read, chinese_quantity_read)
READER_BY_CODE(explain_quantity, explained, chinese_quantity_explain)
READER_BY_CODE(expect_input, input_expected, chinese_input_expected)
READER_BY_CODE(repair_input, input_repair, chinese_input_repair)

/* A buffer for a printed text or a message. None has more bytes. */
typedef struct { uint32_t status; size_t length; uint8_t text[CN_MOST_MESSAGE_BYTES]; } printed;

#define BUFFER it->text, sizeof it->text, &it->length

static inline void print_number(cn_number number, uint32_t kind, uint32_t way, uint32_t script,
                                uint32_t letter_case, printed *it) {
    it->status = chinese_number_print(number.low, number.high, kind, way, script, letter_case,
                                      BUFFER);
}

static inline void print_quantity(cn_quantity quantity, uint32_t method, uint32_t script,
                                  uint32_t letter_case, printed *it) {
    it->status = chinese_quantity_print(&quantity, method, script, letter_case, BUFFER);
}

static inline void print_quantity_figures(cn_quantity quantity, printed *it) {
    it->status = chinese_quantity_figures(&quantity, BUFFER);
}

static inline void print_amount(uint64_t fen, uint32_t script, uint32_t form, printed *it) {
    it->status = chinese_amount_print(fen, script, form, BUFFER);
}

static inline void print_signed_amount(int64_t fen, uint32_t script, uint32_t form, printed *it) {
    it->status = chinese_signed_amount_print(fen, script, form, BUFFER);
}

static inline void print_date(uint32_t year, uint32_t month, uint32_t day, uint32_t script,
                              printed *it) {
    it->status = chinese_date_print(year, month, day, script, BUFFER);
}

static inline void print_input_message(_GoString_ text, uint32_t input, uint32_t language,
                                       printed *it) {
    it->status = chinese_input_message(TEXT(text), input, language, BUFFER);
}

static inline void print_number_message(_GoString_ text, uint32_t kind, uint32_t way,
                                        uint32_t language, printed *it) {
    it->status = chinese_number_message(TEXT(text), kind, way, language, BUFFER);
}

static inline void print_quantity_message(_GoString_ text, uint32_t method, uint32_t language,
                                          printed *it) {
    it->status = chinese_quantity_message(TEXT(text), method, language, BUFFER);
}

static inline void print_status_message(uint32_t status, uint32_t language, printed *it) {
    it->status = chinese_status_message(status, language, BUFFER);
}

enum { AT_ONCE = 8 };

/* Some results of a search. Only the first search of a text tests that it is UTF-8. */
typedef struct { uint32_t status; size_t count; cn_span spans[AT_ONCE]; } found;

static inline found find_numbers(_GoString_ text, size_t from, uint32_t upper,
                                 uint32_t greatest) {
    found it;
    it.status = (from == 0 ? chinese_number_find : chinese_number_find_utf8)(
        TEXT(text), from, upper, greatest, it.spans, AT_ONCE, &it.count);
    return it;
}

static inline found find_quantities(_GoString_ text, size_t from, uint32_t upper,
                                    uint32_t greatest) {
    found it;
    it.status = (from == 0 ? chinese_quantity_find : chinese_quantity_find_utf8)(
        TEXT(text), from, upper, greatest, it.spans, AT_ONCE, &it.count);
    return it;
}

/* Some phrases of a text, and expressions that are in none, likewise. */
typedef struct { uint32_t status; size_t count; cn_phrase phrases[AT_ONCE]; } found_phrases;

static inline found_phrases find_phrases(_GoString_ text, size_t from, uint32_t upper,
                                         uint32_t greatest) {
    found_phrases it;
    it.status = (from == 0 ? chinese_phrase_find : chinese_phrase_find_utf8)(
        TEXT(text), from, upper, greatest, it.phrases, AT_ONCE, &it.count);
    return it;
}

typedef struct { uint32_t status; cn_quantity low, high; } range_read;

static inline range_read read_range(_GoString_ first, _GoString_ second) {
    range_read it;
    it.status = chinese_range_read(TEXT(first), TEXT(second), &it.low, &it.high);
    return it;
}

/* How many bytes a text has that was written into a buffer, or how many spans an array has. */
typedef struct { uint32_t status; size_t length; } written;

/* Writes a text in figures, with its phrases (1) or without them (0). */
static inline written write_figures(_GoString_ text, uint32_t phrases, uint32_t upper,
                                    uint32_t greatest, uint32_t method, uint32_t options,
                                    uint8_t *room, size_t room_length) {
    written it;
    it.status = (phrases ? chinese_text_to_figures : chinese_quantities_to_figures)(
        TEXT(text), upper, greatest, method, options, room, room_length, &it.length);
    return it;
}

/* Writes a text as it is spoken. The other buffer has as many bytes as the text. */
static inline written write_speech(_GoString_ text, uint32_t method, uint32_t script,
                                   uint32_t options, uint8_t *meant, uint8_t *room,
                                   size_t room_length) {
    written it;
    it.status = chinese_text_to_speech(TEXT(text), 0, CN_ZHAO, method, script, options, meant,
                                       _GoStringLen(text), room, room_length, &it.length);
    return it;
}

/* Finds what speech leaves, and writes it in an array. */
static inline written find_unspoken(_GoString_ text, size_t from, uint8_t *meant, cn_span *spans,
                                    size_t most) {
    written it;
    it.status = chinese_speech_left(TEXT(text), from, 0, CN_ZHAO, meant, _GoStringLen(text), spans,
                                    most, &it.length);
    return it;
}

enum { ROWS_AT_ONCE = 1024, BYTES_AT_ONCE = 65536 };

/* Some rows of a column of texts: the bits of those that are present, where the texts end, their
 * statuses, and the texts, which begin at offsets[0], 0. */
typedef struct {
    uint8_t present[ROWS_AT_ONCE / 8];
    uint64_t offsets[ROWS_AT_ONCE + 1];
    uint32_t statuses[ROWS_AT_ONCE];
    uint8_t bytes[BYTES_AT_ONCE];
} text_rows;

#define PRESENT it->present, sizeof it->present, 0
#define PRINTED                                                                       \
    it->offsets, ROWS_AT_ONCE + 1, it->bytes, sizeof it->bytes, it->statuses, ROWS_AT_ONCE, &done
#define TEXTS it->bytes, sizeof it->bytes, it->offsets, ROWS_AT_ONCE + 1, PRESENT
#define READ values, rows, it->statuses, ROWS_AT_ONCE

/* These return how many rows are printed: none if a choice is unknown, otherwise at least one. */

static inline size_t print_numbers(const uint64_t *values, size_t rows, uint32_t kind, uint32_t way,
                                   uint32_t script, uint32_t letter_case, text_rows *it) {
    size_t done;
    chinese_numbers_print_column(values, rows, PRESENT, kind, way, script, letter_case, PRINTED);
    return done;
}

static inline size_t print_wide_numbers(const cn_number *values, size_t rows, uint32_t kind,
                                        uint32_t way, uint32_t script, uint32_t letter_case,
                                        text_rows *it) {
    size_t done;
    chinese_wide_numbers_print_column(values, rows, PRESENT, kind, way, script, letter_case,
                                      PRINTED);
    return done;
}

static inline size_t print_amounts(const int64_t *values, size_t rows, uint32_t script,
                                   uint32_t form, text_rows *it) {
    size_t done;
    chinese_amounts_print_column(values, rows, PRESENT, script, form, PRINTED);
    return done;
}

static inline size_t print_dates(const cn_day *values, size_t rows, uint32_t script,
                                 text_rows *it) {
    size_t done;
    chinese_dates_print_column(values, rows, PRESENT, script, PRINTED);
    return done;
}

/* These return a status. */

static inline uint32_t read_numbers(uint64_t *values, size_t rows, uint32_t kind, uint32_t way,
                                    text_rows *it) {
    return chinese_numbers_read_column(TEXTS, kind, way, READ);
}

static inline uint32_t read_wide_numbers(cn_number *values, size_t rows, uint32_t kind,
                                         uint32_t way, text_rows *it) {
    return chinese_wide_numbers_read_column(TEXTS, kind, way, READ);
}

static inline uint32_t read_amounts(int64_t *values, size_t rows, uint32_t input, text_rows *it) {
    return chinese_amounts_read_column(TEXTS, input, READ);
}

static inline uint32_t read_dates(cn_day *values, size_t rows, text_rows *it) {
    return chinese_dates_read_column(TEXTS, READ);
}

#endif
