/* What the programs that misuse the library share: the calls of chinese_number.h as a table, what an
 * answer has to be by its status and by its text, and what texts are made of. */
#include "chinese_number.h"

#include <stdio.h>
#include <stdlib.h>
#include <string.h>

#define LENGTH_OF(array) (sizeof(array) / sizeof(array)[0])
#define STATUS(status) (1u << (status))

enum { UNTOUCHED = 0xA5, PLACES = 4, MOST_TEXT = 800 };
/* A text in figures, or as it is spoken, has no more than twice as many bytes as the longest text here. */
enum { MOST_NEW_TEXT = 2 * MOST_TEXT };

/* A call is proved, or trusts its text to be UTF-8, or takes chars and is of the header. One of the
 * last two answers a text as the call before it does. */
typedef enum style { PROVED, TRUSTS, IN_CHARS } style;

/* What a call is given. What it tells is written in front of told_end. */
typedef struct question {
    style style;
    const uint8_t *text;
    size_t text_length;
    const uint64_t *values;
    uint32_t codes[PLACES];
    uint8_t *room;
    size_t room_length;
    uint8_t *told_end;
} question;

/* What a call returns: the length of a printed text, or what was read or found. */
typedef struct answer {
    uint64_t status, values[5], char_index, byte_index;
} answer;

/* Room for what a call tells: each byte has to be written. What may come next has the most of
 * them. */
static void *told(const question *it, size_t bytes) {
    memset(it->told_end - sizeof(cn_expected), UNTOUCHED, sizeof(cn_expected));
    return it->told_end - bytes;
}

/* The calls in chars take NULL where the length is 0. */
static const char *text_of(const question *it) {
    return it->text_length == 0 ? NULL : (const char *)it->text;
}

static char *room_of(const question *it) {
    return it->room_length == 0 ? NULL : (char *)it->room;
}

static uint32_t read_by(const question *it, cn_reading *to) {
    size_t length = it->text_length;
    uint32_t kind = it->codes[0], way = it->codes[1];
    switch (it->style) {
    case TRUSTS: return chinese_number_read_utf8(it->text, length, kind, way, to);
    case IN_CHARS: return cn_read(text_of(it), length, kind, way, to);
    default: return chinese_number_read(it->text, length, kind, way, to);
    }
}

static answer number_read(const question *it) {
    cn_reading *to = told(it, sizeof *to);
    uint64_t status = read_by(it, to);
    return (answer){status, {to->number.low, to->number.high}, to->char_index, to->byte_index};
}

/* The methods are the ways from the second one on. */
static answer quantity_read(const question *it) {
    cn_quantity *to = told(it, sizeof *to);
    size_t length = it->text_length;
    uint32_t method = it->codes[0] + CN_LOW;
    uint64_t status = it->style == IN_CHARS
        ? (uint32_t)cn_read_quantity(text_of(it), length, method, to)
        : chinese_quantity_read(it->text, length, method, to);
    return (answer){status,
                    {to->numerator.low, to->numerator.high, to->denominator.low,
                     to->denominator.high, to->form},
                    to->char_index, to->byte_index};
}

static int is_untouched(const uint8_t *from, const uint8_t *to) {
    return from == to
        || (*from == UNTOUCHED && memcmp(from, from + 1, (size_t)(to - from) - 1) == 0);
}

/* What is found: the first number, and whether there is one. */
typedef struct found {
    cn_span first;
    size_t count;
} found;

typedef uint32_t finding(const uint8_t *, size_t, size_t, uint32_t, uint32_t, cn_span *, size_t,
                         size_t *);
typedef cn_status finding_next(const char *, size_t, uint32_t, cn_unit, cn_span *);

/* Of these calls, the one in chars begins at a span of zeros, and says by CN_NONE and zeros where
 * there is no number, as is said here of the others, which leave the span. */
static uint32_t find_by(const question *it, found *to, finding *find, finding_next *next) {
    size_t length = it->text_length, *count = &to->count;
    uint32_t upper = it->codes[0], greatest = it->codes[1], status;
    cn_span *first = &to->first;
    if (it->style == IN_CHARS) {
        memset(first, 0, sizeof *first);
        return next(text_of(it), length, upper, greatest, first);
    }
    status = find(it->text, length, 0, upper, greatest, first, 1, count);
    if (*count == 0 && is_untouched((uint8_t *)first, (uint8_t *)(first + 1)))
        memset(first, 0, sizeof *first);
    return *count == 0 && status == CN_DONE ? CN_NONE : *count > 1 ? UINT32_MAX : status;
}

static answer number_find(const question *it) {
    found *to = told(it, sizeof *to);
    finding *find = it->style == TRUSTS ? chinese_number_find_utf8 : chinese_number_find;
    uint64_t status = find_by(it, to, find, cn_find_next);
    return (answer){status, {to->first.start, to->first.end, to->first.flags}, 0, 0};
}

static answer quantity_find(const question *it) {
    found *to = told(it, sizeof *to);
    finding *find = it->style == TRUSTS ? chinese_quantity_find_utf8 : chinese_quantity_find;
    uint64_t status = find_by(it, to, find, cn_find_next_quantity);
    return (answer){status, {to->first.start, to->first.end, to->first.flags}, 0, 0};
}

/* Likewise the first phrase, or expression in none. */
typedef struct found_phrase {
    cn_phrase first;
    size_t count;
} found_phrase;

typedef uint32_t finding_phrases(const uint8_t *, size_t, size_t, uint32_t, uint32_t, cn_phrase *,
                                 size_t, size_t *);

static uint32_t find_phrase_by(const question *it, found_phrase *to) {
    size_t length = it->text_length, *count = &to->count;
    uint32_t upper = it->codes[0], greatest = it->codes[1], status;
    cn_phrase *first = &to->first;
    finding_phrases *find = it->style == TRUSTS ? chinese_phrase_find_utf8 : chinese_phrase_find;
    if (it->style == IN_CHARS) {
        memset(first, 0, sizeof *first);
        return cn_find_next_phrase(text_of(it), length, upper, greatest, first);
    }
    status = find(it->text, length, 0, upper, greatest, first, 1, count);
    if (*count == 0 && is_untouched((uint8_t *)first, (uint8_t *)(first + 1)))
        memset(first, 0, sizeof *first);
    return *count == 0 && status == CN_DONE ? CN_NONE : *count > 1 ? UINT32_MAX : status;
}

static answer phrase_find(const question *it) {
    found_phrase *to = told(it, sizeof *to);
    uint64_t status = find_phrase_by(it, to);
    const cn_phrase *is = &to->first;
    uint64_t what = (uint64_t)is->kind << 32 | is->state, numbers = is->first;
    numbers = ((numbers * 31 + is->second) * 31 + is->third) * 31 + is->fourth;
    return (answer){status, {is->start, is->end, is->flags, what, numbers * 31 + is->split}, 0, 0};
}

/* Where the middle of a text is, at the start of a character. */
static size_t middle_of(const question *it) {
    size_t at = it->text_length / 2;
    while (at > 0 && (it->text[at] & 0xC0) == 0x80)
        at--;
    return at;
}

/* The call in chars gets the same two texts with a link between them, in a copy. */
static uint32_t read_range_by(const question *it, cn_quantity *to) {
    size_t length = it->text_length, middle = middle_of(it);
    char linked[MOST_TEXT + 1];
    cn_phrase range = {.end = length + 1, .split = middle};
    if (it->style == PROVED)
        return chinese_range_read(it->text, middle, it->text + middle, length - middle, to, to + 1);
    memcpy(linked, it->text, middle);
    linked[middle] = '-';
    memcpy(linked + middle + 1, it->text + middle, length - middle);
    return cn_read_range(linked, &range, to, to + 1);
}

static answer range_read(const question *it) {
    cn_quantity *to = told(it, 2 * sizeof *to);
    uint64_t status = read_range_by(it, to);
    return (answer){status,
                    {to->numerator.low, to->denominator.low * 31 + to->form, to[1].numerator.low,
                     to[1].denominator.low * 31 + to[1].form, to->numerator.high ^ to[1].numerator.high},
                    to->char_index ^ to[1].char_index, to->byte_index ^ to[1].byte_index};
}

static answer of_amount(uint64_t status, const cn_amount *told) {
    return (answer){status, {told->fen}, told->char_index, told->byte_index};
}

static answer of_signed(uint64_t status, const cn_signed_amount *told) {
    return (answer){status, {(uint64_t)told->fen}, told->char_index, told->byte_index};
}

static answer amount_read(const question *it) {
    cn_amount *to = told(it, sizeof *to);
    size_t length = it->text_length;
    return of_amount(it->style == IN_CHARS ? cn_read_amount(text_of(it), length, to)
                                           : chinese_amount_read(it->text, length, to), to);
}

static answer typed_amount_read(const question *it) {
    cn_amount *to = told(it, sizeof *to);
    size_t length = it->text_length;
    return of_amount(it->style == IN_CHARS ? cn_read_typed_amount(text_of(it), length, to)
                                           : chinese_typed_amount_read(it->text, length, to), to);
}

static answer signed_amount_read(const question *it) {
    cn_signed_amount *to = told(it, sizeof *to);
    size_t length = it->text_length;
    return of_signed(it->style == IN_CHARS ? cn_read_signed_amount(text_of(it), length, to)
                                           : chinese_signed_amount_read(it->text, length, to), to);
}

static answer typed_signed_amount_read(const question *it) {
    cn_signed_amount *to = told(it, sizeof *to);
    size_t length = it->text_length;
    return of_signed(it->style == IN_CHARS
                         ? cn_read_typed_signed_amount(text_of(it), length, to)
                         : chinese_typed_signed_amount_read(it->text, length, to), to);
}

static answer figures_read(const question *it) {
    cn_signed_amount *to = told(it, sizeof *to);
    size_t length = it->text_length;
    return of_signed(it->style == IN_CHARS ? cn_read_figures(text_of(it), length, to)
                                           : chinese_figures_read(it->text, length, to), to);
}

static answer date_read(const question *it) {
    cn_date *to = told(it, sizeof *to);
    uint64_t status = it->style == IN_CHARS ? cn_read_date(text_of(it), it->text_length, to)
                                            : chinese_date_read(it->text, it->text_length, to);
    return (answer){status, {to->year, to->month, to->day}, to->char_index, to->byte_index};
}

static answer input_expected(const question *it) {
    cn_expected *to = told(it, sizeof *to);
    size_t length = it->text_length;
    uint32_t input = it->codes[0];
    uint64_t sum = 0, status = it->style == IN_CHARS
        ? cn_input_expected(text_of(it), length, input, to)
        : chinese_input_expected(it->text, length, input, to);
    for (size_t at = 0; at < CN_MOST_EXPECTED; at++)
        sum = sum * 31 + to->characters[at];
    return (answer){status, {to->may_end, to->white_space, to->count, sum}, to->char_index,
                    to->byte_index};
}

static answer input_repair(const question *it) {
    cn_repair *to = told(it, sizeof *to);
    size_t length = it->text_length;
    uint32_t input = it->codes[0];
    uint64_t status = it->style == IN_CHARS ? cn_input_repair(text_of(it), length, input, to)
                                            : chinese_input_repair(it->text, length, input, to);
    return (answer){status, {to->change, to->character}, to->char_index, to->byte_index};
}

/* The calls in chars return a reason alone. Which texts and codes have none, cn_read returns. */
static answer reason(uint64_t read, cn_fault fault) {
    uint64_t status = read == CN_NOT_UTF8 || read == CN_UNKNOWN ? read : CN_DONE;
    return (answer){status, {fault}, 0, 0};
}

static answer number_explain(const question *it) {
    uint32_t *to = told(it, sizeof *to), kind = it->codes[0], way = it->codes[1];
    size_t length = it->text_length;
    cn_reading read;
    if (it->style == IN_CHARS)
        return reason(cn_read(text_of(it), length, kind, way, &read),
                      cn_explain(text_of(it), length, kind, way));
    uint64_t status = chinese_number_explain(it->text, length, kind, way, to);
    return (answer){status, {*to}, 0, 0};
}

static answer quantity_explain(const question *it) {
    uint32_t *to = told(it, sizeof *to), method = it->codes[0] + CN_LOW;
    size_t length = it->text_length;
    cn_quantity read;
    if (it->style == IN_CHARS)
        return reason(cn_read_quantity(text_of(it), length, method, &read),
                      cn_explain_quantity(text_of(it), length, method));
    uint64_t status = chinese_quantity_explain(it->text, length, method, to);
    return (answer){status, {*to}, 0, 0};
}

/* In chars a zero byte, behind the text, tells its length. A room of length 0 only has the empty
 * text, without that byte. */
static answer printed(const question *it, uint64_t status, size_t length) {
    if (it->style == IN_CHARS)
        length = status == CN_DONE && it->room_length != 0 ? strlen((char *)it->room) : 0;
    return (answer){status, {length}, 0, 0};
}

static answer number_print(const question *it) {
    size_t *to = told(it, sizeof *to), room = it->room_length;
    const uint32_t *codes = it->codes;
    cn_number number = {it->values[0], it->values[1]};
    uint64_t status =
        it->style == IN_CHARS
            ? cn_print(number, codes[0], codes[1], codes[2], codes[3], room_of(it), room)
            : chinese_number_print(number.low, number.high, codes[0], codes[1], codes[2], codes[3],
                                   it->room, room, to);
    return printed(it, status, *to);
}

static cn_quantity quantity_of(const question *it, uint32_t form) {
    const uint64_t *values = it->values;
    return (cn_quantity){{values[0], values[1]}, {values[2], values[3]}, form, SIZE_MAX, SIZE_MAX};
}

static answer quantity_print(const question *it) {
    size_t *to = told(it, sizeof *to), room = it->room_length;
    const uint32_t *codes = it->codes, method = codes[0] + CN_LOW;
    const cn_quantity quantity = quantity_of(it, codes[3]);
    uint64_t status = it->style == IN_CHARS
        ? cn_print_quantity(&quantity, method, codes[1], codes[2], room_of(it), room)
        : chinese_quantity_print(&quantity, method, codes[1], codes[2], it->room, room, to);
    return printed(it, status, *to);
}

static answer quantity_figures(const question *it) {
    size_t *to = told(it, sizeof *to), room = it->room_length;
    const cn_quantity quantity = quantity_of(it, it->codes[0]);
    uint64_t status = it->style == IN_CHARS
        ? cn_quantity_figures(&quantity, room_of(it), room)
        : chinese_quantity_figures(&quantity, it->room, room, to);
    return printed(it, status, *to);
}

typedef uint32_t to_figures(const uint8_t *, size_t, uint32_t, uint32_t, uint32_t, uint32_t, uint8_t *,
                            size_t, size_t *);
typedef cn_status to_figures_in_chars(const char *, size_t, uint32_t, cn_unit, cn_way, uint32_t, char *,
                                      size_t, size_t *);

/* In chars, too, the length is told. The last code is that of the seven options, or has another bit. */
static answer in_figures(const question *it, to_figures *write, to_figures_in_chars *write_in_chars) {
    size_t *to = told(it, sizeof *to), length = it->text_length, room = it->room_length;
    const uint32_t *codes = it->codes, method = codes[2] + CN_LOW;
    uint32_t options = codes[3] < 128 ? codes[3] * CN_ABOUT : codes[3] | CN_PLAIN_DIGITS;
    uint64_t status = it->style == IN_CHARS
        ? write_in_chars(text_of(it), length, codes[0], codes[1], method, options, room_of(it), room,
                         to)
        : write(it->text, length, codes[0], codes[1], method, options, it->room, room, to);
    return (answer){status, {*to}, 0, 0};
}

static answer quantities_to_figures(const question *it) {
    return in_figures(it, chinese_quantities_to_figures, cn_quantities_to_figures);
}

static answer text_to_figures(const question *it) {
    return in_figures(it, chinese_text_to_figures, cn_text_to_figures);
}

/* The buffer in which speech works: it has as many bytes as the text, and a new one for each call. */
static uint8_t *new_meant(size_t text_length) { return malloc(text_length == 0 ? 1 : text_length); }

/* The last code is twice the option, and the script. */
static answer text_to_speech(const question *it) {
    size_t *to = told(it, sizeof *to), length = it->text_length, room = it->room_length;
    const uint32_t *codes = it->codes, method = codes[2] + CN_LOW, script = codes[3] % 2;
    uint8_t *meant = new_meant(length);
    uint64_t status = it->style == IN_CHARS
        ? cn_text_to_speech(text_of(it), length, codes[0], codes[1], method, script, codes[3] / 2,
                            (char *)meant, length, room_of(it), room, to)
        : chinese_text_to_speech(it->text, length, codes[0], codes[1], method, script, codes[3] / 2,
                                 meant, length, it->room, room, to);
    free(meant);
    return (answer){status, {*to}, 0, 0};
}

static uint32_t find_left(const uint8_t *text, size_t length, size_t from, uint32_t upper,
                          uint32_t greatest, cn_span *spans, size_t most, size_t *count) {
    uint8_t *meant = new_meant(length);
    uint32_t status = chinese_speech_left(text, length, from, upper, greatest, meant, length, spans,
                                          most, count);
    free(meant);
    return status;
}

static cn_status find_next_left(const char *text, size_t length, uint32_t upper, cn_unit greatest,
                                cn_span *span) {
    uint8_t *meant = new_meant(length);
    cn_status status = cn_find_next_unspoken(text, length, upper, greatest, (char *)meant, length, span);
    free(meant);
    return status;
}

static answer speech_left(const question *it) {
    found *to = told(it, sizeof *to);
    uint64_t status = find_by(it, to, find_left, find_next_left);
    return (answer){status, {to->first.start, to->first.end, to->first.flags}, 0, 0};
}

static answer amount_print(const question *it) {
    size_t *to = told(it, sizeof *to), room = it->room_length;
    uint32_t script = it->codes[0], form = it->codes[1];
    uint64_t fen = it->values[0];
    uint64_t status = it->style == IN_CHARS
        ? cn_print_amount(fen, script, form, room_of(it), room)
        : chinese_amount_print(fen, script, form, it->room, room, to);
    return printed(it, status, *to);
}

static answer signed_amount_print(const question *it) {
    size_t *to = told(it, sizeof *to), room = it->room_length;
    uint32_t script = it->codes[0], form = it->codes[1];
    int64_t fen = (int64_t)it->values[0];
    uint64_t status = it->style == IN_CHARS
        ? cn_print_signed_amount(fen, script, form, room_of(it), room)
        : chinese_signed_amount_print(fen, script, form, it->room, room, to);
    return printed(it, status, *to);
}

static answer date_print(const question *it) {
    size_t *to = told(it, sizeof *to), room = it->room_length;
    uint32_t year = (uint32_t)it->values[0], month = (uint32_t)it->values[1];
    uint32_t day = (uint32_t)it->values[2], script = it->codes[0];
    uint64_t status = it->style == IN_CHARS
        ? cn_print_date(year, month, day, script, room_of(it), room)
        : chinese_date_print(year, month, day, script, it->room, room, to);
    return printed(it, status, *to);
}

static answer input_message(const question *it) {
    size_t *to = told(it, sizeof *to), length = it->text_length, room = it->room_length;
    const uint32_t *codes = it->codes;
    uint64_t status = it->style == IN_CHARS
        ? cn_input_message(text_of(it), length, codes[0], codes[1], room_of(it), room)
        : chinese_input_message(it->text, length, codes[0], codes[1], it->room, room, to);
    return printed(it, status, *to);
}

static answer number_message(const question *it) {
    size_t *to = told(it, sizeof *to), length = it->text_length, room = it->room_length;
    const uint32_t *codes = it->codes;
    uint64_t status = it->style == IN_CHARS
        ? cn_number_message(text_of(it), length, codes[0], codes[1], codes[2], room_of(it), room)
        : chinese_number_message(it->text, length, codes[0], codes[1], codes[2], it->room, room,
                                 to);
    return printed(it, status, *to);
}

static answer quantity_message(const question *it) {
    size_t *to = told(it, sizeof *to), length = it->text_length, room = it->room_length;
    uint32_t method = it->codes[0] + CN_LOW, language = it->codes[1];
    uint64_t status = it->style == IN_CHARS
        ? cn_quantity_message(text_of(it), length, method, language, room_of(it), room)
        : chinese_quantity_message(it->text, length, method, language, it->room, room, to);
    return printed(it, status, *to);
}

/* CN_TOO_LONG has a message too; here its code is that after the other statuses, which has none. */
static answer status_message(const question *it) {
    size_t *to = told(it, sizeof *to), room = it->room_length;
    uint32_t of = it->codes[0] == CN_TOO_LONG ? CN_NOT_A_QUANTITY + 1 : it->codes[0];
    uint32_t language = it->codes[1];
    uint64_t status = it->style == IN_CHARS
        ? cn_status_message(of, language, room_of(it), room)
        : chinese_status_message(of, language, it->room, room, to);
    return printed(it, status, *to);
}

/* A line may be any bytes. */
static answer line_answer(const question *it) {
    size_t *to = told(it, sizeof *to), length = it->text_length, room = it->room_length;
    uint64_t status = chinese_number_answer_line(it->text, length, it->room, room, to);
    return printed(it, status, *to);
}

/* What is printed: first what each code serves, then others, among them what is refused and what
 * has the longest text: of the numbers the last one, -1 and 38 sixes, and of the quantities the same
 * over 1 and 38 sixes. */
static const uint64_t numbers[][4] = {
    {5}, {0}, {105000}, {UINT64_MAX}, {UINT64_MAX, UINT64_MAX}, {0, UINT64_C(1) << 63},
    {UINT64_C(0x9AC4719555555556), UINT64_C(0x829D2AE7691F6334)}};
static const uint64_t quantities[][4] = {
    {5, 0, 1, 0}, {0, 0, 1, 0}, {314, 0, 100, 0}, {(uint64_t)-125, UINT64_MAX, 1000, 0}, {1, 0, 0, 0},
    {UINT64_C(0x9AC4719555555556), UINT64_C(0x829D2AE7691F6334), UINT64_C(0x653B8E6AAAAAAAAA),
     UINT64_C(0x7D62D51896E09CCB)}};
static const uint64_t amounts[][4] = {
    {1500}, {0}, {1}, {140950}, {UINT64_MAX}, {UINT64_C(999999999999999999)}};
static const uint64_t signed_amounts[][4] = {
    {(uint64_t)-1500}, {1500}, {0}, {(uint64_t)INT64_MIN}, {INT64_MAX},
    {(uint64_t)-INT64_C(999999999999999999)}};
static const uint64_t dates[][4] = {
    {2026, 1, 15}, {2025, 12, 31}, {1, 1, 1}, {2026, 2, 29}, {2026, 257, 15}};
static const uint64_t nothing[][4] = {{0}};

enum {
    READ = STATUS(CN_DONE) | STATUS(CN_EMPTY) | STATUS(CN_INCORRECT) | STATUS(CN_TOO_LARGE)
        | STATUS(CN_TOO_SMALL)
};
enum { READ_CAPITALS = STATUS(CN_DONE) | STATUS(CN_UNFINISHED) | STATUS(CN_INCORRECT) };
enum { READ_FIGURES = READ_CAPITALS | STATUS(CN_TOO_LARGE) };
enum { FIND = STATUS(CN_DONE) | STATUS(CN_NONE) };
enum { READ_RANGE = STATUS(CN_DONE) | STATUS(CN_INCORRECT) };

/* Each call: how many codes name something in each place; and of one that takes a text its statuses
 * where that is UTF-8, of one that prints its values, and the most bytes of a text that is written. */
typedef struct call {
    const char *name;
    answer (*ask)(const question *);
    style style;
    uint32_t named[PLACES], statuses;
    const uint64_t (*values)[4];
    size_t count, most;
} call;

#define OF_TEXT(statuses) statuses, NULL, 0, 0
#define REPLACES STATUS(CN_DONE), NULL, 0, MOST_NEW_TEXT
#define MESSAGE STATUS(CN_DONE), NULL, 0, CN_MOST_MESSAGE_BYTES
#define ANSWER STATUS(CN_DONE), NULL, 0, CN_MOST_ANSWER_BYTES
#define PRINTS(values, most) 0, values, LENGTH_OF(values), most

static const call calls[] = {
    {"chinese_number_read", number_read, PROVED, {10, 6}, OF_TEXT(READ)},
    {"chinese_number_read_utf8", number_read, TRUSTS, {10, 6}, OF_TEXT(READ)},
    {"cn_read", number_read, IN_CHARS, {10, 6}, OF_TEXT(READ)},
    {"chinese_number_find", number_find, PROVED, {2, 16}, OF_TEXT(FIND)},
    {"chinese_number_find_utf8", number_find, TRUSTS, {2, 16}, OF_TEXT(FIND)},
    {"cn_find_next", number_find, IN_CHARS, {2, 16}, OF_TEXT(FIND)},
    {"chinese_quantity_read", quantity_read, PROVED, {5}, OF_TEXT(READ)},
    {"cn_read_quantity", quantity_read, IN_CHARS, {5}, OF_TEXT(READ)},
    {"chinese_quantity_find", quantity_find, PROVED, {2, 16}, OF_TEXT(FIND)},
    {"chinese_quantity_find_utf8", quantity_find, TRUSTS, {2, 16}, OF_TEXT(FIND)},
    {"cn_find_next_quantity", quantity_find, IN_CHARS, {2, 16}, OF_TEXT(FIND)},
    {"chinese_phrase_find", phrase_find, PROVED, {2, 16}, OF_TEXT(FIND)},
    {"chinese_phrase_find_utf8", phrase_find, TRUSTS, {2, 16}, OF_TEXT(FIND)},
    {"cn_find_next_phrase", phrase_find, IN_CHARS, {2, 16}, OF_TEXT(FIND)},
    {"chinese_range_read", range_read, PROVED, {0}, OF_TEXT(READ_RANGE)},
    {"cn_read_range", range_read, IN_CHARS, {0}, OF_TEXT(READ_RANGE)},
    {"chinese_quantities_to_figures", quantities_to_figures, PROVED, {2, 16, 5, 128}, REPLACES},
    {"cn_quantities_to_figures", quantities_to_figures, IN_CHARS, {2, 16, 5, 128}, REPLACES},
    {"chinese_text_to_figures", text_to_figures, PROVED, {2, 16, 5, 128}, REPLACES},
    {"cn_text_to_figures", text_to_figures, IN_CHARS, {2, 16, 5, 128}, REPLACES},
    {"chinese_text_to_speech", text_to_speech, PROVED, {2, 16, 5, 4}, REPLACES},
    {"cn_text_to_speech", text_to_speech, IN_CHARS, {2, 16, 5, 4}, REPLACES},
    {"chinese_speech_left", speech_left, PROVED, {2, 16}, OF_TEXT(FIND)},
    {"cn_find_next_unspoken", speech_left, IN_CHARS, {2, 16}, OF_TEXT(FIND)},
    {"chinese_amount_read", amount_read, PROVED, {0}, OF_TEXT(READ_CAPITALS)},
    {"cn_read_amount", amount_read, IN_CHARS, {0}, OF_TEXT(READ_CAPITALS)},
    {"chinese_typed_amount_read", typed_amount_read, PROVED, {0}, OF_TEXT(READ_CAPITALS)},
    {"cn_read_typed_amount", typed_amount_read, IN_CHARS, {0}, OF_TEXT(READ_CAPITALS)},
    {"chinese_signed_amount_read", signed_amount_read, PROVED, {0}, OF_TEXT(READ_CAPITALS)},
    {"cn_read_signed_amount", signed_amount_read, IN_CHARS, {0}, OF_TEXT(READ_CAPITALS)},
    {"chinese_typed_signed_amount_read", typed_signed_amount_read, PROVED, {0},
     OF_TEXT(READ_CAPITALS)},
    {"cn_read_typed_signed_amount", typed_signed_amount_read, IN_CHARS, {0},
     OF_TEXT(READ_CAPITALS)},
    {"chinese_figures_read", figures_read, PROVED, {0}, OF_TEXT(READ_FIGURES)},
    {"cn_read_figures", figures_read, IN_CHARS, {0}, OF_TEXT(READ_FIGURES)},
    {"chinese_date_read", date_read, PROVED, {0}, OF_TEXT(READ_CAPITALS)},
    {"cn_read_date", date_read, IN_CHARS, {0}, OF_TEXT(READ_CAPITALS)},
    {"chinese_input_expected", input_expected, PROVED, {6}, OF_TEXT(STATUS(CN_DONE))},
    {"cn_input_expected", input_expected, IN_CHARS, {6}, OF_TEXT(STATUS(CN_DONE))},
    {"chinese_input_repair", input_repair, PROVED, {6}, OF_TEXT(STATUS(CN_DONE))},
    {"cn_input_repair", input_repair, IN_CHARS, {6}, OF_TEXT(STATUS(CN_DONE))},
    {"chinese_number_explain", number_explain, PROVED, {10, 6}, OF_TEXT(STATUS(CN_DONE))},
    {"cn_explain", number_explain, IN_CHARS, {10, 6}, OF_TEXT(STATUS(CN_DONE))},
    {"chinese_quantity_explain", quantity_explain, PROVED, {5}, OF_TEXT(STATUS(CN_DONE))},
    {"cn_explain_quantity", quantity_explain, IN_CHARS, {5}, OF_TEXT(STATUS(CN_DONE))},
    {"chinese_input_message", input_message, PROVED, {6, 3}, MESSAGE},
    {"cn_input_message", input_message, IN_CHARS, {6, 3}, MESSAGE},
    {"chinese_number_message", number_message, PROVED, {10, 6, 3}, MESSAGE},
    {"cn_number_message", number_message, IN_CHARS, {10, 6, 3}, MESSAGE},
    {"chinese_quantity_message", quantity_message, PROVED, {5, 3}, MESSAGE},
    {"cn_quantity_message", quantity_message, IN_CHARS, {5, 3}, MESSAGE},
    {"chinese_status_message", status_message, PROVED, {13, 3},
     PRINTS(nothing, CN_MOST_MESSAGE_BYTES)},
    {"cn_status_message", status_message, IN_CHARS, {13, 3},
     PRINTS(nothing, CN_MOST_MESSAGE_BYTES)},
    {"chinese_number_answer_line", line_answer, PROVED, {0}, ANSWER},
    {"chinese_number_print", number_print, PROVED, {10, 6, 2, 2}, PRINTS(numbers, CN_MOST_BYTES)},
    {"cn_print", number_print, IN_CHARS, {10, 6, 2, 2}, PRINTS(numbers, CN_MOST_BYTES)},
    {"chinese_quantity_print", quantity_print, PROVED, {5, 2, 2, 4},
     PRINTS(quantities, CN_MOST_QUANTITY_BYTES)},
    {"cn_print_quantity", quantity_print, IN_CHARS, {5, 2, 2, 4},
     PRINTS(quantities, CN_MOST_QUANTITY_BYTES)},
    {"chinese_quantity_figures", quantity_figures, PROVED, {4},
     PRINTS(quantities, CN_MOST_FIGURES_BYTES)},
    {"cn_quantity_figures", quantity_figures, IN_CHARS, {4},
     PRINTS(quantities, CN_MOST_FIGURES_BYTES)},
    {"chinese_amount_print", amount_print, PROVED, {2, 16}, PRINTS(amounts, CN_MOST_AMOUNT_BYTES)},
    {"cn_print_amount", amount_print, IN_CHARS, {2, 16}, PRINTS(amounts, CN_MOST_AMOUNT_BYTES)},
    {"chinese_signed_amount_print", signed_amount_print, PROVED, {2, 16},
     PRINTS(signed_amounts, CN_MOST_SIGNED_AMOUNT_BYTES)},
    {"cn_print_signed_amount", signed_amount_print, IN_CHARS, {2, 16},
     PRINTS(signed_amounts, CN_MOST_SIGNED_AMOUNT_BYTES)},
    {"chinese_date_print", date_print, PROVED, {2}, PRINTS(dates, CN_MOST_DATE_BYTES)},
    {"cn_print_date", date_print, IN_CHARS, {2}, PRINTS(dates, CN_MOST_DATE_BYTES)},
};

/* ---- A call, and what it may write ---- */

/* Bytes beside which nothing may be accessed. */
typedef struct area {
    uint8_t *first, *end;
} area;

/* The data of a thread. */
typedef struct task {
    area text, room, told;
    size_t step, tries, wrong;
    uint64_t sum;
} task;

static void add_to_sum(task *mine, const void *bytes, size_t length) {
    for (size_t at = 0; at < length; at++)
        mine->sum = (mine->sum ^ ((const uint8_t *)bytes)[at]) * UINT64_C(1099511628211);
}

static int is_same(answer one, answer other) { return memcmp(&one, &other, sizeof one) == 0; }

static void print_hex(const uint8_t *bytes, size_t length) {
    for (size_t at = 0; at < length; at++)
        fprintf(stderr, "%02x", bytes[at]);
}

/* Prints a call whose answer is not right: its codes, its values and its text, and what is wanted. */
static void judge(task *mine, int right, const char *wanted, const call *by, const question *it) {
    const uint32_t *codes = it->codes;
    if (right || mine->wrong++ >= 9)
        return;
    fprintf(stderr, "%s: codes %u %u %u %u, a room of %zu", by->name, codes[0], codes[1], codes[2],
            codes[3], it->room_length);
    for (size_t at = 0; it->values != NULL && at < PLACES; at++)
        fprintf(stderr, ", %#llx", (unsigned long long)it->values[at]);
    fprintf(stderr, ", a text of %zu bytes ", it->text_length);
    print_hex(it->text, it->text_length);
    fprintf(stderr, ": wanted: %s\n", wanted);
}

static int is_in_figures(const call *by) {
    return by->ask == quantities_to_figures || by->ask == text_to_figures || by->ask == text_to_speech;
}

/* How many bytes of the room are written: the text at CN_DONE; and in chars its end, too, or the
 * end alone. Where a text is written anew and has no room, that may have been any of them. */
static size_t written(const call *by, const question *it, const answer *said) {
    size_t text = said->status == CN_DONE ? (size_t)said->values[0] : 0;
    if (by->most == 0)
        return 0;
    if (is_in_figures(by) && said->status == CN_NO_ROOM)
        return it->room_length;
    return text + (by->style == IN_CHARS && it->room_length != 0);
}

static size_t bytes_told(const call *by) {
    if (by->ask == input_expected)
        return sizeof(cn_expected);
    if (by->ask == phrase_find)
        return sizeof(found_phrase);
    if (by->ask == range_read)
        return 2 * sizeof(cn_quantity);
    return by->ask == quantity_read ? sizeof(cn_quantity) : sizeof(cn_reading);
}

/* Asks, and sees that no byte is written but what is told and what may be written of the room,
 * which it clears again. */
static answer ask(task *mine, const call *by, const question *it, uint8_t *text) {
    answer said = by->ask(it);
    size_t length = written(by, it, &said), told = bytes_told(by);
    uint8_t *room = by->most == 0 ? mine->room.end : it->room;
    int right = length <= it->room_length && is_untouched(mine->room.first, room)
        && is_untouched(room + length, mine->room.end)
        && is_untouched(mine->told.first, mine->told.end - told)
        && (by->style != IN_CHARS || length == 0
            || room[said.status == CN_DONE ? length - 1 : 0] == 0);
    add_to_sum(mine, &said, sizeof said);
    add_to_sum(mine, room, length);
    if (text != NULL)
        memcpy(text, room, length);
    memset(room, UNTOUCHED, length);
    mine->tries++;
    judge(mine, right, "only the answer and the text of the room are written", by, it);
    return said;
}

static const uint32_t tried[] = {0, 1, 2, 3, 4, 5, 6, 7, 8, 9, 10, 11, 12, 15, 16, 17, 255, 256,
                                 257, 1u << 16, INT32_MAX, 1u << 31, UINT32_MAX};

/* What is to be said for a room, by what was said for one that is large enough. */
static answer for_room(const call *by, const question *it, answer whole) {
    int in_chars = by->style == IN_CHARS, has_end = in_chars && whole.values[0] != 0;
    if (whole.status == CN_DONE && whole.values[0] + (uint64_t)has_end > it->room_length) {
        whole.status = CN_NO_ROOM;
        whole.values[0] *= !in_chars || is_in_figures(by);
    }
    return whole;
}

/* ---- Texts ---- */

/* What texts are made of: characters of numerals, capitals and figures, others, two amounts and a
 * date; and what no UTF-8 has. */
static const char *const parts[] = {
    "一", "二", "三", "十", "百", "千", "萬", "亿", "零", "〇", "壹", "贰", "佰", "元", "圆", "整",
    "正", "角", "分", "年", "月", "日", "负", "兩", "個", "5", "-", " ", "é", "𠀀", "¥", ",", "．",
    "−", "⊗", "：", "%", "点", "分之", "廿", "1,409.50", "人民币壹佰元整", "贰零贰陆年零叁月零壹日",
    "（负数）", "（大写）", "\xE2\x80\x8B", "到", "半", "小时", "下午", "比", "米", ":", "kg", "/", "~", "15"};
static const char *const broken[] = {
    "\x80", "\xBF", "\xC0\x80", "\xC1\xBF", "\xC2", "\xE0\x9F\xBF", "\xE4", "\xE4\xB8",
    "\xED\xA0\x80", "\xED\xBF\xBF", "\xEF\xBF", "\xF0\x8F\xBF\xBF", "\xF0\xA0",
    "\xF0\xA0\x80", "\xF4\x90\x80\x80", "\xF5\x80\x80\x80", "\xF8\x88\x80\x80\x80",
    "\xFE", "\xFF", "\xE4\xB8\xE4", "\xE4\x80\x7F", "\xC3\xC3", "\xDF", "\xF4", "\xF0",
    "\xEF", "\xED", "\xE0", "\xF3\xBF", "\x81\x81", "\xA0", "\xC2\x7F"};

static uint64_t next_random(uint64_t *state) {
    *state ^= *state << 13;
    *state ^= *state >> 7;
    *state ^= *state << 17;
    return *state >> 8;
}

/* Whether a text that is not UTF-8 has an answer. */
static int takes_bytes(const call *by) { return by->ask == line_answer; }

/* Whether bytes are UTF-8, by table 3-7 of the Unicode standard: how many follow the first one, and
 * from where to where the second may go. */
static int is_utf8(const uint8_t *text, size_t length) {
    for (size_t at = 0; at < length;) {
        uint8_t first = text[at++], least = 0x80, most = 0xBF;
        size_t more = first < 0x80 ? 0 : first < 0xE0 ? 1 : first < 0xF0 ? 2 : 3;
        if ((first >= 0x80 && first < 0xC2) || first > 0xF4 || more > length - at)
            return 0;
        least = first == 0xE0 ? 0xA0 : first == 0xF0 ? 0x90 : least;
        most = first == 0xED ? 0x9F : first == 0xF4 ? 0x8F : most;
        for (; more > 0; more--, least = 0x80, most = 0xBF)
            if (text[at] < least || text[at++] > most)
                return 0;
    }
    return 1;
}

/* Whether a character begins there, or the text ends. */
static int is_boundary(const question *it, uint64_t at) {
    return at == it->text_length || (at < it->text_length && (it->text[at] & 0xC0) != 0x80);
}

static int is_place(const question *it, answer said) {
    uint64_t characters = 0;
    for (uint64_t at = 0; at < said.byte_index && at < it->text_length; at++)
        characters += is_boundary(it, at);
    return is_boundary(it, said.byte_index) && characters == said.char_index;
}

/* A number has no doubt. */
static uint64_t greatest_doubt(const call *by) {
    return by->ask == number_find ? CN_NO_DOUBT : CN_DOUBT_RANGE;
}

/* Whether an answer to UTF-8 has what belongs to its status, and nothing else. */
static int is_whole(const call *by, const question *it, answer said) {
    answer nothing = {said.status, {0}, 0, 0};
    if (said.status >= 32 || (by->statuses & STATUS(said.status)) == 0)
        return 0;
    if (said.status == CN_INCORRECT && by->ask != range_read) {
        nothing.char_index = said.char_index;
        nothing.byte_index = said.byte_index;
        return is_same(said, nothing) && is_place(it, said) && said.byte_index < it->text_length;
    }
    if (said.status != CN_DONE)
        return is_same(said, nothing);
    if (by->statuses == FIND)
        return said.values[0] < said.values[1] && is_boundary(it, said.values[0])
            && is_boundary(it, said.values[1]) && said.values[2] / 16 <= greatest_doubt(by);
    if (by->ask == input_expected || by->ask == input_repair)
        return is_place(it, said);
    return said.char_index == 0 && said.byte_index == 0;
}
