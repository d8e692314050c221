/* columns [ROWS [ROUNDS]]: prints and reads columns of numbers, amounts and dates, and compares each
 * row with what the call for one value answers, and a column that is cut by small buffers with one that
 * is not. With ROUNDS the program instead prints the time of a row and that of the call for one value,
 * in the best of this many rounds. */
#include "chinese_number.h"

#include <stdio.h>
#include <stdlib.h>
#include <string.h>
#include <time.h>

static uint64_t state = 88172645463325252u;

static uint64_t some(void) {
    state ^= state << 13;
    state ^= state >> 7;
    state ^= state << 17;
    return state;
}

/* A number of any length. */
static uint64_t some_short(void) {
    uint64_t word = some();
    return word >> (some() >> 7) % 64;
}

static void expect(int holds, const char *what, size_t row) {
    if (!holds) {
        fprintf(stderr, "columns: %s at row %zu\n", what, row);
        exit(1);
    }
}

/* What a column is of. */
enum { NUMBERS, WIDE_NUMBERS, AMOUNTS, DATES };

/* A column and the choices for its texts. */
typedef struct column {
    int what;
    size_t rows;
    uint32_t kind, way, script, letter_case, form;
    const uint64_t *numbers;
    const cn_number *wide;
    const int64_t *amounts;
    const cn_day *days;
    const uint8_t *bitmap;
    size_t bitmap_length, first;
} column;

/* Arrays for texts, with one value more than is written. */
typedef struct texts {
    uint64_t *offsets;
    uint8_t *bytes;
    uint32_t *statuses;
    size_t room;
} texts;

/* What is in memory that no call wrote. */
#define UNTOUCHED 0xA5
#define NEVER UINT64_C(0xA5A5A5A5A5A5A5A5)
#define MOST 240

static void *untouched(size_t bytes) {
    void *room = malloc(bytes + 1);
    if (room == NULL)
        exit(2);
    return memset(room, UNTOUCHED, bytes + 1);
}

/* Memory for so many values of a type. */
#define ROOM_FOR(type, count) CN_AS(type *, untouched((count) * sizeof(type)))

static texts new_texts(size_t rows, size_t room) {
    texts t = {ROOM_FOR(uint64_t, rows + 2), ROOM_FOR(uint8_t, room + 1), ROOM_FOR(uint32_t, rows + 1), room};
    t.offsets[0] = 0;
    return t;
}

static void free_texts(texts *t) {
    free(t->offsets);
    free(t->bytes);
    free(t->statuses);
}

/* Prints the rows from `from` on into so much of the buffer. */
static uint32_t print_from(const column *c, size_t from, texts *t, size_t room, size_t *done) {
    size_t rows = c->rows - from, first = c->first + from;
    uint64_t *offsets = t->offsets + from;
    uint32_t *statuses = t->statuses + from;
    switch (c->what) {
    case NUMBERS:
        return chinese_numbers_print_column(c->numbers + from, rows, c->bitmap, c->bitmap_length, first, c->kind,
                                            c->way, c->script, c->letter_case, offsets, rows + 1, t->bytes, room,
                                            statuses, rows, done);
    case WIDE_NUMBERS:
        return chinese_wide_numbers_print_column(c->wide + from, rows, c->bitmap, c->bitmap_length, first, c->kind,
                                                 c->way, c->script, c->letter_case, offsets, rows + 1, t->bytes,
                                                 room, statuses, rows, done);
    case AMOUNTS:
        return chinese_amounts_print_column(c->amounts + from, rows, c->bitmap, c->bitmap_length, first, c->script,
                                            c->form, offsets, rows + 1, t->bytes, room, statuses, rows, done);
    default:
        return chinese_dates_print_column(c->days + from, rows, c->bitmap, c->bitmap_length, first, c->script,
                                          offsets, rows + 1, t->bytes, room, statuses, rows, done);
    }
}

/* The halves of a number of 64 bits. */
static cn_number widened(const column *c, size_t row) {
    return c->kind >= CN_I8 ? cn_signed(CN_AS(int64_t, c->numbers[row])) : cn_unsigned(c->numbers[row]);
}

/* What the call for one value answers. */
static uint32_t print_one(const column *c, size_t row, uint8_t *room, size_t room_length, size_t *length) {
    cn_number number;
    switch (c->what) {
    case NUMBERS:
        number = widened(c, row);
        return chinese_number_print(number.low, number.high, c->kind, c->way, c->script, c->letter_case, room,
                                    room_length, length);
    case WIDE_NUMBERS:
        return chinese_number_print(c->wide[row].low, c->wide[row].high, c->kind, c->way, c->script,
                                    c->letter_case, room, room_length, length);
    case AMOUNTS:
        return chinese_signed_amount_print(c->amounts[row], c->script, c->form, room, room_length, length);
    default:
        return chinese_date_print(c->days[row].year, c->days[row].month, c->days[row].day, c->script, room,
                                  room_length, length);
    }
}

static int is_present(const column *c, size_t row) {
    size_t bit = c->first + row;
    return bit / 8 >= c->bitmap_length || (c->bitmap[bit / 8] >> bit % 8 & 1) == 1;
}

/* Compares each row with what the call for one value answers. */
static void compare(const column *c, const texts *t) {
    for (size_t row = 0; row < c->rows; row++) {
        uint8_t one[MOST];
        size_t length = 0;
        uint32_t status = CN_NONE;
        if (is_present(c, row))
            status = print_one(c, row, one, sizeof one, &length);
        expect(t->statuses[row] == status, "status", row);
        expect(t->offsets[row + 1] - t->offsets[row] == length, "length", row);
        expect(memcmp(t->bytes + t->offsets[row], one, length) == 0, "text", row);
    }
}

/* Prints with a buffer that grows only when a text does not fit, and compares with the whole. */
static void cut(const column *c, const texts *whole) {
    texts t = new_texts(c->rows, CN_AS(size_t, whole->offsets[c->rows]));
    size_t from = 0, done, room = 0;
    uint32_t status;
    while ((status = print_from(c, from, &t, room, &done)) == CN_NO_ROOM) {
        from += done;
        expect(from < c->rows, "CN_NO_ROOM after the last row", from);
        expect(t.bytes[t.offsets[from]] == UNTOUCHED, "a byte after the last text", from);
        expect(room < whole->offsets[from + 1], "CN_NO_ROOM for a text that fits", from);
        room = CN_AS(size_t, whole->offsets[from + 1]) + CN_AS(size_t, some() >> 9) % 50;
        if (room > t.room)
            room = t.room;
    }
    expect(status == CN_DONE && from + done == c->rows, "the end", from);
    expect(memcmp(t.offsets, whole->offsets, (c->rows + 2) * sizeof(uint64_t)) == 0, "offsets", 0);
    expect(memcmp(t.statuses, whole->statuses, (c->rows + 1) * sizeof(uint32_t)) == 0, "statuses", 0);
    expect(memcmp(t.bytes, whole->bytes, CN_AS(size_t, whole->offsets[c->rows])) == 0, "bytes", 0);
    free_texts(&t);
}

/* Reads numbers back, and compares each row with what the call for one text answers. */
static void read_back(const column *c, const texts *t) {
    size_t rows = c->rows, length = CN_AS(size_t, t->offsets[rows]);
    cn_number *wide = ROOM_FOR(cn_number, rows + 1);
    uint64_t *numbers = ROOM_FOR(uint64_t, rows + 1);
    uint32_t *statuses = ROOM_FOR(uint32_t, rows + 1), *same = ROOM_FOR(uint32_t, rows + 1);
    uint32_t status = chinese_numbers_read_column(t->bytes, length, t->offsets, rows + 1, c->bitmap, c->bitmap_length,
                                                  c->first, c->kind, c->way, numbers, rows, statuses, rows);
    expect(status == CN_DONE, "reading", 0);
    status = chinese_wide_numbers_read_column(t->bytes, length, t->offsets, rows + 1, c->bitmap, c->bitmap_length,
                                              c->first, c->kind, c->way, wide, rows, same, rows);
    expect(status == CN_DONE && memcmp(statuses, same, (rows + 1) * sizeof *same) == 0, "reading", 0);
    for (size_t row = 0; row < rows; row++) {
        cn_reading reading = {{0, 0}, 0, 0};
        status = CN_NONE;
        if (is_present(c, row))
            status = chinese_number_read(t->bytes + t->offsets[row], CN_AS(size_t, t->offsets[row + 1] - t->offsets[row]),
                                         c->kind, c->way, &reading);
        expect(statuses[row] == status, "status when reading", row);
        expect(numbers[row] == reading.number.low && wide[row].low == reading.number.low
                   && wide[row].high == reading.number.high,
               "number", row);
    }
    free(wide);
    free(numbers);
    free(statuses);
    free(same);
}

/* Reads amounts and dates back. */
static void read_others_back(const column *c, const texts *t) {
    size_t rows = c->rows, length = CN_AS(size_t, t->offsets[rows]);
    int64_t *amounts = ROOM_FOR(int64_t, rows + 1);
    cn_day *days = ROOM_FOR(cn_day, rows + 1);
    uint32_t *statuses = ROOM_FOR(uint32_t, rows + 1), status;
    if (c->what == AMOUNTS)
        status = chinese_amounts_read_column(t->bytes, length, t->offsets, rows + 1, c->bitmap, c->bitmap_length,
                                             c->first, CN_TYPED_SIGNED_AMOUNT, amounts, rows, statuses, rows);
    else
        status = chinese_dates_read_column(t->bytes, length, t->offsets, rows + 1, c->bitmap, c->bitmap_length,
                                           c->first, days, rows, statuses, rows);
    expect(status == CN_DONE, "reading", 0);
    for (size_t row = 0; row < rows; row++) {
        if (t->statuses[row] != CN_DONE) /* a refused row has an empty text */
            expect(statuses[row] == (t->statuses[row] == CN_NONE ? CN_NONE : CN_UNFINISHED), "empty text", row);
        else if (c->what == AMOUNTS)
            expect(statuses[row] == CN_DONE && amounts[row] == c->amounts[row], "amount", row);
        else
            expect(statuses[row] == CN_DONE && memcmp(days + row, c->days + row, sizeof *days) == 0, "date", row);
    }
    free(amounts);
    free(days);
    free(statuses);
}

static void try_column(const column *c) {
    size_t done, bytes = 0;
    texts t = new_texts(c->rows, c->rows * CN_MOST_BYTES);
    uint32_t status = print_from(c, 0, &t, t.room, &done);
    expect(status == CN_DONE && done == c->rows, "printing", done);
    bytes = CN_AS(size_t, t.offsets[c->rows]);
    expect(t.bytes[bytes] == UNTOUCHED && t.offsets[c->rows + 1] == NEVER && CN_AS(uint32_t, NEVER) == t.statuses[c->rows],
           "an end", c->rows);
    compare(c, &t);
    cut(c, &t);
    if (c->what <= WIDE_NUMBERS)
        read_back(c, &t);
    else
        read_others_back(c, &t);
    free_texts(&t);
}

/* A code that names nothing changes nothing; offsets that are no text's are told. */
static void try_mistakes(void) {
    uint64_t values[2] = {1, 2}, offsets[3] = {0, 7, 3}, bad[3] = {0, 4, 2};
    uint32_t statuses[2] = {70, 71};
    uint8_t bytes[3] = {0xE4, 0xB8, 0x80}, none = 0;
    int64_t amounts[2] = {3, 4};
    size_t done = 9;
    uint32_t status = chinese_numbers_print_column(values, 2, &none, 0, 0, CN_I64, CN_ANY, 2, CN_LOWER, offsets, 3,
                                                   bytes, 3, statuses, 2, &done);
    expect(status == CN_UNKNOWN && done == 0 && statuses[0] == 70 && offsets[1] == 7, "CN_UNKNOWN", 0);
    status = chinese_numbers_read_column(bytes, 3, offsets, 3, &none, 0, 0, CN_I64, CN_ANY, values, 2, statuses, 2);
    expect(status == CN_DONE && statuses[0] == CN_NO_ROOM && statuses[1] == CN_NO_ROOM && values[0] == 0, "offsets", 0);
    bad[1] = 3;
    status = chinese_numbers_read_column(bytes, 3, bad, 3, &none, 0, 0, CN_I64, CN_ANY, values, 2, statuses, 2);
    expect(status == CN_DONE && statuses[0] == CN_DONE && statuses[1] == CN_NO_ROOM && values[0] == 1, "offsets", 1);
    offsets[0] = 4;
    status = chinese_numbers_print_column(values, 2, &none, 0, 0, CN_I64, CN_ANY, CN_SIMPLIFIED, CN_LOWER, offsets, 3,
                                          bytes, 3, statuses, 2, &done);
    expect(status == CN_NO_ROOM && done == 0, "an offset beyond the buffer", 0);
    status = chinese_amounts_read_column(bytes, 3, bad, 3, &none, 0, 0, CN_DATE, amounts, 2, statuses, 2);
    expect(status == CN_UNKNOWN, "an input that is no amount", 0);
}

static double seconds(void) {
    return CN_AS(double, clock()) / CLOCKS_PER_SEC;
}

/* Where the values go that are read. */
typedef struct values {
    uint64_t *numbers;
    cn_number *wide;
    int64_t *amounts;
    cn_day *days;
} values;

/* What the call for one text answers. */
static uint32_t read_one(const column *c, const uint8_t *text, size_t length, const values *v, size_t row) {
    cn_reading reading;
    cn_signed_amount amount;
    cn_date date;
    uint32_t status;
    switch (c->what) {
    case AMOUNTS:
        status = chinese_signed_amount_read(text, length, &amount);
        v->amounts[row] = amount.fen;
        return status;
    case DATES:
        status = chinese_date_read(text, length, &date);
        v->days[row].year = date.year;
        v->days[row].month = date.month;
        v->days[row].day = date.day;
        return status;
    default:
        status = chinese_number_read(text, length, c->kind, c->way, &reading);
        if (c->what == NUMBERS)
            v->numbers[row] = reading.number.low;
        else
            v->wide[row] = reading.number;
        return status;
    }
}

static void read_column(const column *c, const texts *t, const values *v) {
    size_t rows = c->rows, length = CN_AS(size_t, t->offsets[rows]);
    switch (c->what) {
    case NUMBERS:
        chinese_numbers_read_column(t->bytes, length, t->offsets, rows + 1, c->bitmap, 0, 0, c->kind, c->way,
                                    v->numbers, rows, t->statuses, rows);
        break;
    case WIDE_NUMBERS:
        chinese_wide_numbers_read_column(t->bytes, length, t->offsets, rows + 1, c->bitmap, 0, 0, c->kind, c->way,
                                         v->wide, rows, t->statuses, rows);
        break;
    case AMOUNTS:
        chinese_amounts_read_column(t->bytes, length, t->offsets, rows + 1, c->bitmap, 0, 0, CN_SIGNED_AMOUNT,
                                    v->amounts, rows, t->statuses, rows);
        break;
    default:
        chinese_dates_read_column(t->bytes, length, t->offsets, rows + 1, c->bitmap, 0, 0, v->days, rows,
                                  t->statuses, rows);
    }
}

/* The times of a row in nanoseconds: in a column, and by the call for one value into one buffer. */
static void measure(const column *c, const char *what, int rounds) {
    double best[4] = {1e9, 1e9, 1e9, 1e9};
    texts t = new_texts(c->rows, c->rows * CN_MOST_BYTES);
    values v = {ROOM_FOR(uint64_t, c->rows), ROOM_FOR(cn_number, c->rows), ROOM_FOR(int64_t, c->rows),
                ROOM_FOR(cn_day, c->rows)};
    for (int round = 0; round < rounds; round++) {
        double times[5];
        size_t done, at = 0, length;
        times[0] = seconds();
        for (size_t row = 0; row < c->rows; row++, at += length) {
            t.statuses[row] = print_one(c, row, t.bytes + at, t.room - at, &length);
            t.offsets[row + 1] = at + length;
        }
        times[1] = seconds();
        print_from(c, 0, &t, t.room, &done);
        times[2] = seconds();
        for (size_t row = 0; row < c->rows; row++) {
            size_t start = CN_AS(size_t, t.offsets[row]);
            t.statuses[row] = read_one(c, t.bytes + start, CN_AS(size_t, t.offsets[row + 1]) - start, &v, row);
        }
        times[3] = seconds();
        read_column(c, &t, &v);
        times[4] = seconds();
        for (int i = 0; i < 4; i++)
            if (times[i + 1] - times[i] < best[i])
                best[i] = times[i + 1] - times[i];
    }
    for (int i = 0; i < 4; i += 2)
        printf("%s, %s: a row %.1f ns, the call for one value %.1f ns: %.2f\n", what, i == 0 ? "printing" : "reading",
               best[i + 1] / CN_AS(double, c->rows) * 1e9, best[i] / CN_AS(double, c->rows) * 1e9, best[i + 1] / best[i]);
    free(v.numbers);
    free(v.wide);
    free(v.amounts);
    free(v.days);
    free_texts(&t);
}

int main(int count, char **arguments) {
    size_t rows = count > 1 ? CN_AS(size_t, strtoul(arguments[1], NULL, 10)) : 1000;
    int rounds = count > 2 ? atoi(arguments[2]) : 0;
    uint64_t *numbers = ROOM_FOR(uint64_t, rows);
    cn_number *wide = ROOM_FOR(cn_number, rows);
    int64_t *amounts = ROOM_FOR(int64_t, rows);
    cn_day *days = ROOM_FOR(cn_day, rows);
    uint8_t *bitmap = ROOM_FOR(uint8_t, rows / 8 + 1);
    for (size_t row = 0; row < rows; row++) {
        numbers[row] = some_short();
        wide[row].low = some_short();
        wide[row].high = (some() & 4) != 0 ? 0 : some_short();
        amounts[row] = CN_AS(int64_t, some_short()) / ((some() & 4) != 0 ? -8 : 9);
        days[row].year = CN_AS(uint32_t, some() >> 8) % 10010;
        days[row].month = CN_AS(uint32_t, some() >> 8) % 14;
        days[row].day = CN_AS(uint32_t, some() >> 8) % 33;
        bitmap[row / 8] = CN_AS(uint8_t, some() >> 5 | some() >> 9);
    }
    column c = {NUMBERS, rows, 0, 0, 0, 0, 0, numbers, wide, amounts, days, bitmap, 0, 0};
    for (int what = NUMBERS; what <= DATES && rounds == 0; what++)
        for (uint32_t kind = CN_U8; kind <= (what <= WIDE_NUMBERS ? CN_I128 : CN_U16); kind++)
            for (uint32_t way = CN_DIGITS; way <= (what <= WIDE_NUMBERS ? CN_ANY : CN_LOW); way++) {
                c.what = what;
                c.kind = kind;
                c.way = way;
                c.script = CN_AS(uint32_t, some() >> 11) % 2;
                c.letter_case = CN_AS(uint32_t, some() >> 11) % 2;
                c.form = CN_AS(uint32_t, some() >> 11) % 16;
                c.bitmap_length = kind % 3 == 0 ? 0 : rows / 8;
                c.first = kind % 3 == 2 ? CN_AS(size_t, some() >> 11) % 20 : 0;
                try_column(&c);
            }
    try_mistakes();
    c.bitmap_length = c.first = 0;
    c.kind = CN_U64;
    c.way = CN_ANY;
    c.script = CN_SIMPLIFIED;
    c.letter_case = CN_LOWER;
    c.form = CN_PLAIN;
    static const char *const NAMES[] = {"numbers", "wide numbers", "amounts", "dates"};
    for (int what = NUMBERS; what <= DATES && rounds > 0; what++) {
        c.what = what;
        if (what == WIDE_NUMBERS)
            c.kind = CN_U128;
        measure(&c, NAMES[what], rounds);
    }
    free(numbers);
    free(wide);
    free(amounts);
    free(days);
    free(bitmap);
    return 0;
}
