/* fuzz SEED LIMIT [FIRST]: calls the library with random texts, values, codes and buffers, and
 * compares each answer with what chinese_number.h and docs/RULES.md promise: which status belongs to
 * which answer, that nothing else is written, that spans and places lie at characters of the text,
 * that what is printed is read back, that a search in parts finds the same, and that a row of a
 * column is answered as by the call for one value or text. It has no second implementation: whether
 * a number is the right one is known only of texts that it spells itself.
 *
 * LIMIT is a number of cases, or of seconds with `s` after it; FIRST is the number of the first case,
 * otherwise 0. A case depends on the seed and on its number alone. Prints the number of cases; at the
 * first wrong answer, sanitizer report or abort() it prints the case, the call and its input in
 * hexadecimal, and ends with status 1. */
#define _DEFAULT_SOURCE
#include "misuse/texts.h"
#include "misuse/columns.h"

#include <signal.h>
#include <time.h>
#include <unistd.h>

enum { VALUES = 6 };

/* What is tried now, for the report. */
static struct {
    unsigned long long seed, number;
    const char *call;
    uint64_t values[VALUES];
    const uint8_t *text;
    size_t length;
    task task;
} now;

/* ---- Reports ---- */

static void print_case(const char *wanted) {
    fprintf(stderr, "seed %llu, case %llu: %s", now.seed, now.number, now.call);
    for (size_t at = 0; at < VALUES; at++)
        fprintf(stderr, " %#llx", (unsigned long long)now.values[at]);
    fprintf(stderr, ", a text of %zu bytes ", now.length);
    print_hex(now.text, now.length);
    fprintf(stderr, ": wanted: %s\n", wanted);
}

static void expect(int right, const char *wanted) {
    if (right)
        return;
    print_case(wanted);
    exit(1);
}

static void on_abort(int number) {
    (void)number;
    print_case("no abort");
    _exit(1);
}

/* The sanitizers end a program by abort() too, so that the case is printed. */
const char *__asan_default_options(void) { return "abort_on_error=1"; }
const char *__ubsan_default_options(void) { return "abort_on_error=1:print_stacktrace=1"; }

/* Names the call that is tried, with its codes. */
static void trying(const char *call, uint64_t one, uint64_t two) {
    memset(now.values, 0, sizeof now.values);
    now.call = call;
    now.values[0] = one;
    now.values[1] = two;
}

/* Puts a draft into a block that has exactly its bytes. */
static uint8_t *exact(const draft *text) {
    uint8_t *block = malloc(text->length);
    memcpy(block, text->bytes, text->length);
    now.text = block;
    now.length = text->length;
    return block;
}

/* ---- Each call of the table ---- */

/* Asks with a room of exactly its length. */
static answer ask_in(const call *by, question it, size_t room_length, uint8_t *copy) {
    uint8_t *room = malloc(room_length);
    memset(room, UNTOUCHED, room_length);
    it.room = room;
    it.room_length = room_length;
    now.task.room = (area){room, room + room_length};
    answer said = ask(&now.task, by, &it, copy);
    free(room);
    expect(now.task.wrong == 0, "as above");
    return said;
}

static int is_printed(const call *by, answer said) {
    static const uint32_t statuses = STATUS(CN_DONE) | STATUS(CN_TOO_LARGE) | STATUS(CN_TOO_SMALL)
        | STATUS(CN_NOT_HELD) | STATUS(CN_NOT_A_DATE) | STATUS(CN_NOT_A_QUANTITY);
    return said.status < 32 && (statuses & STATUS(said.status)) != 0 && said.values[0] <= by->most
        && (said.status == CN_DONE || said.values[0] == 0);
}

static int is_refused(answer said, uint32_t status) {
    answer refused = {status, {0}, 0, 0};
    return is_same(said, refused);
}

static void judge_answer(const call *by, const question *it, answer said, int all_named) {
    int good = by->statuses == 0 || takes_bytes(by) || is_utf8(it->text, it->text_length);
    int right = !all_named
        ? is_refused(said, CN_UNKNOWN) || (!good && is_refused(said, CN_NOT_UTF8))
        : !good ? is_refused(said, CN_NOT_UTF8)
                : by->statuses == 0 ? is_printed(by, said) : is_whole(by, it, said);
    judge(&now.task, right, "an answer of the status", by, it);
}

/* How many bytes the text in figures has, which the call tells of a room without bytes. */
static size_t most_of(const call *by, const question *it) {
    if (!is_in_figures(by))
        return by->most;
    answer said = ask_in(by, *it, 0, NULL);
    return said.status == CN_NO_ROOM ? (size_t)said.values[0] : 0;
}

static answer try_call(const call *by, const question *it, int all_named) {
    static uint8_t text[MOST_WRITTEN], again[MOST_WRITTEN];
    size_t most = most_of(by, it), room = most + (by->style == IN_CHARS && by->most != 0);
    answer whole_one = ask_in(by, *it, room, text);
    answer second = ask_in(by, *it, room + (by->most == 0 ? 0 : below(9)), again);
    judge_answer(by, it, whole_one, all_named);
    judge(&now.task, is_same(whole_one, second), "the same answer again", by, it);
    if (by->most != 0 && whole_one.status == CN_DONE) {
        size_t length = (size_t)whole_one.values[0];
        question smaller = *it;
        smaller.room_length = below(length + 2);
        second = ask_in(by, *it, smaller.room_length, NULL);
        judge(&now.task, memcmp(text, again, length) == 0, "the same text again", by, it);
        judge(&now.task, is_utf8(text, length), "a text in UTF-8", by, it);
        judge(&now.task, is_same(second, for_room(by, &smaller, whole_one)), "the length of the text",
              by, &smaller);
    }
    expect(now.task.wrong == 0, "as above");
    return whole_one;
}

/* The calls after a proved one answer as it does. */
static void try_calls(void) {
    int all_named = 1, good = is_utf8(now.text, now.length);
    uint64_t values[PLACES];
    uint32_t codes[PLACES] = {0};
    answer before = {0, {0}, 0, 0};
    for (const call *by = calls; by < calls + LENGTH_OF(calls); by++) {
        if (by->style == PROVED)
            all_named = random_codes(by, codes);
        if (by->style == PROVED && by->values != NULL)
            random_values(by, values);
        if (by->style == TRUSTS && !good)
            continue;
        question it = {by->style, now.text, now.length, by->values == NULL ? NULL : values, {0}, NULL, 0,
                       now.task.told.end};
        trying(by->name, codes[0], codes[1]);
        memcpy(it.codes, codes, sizeof codes);
        answer said = try_call(by, &it, all_named);
        expect(by->style == PROVED || is_same(said, before), "the answer of the proved call");
        before = said;
    }
}

/* ---- What is printed is read back ---- */

static void expect_printed(uint32_t status, const draft *text, size_t most) {
    expect(status == CN_DONE, "done");
    expect(text->length <= most && is_utf8(text->bytes, text->length), "a text of at most its bytes");
    now.text = text->bytes;
    now.length = text->length;
}

/* In another type the same text is the same number, or is not held. */
static void expect_number(const draft *text, uint32_t kind, uint32_t way, whole value, int is_negative) {
    cn_reading read;
    uint32_t status = chinese_number_read(text->bytes, text->length, kind, way, &read);
    if (is_negative && kind < CN_I8)
        return;
    expect(status == (uint32_t)(holds(kind, value, is_negative) ? CN_DONE
                                : is_negative                   ? CN_TOO_SMALL
                                                                : CN_TOO_LARGE),
           "done if the type holds the number, otherwise too large or too small");
    expect(joined(read.number) == (status == CN_DONE ? value : 0), "the number that was printed");
}

static void try_number(void) {
    uint32_t kind = (uint32_t)below(10), way = (uint32_t)below(6), bits = 8u << kind % 5, status;
    draft text, varied;
    whole value = random_whole(once_in(4) ? 128 : bits - (kind >= CN_I8));
    value = kind >= CN_I8 && once_in(2) ? -value : value;
    int is_negative = is_negative_of(kind, value);
    int is_far = way == CN_LOW && (is_negative ? -value : value) >= power_of_ten(16);
    trying("chinese_number_print, then chinese_number_read", kind, way);
    memcpy(now.values + 2, &value, sizeof value);
    status = chinese_number_print(halves(value).low, halves(value).high, kind, way, (uint32_t)below(2),
                                  (uint32_t)below(2), text.bytes, sizeof text.bytes, &text.length);
    if (!holds(kind, value, is_negative) || is_far) {
        expect(status != CN_DONE && text.length == 0, "a refusal");
        expect(holds(kind, value, is_negative) == (status != CN_NOT_HELD), "not held");
        expect(!is_far || status == CN_NOT_HELD || status == (is_negative ? CN_TOO_SMALL : CN_TOO_LARGE),
               "too large or too small");
        return;
    }
    expect_printed(status, &text, CN_MOST_BYTES);
    vary(&text, &varied);
    for (uint32_t other = CN_U8; other <= CN_I128; other++)
        expect_number(&text, other, way, value, is_negative);
    now.text = varied.bytes;
    expect_number(&varied, kind, way, value, is_negative);
}

static int is_in_form(const cn_quantity *quantity) {
    whole denominator = joined(quantity->denominator);
    if (quantity->form == CN_WHOLE)
        return denominator == 1;
    for (uint64_t exponent = quantity->form == CN_DECIMAL ? 1 : 2; exponent < 39; exponent++)
        if (denominator == power_of_ten(exponent))
            return quantity->form != CN_FRACTION;
    return 0;
}

static void try_quantity(void) {
    uint32_t method = CN_LOW + (uint32_t)below(5), status;
    cn_quantity of = {halves(random_whole(110) * (once_in(3) ? (whole)-1 : 1)),
                      halves(once_in(3) ? random_whole(128) : power_of_ten(below(6))),
                      (uint32_t)below(4), 0, 0}, read;
    int is_negative = of.numerator.high >> 63 != 0;
    whole magnitude = is_negative ? -joined(of.numerator) : joined(of.numerator);
    draft text;
    trying("chinese_quantity_print, then chinese_quantity_read", method, of.form);
    memcpy(now.values + 2, &of, 4 * sizeof *now.values);
    status = chinese_quantity_print(&of, method, (uint32_t)below(2), (uint32_t)below(2), text.bytes,
                                    sizeof text.bytes, &text.length);
    if (joined(of.denominator) == 0) {
        expect(status == CN_NOT_A_QUANTITY, "no quantity");
        return;
    }
    if (method == CN_LOW
        && (magnitude >= power_of_ten(16) || joined(of.denominator) >= power_of_ten(16))
        && status != CN_DONE) {
        expect(status == (is_negative ? CN_TOO_SMALL : CN_TOO_LARGE), "too large or too small");
        return;
    }
    expect_printed(status, &text, CN_MOST_QUANTITY_BYTES);
    status = chinese_quantity_read(text.bytes, text.length, method, &read);
    expect(status == CN_DONE && joined(read.numerator) == joined(of.numerator)
               && joined(read.denominator) == joined(of.denominator),
           "the quantity that was printed");
    expect(!is_in_form(&of) || read.form == of.form, "the form that was printed");
}

/* A quantity in figures, of less than 19 digits. */
static void try_figures_of_quantity(void) {
    uint64_t magnitude = (uint64_t)random_whole(59), decimals = 1 + below(5), divisor = 1;
    int is_negative = once_in(2), is_percent = once_in(2);
    cn_quantity of = {{0, 0}, {0, 0}, CN_DECIMAL, 0, 0}, read;
    draft text;
    divisor = (uint64_t)power_of_ten(decimals + 2 * (uint64_t)is_percent);
    of.numerator = halves(is_negative ? -(whole)magnitude : magnitude);
    of.denominator.low = divisor;
    of.form += is_percent;
    trying("chinese_quantity_figures, then chinese_quantity_read", magnitude, divisor);
    expect_printed(chinese_quantity_figures(&of, text.bytes, sizeof text.bytes, &text.length), &text,
                   CN_MOST_FIGURES_BYTES);
    expect(chinese_quantity_read(text.bytes, text.length, CN_ANY, &read) == CN_DONE, "done");
    whole numerator = joined(read.numerator);
    expect((numerator >> 127 != 0) == (is_negative && magnitude != 0), "the sign");
    numerator = numerator >> 127 != 0 ? -numerator : numerator;
    expect(numerator * divisor == (whole)magnitude * joined(read.denominator), "the same quantity");
}

static uint32_t read_amount_by(uint32_t input, const uint8_t *text, size_t length, int64_t *fen) {
    cn_amount read;
    cn_signed_amount of;
    uint32_t status = input == CN_AMOUNT  ? chinese_amount_read(text, length, &read)
        : input == CN_TYPED_AMOUNT        ? chinese_typed_amount_read(text, length, &read)
        : input == CN_SIGNED_AMOUNT       ? chinese_signed_amount_read(text, length, &of)
        : input == CN_TYPED_SIGNED_AMOUNT ? chinese_typed_signed_amount_read(text, length, &of)
                                          : chinese_figures_read(text, length, &of);
    *fen = input == CN_AMOUNT || input == CN_TYPED_AMOUNT ? (int64_t)read.fen : of.fen;
    return status;
}

static void try_amount(void) {
    int64_t most = INT64_C(1000000000000000000), fen = (int64_t)random_whole(once_in(5) ? 63 : 59), read;
    uint32_t form = (uint32_t)below(16), script = (uint32_t)below(2), status;
    draft text;
    fen = once_in(20) ? most - 2 + (int64_t)below(4) : fen;
    fen = once_in(2) ? -fen : fen;
    trying("chinese_signed_amount_print, then its readers", (uint64_t)fen, form);
    status = chinese_signed_amount_print(fen, script, form, text.bytes, sizeof text.bytes, &text.length);
    if (fen >= most || fen <= -most) {
        expect(status == (fen < 0 ? CN_TOO_SMALL : CN_TOO_LARGE), "too large or too small");
        return;
    }
    expect_printed(status, &text, CN_MOST_SIGNED_AMOUNT_BYTES);
    for (uint32_t input = CN_AMOUNT; input <= CN_TYPED_SIGNED_AMOUNT; input++) {
        int is_read = fen >= 0 || input == CN_TYPED_SIGNED_AMOUNT
            || (input == CN_SIGNED_AMOUNT && (form & CN_BRACKETED_SIGN) == 0);
        status = read_amount_by(input, text.bytes, text.length, &read);
        expect(is_read ? status == CN_DONE && read == fen : status == CN_INCORRECT,
               "the amount that was printed, or incorrect by a reader that has no such sign");
    }
    draft again;
    if (fen >= 0) {
        status = chinese_amount_print((uint64_t)fen, script, form, again.bytes, sizeof again.bytes,
                                      &again.length);
        expect(status == CN_DONE && again.length == text.length
                   && memcmp(again.bytes, text.bytes, text.length) == 0,
               "the text of chinese_amount_print");
    }
}

/* The text of a year, and then that of 29 February, which the year may not have. */
static void try_leap_day(uint32_t year) {
    draft first, other, day = {.length = 0};
    cn_date read;
    uint32_t status = chinese_date_print(year, 1, 1, CN_SIMPLIFIED, first.bytes, sizeof first.bytes, &first.length);
    if (status != CN_DONE)
        return;
    status = chinese_date_print(2000, 2, 29, CN_SIMPLIFIED, other.bytes, sizeof other.bytes, &other.length);
    expect_printed(status, &other, CN_MOST_DATE_BYTES);
    add_bytes(&day, first.bytes, 3 * (size_t)snprintf(NULL, 0, "%u", (unsigned)year));
    add_bytes(&day, other.bytes + 12, other.length - 12);
    now.text = day.bytes;
    now.length = day.length;
    status = chinese_date_read(day.bytes, day.length, &read);
    expect(status == (uint32_t)(days_of(year, 2) == 29 ? CN_DONE : CN_INCORRECT), "29 February in leap years alone");
}

static void try_date(void) {
    uint32_t date[3];
    random_date(once_in(9) ? 9990 : 0, once_in(9) ? 20 : 9999, date);
    uint32_t year = date[0], month = date[1], day = date[2], status;
    int exists = year >= 1 && year <= 9999 && day >= 1 && day <= days_of(year, month);
    cn_date read;
    draft text;
    trying("chinese_date_print, then chinese_date_read", year * 100 + month, day);
    status = chinese_date_print(year, month, day, (uint32_t)below(2), text.bytes, sizeof text.bytes,
                                &text.length);
    try_leap_day(year);
    if (!exists) {
        expect(status == CN_NOT_A_DATE && text.length == 0, "no date");
        return;
    }
    expect_printed(status, &text, CN_MOST_DATE_BYTES);
    expect(chinese_date_read(text.bytes, text.length, &read) == CN_DONE && read.year == year
               && read.month == month && read.day == day,
           "the date that was printed");
}

/* ---- Texts whose meaning is known ---- */

static void try_figures(void) {
    uint64_t value = (uint64_t)random_whole(once_in(5) ? 63 : 59), decimals = below(3);
    int is_negative = once_in(2), is_percent = once_in(3);
    draft text = {.length = 0};
    whole fen = value * power_of_ten(2 - decimals);
    cn_signed_amount amount;
    cn_quantity read;
    add(&text, is_negative ? (once_in(2) ? "-" : "−") : "");
    add(&text, once_in(5) ? "¥" : "");
    add_figures(&text, value, decimals);
    trying("chinese_figures_read", value, decimals);
    now.text = text.bytes;
    now.length = text.length;
    uint32_t status = chinese_figures_read(text.bytes, text.length, &amount);
    expect(status == (uint32_t)(fen < power_of_ten(18) ? CN_DONE : CN_TOO_LARGE), "done or too large");
    expect(status != CN_DONE || amount.fen == (is_negative ? -(int64_t)fen : (int64_t)fen), "the fen");
    trying("chinese_quantity_read", value, decimals);
    add(&text, is_percent ? "%" : "");
    now.length = text.length;
    expect(chinese_quantity_read(text.bytes, text.length, CN_ANY, &read) == CN_DONE, "done");
    expect(joined(read.numerator) == (is_negative ? -(whole)value : value), "the numerator");
    expect(joined(read.denominator) == power_of_ten(decimals + 2 * (uint64_t)is_percent),
           "the denominator");
}

static void try_short_tens(void) {
    uint64_t value = 20 + below(20);
    draft text = {.length = 0};
    cn_quantity read;
    add(&text, value < 30 ? "廿" : "卅");
    if (value % 10 != 0)
        add_one_of(&text, same[value % 10]);
    trying("chinese_quantity_read", value, 0);
    now.text = text.bytes;
    now.length = text.length;
    expect(chinese_quantity_read(text.bytes, text.length, CN_ANY, &read) == CN_DONE
               && joined(read.numerator) == value && joined(read.denominator) == 1,
           "20 or 30 and the digit");
}

/* The one phrase that a text is; if it is none, its kind is that of an expression. */
static cn_phrase phrase_of(const draft *text) {
    cn_phrase found[2];
    size_t count;
    now.text = text->bytes;
    now.length = text->length;
    expect(chinese_phrase_find(text->bytes, text->length, 0, 0, CN_ZHAO, found, 2, &count) == CN_DONE,
           "done");
    expect(count == 1 && found->start == 0 && found->end == text->length, "one phrase, the whole text");
    return *found;
}

static void expect_phrase(const draft *text, cn_phrase_kind kind, int exists, const uint32_t *numbers) {
    static const uint32_t none[4] = {0};
    cn_phrase found = phrase_of(text);
    expect(found.kind == (uint32_t)kind, "a phrase of this kind");
    expect(found.state == (uint32_t)(exists ? CN_PHRASE_STATE_CERTAIN : CN_PHRASE_STATE_REFUSED),
           "certain if it exists, otherwise refused");
    expect(memcmp(&found.first, exists ? numbers : none, sizeof none) == 0, "its numbers");
}

static void try_date_in_text(void) {
    uint32_t date[4] = {0, 0, 0, 7};
    random_date(1000, 2000, date);
    draft text = {.length = 0};
    trying("chinese_phrase_find, a date", date[0] * 100 + date[1], date[2]);
    add_year(&text, date[0], once_in(2));
    add(&text, "年");
    add_slot(&text, date[1], "月");
    add_slot(&text, date[2], once_in(2) ? "日" : "号");
    expect_phrase(&text, CN_PHRASE_KIND_DATE, date[2] >= 1 && date[2] <= days_of(date[0], date[1]), date);
}

static void try_time_in_text(void) {
    uint32_t hour = (uint32_t)below(27), minute = (uint32_t)below(63), second = (uint32_t)below(63);
    int has_second = once_in(2), is_late = once_in(3) && hour >= 1 && hour <= 11;
    draft text = {.length = 0};
    minute = once_in(5) ? 0 : minute;
    second = !has_second || once_in(5) ? 0 : second;
    const uint32_t hour_of_24 = is_late ? hour + 12 : hour == 0 || hour > 12 ? hour : 255;
    const uint32_t numbers[] = {hour, minute, second, hour_of_24};
    trying("chinese_phrase_find, a time", hour * 100 + minute, second);
    add(&text, is_late ? "下午" : "");
    add_slot(&text, hour, "时");
    add_slot(&text, minute, "分");
    if (has_second)
        add_slot(&text, second, "秒");
    expect_phrase(&text, CN_PHRASE_KIND_TIME,
                  minute < 60 && second < 60 && hour * 3600 + minute * 60 + second <= 86400, numbers);
}

/* ---- Refusals, what may come next, and repairs ---- */

typedef struct place {
    uint32_t status;
    size_t char_index, byte_index;
} place;

#define PLACE_OF(type, call) \
    { \
        type read; \
        uint32_t status = call(text, length, &read); \
        return (place){status, read.char_index, read.byte_index}; \
    }

static place read_input(uint32_t input, const uint8_t *text, size_t length) {
    switch (input) {
    case CN_AMOUNT: PLACE_OF(cn_amount, chinese_amount_read)
    case CN_SIGNED_AMOUNT: PLACE_OF(cn_signed_amount, chinese_signed_amount_read)
    case CN_TYPED_AMOUNT: PLACE_OF(cn_amount, chinese_typed_amount_read)
    case CN_TYPED_SIGNED_AMOUNT: PLACE_OF(cn_signed_amount, chinese_typed_signed_amount_read)
    case CN_DATE: PLACE_OF(cn_date, chinese_date_read)
    default: PLACE_OF(cn_signed_amount, chinese_figures_read)
    }
}

static place read_with(uint32_t input, const draft *begun, uint32_t character) {
    draft longer = *begun;
    add_code_point(&longer, character);
    return read_input(input, longer.bytes, longer.length);
}

/* Each character that may come next goes on, and no other one does. */
static void expect_next(uint32_t input, const cn_expected *next, const draft *begun, uint32_t other) {
    int is_expected = 0;
    for (uint32_t at = 0; at < CN_MOST_EXPECTED; at++) {
        uint32_t character = next->characters[at];
        expect((character != 0) == (at < next->count), "as many characters as are counted");
        is_expected |= character == other;
        if (at < next->count)
            expect(read_with(input, begun, character).status != CN_INCORRECT,
                   "each character that may come next goes on");
    }
    if (is_expected || (next->white_space && (other == ' ' || other == '\t')))
        return;
    now.values[1] = other;
    place refused = read_with(input, begun, other);
    expect(refused.status == CN_INCORRECT && refused.byte_index == begun->length,
           "no other character goes on");
}

static void try_expected(uint32_t input, place read) {
    static const uint32_t others[] = {' ', '\t', 0x96F6, 0x5143, 0x89D2, 0x5206, 0x6574, 0x6B63, 0x58F9, 0x62FE,
                                      0x4EBF, 0x5E74, 0x6708, 0x65E5, '5', '.', ',', '-', 0x4E00, 0x8D1F};
    cn_expected next;
    draft begun = {.length = 0};
    trying("chinese_input_expected", input, 0);
    expect(chinese_input_expected(now.text, now.length, input, &next) == CN_DONE, "done");
    expect(next.byte_index == (read.status == CN_INCORRECT ? read.byte_index : now.length),
           "the place of the reader, or the whole text");
    expect(next.char_index == characters_of(now.text, next.byte_index), "as many characters");
    add_bytes(&begun, now.text, next.byte_index);
    place part = read_input(input, begun.bytes, begun.length);
    expect(part.status != CN_INCORRECT, "a text that begins the input");
    if (part.status == CN_TOO_LARGE)
        return;
    expect(next.may_end == (part.status == CN_DONE), "it may end if it is read");
    expect_next(input, &next, &begun, ONE_OF(others));
}

static void apply(const cn_repair *repair, draft *to) {
    draft whole_text = {.length = 0};
    add_bytes(&whole_text, now.text, now.length);
    size_t at = repair->byte_index, end = at;
    if (repair->change != CN_INSERT)
        end = byte_of(&whole_text, repair->char_index + 1);
    add_bytes(to, now.text, at);
    if (repair->change != CN_DELETE)
        add_code_point(to, repair->character);
    add_bytes(to, now.text + end, now.length - end);
}

/* Gives where the change is, or the wrong character if there is none. */
static size_t try_repair(uint32_t input, place read) {
    cn_repair repair;
    draft repaired = {.length = 0};
    trying("chinese_input_repair", input, 0);
    expect(chinese_input_repair(now.text, now.length, input, &repair) == CN_DONE, "done");
    expect(repair.change <= CN_DELETE && repair.byte_index <= now.length, "a change in the text");
    expect((repair.character != 0) == (repair.change == CN_INSERT || repair.change == CN_REPLACE),
           "a character to insert or in the place of another");
    expect(repair.change == CN_NO_CHANGE || read.status == CN_INCORRECT || read.status == CN_UNFINISHED,
           "no change of a text that is right");
    if (repair.change == CN_NO_CHANGE)
        return read.char_index;
    apply(&repair, &repaired);
    place again = read_input(input, repaired.bytes, repaired.length);
    if (read.status == CN_UNFINISHED)
        expect(again.status == CN_DONE, "the repaired text is read");
    else
        expect(again.status != CN_INCORRECT
                   || again.char_index + (repair.change == CN_DELETE) > read.char_index
                           + (repair.change == CN_INSERT),
               "the repaired text goes on past its wrong character");
    return repair.char_index;
}

/* Whether a message has a number, with no digit beside it. */
static int has_number(const draft *message, size_t number) {
    char wanted[24];
    size_t length = (size_t)snprintf(wanted, sizeof wanted, "%zu", number);
    for (size_t at = 0; at + length <= message->length; at++) {
        const uint8_t *found = message->bytes + at;
        int is_begun = at > 0 && found[-1] >= '0' && found[-1] <= '9';
        int goes_on = at + length < message->length && found[length] >= '0' && found[length] <= '9';
        if (memcmp(found, wanted, length) == 0 && !is_begun && !goes_on)
            return 1;
    }
    return 0;
}

static void expect_message(uint32_t status, const draft *message, place read) {
    expect(status == CN_DONE && message->length <= CN_MOST_MESSAGE_BYTES, "a message");
    expect((message->length == 0) == (read.status == CN_DONE), "no message for a text that is right");
}

static void expect_position(const draft *message, place read) {
    expect(read.status != CN_INCORRECT || has_number(message, read.char_index + 1),
           "the position of the wrong character, or of the repair");
}

static void try_input(void) {
    uint32_t input = (uint32_t)below(6), language = (uint32_t)below(3);
    place read = read_input(input, now.text, now.length);
    draft message;
    try_expected(input, read);
    read.char_index = try_repair(input, read);
    trying("chinese_input_message", input, language);
    uint32_t status = chinese_input_message(now.text, now.length, input, language, message.bytes,
                                            sizeof message.bytes, &message.length);
    expect_message(status, &message, read);
    expect_position(&message, read);
}

static void expect_fault(uint32_t status, uint32_t fault, place read) {
    uint32_t wanted = read.status == CN_DONE ? CN_NO_FAULT
        : read.status == CN_EMPTY            ? CN_FAULT_EMPTY
        : read.status == CN_TOO_LARGE        ? CN_FAULT_TOO_LARGE
                                             : CN_FAULT_TOO_SMALL;
    expect(status == CN_DONE, "done");
    expect(read.status == CN_INCORRECT ? fault >= CN_FAULT_START : fault == wanted,
           "the reason that belongs to the status of the reader");
}

static void try_reasons_of_number(void) {
    uint32_t kind = (uint32_t)below(10), way = (uint32_t)below(6), language = (uint32_t)below(3), fault;
    cn_reading of;
    draft message;
    place read = {chinese_number_read(now.text, now.length, kind, way, &of), of.char_index, of.byte_index};
    trying("chinese_number_explain", kind, way);
    uint32_t status = chinese_number_explain(now.text, now.length, kind, way, &fault);
    expect_fault(status, fault, read);
    expect(fault < CN_FAULT_BARE_TEN, "no reason of quantities alone");
    trying("chinese_number_message", kind, way);
    status = chinese_number_message(now.text, now.length, kind, way, language, message.bytes,
                                    sizeof message.bytes, &message.length);
    expect_message(status, &message, read);
    expect_position(&message, read);
}

static void try_reasons_of_quantity(void) {
    uint32_t method = CN_LOW + (uint32_t)below(5), language = (uint32_t)below(3), fault;
    cn_quantity of;
    draft message;
    place read = {chinese_quantity_read(now.text, now.length, method, &of), of.char_index, of.byte_index};
    trying("chinese_quantity_explain", method, 0);
    uint32_t status = chinese_quantity_explain(now.text, now.length, method, &fault);
    expect_fault(status, fault, read);
    trying("chinese_quantity_message", method, language);
    status = chinese_quantity_message(now.text, now.length, method, language, message.bytes,
                                      sizeof message.bytes, &message.length);
    expect_message(status, &message, read);
}

/* What a type of 128 bits reads, each type reads that holds it; CN_ANY reads as one of two ways. */
static void try_types(void) {
    uint32_t way = (uint32_t)below(6), status;
    draft text = {.length = 0};
    cn_reading read, by_digits, by_units;
    add_bytes(&text, now.text, now.length);
    for (uint32_t kind = CN_U128; kind <= CN_I128; kind += CN_I128 - CN_U128) {
        trying("chinese_number_read", kind, way);
        status = chinese_number_read(now.text, now.length, kind, way, &read);
        int is_negative = is_negative_of(kind, joined(read.number));
        for (uint32_t other = CN_U8; status == CN_DONE && other <= CN_I128; other++)
            if (kind == CN_U128 || is_negative)
                expect_number(&text, other, way, joined(read.number), is_negative);
        trying("chinese_number_read", kind, CN_ANY);
        (void)chinese_number_read(now.text, now.length, kind, CN_DIGITS, &by_digits);
        (void)chinese_number_read(now.text, now.length, kind, CN_TEN_THOUSAND, &by_units);
        (void)chinese_number_read(now.text, now.length, kind, CN_ANY, &read);
        expect(memcmp(&read, &by_digits, sizeof read) == 0 || memcmp(&read, &by_units, sizeof read) == 0,
               "as plain digits or as CN_TEN_THOUSAND");
    }
}

/* ---- What is found ---- */

/* The spans of a text, and how it is searched. */
typedef struct search {
    uint32_t upper, greatest;
    size_t count;
    cn_span spans[MOST_OF_DRAFT + 1];
} search;

/* Is one character that is no figure. */
static int is_one_character(const cn_span *span) {
    const uint8_t *first = now.text + span->start;
    int is_full_width = first[0] == 0xEF && first[1] == 0xBC && first[2] >= 0x90 && first[2] <= 0x99;
    return characters_of(first, span->end - span->start) == 1 && !(first[0] >= '0' && first[0] <= '9')
        && !is_full_width;
}

static int is_at_character(size_t at) {
    return at == now.length || (at < now.length && (now.text[at] & 0xC0) != 0x80);
}

static int is_same_span(cn_span one, cn_span other) {
    return one.start == other.start && one.end == other.end && one.flags == other.flags;
}

static void expect_spans(const search *of) {
    size_t end = 0;
    for (const cn_span *it = of->spans; it < of->spans + of->count; it++) {
        expect(it->start >= end && it->start < it->end && it->end <= now.length, "spans in order");
        expect(is_at_character(it->start) && is_at_character(it->end), "spans at characters");
        expect(((it->flags & CN_ONE_CHARACTER) != 0) == is_one_character(it), "the flag of one character");
        expect(it->flags / 16 <= CN_DOUBT_RANGE, "a reason");
        end = it->end;
    }
}

/* A search from the end of the last span on finds the same. */
static void try_in_parts(const search *of, finding *find, finding *trusting) {
    size_t from = 0, count, at = 0;
    do {
        size_t most = 1 + below(3);
        cn_span *spans = malloc(most * sizeof *spans);
        uint32_t status = (once_in(2) ? find : trusting)(now.text, now.length, from, of->upper, of->greatest,
                                                         spans, most, &count);
        expect(status == CN_DONE && count <= most && count <= of->count - at, "as many spans");
        expect(count == most || at + count == of->count, "all spans, if they are less than the most");
        for (size_t which = 0; which < count; which++, at++) {
            expect(is_same_span(spans[which], of->spans[at]), "the spans of the whole search");
            from = spans[which].end;
        }
        free(spans);
    } while (count > 0);
}

static void search_by(search *of, finding *find, finding *trusting) {
    uint32_t status = find(now.text, now.length, 0, of->upper, of->greatest, of->spans, MOST_OF_DRAFT + 1,
                           &of->count);
    expect(status == CN_DONE && of->count <= MOST_OF_DRAFT, "done");
    expect_spans(of);
    try_in_parts(of, find, trusting);
    size_t from = below(now.length + 3), count;
    cn_span span;
    status = find(now.text, now.length, from, of->upper, of->greatest, &span, 1, &count);
    expect(is_at_character(from) ? status == CN_DONE : status == CN_NOT_UTF8 && count == 0,
           "not UTF-8 if no character begins there");
    expect(count == 0 || span.start >= from, "a span after the start");
}

static void try_numbers_of(const search *of) {
    for (const cn_span *it = of->spans; it < of->spans + of->count; it++) {
        cn_reading read;
        uint32_t status = chinese_number_read(now.text + it->start, it->end - it->start, CN_U128, CN_DIGITS,
                                              &read);
        expect(status == CN_TOO_LARGE
                   || status == (uint32_t)((it->flags & CN_PLAIN_DIGITS) != 0 ? CN_DONE : CN_INCORRECT),
               "plain digits are read as such");
        expect(it->flags / 16 == CN_NO_DOUBT, "a number has no doubt");
    }
}

static void expect_range(const cn_phrase *it) {
    cn_quantity low, high;
    cn_status status = cn_read_range((const char *)now.text, it, &low, &high);
    expect(status == (it->state == CN_PHRASE_STATE_REFUSED ? CN_INCORRECT : CN_DONE),
           "the ends of a range that is not refused");
    expect(it->split > 0 && it->start + it->split < it->end && is_at_character(it->start + it->split),
           "a link in the range");
}

static void expect_money(const cn_phrase *it) {
    uint64_t fen = ((uint64_t)it->second << 32) + it->first;
    expect(it->third <= 1 && it->fourth == 0, "a sum with fen, or without");
    expect(it->third == 1 ? fen < 1000000000000000000 : fen == 0, "fen below 10^18, or no fen");
}

static void expect_numbers(const cn_phrase *it) {
    int has_numbers = (it->first | it->second | it->third | it->fourth) != 0;
    int is_date = it->kind == CN_PHRASE_KIND_DATE, has_month = (it->fourth & 2) != 0;
    if (it->kind == CN_PHRASE_KIND_EXPRESSION || it->kind == CN_PHRASE_KIND_RANGE
        || it->state == CN_PHRASE_STATE_REFUSED) {
        expect(!has_numbers, "no numbers");
        return;
    }
    if (is_date)
        expect(it->fourth >= 1 && it->fourth <= 7 && (!has_month || (it->second >= 1 && it->second <= 12))
                   && ((it->fourth & 4) == 0 || (it->third >= 1 && it->third <= 31)),
               "a date that exists");
    if (it->fourth == 7 && is_date && it->first >= 100)
        expect(it->third <= days_of(it->first, it->second), "a day that the month has");
    if (it->kind == CN_PHRASE_KIND_TIME)
        expect(it->first * 3600 + it->second * 60 + it->third <= 86400 && it->second < 60 && it->third < 60
                   && (it->fourth <= 24 || it->fourth == 255),
               "a time that exists");
    if (it->kind == CN_PHRASE_KIND_YEARS || it->kind == CN_PHRASE_KIND_MONTHS
        || it->kind == CN_PHRASE_KIND_DAYS)
        expect(it->first < it->second, "the second is greater");
    if (it->kind == CN_PHRASE_KIND_MONEY)
        expect_money(it);
}

/* Each expression is a phrase's or an item itself, but a sum ends in one in 三块八一斤; phrases are searched
 * in parts too. */
static void try_phrases(const search *expressions, search *items) {
    cn_phrase next = {0, 0, 0, 0, 0, 0, 0, 0, 0, 0};
    const char *text = (const char *)now.text;
    const cn_span *expression = expressions->spans, *end = expression + expressions->count;
    items->count = 0;
    while (cn_find_next_phrase(text, now.length, expressions->upper, expressions->greatest, &next)
           == CN_DONE) {
        expect(items->count < MOST_OF_DRAFT, "no more phrases than bytes");
        items->spans[items->count++] = cn_span_of(&next);
        expect(next.kind <= CN_PHRASE_KIND_MONEY && next.state <= CN_PHRASE_STATE_REFUSED, "a kind and a state");
        expect_numbers(&next);
        expect(next.kind == CN_PHRASE_KIND_RANGE || next.split == 0, "no link in other phrases");
        if (next.kind == CN_PHRASE_KIND_RANGE)
            expect_range(&next);
        if (next.kind == CN_PHRASE_KIND_EXPRESSION)
            expect(expression < end && is_same_span(*expression, cn_span_of(&next)), "the next expression");
        for (; expression < end && expression->start < next.end; expression++)
            expect(expression->end <= next.end || next.kind == CN_PHRASE_KIND_MONEY, "an expression in the phrase");
    }
    expect(expression == end, "all expressions");
}

static void try_phrases_at_once(const search *of) {
    cn_phrase *found = malloc((of->count + 1) * sizeof *found);
    size_t count;
    uint32_t status = chinese_phrase_find(now.text, now.length, 0, of->upper, of->greatest, found,
                                          of->count + 1, &count);
    expect(status == CN_DONE && count == of->count, "as many phrases at once");
    for (size_t at = 0; at < count; at++)
        expect(is_same_span(cn_span_of(found + at), of->spans[at]), "the same phrases at once");
    free(found);
}

/* What is between the spans stays, in this order. */
static void expect_rest(const search *of, const draft *written) {
    size_t from = 0, at = 0;
    for (size_t which = 0; which <= of->count; which++) {
        int is_last = which == of->count;
        size_t end = is_last ? now.length : of->spans[which].start, length = end - from;
        expect(length <= written->length - at, "the rest of the text");
        size_t last = written->length - length;
        if (is_last && which > 0)
            at = last;
        while (which > 0 && at < last && memcmp(written->bytes + at, now.text + from, length) != 0)
            at++;
        expect(memcmp(written->bytes + at, now.text + from, length) == 0, "the rest of the text");
        at += length;
        from = is_last ? end : of->spans[which].end;
    }
    expect(of->count > 0 || at == written->length, "the text itself");
}

static void try_in_figures(const search *of, const char *call, to_figures *write) {
    uint32_t options = (uint32_t)below(64) * CN_ABOUT, method = CN_LOW + (uint32_t)below(5);
    static draft written;
    trying(call, options, method);
    uint32_t status = write(now.text, now.length, of->upper, of->greatest, method, options, written.bytes,
                            sizeof written.bytes, &written.length);
    expect(status == CN_DONE, "done");
    expect_rest(of, &written);
}

static void try_found(void) {
    static search found, items;
    found.upper = items.upper = (uint32_t)below(2);
    found.greatest = items.greatest = once_in(2) ? CN_ZHAO : (uint32_t)below(16);
    trying("chinese_number_find", found.upper, found.greatest);
    search_by(&found, chinese_number_find, chinese_number_find_utf8);
    try_numbers_of(&found);
    trying("chinese_quantity_find", found.upper, found.greatest);
    search_by(&found, chinese_quantity_find, chinese_quantity_find_utf8);
    trying("chinese_phrase_find", found.upper, found.greatest);
    try_phrases(&found, &items);
    try_phrases_at_once(&items);
    try_in_figures(&found, "chinese_quantities_to_figures", chinese_quantities_to_figures);
    try_in_figures(&items, "chinese_text_to_figures", chinese_text_to_figures);
}

/* ---- Speech ---- */

/* Whether a figure, which may be full-width, is in a text. */
static int has_figure(const uint8_t *text, size_t length) {
    for (size_t at = 0; at < length; at++)
        if ((text[at] >= '0' && text[at] <= '9')
            || (length - at > 2 && text[at] == 0xEF && text[at + 1] == 0xBC && text[at + 2] >= 0x90 && text[at + 2] <= 0x99))
            return 1;
    return 0;
}

/* A text without figures is spoken as it is. Each part that is left has figures, and is after the one before. */
static void try_speech(void) {
    static draft spoken;
    uint8_t *meant = malloc(now.length + 1);
    uint32_t script = (uint32_t)below(2), options = (uint32_t)below(2);
    cn_span left[8];
    size_t count = 8, from = 0;
    trying("chinese_text_to_speech", script, options);
    uint32_t status = chinese_text_to_speech(now.text, now.length, 0, CN_ZHAO, CN_ANY, script, options, meant, now.length,
                                             spoken.bytes, sizeof spoken.bytes, &spoken.length);
    expect(status == CN_DONE && is_utf8(spoken.bytes, spoken.length), "a text in UTF-8");
    expect(has_figure(now.text, now.length)
               || (spoken.length == now.length && memcmp(spoken.bytes, now.text, now.length) == 0),
           "the text itself, which has no figures");
    trying("chinese_speech_left", script, options);
    for (size_t at; count == 8;) {
        status = chinese_speech_left(now.text, now.length, from, 0, CN_ZHAO, meant, now.length, left, 8, &count);
        expect(status == CN_DONE && count <= 8, "done");
        for (at = 0; at < count; from = left[at++].end)
            expect(left[at].start >= from && left[at].end > left[at].start && left[at].end <= now.length
                       && has_figure(now.text + left[at].start, left[at].end - left[at].start),
                   "figures after those before");
    }
    free(meant);
}

/* ---- Columns ---- */

static void *block(size_t bytes) { return memset(malloc(bytes), UNTOUCHED, bytes); }

static size_t least(size_t one, size_t other) { return one < other ? one : other; }

/* Each array has exactly its length. More than 16 rows are several pieces for the C source. */
static column new_column(void) {
    size_t rows = below(once_in(4) ? 40 : 9);
    column it = {.sort = below(SORTS), .first = once_in(9) ? SIZE_MAX - below(20) : below(20)};
    it.offsets_length = rows + below(4);
    it.values_length = rows + below(3);
    it.statuses_length = rows + below(3);
    it.bitmap_length = once_in(3) ? 0 : below(7);
    it.rows = least(it.values_length, it.statuses_length);
    it.rows = least(it.rows, it.offsets_length - (it.offsets_length != 0));
    it.offsets = block(it.offsets_length * sizeof *it.offsets);
    it.values = block(it.values_length * widths[it.sort]);
    it.statuses = block(it.statuses_length * sizeof *it.statuses);
    it.bitmap = block(it.bitmap_length);
    for (size_t at = 0; at < it.bitmap_length; at++)
        it.bitmap[at] = (uint8_t)(random_bits(8) | random_bits(8));
    return it;
}

static void free_column(column *it) {
    free(it->offsets);
    free(it->values);
    free(it->statuses);
    free(it->bitmap);
    free(it->room);
}

static int is_present(const column *it, size_t row) {
    size_t bit = it->first % 8 + row, byte = it->first / 8 + bit / 8;
    return byte >= it->bitmap_length || (it->bitmap[byte] >> bit % 8 & 1) == 1;
}

/* Nothing is written to an array from some value on. */
static void expect_rest_untouched(const void *array, size_t from, size_t length, size_t width) {
    const uint8_t *bytes = array;
    expect(from >= length || is_untouched(bytes + from * width, bytes + length * width),
           "nothing written beside the rows that are done");
}

/* ---- Columns that are printed ---- */

static void random_value(const column *it, size_t row) {
    cn_number number = halves(random_whole(once_in(3) ? 128 : 64) * (once_in(3) ? (whole)-1 : 1));
    uint32_t date[3];
    random_date(0, 10020, date);
    memcpy(it->values + row * widths[it->sort], it->sort == DATES ? (void *)date : (void *)&number,
           widths[it->sort]);
}

#define TO_TEXT text->bytes, sizeof text->bytes, &text->length

/* What the call for one value answers. A number of 64 bits has the sign of its type. */
static uint32_t print_row(const column *it, size_t row, draft *text) {
    const void *value = it->values + row * widths[it->sort];
    const uint64_t *number = value;
    const cn_day *day = value;
    const uint32_t *codes = it->codes;
    uint64_t high = 0;
    text->length = 0;
    if (!is_present(it, row))
        return CN_NONE;
    switch (it->sort) {
    case AMOUNTS: return chinese_signed_amount_print((int64_t)*number, codes[0], codes[1], TO_TEXT);
    case DATES: return chinese_date_print(day->year, day->month, day->day, codes[0], TO_TEXT);
    default:
        if (it->sort == WIDE_NUMBERS)
            high = number[1];
        else if (codes[0] >= CN_I8 && *number >> 63 != 0)
            high = UINT64_MAX;
        return chinese_number_print(*number, high, codes[0], codes[1], codes[2], codes[3], TO_TEXT);
    }
}

/* The rows that are done, up to one, and nothing else, are in the buffer. */
static void expect_printed_rows(const column *it, size_t to) {
    draft text;
    size_t start = it->room_length, end = start;
    if (it->rows != 0)
        start = end = least((size_t)it->offsets[it->base], it->room_length);
    for (size_t row = it->base; row < to; row++) {
        expect(it->statuses[row] == print_row(it, row, &text), "the status of one value");
        expect(it->offsets[row] == end && text.length <= it->room_length - end, "a text that fits");
        expect(memcmp(it->room + end, text.bytes, text.length) == 0, "the text of one value");
        end += text.length;
        expect(it->offsets[row + 1] == end, "the end of the text of one value");
    }
    expect_rest_untouched(it->room, 0, start, 1);
    expect_rest_untouched(it->room, end, it->room_length, 1);
    expect_rest_untouched(it->offsets, to + 1, it->offsets_length, sizeof *it->offsets);
    expect_rest_untouched(it->statuses, to, it->statuses_length, sizeof *it->statuses);
}

/* Makes another buffer for a row whose text does not fit: for the texts before it too, or for those
 * from this row on. */
static void change_room(column *it, size_t row) {
    draft text;
    (void)print_row(it, row, &text);
    expect(it->offsets[row] + text.length > it->room_length, "a text that does not fit");
    if (once_in(4)) {
        it->base = row;
        it->offsets[row] = below(9);
    }
    size_t kept = it->base == row ? 0 : (size_t)it->offsets[row];
    it->room_length = (size_t)it->offsets[row] + (once_in(3) ? 0 : text.length) + below(99);
    uint8_t *room = block(it->room_length);
    memcpy(room, it->room, kept);
    free(it->room);
    it->room = room;
}

static void try_print_column(void) {
    column it = new_column();
    const call *by = printing + it.sort;
    int all_named = random_codes(by, it.codes);
    size_t from = 0, done;
    uint32_t status;
    trying(by->name, it.codes[0], it.codes[1]);
    for (size_t row = 0; row < it.values_length; row++)
        random_value(&it, row);
    if (it.offsets_length != 0)
        it.offsets[0] = below(40);
    it.room_length = below(once_in(2) ? 60 : 900);
    it.room = block(it.room_length);
    while ((status = print_from(&it, from, &done)) == CN_NO_ROOM) {
        expect(done < it.rows - from, "a row that is not done");
        expect_printed_rows(&it, from += done);
        change_room(&it, from);
    }
    expect(status == (uint32_t)(all_named ? CN_DONE : CN_UNKNOWN), "unknown only for such a code");
    expect(done == (all_named ? it.rows - from : 0), "all rows, or none");
    expect_printed_rows(&it, from + done);
    free_column(&it);
}

/* ---- Columns that are read ---- */

/* What the call for one text answers; the value stays as it is where no text is read. */
static uint32_t read_row(const column *it, size_t row, void *value) {
    uint64_t start = it->offsets[row], end = it->offsets[row + 1];
    cn_reading number;
    cn_date date;
    uint32_t status;
    if (!is_present(it, row))
        return CN_NONE;
    if (start > end || end > it->room_length)
        return CN_NO_ROOM;
    const uint8_t *text = it->room + start;
    size_t length = (size_t)(end - start);
    if (it->sort == AMOUNTS)
        return read_amount_by(it->codes[0], text, length, value);
    if (it->sort == DATES) {
        status = chinese_date_read(text, length, &date);
        memcpy(value, &(cn_day){date.year, date.month, date.day}, sizeof(cn_day));
        return status;
    }
    status = chinese_number_read(text, length, it->codes[0], it->codes[1], &number);
    memcpy(value, &number.number, widths[it->sort]);
    return status;
}

/* Mostly a text that the call reads. */
static void add_row(draft *to, const column *it) {
    switch (once_in(4) ? SORTS : it->sort) {
    case NUMBERS:
    case WIDE_NUMBERS: add_number(to, random_whole(70), CN_U128, (uint32_t)below(6)); break;
    case AMOUNTS:
        if (it->codes[0] == CN_FIGURES)
            add_figures(to, random_bits((unsigned)below(50)), below(3));
        else
            add_amount(to);
        break;
    case DATES: add_date(to); break;
    default:
        if (once_in(2))
            add_text(to);
    }
}

/* Some columns have offsets that fall, or are beyond the texts. */
static void add_rows(draft *to, const column *it) {
    int are_wrong = once_in(3);
    for (size_t at = 0; at < it->offsets_length; at++) {
        it->offsets[at] = to->length;
        add_row(to, it);
    }
    for (size_t at = 0; are_wrong && at < it->offsets_length; at++)
        if (once_in(5))
            it->offsets[at] = once_in(3) ? random_bits(64) : below(to->length + 3);
}

static void try_read_column(void) {
    column it = new_column();
    const call *by = reading + it.sort;
    int all_named = random_codes(by, it.codes) && !(it.sort == AMOUNTS && it.codes[0] == CN_DATE);
    draft texts = {.length = 0};
    add_rows(&texts, &it);
    it.room = exact(&texts);
    it.room_length = texts.length;
    trying(by->name, it.codes[0], it.codes[1]);
    uint32_t status = read_column(&it);
    expect(status == (uint32_t)(all_named ? CN_DONE : CN_UNKNOWN), "unknown only for such a code");
    size_t rows = all_named ? it.rows : 0;
    for (size_t row = 0; row < rows; row++) {
        cn_number value = {0, 0};
        expect(it.statuses[row] == read_row(&it, row, &value), "the status of one text");
        expect(memcmp(it.values + row * widths[it.sort], &value, widths[it.sort]) == 0,
               "the value of one text");
    }
    expect_rest_untouched(it.values, rows, it.values_length, widths[it.sort]);
    expect_rest_untouched(it.statuses, rows, it.statuses_length, sizeof *it.statuses);
    free_column(&it);
}

static void try_column(void) { (once_in(2) ? try_print_column : try_read_column)(); }

/* ---- Cases ---- */

static void (*const known[])(void) = {try_number, try_quantity, try_figures_of_quantity, try_amount, try_date,
                                      try_figures, try_short_tens, try_date_in_text,
                                      try_time_in_text, try_column};
static void (*const of_texts[])(void) = {try_input, try_reasons_of_number, try_reasons_of_quantity, try_types,
                                         try_found, try_speech};

static void try_text(void) {
    draft text = {.length = 0};
    for (uint64_t count = 1 + below(3); count > 0; count--)
        add_text(&text);
    for (uint64_t count = once_in(2) ? 0 : 1 + below(2); count > 0; count--)
        edit(&text);
    add(&text, once_in(9) ? ONE_OF(broken) : "");
    add(&text, once_in(2) ? ONE_OF(parts) : "");
    text.length = text.length < MOST_OF_TEXT ? text.length : MOST_OF_TEXT;
    uint8_t *block = exact(&text);
    if (once_in(4) || !is_utf8(now.text, now.length))
        try_calls();
    for (size_t which = 0; which < LENGTH_OF(of_texts) && is_utf8(now.text, now.length); which++)
        of_texts[which]();
    trying("any of them", 0, 0);
    expect(memcmp(block, text.bytes, text.length) == 0, "an unchanged text");
    free(block);
}

static void try_case(void) {
    random_state = (now.seed << 32 ^ now.number) * UINT64_C(0x9E3779B97F4A7C15) + 1;
    next_random(&random_state);
    for (size_t which = 0; which < LENGTH_OF(known); which++) {
        now.text = NULL;
        now.length = 0;
        known[which]();
    }
    try_text();
}

int main(int argc, char **argv) {
    if (argc < 3 || argc > 4)
        return 2;
    now.seed = strtoull(argv[1], NULL, 10);
    now.number = argc == 4 ? strtoull(argv[3], NULL, 10) : 0;
    char *unit;
    unsigned long long limit = strtoull(argv[2], &unit, 10), first = now.number;
    time_t end = *unit == 's' ? time(NULL) + (time_t)limit : 0;
    uint8_t *told = malloc(sizeof(cn_expected));
    memset(told, UNTOUCHED, sizeof(cn_expected));
    now.task.told = (area){told, told + sizeof(cn_expected)};
    signal(SIGABRT, on_abort);
    trying("chinese_number_version", 0, 0);
    expect(chinese_number_version() == CN_VERSION_NUMBER, "the version of the header");
    for (; end != 0 ? time(NULL) < end : now.number - first < limit; now.number++)
        try_case();
    free(told);
    printf("seed %llu: %llu cases\n", now.seed, now.number - first);
    return 0;
}
