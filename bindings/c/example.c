/* Prints a number, a quantity, an amount and a date, reads them back, finds the numbers of a text,
 * rewrites it in figures, says why a text is refused, and causes each status. */
#include "chinese_number.h"

#include <stdio.h>
#include <string.h>

static int failed = 0;

static void expect(const char *what, int holds) {
    if (!holds) {
        failed++;
        printf("not as wanted: %s\n", what);
    }
}

static void first_steps(void) {
    char text[CN_MOST_BYTES + 1];
    cn_number number = cn_signed(-105000);
    cn_reading reading;
    cn_status status;
    status = cn_print(number, CN_I64, CN_ANY, CN_SIMPLIFIED, CN_LOWER, text, sizeof text);
    puts(status == CN_DONE ? text : cn_status_text(status)); /* 负十万五千 */
    if (cn_read(text, strlen(text), CN_I64, CN_ANY, &reading) == CN_DONE)
        printf("%lld\n", (long long)reading.number.low); /* -105000 */

    const char sentence[] = "百分之五十的人";
    cn_span span = {0, 0, 0};
    while (cn_find_next(sentence, strlen(sentence), 0, CN_ZHAO, &span) == CN_DONE)
        if (cn_read_found(sentence, &span, CN_I64, CN_TEN_THOUSAND, &reading) == CN_DONE)
            printf("%lld\n", (long long)reading.number.low); /* 50 */

    char capitals[CN_MOST_SIGNED_AMOUNT_BYTES + 1];
    cn_amount amount;
    if (cn_print_amount(140950, CN_SIMPLIFIED, CN_PLAIN, capitals, sizeof capitals) == CN_DONE)
        puts(capitals); /* 壹仟肆佰零玖元伍角整 */
    if (cn_read_amount(capitals, strlen(capitals), &amount) == CN_DONE)
        printf("%llu\n", (unsigned long long)amount.fen); /* 140950 */
    if (cn_print_signed_amount(-1500, CN_SIMPLIFIED, CN_PLAIN, capitals, sizeof capitals) == CN_DONE)
        puts(capitals); /* 负壹拾伍元整 */

    cn_date date;
    if (cn_print_date(2026, 1, 15, CN_SIMPLIFIED, capitals, sizeof capitals) == CN_DONE)
        puts(capitals); /* 贰零贰陆年零壹月壹拾伍日 */
    if (cn_read_date(capitals, strlen(capitals), &date) == CN_DONE)
        printf("%u-%02u-%02u\n", date.year, date.month, date.day); /* 2026-01-15 */

    const char phrases[] = "二零二六年一月五日下午三点半，三到五万元";
    char written[CN_MOST_QUANTITY_BYTES + 1];
    size_t length;
    cn_quantity quantity;
    if (cn_read_quantity("12.5%", 5, CN_TEN_THOUSAND, &quantity) == CN_DONE
        && cn_print_quantity(&quantity, CN_ANY, CN_SIMPLIFIED, CN_LOWER, written, sizeof written) == CN_DONE)
        puts(written); /* 百分之十二点五 */
    if (cn_text_to_figures(phrases, strlen(phrases), 0, CN_ZHAO, CN_TEN_THOUSAND, 0, written, sizeof written, &length)
        == CN_DONE)
        puts(written); /* 2026年1月5日下午3点半，3万到5万元 */
    cn_phrase phrase = {0, 0, 0, 0, 0, 0, 0, 0, 0, 0};
    while (cn_find_next_phrase(phrases, strlen(phrases), 0, CN_ZHAO, &phrase) == CN_DONE)
        if (phrase.kind == CN_PHRASE_KIND_TIME && phrase.state != CN_PHRASE_STATE_REFUSED)
            printf("%u:%02u\n", phrase.fourth, phrase.second); /* 15:30 */
}

/* Says what is wrong with a text that somebody typed, and repairs it. */
static void a_refused_text(void) {
    const char typed[] = "壹佰贰元整";
    char message[CN_MOST_MESSAGE_BYTES + 1];
    cn_repair repair;
    if (cn_input_message(typed, strlen(typed), CN_AMOUNT, CN_SIMPLIFIED_CHINESE, message, sizeof message) == CN_DONE)
        puts(message); /* 第3个字“贰”前缺“零”。 */
    if (cn_input_repair(typed, strlen(typed), CN_AMOUNT, &repair) == CN_DONE && repair.change == CN_INSERT)
        printf("U+%04X at %u\n", repair.character, (unsigned)repair.char_index); /* U+96F6 at 2, which is 零 */
}

/* Finds each number of a text. */
static void numbers_of_a_text(void) {
    const char text[] = "第二十三回，二零二五年";
    uint64_t numbers[2] = {0, 0};
    size_t count = 0;
    cn_span span = {0, 0, 0};
    cn_reading reading;
    while (cn_find_next(text, strlen(text), 0, CN_ZHAO, &span) == CN_DONE && count < 2)
        if (cn_read_found(text, &span, CN_U64, CN_TEN_THOUSAND, &reading) == CN_DONE)
            numbers[count++] = reading.number.low;
    expect("all numbers are found", count == 2 && numbers[0] == 23 && numbers[1] == 2025 && span.end == 0);
}

/* The buffer that a call prints to, and its contents before the call. */
static uint8_t printed[CN_MOST_MESSAGE_BYTES], untouched[CN_MOST_MESSAGE_BYTES];

static uint8_t *fresh_room(void) {
    memset(printed, 7, sizeof printed);
    memset(untouched, 7, sizeof untouched);
    return printed;
}

/* Checks that the result has this status and this length, and at CN_DONE this text, and that
 * nothing else was written. */
static void is_printed(const char *text, uint32_t found, size_t length, uint32_t status, size_t wanted) {
    size_t written = status == CN_DONE ? wanted : 0;
    expect(text, found == status && length == wanted && memcmp(printed, text, written) == 0
                     && memcmp(printed + written, untouched, sizeof printed - written) == 0);
}

/* Finds at most two numbers of a text from a byte on, and checks the status and the place of the last. */
static void finds(const char *text, size_t from, uint32_t upper, uint32_t greatest, uint32_t status, size_t count,
                  size_t start, size_t end, uint32_t flags) {
    cn_span spans[3] = {{0, 0, 0}, {0, 0, 0}, {0, 0, 0}};
    const cn_span *last = count == 0 ? spans : spans + count - 1;
    size_t found = 7;
    expect(text, chinese_number_find((const uint8_t *)text, strlen(text), from, upper, greatest, spans, 2, &found) == status
                     && found == count && last->start == start && last->end == end && last->flags == flags
                     && spans[count].end == 0);
}

static void each_status_of_finding(void) {
    const uint32_t one = CN_PLAIN_DIGITS | CN_STANDS_ALONE | CN_ONE_CHARACTER;
    finds("他五六十歲", 0, 0, CN_ZHAO, CN_DONE, 1, 3, 12, CN_STANDS_ALONE | CN_ABOUT);
    finds("買2兩", 0, 0, CN_ZHAO, CN_DONE, 2, 4, 7, CN_PLAIN_DIGITS | CN_ONE_CHARACTER);
    finds("一，二，三", 0, 0, CN_ZHAO, CN_DONE, 2, 6, 9, one);
    finds("一，二，三", 9, 0, CN_ZHAO, CN_DONE, 1, 12, 15, one);
    finds("一，二，三", 15, 0, CN_ZHAO, CN_DONE, 0, 0, 0, 0);
    finds("大陸", 0, 1, CN_ZHAO, CN_DONE, 1, 3, 6, one);
    finds("大陸", 0, 0, CN_ZHAO, CN_DONE, 0, 0, 0, 0);
    finds("", 0, 1, CN_JI, CN_DONE, 0, 0, 0, 0);
    finds("\xff", 0, 0, CN_GE, CN_NOT_UTF8, 0, 0, 0, 0);
    finds("一", 1, 0, CN_ZHAO, CN_NOT_UTF8, 0, 0, 0, 0);
    finds("一", 4, 0, CN_ZHAO, CN_NOT_UTF8, 0, 0, 0, 0);
    finds("一", 0, 2, CN_ZHAO, CN_UNKNOWN, 0, 0, 0, 0);
    finds("一", 0, 0, CN_JI + 1, CN_UNKNOWN, 0, 0, 0, 0);
}

/* Reads a text as a quantity, and checks its status, numbers, form and place. */
static void is_quantity(const char *text, uint32_t method, uint32_t status, int64_t numerator, uint64_t denominator,
                        uint32_t form, size_t char_index, size_t byte_index) {
    const cn_number above = cn_signed(numerator);
    cn_quantity quantity;
    expect(text, chinese_quantity_read((const uint8_t *)text, strlen(text), method, &quantity) == status
                     && quantity.numerator.low == above.low && quantity.numerator.high == above.high
                     && quantity.denominator.low == denominator && quantity.denominator.high == 0
                     && quantity.form == form && quantity.char_index == char_index && quantity.byte_index == byte_index);
}

static void each_status_of_quantities(void) {
    is_quantity("3.5万", CN_TEN_THOUSAND, CN_DONE, 350000, 10, CN_DECIMAL, 0, 0);
    is_quantity("2.5亿", CN_LOW, CN_DONE, 2500000, 10, CN_DECIMAL, 0, 0);
    is_quantity("负12.5%", CN_HIGH, CN_DONE, -125, 1000, CN_PERCENT, 0, 0);
    is_quantity("三分之一", CN_TEN_THOUSAND, CN_DONE, 1, 3, CN_FRACTION, 0, 0);
    is_quantity("廿三", CN_TEN_THOUSAND, CN_DONE, 23, 1, CN_WHOLE, 0, 0);
    is_quantity("", CN_TEN_THOUSAND, CN_EMPTY, 0, 0, 0, 0, 0);
    is_quantity("三分之负一", CN_TEN_THOUSAND, CN_DONE, -1, 3, CN_FRACTION, 0, 0);
    is_quantity("负三分之负一", CN_TEN_THOUSAND, CN_INCORRECT, 0, 0, 0, 4, 12);
    is_quantity("0极", CN_TEN_THOUSAND, CN_TOO_LARGE, 0, 0, 0, 0, 0);
    is_quantity("-0极", CN_TEN_THOUSAND, CN_TOO_SMALL, 0, 0, 0, 0, 0);
    is_quantity("\xff", CN_TEN_THOUSAND, CN_NOT_UTF8, 0, 0, 0, 0, 0);
    is_quantity("一", CN_DIGITS, CN_UNKNOWN, 0, 0, 0, 0, 0);
    is_quantity("一万亿点五", CN_ANY, CN_DONE, UINT64_C(10000000000005), 10, CN_DECIMAL, 0, 0);
    is_quantity("一", CN_ANY + 1, CN_UNKNOWN, 0, 0, 0, 0, 0);
}

/* Prints a quantity into a buffer of this length, and checks the status, the length and the text. */
static void prints_quantity(cn_quantity quantity, uint32_t method, uint32_t script, uint32_t letter_case, size_t room_length,
                            uint32_t status, size_t wanted, const char *text) {
    size_t length;
    uint32_t found = chinese_quantity_print(&quantity, method, script, letter_case, fresh_room(), room_length, &length);
    is_printed(text, found, length, status, wanted);
}

/* Prints a quantity in figures, likewise. */
static void prints_figures(cn_quantity quantity, size_t room_length, uint32_t status, size_t wanted, const char *text) {
    size_t length;
    uint32_t found = chinese_quantity_figures(&quantity, fresh_room(), room_length, &length);
    is_printed(text, found, length, status, wanted);
}

static void each_status_of_printing_quantities(void) {
    const uint32_t ten_thousand = CN_TEN_THOUSAND, simple = CN_SIMPLIFIED, lower = CN_LOWER;
    const size_t most = CN_MOST_QUANTITY_BYTES;
    const cn_quantity decimal = {{314, 0}, {100, 0}, CN_DECIMAL, 5, 7}, over_zero = {{1, 0}, {0, 0}, CN_FRACTION, 0, 0};
    const cn_quantity no_form = {{1, 0}, {1, 0}, CN_FRACTION + 1, 0, 0}, large = {{1, 0}, {0, 1}, CN_FRACTION, 0, 0};
    const cn_quantity trillions = {{UINT64_C(10000000000005), 0}, {10, 0}, CN_DECIMAL, 0, 0};
    const cn_quantity small = {{UINT64_MAX, UINT64_MAX}, {0, 1}, CN_FRACTION, 0, 0};
    const cn_quantity least = {{0, UINT64_C(1) << 63}, {UINT64_MAX, UINT64_MAX}, CN_FRACTION, 0, 0};
    prints_quantity(decimal, ten_thousand, simple, lower, 12, CN_DONE, 12, "三点一四");
    prints_quantity(decimal, ten_thousand, simple, lower, 11, CN_NO_ROOM, 12, "a room that is a byte too small");
    prints_quantity(decimal, ten_thousand, simple, lower, 0, CN_NO_ROOM, 12, "a room without a byte");
    prints_quantity(large, CN_LOW, simple, lower, most, CN_TOO_LARGE, 0, "a divisor too large for the method");
    prints_quantity(small, CN_LOW, simple, lower, most, CN_TOO_SMALL, 0, "the same below 0");
    prints_quantity(over_zero, ten_thousand, simple, lower, most, CN_NOT_A_QUANTITY, 0, "a quantity over 0");
    prints_quantity(over_zero, CN_DIGITS, simple, lower, most, CN_UNKNOWN, 0, "a way that is not a method");
    prints_quantity(trillions, CN_ANY, simple, lower, most, CN_DONE, 15, "一万亿点五");
    prints_quantity(trillions, CN_ANY, CN_TRADITIONAL, lower, most, CN_DONE, 12, "一兆點五");
    prints_quantity(over_zero, CN_ANY, simple, lower, most, CN_NOT_A_QUANTITY, 0, "a quantity over 0 by any way");
    prints_quantity(decimal, CN_ANY + 1, simple, lower, most, CN_UNKNOWN, 0, "an unknown way of a quantity");
    prints_quantity(over_zero, ten_thousand, simple + 1, lower, most, CN_UNKNOWN, 0, "an unknown script");
    prints_quantity(over_zero, ten_thousand, simple, lower + 1, most, CN_UNKNOWN, 0, "an unknown case");
    prints_quantity(no_form, ten_thousand, simple, lower, most, CN_UNKNOWN, 0, "an unknown form");
    prints_figures(decimal, 4, CN_DONE, 4, "3.14");
    prints_figures(decimal, 3, CN_NO_ROOM, 4, "a room too small for figures");
    prints_figures(over_zero, 3, CN_DONE, 3, "1/0");
    prints_figures(no_form, CN_MOST_FIGURES_BYTES, CN_UNKNOWN, 0, "an unknown form in figures");
    prints_figures(least, CN_MOST_FIGURES_BYTES, CN_DONE, CN_MOST_FIGURES_BYTES,
                   "-170141183460469231731687303715884105728/340282366920938463463374607431768211455");
}

typedef uint32_t to_figures(const uint8_t *, size_t, uint32_t, uint32_t, uint32_t, uint32_t, uint8_t *, size_t, size_t *);

/* Rewrites a text in a buffer of this length, and checks the status, the length and the new text. */
static void rewrites(to_figures *write, const char *text, uint32_t method, uint32_t options, size_t room_length,
                     uint32_t status, size_t wanted, const char *new_text) {
    size_t length;
    uint32_t found = write((const uint8_t *)text, strlen(text), 0, CN_ZHAO, method, options, fresh_room(), room_length, &length);
    expect(new_text, found == status && length == wanted && (found != CN_DONE || memcmp(printed, new_text, wanted) == 0));
}

/* Replaces the quantities of a text likewise. */
static void replaces(const char *text, uint32_t method, uint32_t options, size_t room_length, uint32_t status, size_t wanted,
                     const char *new_text) {
    rewrites(chinese_quantities_to_figures, text, method, options, room_length, status, wanted, new_text);
}

static void each_status_of_replacing(void) {
    const uint32_t both = CN_ABOUT | CN_ONE_CHARACTER, each = both | CN_DOUBTFUL | CN_EXPANDED | CN_CANONICAL;
    replaces("共三万五千元", CN_TEN_THOUSAND, 0, 11, CN_DONE, 11, "共35000元");
    replaces("共三万五千元", CN_TEN_THOUSAND, 0, 10, CN_NO_ROOM, 11, "a room that is a byte too small");
    replaces("共三万五千元", CN_TEN_THOUSAND, 0, 0, CN_NO_ROOM, 11, "a room without a byte");
    replaces("共3.5万元", CN_TEN_THOUSAND, 0, 64, CN_DONE, 12, "共3.5万元");
    replaces("共3.5万元", CN_TEN_THOUSAND, CN_EXPANDED, 64, CN_DONE, 11, "共35000元");
    replaces("一亿", CN_LOW, 0, 64, CN_DONE, 4, "1亿");
    replaces("一亿", CN_LOW, CN_EXPANDED, 64, CN_DONE, 6, "100000");
    replaces("一百亿", CN_TEN_THOUSAND, CN_EXPANDED, 9, CN_NO_ROOM, 11, "a room as long as the text");
    replaces("1,280", CN_TEN_THOUSAND, CN_CANONICAL, 64, CN_DONE, 4, "1280");
    replaces("十几，一般", CN_TEN_THOUSAND, both, 64, CN_DONE, 12, "10几，1般");
    replaces("五一", CN_TEN_THOUSAND, CN_DOUBTFUL, 64, CN_DONE, 2, "51");
    replaces("八五折", CN_TEN_THOUSAND, each, 64, CN_DONE, 9, "八五折");
    replaces("", CN_TEN_THOUSAND, 0, 0, CN_DONE, 0, "");
    replaces("\xff", CN_TEN_THOUSAND, 0, 64, CN_NOT_UTF8, 0, "no UTF-8");
    replaces("一", CN_DIGITS, 0, 64, CN_UNKNOWN, 0, "a way that is not a method");
    replaces("一", CN_TEN_THOUSAND, each | CN_STANDS_ALONE, 64, CN_UNKNOWN, 0, "a flag that is not an option");
    replaces("一", CN_TEN_THOUSAND, CN_CODES * 2, 64, CN_UNKNOWN, 0, "an unknown option");
    replaces("共三万五千元", CN_TEN_THOUSAND, CN_COMPACT | CN_CODES, 11, CN_DONE, 11, "共35000元");
    replaces("一", CN_TEN_THOUSAND, UINT32_MAX, 64, CN_UNKNOWN, 0, "all bits of the options");
}

static void writes(const char *text, uint32_t method, uint32_t options, size_t room_length, uint32_t status, size_t wanted,
                   const char *new_text) {
    rewrites(chinese_text_to_figures, text, method, options, room_length, status, wanted, new_text);
}

/* A text as it is spoken, with buffers of these lengths. */
static void speaks(const char *text, uint32_t options, size_t meant_length, size_t room_length, uint32_t status,
                   size_t length, const char *new_text) {
    uint8_t meant[64], room[64];
    size_t told = 9;
    uint32_t got = chinese_text_to_speech((const uint8_t *)text, strlen(text), 0, CN_ZHAO, CN_ANY, CN_SIMPLIFIED, options,
                                          meant, meant_length, room, room_length, &told);
    expect(new_text, got == status && told == length && (got != CN_DONE || memcmp(room, new_text, told) == 0));
}

static void each_status_of_speech(void) {
    uint8_t meant[4];
    cn_span span = {7, 8, 9};
    size_t count = 9;
    speaks("3天", 0, 4, 6, CN_DONE, 6, "三天");
    speaks("3天", 0, 4, 5, CN_NO_ROOM, 6, "too small for a text as it is spoken");
    speaks("3天", 0, 3, 6, CN_NO_ROOM, 0, "too small to work in");
    speaks("打110", 0, 6, 12, CN_DONE, 12, "打一一零");
    speaks("打110", CN_YAO, 6, 12, CN_DONE, 12, "打幺幺零");
    speaks("3天", CN_YAO + 1, 4, 6, CN_UNKNOWN, 0, "an unknown option for speech");
    speaks("\xff", 0, 4, 6, CN_NOT_UTF8, 0, "no text to be spoken");
    expect("what is left", chinese_speech_left((const uint8_t *)"x86", 3, 0, 0, CN_ZHAO, meant, 3, &span, 1, &count) == CN_DONE
           && count == 1 && span.start == 1 && span.end == 3);
    expect("no place", chinese_speech_left((const uint8_t *)"x86", 3, 4, 0, CN_ZHAO, meant, 3, &span, 1, &count) == CN_NOT_UTF8
           && count == 0);
    expect("no room to work in", chinese_speech_left((const uint8_t *)"x86", 3, 0, 0, CN_ZHAO, meant, 2, &span, 1, &count)
           == CN_NO_ROOM && count == 0);
    expect("no greatest unit", chinese_speech_left((const uint8_t *)"x86", 3, 0, 0, CN_JI + 1, meant, 3, &span, 1, &count)
           == CN_UNKNOWN && count == 0);
}

static void each_status_of_texts_in_figures(void) {
    writes("三到五万元", CN_TEN_THOUSAND, 0, 14, CN_DONE, 14, "3万到5万元");
    writes("三到五万元", CN_TEN_THOUSAND, 0, 13, CN_NO_ROOM, 14, "a room that is a byte too small");
    writes("三到五万元", CN_TEN_THOUSAND, 0, 0, CN_NO_ROOM, 14, "a room without a byte");
    writes("二月三十日", CN_TEN_THOUSAND, 0, 64, CN_DONE, 15, "二月三十日");
    writes("一个半小时", CN_TEN_THOUSAND, 0, 64, CN_DONE, 15, "一个半小时");
    writes("一个半小时", CN_TEN_THOUSAND, CN_ONE_CHARACTER, 64, CN_DONE, 13, "1个半小时");
    writes("一个半小时", CN_TEN_THOUSAND, CN_COMPACT, 9, CN_DONE, 9, "1.5小时");
    writes("二零二六年一月五日十五时", CN_TEN_THOUSAND, CN_COMPACT, 16, CN_DONE, 16, "2026-01-05 15:00");
    writes("二零二六年一月五日十五时", CN_TEN_THOUSAND, CN_COMPACT, 15, CN_NO_ROOM, 16, "too small for a blank");
    writes("打幺幺零", CN_TEN_THOUSAND, CN_CODES, 6, CN_DONE, 6, "打110");
    writes("打幺幺零", CN_TEN_THOUSAND, 0, 12, CN_DONE, 12, "打幺幺零");
    writes("", CN_TEN_THOUSAND, 0, 0, CN_DONE, 0, "");
    writes("\xff", CN_TEN_THOUSAND, 0, 64, CN_NOT_UTF8, 0, "no UTF-8");
    writes("一", CN_DIGITS, 0, 64, CN_UNKNOWN, 0, "a way that is not a method");
    writes("一", CN_TEN_THOUSAND, CN_STANDS_ALONE, 64, CN_UNKNOWN, 0, "a flag that is not an option");
}

/* Finds at most one item of a text from a byte on, and checks the status, its place and its kind. */
static void finds_phrase(const char *text, size_t from, uint32_t upper, uint32_t greatest, uint32_t status, size_t count,
                         size_t start, size_t end, uint32_t kind) {
    cn_phrase phrase = {0, 0, 0, 0, 0, 0, 0, 0, 0, 0};
    size_t found = 7;
    expect(text, chinese_phrase_find((const uint8_t *)text, strlen(text), from, upper, greatest, &phrase, 1, &found) == status
                     && found == count && phrase.start == start && phrase.end == end && phrase.kind == kind);
}

static void each_status_of_finding_phrases(void) {
    finds_phrase("共三到五万元", 0, 0, CN_ZHAO, CN_DONE, 1, 3, 15, CN_PHRASE_KIND_RANGE);
    finds_phrase("共三万人", 0, 0, CN_ZHAO, CN_DONE, 1, 3, 9, CN_PHRASE_KIND_EXPRESSION);
    finds_phrase("共三万元", 0, 0, CN_ZHAO, CN_DONE, 1, 3, 12, CN_PHRASE_KIND_MONEY);
    finds_phrase("二十人，一月五日", 12, 0, CN_ZHAO, CN_DONE, 1, 12, 24, CN_PHRASE_KIND_DATE);
    finds_phrase("共三万元", 12, 0, CN_ZHAO, CN_DONE, 0, 0, 0, 0);
    finds_phrase("\xff", 0, 0, CN_ZHAO, CN_NOT_UTF8, 0, 0, 0, 0);
    finds_phrase("一", 1, 0, CN_ZHAO, CN_NOT_UTF8, 0, 0, 0, 0);
    finds_phrase("一", 0, 2, CN_ZHAO, CN_UNKNOWN, 0, 0, 0, 0);
    finds_phrase("一", 0, 0, CN_JI + 1, CN_UNKNOWN, 0, 0, 0, 0);
}

/* Reads the ends of a range, and checks the status, and their numerators and denominators. */
static void reads_range(const char *first, const char *second, uint32_t status, uint64_t low, uint64_t high, uint64_t divisor) {
    cn_quantity ends[2];
    expect(first, chinese_range_read((const uint8_t *)first, strlen(first), (const uint8_t *)second, strlen(second), ends, ends + 1)
                          == status
                      && ends[0].numerator.low == low && ends[1].numerator.low == high
                      && ends[0].denominator.low == divisor && ends[1].denominator.low == divisor);
}

static void each_status_of_ranges(void) {
    reads_range("三", "五万", CN_DONE, 30000, 50000, 1);
    reads_range("3", "5%", CN_DONE, 3, 5, 100);
    reads_range("五", "三", CN_INCORRECT, 0, 0, 0);
    reads_range("五", "", CN_INCORRECT, 0, 0, 0);
    reads_range("", "", CN_INCORRECT, 0, 0, 0);
    reads_range("\xff", "五", CN_NOT_UTF8, 0, 0, 0);
    reads_range("三", "\xff", CN_NOT_UTF8, 0, 0, 0);
}

/* Whether a phrase has this kind, and these numbers. */
static int is_phrase(const cn_phrase *phrase, uint32_t kind, uint32_t first, uint32_t second, uint32_t third, uint32_t fourth) {
    return phrase->kind == kind && phrase->first == first && phrase->second == second && phrase->third == third
        && phrase->fourth == fourth;
}

/* Finds each phrase of a text, and the expression that is in none. */
static void phrases_of_a_text(void) {
    const char text[] = "二十人，二零二六年一月五日下午三点半，三~五万元，二月三十日";
    const cn_phrase none = {0, 0, 0, 0, 0, 0, 0, 0, 0, 0};
    cn_phrase found[5] = {none, none, none, none, none}, next = none;
    cn_quantity low, high;
    cn_span span;
    size_t count = 0;
    while (cn_find_next_phrase(text, strlen(text), 0, CN_ZHAO, &next) == CN_DONE && count < 5)
        found[count++] = next;
    expect("all phrases are found", count == 5 && next.end == 0);
    span = cn_span_of(found);
    expect("an expression", is_phrase(found, CN_PHRASE_KIND_EXPRESSION, 0, 0, 0, 0) && span.start == 0 && span.end == 6
                                && span.flags == CN_STANDS_ALONE && cn_doubt_of(&span) == CN_NO_DOUBT);
    expect("a date", is_phrase(found + 1, CN_PHRASE_KIND_DATE, 2026, 1, 5, 7) && found[1].state == CN_PHRASE_STATE_CERTAIN);
    expect("a time", is_phrase(found + 2, CN_PHRASE_KIND_TIME, 3, 30, 0, 15));
    expect("a range", is_phrase(found + 3, CN_PHRASE_KIND_RANGE, 0, 0, 0, 0) && found[3].split == 3);
    expect("its ends", cn_read_range(text, found + 3, &low, &high) == CN_DONE && low.numerator.low == 30000
                           && high.numerator.low == 50000);
    expect("no such day", is_phrase(found + 4, CN_PHRASE_KIND_DATE, 0, 0, 0, 0) && found[4].state == CN_PHRASE_STATE_REFUSED);
    expect("no range", cn_read_range(text, found + 4, &low, &high) == CN_INCORRECT && low.denominator.low == 0);
}

/* Finds each expression of a text. */
static void quantities_of_a_text(void) {
    const char text[] = "增长12.5%，共3.5万人";
    size_t count = 0;
    cn_span span = {0, 0, 0};
    cn_quantity found[2] = {{{0, 0}, {0, 0}, 0, 0, 0}, {{0, 0}, {0, 0}, 0, 0, 0}};
    while (cn_find_next_quantity(text, strlen(text), 0, CN_ZHAO, &span) == CN_DONE && count < 2)
        if (cn_read_quantity(text + span.start, span.end - span.start, CN_TEN_THOUSAND, found + count) == CN_DONE)
            count++;
    expect("all expressions are found", count == 2 && found[0].form == CN_PERCENT && found[0].numerator.low == 125
                                            && found[1].numerator.low == 350000 && found[1].denominator.low == 10);
}

/* Finds one expression at a time, from a byte on. */
static void expressions_from_a_place(void) {
    const uint8_t text[] = "共-3.5万，占12.5%";
    const size_t text_length = sizeof text - 1;
    size_t count;
    cn_span span = {0, 0, 0};
    uint32_t found = chinese_quantity_find(text, text_length, 0, 0, CN_ZHAO, &span, 1, &count);
    expect("the first expression", found == CN_DONE && count == 1 && span.start == 3 && span.end == 10
                                       && (span.flags & 15) == CN_STANDS_ALONE && cn_doubt_of(&span) == CN_NO_DOUBT);
    found = chinese_quantity_find_utf8(text, text_length, span.end, 0, CN_ZHAO, &span, 1, &count);
    expect("the expression after it", found == CN_DONE && count == 1 && span.start == 16 && span.end == 21);
}

/* A doubt is in the bits above the flags of an expression, and a number has none. */
static void doubts(void) {
    const char text[] = "五一";
    const size_t text_length = sizeof text - 1;
    const uint32_t flags = CN_PLAIN_DIGITS | CN_STANDS_ALONE;
    cn_span span = {0, 0, 0};
    cn_status status = cn_find_next_quantity(text, text_length, 0, CN_ZHAO, &span);
    expect("a doubtful expression", status == CN_DONE && cn_doubt_of(&span) == CN_DOUBT_DIGITS && span.flags % 16 == flags);
    span.start = span.end = 0;
    status = cn_find_next(text, text_length, 0, CN_ZHAO, &span);
    expect("a number without doubt", status == CN_DONE && cn_doubt_of(&span) == CN_NO_DOUBT && span.flags == flags);
    expect("no doubt of nothing", cn_find_next(text, text_length, 0, CN_ZHAO, &span) == CN_NONE && cn_doubt_of(&span) == CN_NO_DOUBT);
}

/* A run that is not plain is read with units, so 正 is one. */
static void found_by_units(void) {
    const char text[] = "正33";
    cn_span span = {0, 0, 0};
    cn_reading reading;
    cn_status status = cn_find_next(text, strlen(text), 1, CN_JI, &span);
    expect("a unit before", status == CN_DONE && span.start == 0 && span.end == 5);
    status = cn_read_found(text, &span, CN_I64, CN_ANY, &reading);
    expect("refused by units", status == CN_INCORRECT && reading.char_index == 1);
}

/* Reads a text, and checks its status, number and place. */
static void reads(const char *text, uint32_t kind, uint32_t way, uint32_t status, cn_number number, size_t char_index,
                  size_t byte_index) {
    cn_reading reading;
    expect(text, chinese_number_read((const uint8_t *)text, strlen(text), kind, way, &reading) == status
                     && reading.number.low == number.low && reading.number.high == number.high
                     && reading.char_index == char_index && reading.byte_index == byte_index);
}

static void each_status_of_reading(void) {
    cn_number none = cn_unsigned(0);
    cn_reading reading;
    reads("十萬五", CN_USIZE, CN_TEN_THOUSAND, CN_DONE, cn_unsigned(105000), 0, 0);
    reads("負一百二十八", CN_I8, CN_LOW, CN_DONE, cn_signed(-128), 0, 0);
    reads("", CN_I8, CN_LOW, CN_EMPTY, none, 0, 0);
    reads(" 負 ", CN_ISIZE, CN_DIGITS, CN_EMPTY, none, 0, 0);
    reads(" 二 十 十 ", CN_U128, CN_TEN_THOUSAND, CN_INCORRECT, none, 3, 5);
    reads("二百五十六", CN_U8, CN_LOW, CN_TOO_LARGE, none, 0, 0);
    reads("負一百二十九", CN_I8, CN_LOW, CN_TOO_SMALL, none, 0, 0);
    reads("\xff", CN_U8, CN_DIGITS, CN_NOT_UTF8, none, 0, 0);
    reads("一", CN_I128 + 1, CN_DIGITS, CN_UNKNOWN, none, 0, 0);
    reads("二零二五", CN_U16, CN_ANY, CN_DONE, cn_unsigned(2025), 0, 0);
    reads("二千零二十五", CN_U16, CN_ANY, CN_DONE, cn_unsigned(2025), 0, 0);
    reads("一", CN_U8, CN_ANY + 1, CN_UNKNOWN, none, 0, 0);
    reads("一", UINT32_MAX, UINT32_MAX, CN_UNKNOWN, none, 0, 0);
    expect("a text that is known to be UTF-8",
           chinese_number_read_utf8((const uint8_t *)"十", 3, CN_U8, CN_LOW, &reading) == CN_DONE && reading.number.low == 10);
}

/* Prints a number into a buffer of this length, and checks the status, the length and the text. */
static void prints(cn_number number, uint32_t kind, uint32_t way, uint32_t script, uint32_t letter_case, size_t room_length,
                   uint32_t status, size_t wanted, const char *text) {
    size_t length;
    uint32_t found = chinese_number_print(number.low, number.high, kind, way, script, letter_case, fresh_room(), room_length,
                                          &length);
    is_printed(text, found, length, status, wanted);
}

static void each_status_of_printing(void) {
    cn_number limit = cn_unsigned(UINT64_C(10000000000000000)), below = cn_signed(-INT64_C(10000000000000000));
    cn_number least = {0, UINT64_C(1) << 63}, trillion = cn_unsigned(UINT64_C(1000000000000));
    prints(cn_unsigned(123), CN_U8, CN_LOW, CN_SIMPLIFIED, CN_UPPER, CN_MOST_BYTES, CN_DONE, 15, "壹佰贰拾叁");
    prints(least, CN_I128, CN_DIGITS, CN_TRADITIONAL, CN_LOWER, 120, CN_DONE, 120,
           "負一七零一四一一八三四六零四六九二三一七三一六八七三零三七一五八八四一零五七二八");
    prints(limit, CN_U64, CN_LOW, CN_SIMPLIFIED, CN_UPPER, CN_MOST_BYTES, CN_TOO_LARGE, 0, "too large for the method");
    prints(below, CN_I64, CN_LOW, CN_SIMPLIFIED, CN_UPPER, CN_MOST_BYTES, CN_TOO_SMALL, 0, "too small for the method");
    prints(cn_unsigned(123), CN_U8, CN_DIGITS, CN_SIMPLIFIED, CN_LOWER, 9, CN_DONE, 9, "一二三");
    prints(cn_unsigned(123), CN_U8, CN_DIGITS, CN_SIMPLIFIED, CN_LOWER, 8, CN_NO_ROOM, 9, "a room that is a byte too small");
    prints(cn_unsigned(123), CN_U8, CN_DIGITS, CN_SIMPLIFIED, CN_LOWER, 0, CN_NO_ROOM, 9, "a room without a byte");
    prints(cn_unsigned(256), CN_U8, CN_DIGITS, CN_SIMPLIFIED, CN_LOWER, CN_MOST_BYTES, CN_NOT_HELD, 0, "not held");
    prints(cn_unsigned((uint64_t)-5), CN_I64, CN_DIGITS, 0, 0, CN_MOST_BYTES, CN_NOT_HELD, 0, "a sign that is not extended");
    prints(cn_unsigned(1), CN_I128 + 1, 0, 0, 0, CN_MOST_BYTES, CN_UNKNOWN, 0, "an unknown type");
    prints(trillion, CN_U64, CN_ANY, CN_SIMPLIFIED, CN_LOWER, CN_MOST_BYTES, CN_DONE, 9, "一万亿");
    prints(trillion, CN_U64, CN_ANY, CN_TRADITIONAL, CN_LOWER, CN_MOST_BYTES, CN_DONE, 6, "一兆");
    prints(limit, CN_U64, CN_ANY, CN_SIMPLIFIED, CN_LOWER, CN_MOST_BYTES, CN_DONE, 6, "一京");
    prints(cn_unsigned(1), 0, CN_ANY + 1, 0, 0, CN_MOST_BYTES, CN_UNKNOWN, 0, "an unknown way");
    prints(cn_unsigned(1), 0, 0, CN_SIMPLIFIED + 1, 0, CN_MOST_BYTES, CN_UNKNOWN, 0, "an unknown script");
    prints(cn_unsigned(1), 0, 0, 0, CN_LOWER + 1, CN_MOST_BYTES, CN_UNKNOWN, 0, "an unknown case");
}

/* Prints an amount into a buffer of this length, and checks the status, the length and the text. */
static void prints_amount(uint64_t fen, uint32_t script, uint32_t form, size_t room_length, uint32_t status, size_t wanted,
                          const char *text) {
    size_t length;
    uint32_t found = chinese_amount_print(fen, script, form, fresh_room(), room_length, &length);
    is_printed(text, found, length, status, wanted);
}

static void each_status_of_printing_amounts(void) {
    uint64_t limit = UINT64_C(1000000000000000000);
    uint32_t all = CN_CURRENCY | CN_ROUND_YUAN | CN_UPRIGHT_CLOSING | CN_BRACKETED_SIGN;
    prints_amount(10700053, CN_SIMPLIFIED, CN_PLAIN, CN_MOST_AMOUNT_BYTES, CN_DONE, 33, "壹拾万零柒仟元伍角叁分");
    prints_amount(UINT64_C(23600000000), CN_TRADITIONAL, CN_PLAIN, 27, CN_DONE, 27, "貳億參仟陸佰萬元整");
    prints_amount(1500, CN_TRADITIONAL, all, 24, CN_DONE, 24, "人民幣壹拾伍圓正");
    prints_amount(limit - 1, CN_SIMPLIFIED, CN_CURRENCY, CN_MOST_AMOUNT_BYTES, CN_DONE, CN_MOST_AMOUNT_BYTES,
                  "人民币玖仟玖佰玖拾玖万玖仟玖佰玖拾玖亿玖仟玖佰玖拾玖万玖仟玖佰玖拾玖元玖角玖分");
    prints_amount(0, CN_SIMPLIFIED, CN_PLAIN, 8, CN_NO_ROOM, 9, "a room that is a byte too small for an amount");
    prints_amount(0, CN_SIMPLIFIED, CN_PLAIN, 0, CN_NO_ROOM, 9, "a room without a byte for an amount");
    prints_amount(limit, CN_SIMPLIFIED, CN_PLAIN, CN_MOST_AMOUNT_BYTES, CN_TOO_LARGE, 0, "an amount that is too large");
    prints_amount(UINT64_MAX, CN_SIMPLIFIED, CN_PLAIN, 0, CN_TOO_LARGE, 0, "the greatest of 64 bits");
    prints_amount(limit, CN_SIMPLIFIED + 1, CN_PLAIN, 0, CN_UNKNOWN, 0, "an unknown script of an amount");
    prints_amount(limit, CN_SIMPLIFIED, all + 1, 0, CN_UNKNOWN, 0, "an unknown form of an amount");
}

/* Prints an amount that may be negative, likewise. */
static void prints_signed(int64_t fen, uint32_t script, uint32_t form, size_t room_length, uint32_t status, size_t wanted,
                          const char *text) {
    size_t length;
    uint32_t found = chinese_signed_amount_print(fen, script, form, fresh_room(), room_length, &length);
    is_printed(text, found, length, status, wanted);
}

static void each_status_of_printing_signed_amounts(void) {
    int64_t limit = INT64_C(1000000000000000000);
    uint32_t bracketed = CN_CURRENCY | CN_BRACKETED_SIGN;
    prints_signed(-1500, CN_TRADITIONAL, CN_PLAIN, 18, CN_DONE, 18, "負壹拾伍元整");
    prints_signed(-1500, CN_TRADITIONAL, bracketed, 36, CN_DONE, 36, "（負數）人民幣壹拾伍元整");
    prints_signed(1500, CN_SIMPLIFIED, bracketed, 24, CN_DONE, 24, "人民币壹拾伍元整");
    prints_signed(1 - limit, CN_SIMPLIFIED, bracketed, CN_MOST_SIGNED_AMOUNT_BYTES, CN_DONE, CN_MOST_SIGNED_AMOUNT_BYTES,
                  "（负数）人民币玖仟玖佰玖拾玖万玖仟玖佰玖拾玖亿玖仟玖佰玖拾玖万玖仟玖佰玖拾玖元玖角玖分");
    prints_signed(-1500, CN_SIMPLIFIED, bracketed, 35, CN_NO_ROOM, 36, "a room that is a byte too small for a sign");
    prints_signed(limit, CN_SIMPLIFIED, bracketed, 0, CN_TOO_LARGE, 0, "a signed amount that is too large");
    prints_signed(-limit, CN_SIMPLIFIED, bracketed, 0, CN_TOO_SMALL, 0, "a signed amount that is too small");
    prints_signed(-1500, CN_SIMPLIFIED, 2 * CN_BRACKETED_SIGN, 0, CN_UNKNOWN, 0, "an unknown form of a signed amount");
}

/* Reads a text as an amount, and checks its status, fen and place. */
static void reads_amount(const char *text, uint32_t status, uint64_t fen, size_t char_index, size_t byte_index) {
    cn_amount amount;
    expect(text, chinese_amount_read((const uint8_t *)text, strlen(text), &amount) == status && amount.fen == fen
                     && amount.char_index == char_index && amount.byte_index == byte_index);
}

static void each_status_of_reading_amounts(void) {
    reads_amount("壹仟肆佰零玖元伍角", CN_DONE, 140950, 0, 0);
    reads_amount("人民币壹拾伍圆正", CN_DONE, 1500, 0, 0);
    reads_amount("零元整", CN_DONE, 0, 0, 0);
    reads_amount("壹佰元", CN_UNFINISHED, 0, 0, 0);
    reads_amount("", CN_UNFINISHED, 0, 0, 0);
    reads_amount("壹佰贰元整", CN_INCORRECT, 0, 3, 9);
    reads_amount("人民币 壹元整", CN_INCORRECT, 0, 3, 9);
    reads_amount("壹佰元\xff", CN_NOT_UTF8, 0, 0, 0);
}

/* Prints a date into a buffer of this length, and checks the status, the length and the text. */
static void prints_date(uint32_t year, uint32_t month, uint32_t day, uint32_t script, size_t room_length, uint32_t status,
                        size_t wanted, const char *text) {
    size_t length;
    uint32_t found = chinese_date_print(year, month, day, script, fresh_room(), room_length, &length);
    is_printed(text, found, length, status, wanted);
}

static void each_status_of_printing_dates(void) {
    prints_date(2024, 2, 29, CN_TRADITIONAL, 36, CN_DONE, 36, "貳零貳肆年零貳月貳拾玖日");
    prints_date(1999, 12, 31, CN_SIMPLIFIED, CN_MOST_DATE_BYTES, CN_DONE, 39, "壹玖玖玖年壹拾贰月叁拾壹日");
    prints_date(2020, 10, 20, CN_SIMPLIFIED, CN_MOST_DATE_BYTES, CN_DONE, CN_MOST_DATE_BYTES, "贰零贰零年零壹拾月零贰拾日");
    prints_date(5, 3, 1, CN_SIMPLIFIED, 20, CN_NO_ROOM, 21, "a room that is a byte too small for a date");
    prints_date(5, 3, 1, CN_SIMPLIFIED, 0, CN_NO_ROOM, 21, "a room without a byte for a date");
    prints_date(2025, 2, 29, CN_SIMPLIFIED, CN_MOST_DATE_BYTES, CN_NOT_A_DATE, 0, "a date that there is not");
    prints_date(65536 + 2026, 1, 15, CN_SIMPLIFIED, 0, CN_NOT_A_DATE, 0, "a year that is not cut off");
    prints_date(2026, 256 + 1, 15, CN_SIMPLIFIED, 0, CN_NOT_A_DATE, 0, "a month that is not cut off");
    prints_date((uint32_t)-1, 1, 15, CN_SIMPLIFIED, 0, CN_NOT_A_DATE, 0, "a year below zero");
    prints_date(2025, 2, 29, CN_SIMPLIFIED + 1, CN_MOST_DATE_BYTES, CN_UNKNOWN, 0, "an unknown script of a date");
}

/* Reads a text as a date, and checks its status, date and place. */
static void reads_date(const char *text, uint32_t status, uint32_t year, uint32_t month, uint32_t day, size_t char_index,
                       size_t byte_index) {
    cn_date date;
    expect(text, chinese_date_read((const uint8_t *)text, strlen(text), &date) == status && date.year == year
                     && date.month == month && date.day == day && date.char_index == char_index
                     && date.byte_index == byte_index);
}

static void each_status_of_reading_dates(void) {
    reads_date("伍年零叁月叁拾壹日", CN_DONE, 5, 3, 31, 0, 0);
    reads_date("贰零贰陆年零壹月", CN_UNFINISHED, 0, 0, 0, 0, 0);
    reads_date("", CN_UNFINISHED, 0, 0, 0, 0, 0);
    reads_date("贰零贰伍年零贰月贰拾玖日", CN_INCORRECT, 0, 0, 0, 10, 30);
    reads_date("贰零贰陆年 零壹月", CN_INCORRECT, 0, 0, 0, 5, 15);
    reads_date("贰零贰陆年\xff", CN_NOT_UTF8, 0, 0, 0, 0, 0);
}

/* Asks what may come next in a text, and checks the status, the length of what begins such an input,
 * the two flags, and the number of characters and the first one. */
static void expects(const char *text, uint32_t input, uint32_t status, size_t char_index, size_t byte_index,
                    uint32_t may_end, uint32_t white_space, uint32_t count, uint32_t first) {
    cn_expected next;
    uint32_t found = chinese_input_expected((const uint8_t *)text, strlen(text), input, &next), others = 0;
    for (uint32_t at = count; at < CN_MOST_EXPECTED; at++)
        others |= next.characters[at];
    expect(text, found == status && next.char_index == char_index && next.byte_index == byte_index
                     && next.may_end == may_end && next.white_space == white_space && next.count == count
                     && next.characters[0] == first && others == 0);
}

static void each_status_of_expecting(void) {
    expects("壹佰贰元整", CN_AMOUNT, CN_DONE, 3, 9, 0, 0, 1, 0x62FE); /* 拾 */
    expects("壹佰元整", CN_SIGNED_AMOUNT, CN_DONE, 4, 12, 1, 0, 0, 0);
    expects("人民币 （大", CN_TYPED_AMOUNT, CN_DONE, 6, 16, 0, 1, 2, 0x5199); /* 写 and 寫 */
    expects("（負", CN_TYPED_SIGNED_AMOUNT, CN_DONE, 2, 6, 0, 1, 1, 0x6578); /* 數 */
    expects("贰零贰陆零", CN_DATE, CN_DONE, 4, 12, 0, 0, 1, 0x5E74); /* 年 */
    expects("15.005", CN_FIGURES, CN_DONE, 5, 5, 1, 0, 2, 0x30); /* 0, also full-width */
    expects("壹佰\xff", CN_AMOUNT, CN_NOT_UTF8, 0, 0, 0, 0, 0, 0);
    expects("壹佰", CN_FIGURES + 1, CN_UNKNOWN, 0, 0, 0, 0, 0, 0);
}

/* Asks for a repair of a text, and checks its status, change, character and place. */
static void repairs(const char *text, uint32_t input, uint32_t status, uint32_t change, uint32_t character, size_t char_index,
                    size_t byte_index) {
    cn_repair repair;
    expect(text, chinese_input_repair((const uint8_t *)text, strlen(text), input, &repair) == status
                     && repair.change == change && repair.character == character && repair.char_index == char_index
                     && repair.byte_index == byte_index);
}

static void each_status_of_repairing(void) {
    repairs("壹佰贰元整", CN_AMOUNT, CN_DONE, CN_INSERT, 0x96F6, 2, 6); /* 零 */
    repairs("伍佰块整", CN_AMOUNT, CN_DONE, CN_REPLACE, 0x5143, 2, 6); /* 元 */
    repairs("捌佰零伍拾元整", CN_AMOUNT, CN_DONE, CN_DELETE, 0, 2, 6);
    repairs("壹佰元整", CN_AMOUNT, CN_DONE, CN_NO_CHANGE, 0, 0, 0);
    repairs("壹佰", CN_AMOUNT, CN_DONE, CN_NO_CHANGE, 0, 0, 0);
    repairs("\xff", CN_AMOUNT, CN_NOT_UTF8, CN_NO_CHANGE, 0, 0, 0);
    repairs("伍佰块整", CN_FIGURES + 1, CN_UNKNOWN, CN_NO_CHANGE, 0, 0, 0);
}

/* Asks why a text is not a number, and checks the status and the reason. */
static void explains(const char *text, uint32_t kind, uint32_t way, uint32_t status, uint32_t wanted) {
    uint32_t fault = 7;
    expect(text, chinese_number_explain((const uint8_t *)text, strlen(text), kind, way, &fault) == status && fault == wanted);
}

/* The same for a quantity. */
static void explains_quantity(const char *text, uint32_t method, uint32_t status, uint32_t wanted) {
    uint32_t fault = 7;
    expect(text, chinese_quantity_explain((const uint8_t *)text, strlen(text), method, &fault) == status && fault == wanted);
}

static void each_status_of_explaining(void) {
    explains("百五", CN_I64, CN_ANY, CN_DONE, CN_FAULT_START);
    explains("二百五十六", CN_U8, CN_LOW, CN_DONE, CN_FAULT_TOO_LARGE);
    explains("一百", CN_I64, CN_ANY, CN_DONE, CN_NO_FAULT);
    explains("\xff", CN_I64, CN_ANY, CN_NOT_UTF8, CN_NO_FAULT);
    explains("百五", CN_I128 + 1, CN_ANY, CN_UNKNOWN, CN_NO_FAULT);
    explains("百五", CN_I64, CN_ANY + 1, CN_UNKNOWN, CN_NO_FAULT);
    explains_quantity("二两", CN_ANY, CN_DONE, CN_FAULT_WEIGHT);
    explains_quantity("零分之一", CN_LOW, CN_DONE, CN_FAULT_DENOMINATOR);
    explains_quantity("12.5%", CN_ANY, CN_DONE, CN_NO_FAULT);
    explains_quantity("\xff", CN_ANY, CN_NOT_UTF8, CN_NO_FAULT);
    explains_quantity("二两", CN_DIGITS, CN_UNKNOWN, CN_NO_FAULT);
}

/* Prints a message on a text into a buffer of this length, and checks it. */
static void says_of_input(const char *typed, uint32_t input, uint32_t language, size_t room_length, uint32_t status,
                          size_t wanted, const char *text) {
    size_t length = 7;
    uint32_t found = chinese_input_message((const uint8_t *)typed, strlen(typed), input, language, fresh_room(), room_length,
                                           &length);
    is_printed(text, found, length, status, wanted);
}

static void says_of_number(const char *typed, uint32_t kind, uint32_t way, uint32_t language, size_t room_length,
                           uint32_t status, size_t wanted, const char *text) {
    size_t length = 7;
    uint32_t found = chinese_number_message((const uint8_t *)typed, strlen(typed), kind, way, language, fresh_room(),
                                            room_length, &length);
    is_printed(text, found, length, status, wanted);
}

static void says_of_quantity(const char *typed, uint32_t method, uint32_t language, size_t room_length, uint32_t status,
                             size_t wanted, const char *text) {
    size_t length = 7;
    uint32_t found = chinese_quantity_message((const uint8_t *)typed, strlen(typed), method, language, fresh_room(),
                                              room_length, &length);
    is_printed(text, found, length, status, wanted);
}

static void says_of_status(uint32_t of, uint32_t language, size_t room_length, uint32_t status, size_t wanted,
                           const char *text) {
    size_t length = 7;
    uint32_t found = chinese_status_message(of, language, fresh_room(), room_length, &length);
    is_printed(text, found, length, status, wanted);
}

static void each_status_of_messages(void) {
    const uint32_t simplified = CN_SIMPLIFIED_CHINESE, traditional = CN_TRADITIONAL_CHINESE, unknown = traditional + 1;
    const size_t most = CN_MOST_MESSAGE_BYTES;
    says_of_input("叁佰贰拾元", CN_AMOUNT, simplified, 21, CN_DONE, 21, "末尾缺“整”。");
    says_of_input("叁佰贰拾元", CN_AMOUNT, simplified, 20, CN_NO_ROOM, 21, "a room that is a byte too small for a message");
    says_of_input("叁佰贰拾元", CN_AMOUNT, CN_ENGLISH, 0, CN_NO_ROOM, 32, "a room without a byte for a message");
    says_of_input("壹佰元整", CN_AMOUNT, simplified, 0, CN_DONE, 0, "");
    says_of_input("\xff", CN_AMOUNT, simplified, most, CN_NOT_UTF8, 0, "no UTF-8 for a message");
    says_of_input("叁佰贰拾元", CN_FIGURES + 1, simplified, most, CN_UNKNOWN, 0, "an unknown input");
    says_of_input("叁佰贰拾元", CN_AMOUNT, unknown, most, CN_UNKNOWN, 0, "an unknown language");
    says_of_number("", CN_I64, CN_ANY, traditional, 15, CN_DONE, 15, "缺少數字。");
    says_of_number("一", CN_I64, CN_ANY, traditional, 0, CN_DONE, 0, "");
    says_of_number("", CN_I64, CN_ANY, traditional, 14, CN_NO_ROOM, 15, "a room too small for a message on a number");
    says_of_number("\xff", CN_I64, CN_ANY, traditional, most, CN_NOT_UTF8, 0, "no UTF-8 for a number");
    says_of_number("", CN_I64, CN_ANY + 1, traditional, most, CN_UNKNOWN, 0, "an unknown way for a message");
    says_of_quantity("零分之一", CN_ANY, CN_ENGLISH, 47, CN_DONE, 47, "The denominator must be a whole number above 0.");
    says_of_quantity("一", CN_ANY, CN_ENGLISH, 0, CN_DONE, 0, "");
    says_of_quantity("零分之一", CN_ANY, CN_ENGLISH, 46, CN_NO_ROOM, 47, "a room too small for a message on a quantity");
    says_of_quantity("\xff", CN_ANY, CN_ENGLISH, most, CN_NOT_UTF8, 0, "no UTF-8 for a quantity");
    says_of_quantity("零分之一", CN_DIGITS, CN_ENGLISH, most, CN_UNKNOWN, 0, "no method for a message");
    says_of_status(CN_TOO_LARGE, simplified, 15, CN_DONE, 15, "数值太大。");
    says_of_status(CN_DONE, simplified, 0, CN_DONE, 0, "");
    says_of_status(CN_TOO_LARGE, simplified, 14, CN_NO_ROOM, 15, "a room too small for the message of a status");
    says_of_status(CN_NOT_A_QUANTITY + 1, simplified, most, CN_UNKNOWN, 0, "an unknown status");
    says_of_status(CN_TOO_LARGE, unknown, most, CN_UNKNOWN, 0, "an unknown language of a status");
}

/* The messages of all statuses in all languages, for char. */
static void messages_of_char(void) {
    char room[CN_MOST_MESSAGE_BYTES + 1];
    for (uint32_t status = CN_DONE; status <= CN_NOT_A_QUANTITY; status++)
        for (uint32_t language = CN_ENGLISH; language <= CN_TRADITIONAL_CHINESE; language++)
            expect("a message of a status", cn_status_message((cn_status)status, (cn_language)language, room, sizeof room) == CN_DONE
                                                && (strlen(room) == 0) == (status == CN_DONE));
    memset(room, 7, sizeof room);
    cn_status found = cn_number_message("百五", 6, CN_U8, CN_ANY, CN_ENGLISH, room, 49);
    expect("a room of the message alone", found == CN_NO_ROOM && room[0] == 0);
    found = cn_number_message("百五", 6, CN_U8, CN_ANY, CN_ENGLISH, room, 50);
    expect("a zero byte after a message", found == CN_DONE && strlen(room) == 49 && room[50] == 7);
    found = cn_quantity_message("二两", 6, CN_ANY, CN_SIMPLIFIED_CHINESE, room, sizeof room);
    expect("a message on a quantity", found == CN_DONE && strncmp(room, "第2个字“两”", 18) == 0);
    expect("a reason", cn_explain("百五", 6, CN_U8, CN_ANY) == CN_FAULT_START
                           && cn_explain("\xff", 1, CN_U8, CN_ANY) == CN_NO_FAULT);
    expect("a reason for a quantity", cn_explain_quantity("二两", 6, CN_ANY) == CN_FAULT_WEIGHT);
}

/* The calls for char: the zero byte at the end needs space, on a refusal the buffer has the empty
 * text, and a zero byte inside a text is a wrong character. */
static void texts_of_char(void) {
    cn_number number = cn_unsigned(123);
    cn_reading reading;
    char room[11];
    memset(room, 7, sizeof room);
    expect("a room without a byte", cn_print(number, CN_U8, CN_DIGITS, CN_SIMPLIFIED, CN_LOWER, room, 0) == CN_NO_ROOM
                                        && room[0] == 7);
    expect("a room of the text alone", cn_print(number, CN_U8, CN_DIGITS, CN_SIMPLIFIED, CN_LOWER, room, 9) == CN_NO_ROOM
                                           && room[0] == 0 && room[1] == 7);
    expect("a zero byte at the end", cn_print(number, CN_U8, CN_DIGITS, CN_SIMPLIFIED, CN_LOWER, room, 10) == CN_DONE
                                         && strcmp(room, "一二三") == 0 && room[10] == 7);
    expect("an empty room at a refusal", cn_print(cn_unsigned(256), CN_U8, CN_ANY, CN_SIMPLIFIED, CN_LOWER, room, 10) == CN_NOT_HELD
                                             && room[0] == 0);
    expect("a zero byte inside", cn_read("一\0二", 7, CN_U8, CN_DIGITS, &reading) == CN_INCORRECT
                                     && reading.char_index == 1 && reading.byte_index == 3);
    for (uint32_t status = CN_DONE; status <= CN_NOT_A_QUANTITY; status++)
        expect("a status has its own text", strcmp(cn_status_text(status), cn_status_text(status + 1)) != 0);
}

/* The same for amounts. */
static void amounts_of_char(void) {
    cn_amount amount;
    char room[11];
    memset(room, 7, sizeof room);
    expect("a room of the amount alone", cn_print_amount(0, CN_SIMPLIFIED, CN_PLAIN, room, 9) == CN_NO_ROOM
                                             && room[0] == 0 && room[1] == 7);
    expect("a zero byte after an amount", cn_print_amount(0, CN_SIMPLIFIED, CN_ROUND_YUAN, room, 10) == CN_DONE
                                               && strcmp(room, "零圆整") == 0 && room[10] == 7);
    expect("no amount in the room", cn_print_amount(UINT64_MAX, CN_SIMPLIFIED, CN_PLAIN, room, 10) == CN_TOO_LARGE
                                        && room[0] == 0);
    expect("a zero byte in an amount", cn_read_amount("壹\0元整", 10, &amount) == CN_INCORRECT && amount.char_index == 1);
}

/* The same for quantities. */
static void quantities_of_char(void) {
    const cn_quantity half = {{5, 0}, {10, 0}, CN_DECIMAL, 0, 0}, over_zero = {{5, 0}, {0, 0}, CN_DECIMAL, 0, 0};
    size_t length;
    char room[12];
    memset(room, 7, sizeof room);
    cn_status status = cn_print_quantity(&half, CN_LOW, CN_SIMPLIFIED, CN_LOWER, room, 9);
    expect("a room of the quantity alone", status == CN_NO_ROOM && room[0] == 0 && room[1] == 7);
    status = cn_print_quantity(&half, CN_LOW, CN_SIMPLIFIED, CN_LOWER, room, 10);
    expect("a zero byte after a quantity", status == CN_DONE && strcmp(room, "零点五") == 0 && room[10] == 7);
    status = cn_print_quantity(&over_zero, CN_LOW, CN_SIMPLIFIED, CN_LOWER, room, 10);
    expect("no quantity in the room", status == CN_NOT_A_QUANTITY && room[0] == 0);
    status = cn_quantity_figures(&half, room, 4);
    expect("a zero byte after figures", status == CN_DONE && strcmp(room, "0.5") == 0);
    status = cn_quantities_to_figures("廿三", 6, 0, CN_ZHAO, CN_LOW, 0, room, 2, &length);
    expect("a room of the new text alone", status == CN_NO_ROOM && length == 2 && room[0] == 0);
    status = cn_quantities_to_figures("廿三", 6, 0, CN_ZHAO, CN_LOW, 0, room, 3, &length);
    expect("a zero byte after a new text", status == CN_DONE && length == 2 && strcmp(room, "23") == 0);
    status = cn_text_to_figures("三到五", 9, 0, CN_ZHAO, CN_LOW, 0, room, 5, &length);
    expect("a room of the new phrase alone", status == CN_NO_ROOM && length == 5 && room[0] == 0);
    status = cn_text_to_figures("三到五", 9, 0, CN_ZHAO, CN_LOW, 0, room, 6, &length);
    expect("a zero byte after a new phrase", status == CN_DONE && length == 5 && strcmp(room, "3到5") == 0);
}

/* The same for dates. */
static void dates_of_char(void) {
    cn_date date;
    char room[23];
    memset(room, 7, sizeof room);
    expect("a room of the date alone", cn_print_date(5, 3, 1, CN_SIMPLIFIED, room, 21) == CN_NO_ROOM
                                           && room[0] == 0 && room[1] == 7);
    expect("a zero byte after a date", cn_print_date(5, 3, 1, CN_SIMPLIFIED, room, 22) == CN_DONE
                                            && strcmp(room, "伍年叁月零壹日") == 0 && room[22] == 7);
    expect("no date in the room", cn_print_date(2025, 2, 29, CN_SIMPLIFIED, room, 22) == CN_NOT_A_DATE && room[0] == 0);
    expect("a zero byte in a date", cn_read_date("伍\0年", 7, &date) == CN_INCORRECT && date.char_index == 1);
}

/* NULL is allowed as a text and a buffer of length 0. */
static void null_of_char(void) {
    cn_number number = cn_unsigned(1);
    cn_reading reading;
    cn_amount amount;
    cn_date date;
    cn_span span = {0, 0, 0};
    cn_phrase phrase = {0, 0, 0, 0, 0, 0, 0, 0, 0, 0};
    cn_quantity low, high;
    cn_expected next;
    cn_repair repair;
    size_t length;
    expect("no text", cn_read(NULL, 0, CN_U8, CN_ANY, &reading) == CN_EMPTY);
    expect("no amount", cn_read_amount(NULL, 0, &amount) == CN_UNFINISHED);
    expect("no date", cn_read_date(NULL, 0, &date) == CN_UNFINISHED);
    expect("nothing to find", cn_find_next(NULL, 0, 0, CN_ZHAO, &span) == CN_NONE && span.end == 0);
    expect("no room", cn_print(number, CN_U8, CN_LOW, CN_SIMPLIFIED, CN_UPPER, NULL, 0) == CN_NO_ROOM);
    expect("nothing to replace", cn_quantities_to_figures(NULL, 0, 0, CN_ZHAO, CN_LOW, 0, NULL, 0, &length) == CN_DONE);
    expect("no room for a new text", cn_quantities_to_figures("一", 3, 0, CN_ZHAO, CN_LOW, 0, NULL, 0, &length) == CN_NO_ROOM);
    expect("no phrase", cn_find_next_phrase(NULL, 0, 0, CN_ZHAO, &phrase) == CN_NONE && phrase.end == 0);
    expect("no ends of it", cn_read_range(NULL, &phrase, &low, &high) == CN_INCORRECT && high.denominator.low == 0);
    expect("nothing in figures", cn_text_to_figures(NULL, 0, 0, CN_ZHAO, CN_LOW, 0, NULL, 0, &length) == CN_DONE);
    expect("no room for an amount", cn_print_amount(1, CN_SIMPLIFIED, CN_PLAIN, NULL, 0) == CN_NO_ROOM);
    expect("no room for a date", cn_print_date(5, 3, 1, CN_SIMPLIFIED, NULL, 0) == CN_NO_ROOM);
    expect("the start of a text", cn_input_expected(NULL, 0, CN_DATE, &next) == CN_DONE && next.count == 13);
    expect("nothing to repair", cn_input_repair(NULL, 0, CN_DATE, &repair) == CN_DONE && repair.change == CN_NO_CHANGE);
    expect("no room for a message", cn_input_message(NULL, 0, CN_DATE, CN_ENGLISH, NULL, 0) == CN_NO_ROOM);
    expect("no text to explain", cn_explain(NULL, 0, CN_U8, CN_ANY) == CN_FAULT_EMPTY);
}

int main(void) {
    first_steps();
    a_refused_text();
    numbers_of_a_text();
    quantities_of_a_text();
    expressions_from_a_place();
    phrases_of_a_text();
    doubts();
    found_by_units();
    texts_of_char();
    quantities_of_char();
    amounts_of_char();
    dates_of_char();
    messages_of_char();
    null_of_char();
    expect("the version of the library is that of the header", chinese_number_version() == CN_VERSION_NUMBER);
    each_status_of_reading();
    each_status_of_printing();
    each_status_of_finding();
    each_status_of_quantities();
    each_status_of_printing_quantities();
    each_status_of_replacing();
    each_status_of_texts_in_figures();
    each_status_of_speech();
    each_status_of_finding_phrases();
    each_status_of_ranges();
    each_status_of_printing_amounts();
    each_status_of_printing_signed_amounts();
    each_status_of_reading_amounts();
    each_status_of_printing_dates();
    each_status_of_reading_dates();
    each_status_of_expecting();
    each_status_of_repairing();
    each_status_of_explaining();
    each_status_of_messages();
    return failed != 0;
}
