/* same [COUNT [ROUNDS]]: prints one sum over the results of each call of chinese_number.h. The
 *  arguments are COUNT pseudo-random numbers of each type in each way, ten times as many
 *  quantities, amounts in all forms and in figures, dates and texts, and the limits. The sum covers
 *  what is printed, with each buffer to its last byte, and what is read (also in either way), found
 *  and replaced in texts as printed, typed, changed and cut, what may follow these texts, why they
 *  are refused, the answers to lines, and columns of each kind, which small buffers cut. All builds of the library must print the same sum. With
 *  -DTHREADS four threads must find it at once. With ROUNDS the program also prints the time of a
 *  call, in the best of this many rounds. */
#include "chinese_number.h"

#include <stdio.h>
#include <stdlib.h>
#include <string.h>
#include <time.h>

enum { MOST = 512, MOST_SPANS = 20, SAMPLES = 10000 };

typedef struct run {
    uint64_t state, sum;
    long count, cases;
} run;

typedef struct text {
    uint8_t bytes[MOST];
    size_t length;
} text;

static const char *const MARKS[] = {
    "零", "一", "二", "两", "十", "百", "千", "萬", "億", "兆", "極", "個", "負", "壹", "贰", "玖",
    "拾", "佰", "仟", "万", "亿", "元", "圆", "角", "分", "整", "正", "人民币", "年", "月", "日", "第",
    "，", "5", "０", "-", "−", "¥", ".", ",", "%", "点", "之", "廿", "⊗", "：", "x", " ", "\t",
    "（负数）", "(負數)", "ⓧ", "（大写）", "块", "〇", "。", "到", "半", "小时", "下午", "比", "米", ":",
    "幺", "电话", "号", "栋", "138", "10", "kg", "/", "~", "×", "℃",
    "\xe4\xb8", "\xf0\x9f\x98\x80", "\xc3\xa9", "\xff",
};
enum { COUNT_OF_MARKS = sizeof MARKS / sizeof *MARKS };

static uint64_t some(run *r) {
    r->state ^= r->state << 13;
    r->state ^= r->state >> 7;
    r->state ^= r->state << 17;
    return r->state;
}

static uint32_t below(run *r, uint32_t limit) {
    return (uint32_t)(some(r) >> 11) % limit;
}

/* A code, which sometimes is not valid. */
static uint32_t code(run *r, uint32_t codes) {
    return below(r, 32) == 0 ? codes : below(r, codes);
}

static void add(run *r, const uint8_t *bytes, size_t length) {
    for (size_t i = 0; i < length; i++)
        r->sum = (r->sum ^ bytes[i]) * UINT64_C(1099511628211);
}

static void add_word(run *r, uint64_t word) {
    uint8_t bytes[8];
    for (int i = 0; i < 8; i++)
        bytes[i] = (uint8_t)(word >> 8 * i);
    add(r, bytes, sizeof bytes);
}

static void put(text *t, size_t at, const char *mark) {
    size_t length = strlen(mark);
    memmove(t->bytes + at + length, t->bytes + at, t->length - at);
    memcpy(t->bytes + at, mark, length);
    t->length += length;
}

/* Cuts a text, inserts a mark, or replaces a character by one. */
static void change(run *r, text *t) {
    uint32_t how = below(r, 4);
    size_t at = below(r, (uint32_t)t->length + 1), end;
    if (how == 0) {
        t->length = at;
        return;
    }
    while (at > 0 && at < t->length && (t->bytes[at] & 0xC0) == 0x80)
        at--;
    if (how == 1 && at < t->length) {
        for (end = at + 1; end < t->length && (t->bytes[end] & 0xC0) == 0x80;)
            end++;
        memmove(t->bytes + at, t->bytes + end, t->length - end);
        t->length -= end - at;
    }
    put(t, at, MARKS[below(r, COUNT_OF_MARKS)]);
}

static void add_reading(run *r, uint32_t status, const cn_reading *reading) {
    add_word(r, status);
    add_word(r, reading->number.low);
    add_word(r, reading->number.high);
    add_word(r, reading->char_index);
    add_word(r, reading->byte_index);
}

/* The bytes of a text are known to be UTF-8 only if it was tested. */
static int is_utf8(uint32_t status) {
    return status != CN_NOT_UTF8 && status != CN_UNKNOWN;
}

static void try_read(run *r, const text *t, uint32_t kind, uint32_t way) {
    cn_reading reading = {{1, 2}, 3, 4};
    uint32_t status = chinese_number_read(t->bytes, t->length, kind, way, &reading);
    add_reading(r, status, &reading);
    if (is_utf8(status)) {
        status = chinese_number_read_utf8(t->bytes, t->length, kind, way, &reading);
        add_reading(r, status, &reading);
    }
}

static void add_quantity(run *r, uint32_t status, const cn_quantity *quantity) {
    cn_reading numerator = {quantity->numerator, quantity->char_index, quantity->byte_index};
    add_reading(r, status, &numerator);
    add_word(r, quantity->denominator.low);
    add_word(r, quantity->denominator.high);
    add_word(r, quantity->form);
}

static void try_read_quantity(run *r, const text *t, uint32_t method) {
    cn_quantity quantity = {{1, 2}, {3, 4}, 5, 6, 7};
    uint32_t status = chinese_quantity_read(t->bytes, t->length, method, &quantity);
    add_quantity(r, status, &quantity);
}

typedef uint32_t to_figures(const uint8_t *, size_t, uint32_t, uint32_t, uint32_t, uint32_t, uint8_t *,
                            size_t, size_t *);

/* Each code is drawn in its own statement: the order in which arguments are evaluated may vary. */
static void try_replace(run *r, const text *t, to_figures *write) {
    static const uint32_t INCLUDED[] = {0, CN_ABOUT, CN_ONE_CHARACTER, CN_ABOUT | CN_ONE_CHARACTER,
                                        CN_CODES, 1};
    uint8_t room[MOST];
    uint32_t upper = code(r, 2), greatest = code(r, CN_JI + 1), method = code(r, CN_ANY + 1);
    uint32_t included = INCLUDED[code(r, 5)];
    size_t most = below(r, 4) == 0 ? below(r, MOST) : MOST, length = 9;
    uint32_t status = write(t->bytes, t->length, upper, greatest, method, included, room, most,
                            &length);
    add_word(r, status);
    add_word(r, length);
    if (status == CN_DONE)
        add(r, room, length);
}

static void add_spans(run *r, uint32_t status, const cn_span *spans, size_t count) {
    add_word(r, status);
    add_word(r, count);
    for (size_t i = 0; i < MOST_SPANS; i++) {
        add_word(r, spans[i].start);
        add_word(r, spans[i].end);
        add_word(r, spans[i].flags);
    }
}

/* A text as it is spoken, and what is left of it; the buffer for the text as it is meant is seldom too
 * short. */
static void try_speak(run *r, const text *t) {
    uint8_t meant[MOST], room[4 * MOST];
    cn_span spans[MOST_SPANS] = {{1, 2, 3}};
    uint32_t upper = code(r, 2), greatest = code(r, CN_JI + 1), method = code(r, CN_ANY + 1);
    uint32_t script = code(r, 2), options = code(r, 2), status;
    size_t enough = below(r, 16) == 0 ? below(r, MOST) : MOST, most = below(r, MOST_SPANS + 1);
    size_t room_length = below(r, 4) == 0 ? below(r, MOST) : sizeof room, length = 9, count = 9;
    status = chinese_text_to_speech(t->bytes, t->length, upper, greatest, method, script, options,
                                    meant, enough, room, room_length, &length);
    add_word(r, status);
    add_word(r, length);
    if (status == CN_DONE)
        add(r, room, length);
    status = chinese_speech_left(t->bytes, t->length, below(r, 4), upper, greatest, meant, enough,
                                 spans, most, &count);
    add_spans(r, status, spans, count);
}

typedef uint32_t finding(const uint8_t *, size_t, size_t, uint32_t, uint32_t, cn_span *, size_t,
                         size_t *);

static void try_find(run *r, const text *t, finding *find, finding *find_utf8) {
    cn_span spans[MOST_SPANS] = {{1, 2, 3}};
    uint32_t upper = code(r, 2);
    uint32_t greatest = code(r, CN_JI + 1);
    size_t most = below(r, MOST_SPANS + 1), from = below(r, 4), count = 9;
    uint32_t status = find(t->bytes, t->length, from, upper, greatest, spans, most, &count);
    for (;;) {
        add_spans(r, status, spans, count);
        if (count == 0 || count < most)
            return;
        status = find_utf8(t->bytes, t->length, spans[count - 1].end, upper, greatest, spans,
                           most, &count);
    }
}

static void add_phrase(run *r, const cn_phrase *phrase) {
    add_word(r, phrase->start);
    add_word(r, phrase->end);
    add_word(r, phrase->split);
    add_word(r, phrase->kind);
    add_word(r, phrase->state);
    add_word(r, phrase->flags);
    add_word(r, phrase->first);
    add_word(r, phrase->second);
    add_word(r, phrase->third);
    add_word(r, phrase->fourth);
}

static void try_find_phrases(run *r, const text *t) {
    cn_phrase phrases[MOST_SPANS] = {{1, 2, 3, 4, 5, 6, 7, 8, 9, 10}};
    uint32_t upper = code(r, 2);
    uint32_t greatest = code(r, CN_JI + 1);
    size_t most = below(r, MOST_SPANS + 1), from = below(r, 4), count = 9;
    uint32_t status = chinese_phrase_find(t->bytes, t->length, from, upper, greatest, phrases, most,
                                          &count);
    for (;;) {
        add_word(r, status);
        add_word(r, count);
        for (size_t i = 0; i < MOST_SPANS; i++)
            add_phrase(r, phrases + i);
        if (count == 0 || count < most)
            return;
        status = chinese_phrase_find_utf8(t->bytes, t->length, phrases[count - 1].end, upper,
                                          greatest, phrases, most, &count);
    }
}

/* The ends of a range are the two parts of a text, of which either may be empty, or cut. */
static void try_read_range(run *r, const text *t) {
    cn_quantity ends[2] = {{{1, 2}, {3, 4}, 5, 6, 7}, {{1, 2}, {3, 4}, 5, 6, 7}};
    size_t at = below(r, (uint32_t)t->length + 1);
    add_word(r, chinese_range_read(t->bytes, at, t->bytes + at, t->length - at, ends, ends + 1));
    for (int i = 0; i < 2; i++)
        add_quantity(r, CN_DONE, ends + i);
}

static void add_amount(run *r, uint32_t status, const cn_amount *amount) {
    add_word(r, status);
    add_word(r, amount->fen);
    add_word(r, amount->char_index);
    add_word(r, amount->byte_index);
}

static void add_signed(run *r, uint32_t status, const cn_signed_amount *amount) {
    add_word(r, status);
    add_word(r, (uint64_t)amount->fen);
    add_word(r, amount->char_index);
    add_word(r, amount->byte_index);
}

static void try_read_amounts(run *r, const text *t) {
    cn_amount amount = {1, 2, 3}, typed = {4, 5, 6};
    cn_signed_amount with_sign = {1, 2, 3}, typed_sign = {4, 5, 6}, figures = {4, 5, 6};
    add_amount(r, chinese_amount_read(t->bytes, t->length, &amount), &amount);
    add_amount(r, chinese_typed_amount_read(t->bytes, t->length, &typed), &typed);
    add_signed(r, chinese_signed_amount_read(t->bytes, t->length, &with_sign), &with_sign);
    add_signed(r, chinese_typed_signed_amount_read(t->bytes, t->length, &typed_sign), &typed_sign);
    add_signed(r, chinese_figures_read(t->bytes, t->length, &figures), &figures);
}

static void try_expected(run *r, const text *t, uint32_t input) {
    cn_expected next = {1, 2, 3, 4, 5, {6}};
    add_word(r, chinese_input_expected(t->bytes, t->length, input, &next));
    add_word(r, next.char_index);
    add_word(r, next.byte_index);
    add_word(r, next.may_end);
    add_word(r, next.white_space);
    add_word(r, next.count);
    for (int i = 0; i < CN_MOST_EXPECTED; i++)
        add_word(r, next.characters[i]);
}

static void try_repair(run *r, const text *t, uint32_t input) {
    cn_repair repair = {1, 2, 3, 4};
    add_word(r, chinese_input_repair(t->bytes, t->length, input, &repair));
    add_word(r, repair.char_index);
    add_word(r, repair.byte_index);
    add_word(r, repair.change);
    add_word(r, repair.character);
}

/* A message, with the whole buffer. */
static void add_message(run *r, uint32_t status, const uint8_t *room, size_t length) {
    add_word(r, status);
    add_word(r, length);
    add(r, room, CN_MOST_MESSAGE_BYTES);
}

/* The length of a buffer for a message, which is usually large enough. */
static size_t room_of(run *r) {
    return below(r, 8) == 0 ? below(r, 64) : CN_MOST_MESSAGE_BYTES;
}

/* What may follow a text that somebody types, and why it is refused. */
static void try_input(run *r, const text *t) {
    uint8_t message[CN_MOST_MESSAGE_BYTES] = {0};
    uint32_t input = code(r, CN_FIGURES + 1), language = code(r, CN_TRADITIONAL_CHINESE + 1), status;
    size_t room = room_of(r), length = 9;
    try_expected(r, t, input);
    try_repair(r, t, input);
    status = chinese_input_message(t->bytes, t->length, input, language, message, room, &length);
    add_message(r, status, message, length);
}

/* Why a text is no number and no quantity. */
static void try_explain(run *r, const text *t, uint32_t kind, uint32_t way) {
    uint8_t message[CN_MOST_MESSAGE_BYTES] = {0};
    uint32_t language = code(r, CN_TRADITIONAL_CHINESE + 1), fault = 9, status;
    size_t room = room_of(r), length = 9;
    add_word(r, chinese_number_explain(t->bytes, t->length, kind, way, &fault));
    add_word(r, fault);
    status = chinese_number_message(t->bytes, t->length, kind, way, language, message, room, &length);
    add_message(r, status, message, length);
    add_word(r, chinese_quantity_explain(t->bytes, t->length, way, &fault));
    add_word(r, fault);
    status = chinese_quantity_message(t->bytes, t->length, way, language, message, room, &length);
    add_message(r, status, message, length);
}

static void try_read_capitals(run *r, const text *t) {
    cn_date date = {1, 2, 3, 4, 5};
    try_read_amounts(r, t);
    add_word(r, chinese_date_read(t->bytes, t->length, &date));
    add_word(r, date.year);
    add_word(r, date.month);
    add_word(r, date.day);
    add_word(r, date.char_index);
    add_word(r, date.byte_index);
    try_input(r, t);
}

static void try_read_and_find(run *r, const text *t) {
    uint32_t kind = code(r, CN_I128 + 1);
    uint32_t way = code(r, CN_ANY + 1);
    try_read(r, t, kind, way);
    try_read_quantity(r, t, way);
    try_explain(r, t, kind, way);
    try_find(r, t, chinese_number_find, chinese_number_find_utf8);
    try_find(r, t, chinese_quantity_find, chinese_quantity_find_utf8);
    try_find_phrases(r, t);
    try_read_range(r, t);
    try_replace(r, t, chinese_quantities_to_figures);
    try_replace(r, t, chinese_text_to_figures);
    try_speak(r, t);
}

static void add_answer(run *r, const text *line) {
    uint8_t answer[CN_MOST_ANSWER_BYTES] = {0};
    size_t room = below(r, 8) == 0 ? below(r, 64) : CN_MOST_ANSWER_BYTES, length = 9;
    add_word(r, chinese_number_answer_line(line->bytes, line->length, answer, room, &length));
    add_word(r, length);
    add(r, answer, sizeof answer);
}

/* A line that asks for a text to be read, and one that asks for a number to be printed; each is then
 * changed. */
static void try_lines(run *r, const text *t, uint64_t number) {
    static const char *const READS[] = {
        "read u8 naive ", "read i16 low ", "read u64 ten_thousand ", "read isize middle ",
        "read i128 high ", "read u128 naive ", "read u8 any ", "read ",
    };
    static const char *const PRINTS[] = {
        "print u8 naive simple upper ", "print i16 low traditional lower ", "print u16 middle simple ",
        "print u64 ten_thousand traditional upper ", "print isize middle simple lower ",
        "print i128 high simple lower -", "print u128 naive traditional lower ", "",
    };
    text line = *t;
    if (line.length <= MOST - 64) {
        put(&line, 0, READS[below(r, 8)]);
        add_answer(r, &line);
        change(r, &line);
        add_answer(r, &line);
    }
    line.length = 0;
    for (char digit[2] = ""; number != 0; number /= 10) {
        digit[0] = (char)('0' + number % 10);
        put(&line, 0, digit);
    }
    put(&line, 0, PRINTS[below(r, 8)]);
    add_answer(r, &line);
    change(r, &line);
    add_answer(r, &line);
}

/* What was printed, with the whole buffer, and as a text to be read. */
static void add_printed(run *r, uint32_t status, size_t length, text *t) {
    add_word(r, status);
    add_word(r, length);
    add(r, t->bytes, MOST);
    t->length = status == CN_DONE ? length : 0;
    r->cases++;
}

/* A buffer that is usually large enough. */
static size_t begin(run *r, text *t, uint32_t most) {
    memset(t->bytes, 7, MOST);
    return below(r, 8) == 0 ? below(r, most) : most + below(r, 9);
}

static cn_number some_number(run *r) {
    unsigned width = below(r, 129);
    cn_number number;
    number.low = some(r);
    number.high = some(r);
    if (width < 128)
        number.high &= width > 64 ? UINT64_MAX >> (128 - width) : 0;
    if (width < 64)
        number.low &= width > 0 ? UINT64_MAX >> (64 - width) : 0;
    if (below(r, 2))
        number.low -= number.low % 10000;
    return below(r, 4) == 0 ? cn_signed(-(int64_t)(number.low >> (width % 60 + 1))) : number;
}

static void try_number(run *r, uint32_t kind, uint32_t way, cn_number number) {
    text t;
    size_t length = 1, room = begin(r, &t, CN_MOST_BYTES);
    uint32_t script = code(r, 2), letter_case = code(r, 2);
    uint32_t status = chinese_number_print(number.low, number.high, kind, way, script, letter_case,
                                           t.bytes, room, &length);
    add_printed(r, status, length, &t);
    try_read(r, &t, kind, way);
    try_read(r, &t, kind, CN_ANY);
    try_lines(r, &t, number.low >> below(r, 64));
    change(r, &t);
    try_read(r, &t, kind, way);
    try_read_and_find(r, &t);
}

/* A denominator, usually of a decimal or a percentage. */
static cn_number some_denominator(run *r) {
    uint64_t power = 1;
    if (below(r, 4) == 0)
        return some_number(r);
    for (uint32_t digits = below(r, 20); digits > 0; digits--)
        power *= 10;
    return cn_unsigned(power);
}

static void try_quantity(run *r) {
    text t;
    cn_quantity quantity = {{0, 0}, {0, 0}, 0, 1, 2};
    size_t length = 1, room = begin(r, &t, CN_MOST_QUANTITY_BYTES);
    uint32_t method = code(r, CN_ANY + 1), script = code(r, 2), letter_case = code(r, 2), status;
    quantity.numerator = some_number(r);
    quantity.denominator = some_denominator(r);
    quantity.form = code(r, CN_FRACTION + 1);
    status = chinese_quantity_print(&quantity, method, script, letter_case, t.bytes, room, &length);
    add_printed(r, status, length, &t);
    try_read_quantity(r, &t, method);
    change(r, &t);
    try_read_and_find(r, &t);
    room = begin(r, &t, CN_MOST_FIGURES_BYTES);
    status = chinese_quantity_figures(&quantity, t.bytes, room, &length);
    add_printed(r, status, length, &t);
    try_read_and_find(r, &t);
}

static void try_capitals(run *r, text *t) {
    for (int i = 0; i < 3; i++) {
        try_read_capitals(r, t);
        change(r, t);
    }
}

/* A colon is right only where 人民币 is printed; white space is right between any characters. */
static void type(run *r, text *t) {
    if (t->length > 9 && below(r, 2) == 0)
        put(t, 9, "：");
    put(t, 3 * below(r, (uint32_t)t->length / 3 + 1), " ");
    if (below(r, 2) == 0)
        put(t, 0, "⊗");
}

static void try_amount(run *r, uint64_t fen) {
    text t;
    size_t length = 1, room = begin(r, &t, CN_MOST_AMOUNT_BYTES);
    uint32_t script = code(r, 2), form = code(r, 16);
    uint32_t status = chinese_amount_print(fen, script, form, t.bytes, room, &length);
    add_printed(r, status, length, &t);
    try_read_amounts(r, &t);
    type(r, &t);
    try_capitals(r, &t);
}

/* The figures of an amount, with commas or without. */
static void write_figures(run *r, int64_t fen, text *t) {
    uint64_t left = fen < 0 ? 0 - (uint64_t)fen : (uint64_t)fen;
    uint32_t commas = below(r, 2);
    char digit[2] = "";
    t->length = 0;
    for (int place = 0; place < 3 || left != 0; place++, left /= 10) {
        if (place == 2 || (commas && place > 2 && place % 3 == 2))
            put(t, 0, place == 2 ? "." : ",");
        digit[0] = (char)('0' + left % 10);
        put(t, 0, digit);
    }
    if (below(r, 4) == 0)
        put(t, 0, "¥");
    if (fen < 0)
        put(t, 0, "-");
}

static void try_signed_amount(run *r, int64_t fen) {
    text t;
    size_t length = 1, room = begin(r, &t, CN_MOST_SIGNED_AMOUNT_BYTES);
    uint32_t script = code(r, 2), form = code(r, 16);
    uint32_t status = chinese_signed_amount_print(fen, script, form, t.bytes, room, &length);
    add_printed(r, status, length, &t);
    type(r, &t);
    try_capitals(r, &t);
    write_figures(r, fen, &t);
    try_capitals(r, &t);
}

static void try_date(run *r, uint32_t year, uint32_t month, uint32_t day) {
    text t;
    size_t length = 1, room = begin(r, &t, CN_MOST_DATE_BYTES);
    uint32_t status = chinese_date_print(year, month, day, code(r, 2), t.bytes, room, &length);
    add_printed(r, status, length, &t);
    try_capitals(r, &t);
}

/* A text of marks, usually in UTF-8, with runs of ASCII longer than a word of the processor. */
static void try_text(run *r, uint32_t marks) {
    text t;
    t.length = 0;
    for (uint32_t i = 0; i < marks; i++) {
        uint32_t wanted = below(r, 16) == 0 ? COUNT_OF_MARKS : COUNT_OF_MARKS - 4;
        put(&t, t.length, below(r, 8) == 0 ? "a long sentence" : MARKS[below(r, wanted)]);
    }
    r->cases++;
    try_read_and_find(r, &t);
    try_read_capitals(r, &t);
    try_lines(r, &t, 0);
}

/* ---- Columns ---- */

enum { ROWS = 40, COLUMN_BYTES = 2000 };

/* A column of texts, and which of its rows are present. */
typedef struct texts {
    uint64_t offsets[ROWS + 1];
    uint8_t bytes[COLUMN_BYTES];
    uint32_t statuses[ROWS];
    uint8_t bitmap[ROWS / 8];
    size_t bitmap_length, first, rows;
} texts;

/* Some rows of a column whose text begins early or late in its buffer. */
static void begin_texts(run *r, texts *c) {
    memset(c, 7, sizeof *c);
    for (size_t i = 0; i < sizeof c->bitmap; i++) {
        uint64_t bits = some(r);
        c->bitmap[i] = (uint8_t)(bits >> 7 | bits >> 29);
    }
    c->bitmap_length = below(r, sizeof c->bitmap + 1);
    c->first = below(r, 20);
    c->rows = below(r, ROWS + 1);
    c->offsets[0] = below(r, 8) == 0 ? below(r, COLUMN_BYTES + 2) : below(r, 4);
}

static void add_texts(run *r, uint32_t status, size_t done, const texts *c) {
    add_word(r, status);
    add_word(r, done);
    for (size_t i = 0; i < ROWS; i++) {
        add_word(r, c->offsets[i + 1]);
        add_word(r, c->statuses[i]);
    }
    add(r, c->bytes, sizeof c->bytes);
    r->cases++;
}

/* Changes an offset or a byte, usually not. */
static void spoil(run *r, texts *c) {
    size_t row = below(r, 4 * ROWS), at = below(r, 4 * COLUMN_BYTES);
    uint64_t word = some(r);
    if (row <= ROWS)
        c->offsets[row] = word % 3 == 0 ? word : word % COLUMN_BYTES;
    if (at < COLUMN_BYTES)
        c->bytes[at] = (uint8_t)(word >> 20);
}

static void add_values(run *r, uint32_t status, const uint64_t *words, size_t count,
                       const uint32_t *statuses) {
    add_word(r, status);
    for (size_t i = 0; i < count; i++)
        add_word(r, words[i]);
    for (size_t i = 0; i < ROWS; i++)
        add_word(r, statuses[i]);
}

static void try_numbers_column(run *r) {
    texts c;
    uint64_t values[2 * ROWS];
    cn_number wide[ROWS];
    size_t done = 9;
    uint32_t kind = code(r, CN_I128 + 1), way = code(r, CN_ANY + 1), script = code(r, 2), letter_case = code(r, 2);
    uint32_t status;
    begin_texts(r, &c);
    for (size_t i = 0; i < ROWS; i++) {
        wide[i] = some_number(r);
        values[i] = wide[i].low;
    }
    if (below(r, 2) == 0)
        status = chinese_numbers_print_column(values, ROWS, c.bitmap, c.bitmap_length, c.first, kind, way, script,
                                              letter_case, c.offsets, c.rows + 1, c.bytes, sizeof c.bytes, c.statuses,
                                              ROWS, &done);
    else
        status = chinese_wide_numbers_print_column(wide, c.rows, c.bitmap, c.bitmap_length, c.first, kind, way, script,
                                                   letter_case, c.offsets, ROWS + 1, c.bytes, sizeof c.bytes,
                                                   c.statuses, ROWS, &done);
    add_texts(r, status, done, &c);
    spoil(r, &c);
    status = chinese_numbers_read_column(c.bytes, sizeof c.bytes, c.offsets, ROWS + 1, c.bitmap, c.bitmap_length,
                                         c.first, kind, way, values, ROWS, c.statuses, done);
    add_values(r, status, values, ROWS, c.statuses);
    status = chinese_wide_numbers_read_column(c.bytes, sizeof c.bytes, c.offsets, done + 1, c.bitmap, c.bitmap_length,
                                              c.first, kind, way, wide, ROWS, c.statuses, ROWS);
    for (size_t i = 0; i < ROWS; i++) {
        values[2 * i] = wide[i].low;
        values[2 * i + 1] = wide[i].high;
    }
    add_values(r, status, values, 2 * ROWS, c.statuses);
}

static void try_amounts_column(run *r) {
    texts c;
    int64_t fen[ROWS];
    uint64_t words[ROWS];
    size_t done = 9;
    uint32_t script = code(r, 2), form = code(r, 16), input = code(r, CN_FIGURES + 1), status;
    begin_texts(r, &c);
    for (size_t i = 0; i < ROWS; i++) {
        int64_t any = (int64_t)some(r);
        fen[i] = any / ((int64_t)1 << below(r, 63));
    }
    status = chinese_amounts_print_column(fen, c.rows, c.bitmap, c.bitmap_length, c.first, script, form, c.offsets,
                                          ROWS + 1, c.bytes, sizeof c.bytes, c.statuses, ROWS, &done);
    add_texts(r, status, done, &c);
    spoil(r, &c);
    status = chinese_amounts_read_column(c.bytes, sizeof c.bytes, c.offsets, ROWS + 1, c.bitmap, c.bitmap_length,
                                         c.first, input, fen, done, c.statuses, ROWS);
    for (size_t i = 0; i < ROWS; i++)
        words[i] = (uint64_t)fen[i];
    add_values(r, status, words, ROWS, c.statuses);
}

static void try_dates_column(run *r) {
    texts c;
    cn_day days[ROWS];
    uint64_t words[ROWS];
    size_t done = 9;
    uint32_t script = code(r, 2), status;
    begin_texts(r, &c);
    for (size_t i = 0; i < ROWS; i++) {
        days[i].year = below(r, 10010);
        days[i].month = below(r, 14);
        days[i].day = below(r, 33);
    }
    status = chinese_dates_print_column(days, c.rows, c.bitmap, c.bitmap_length, c.first, script, c.offsets, ROWS + 1,
                                        c.bytes, sizeof c.bytes, c.statuses, ROWS, &done);
    add_texts(r, status, done, &c);
    spoil(r, &c);
    status = chinese_dates_read_column(c.bytes, sizeof c.bytes, c.offsets, ROWS + 1, c.bitmap, c.bitmap_length, c.first,
                                       days, ROWS, c.statuses, done);
    for (size_t i = 0; i < ROWS; i++)
        words[i] = days[i].year * UINT64_C(10000) + days[i].month * 100 + days[i].day;
    add_values(r, status, words, ROWS, c.statuses);
}

static void try_statuses(run *r) {
    uint8_t message[CN_MOST_MESSAGE_BYTES] = {0};
    for (uint32_t status = 0; status <= CN_NOT_A_QUANTITY + 1; status++)
        for (uint32_t language = 0; language <= CN_TRADITIONAL_CHINESE + 1; language++) {
            size_t length = 9;
            uint32_t found = chinese_status_message(status, language, message, sizeof message, &length);
            add_message(r, found, message, length);
        }
}

static void try_ends(run *r) {
    static const cn_number ENDS[] = {
        {0, 0}, {1, 0}, {UINT64_MAX, 0}, {0, 1}, {UINT64_MAX, UINT64_MAX}, {0, (uint64_t)1 << 63},
    };
    for (uint32_t kind = 0; kind <= CN_I128 + 1; kind++)
        for (uint32_t way = 0; way <= CN_ANY; way++)
            for (size_t i = 0; i < sizeof ENDS / sizeof *ENDS; i++)
                try_number(r, kind, way, ENDS[i]);
    for (uint64_t fen = 1; fen < UINT64_C(10000000000000000000); fen *= 10) {
        try_amount(r, fen - 1);
        try_amount(r, fen);
        try_signed_amount(r, 1 - (int64_t)fen);
        try_signed_amount(r, -(int64_t)fen);
    }
    try_signed_amount(r, INT64_MIN);
    for (uint32_t day = 0; day <= 32; day++)
        try_date(r, 1900 + 100 * (day % 2), 2, day);
    try_text(r, 0);
    try_statuses(r);
    add_word(r, chinese_number_version());
}

static void try_all(run *r) {
    r->state = UINT64_C(88172645463325252);
    r->sum = UINT64_C(14695981039346656037);
    r->cases = 0;
    for (uint32_t kind = 0; kind <= CN_I128 + 1; kind++)
        for (uint32_t way = 0; way <= CN_ANY; way++)
            for (long i = 0; i < r->count; i++)
                try_number(r, kind, way, some_number(r));
    for (long i = 0; i < 10 * r->count; i++) {
        uint64_t fen = some(r);
        uint32_t year = below(r, 10100), month = below(r, 14), day = below(r, 33);
        try_amount(r, fen >> below(r, 64));
        try_signed_amount(r, (int64_t)fen >> below(r, 64));
        try_date(r, year, month, day);
        try_quantity(r);
        try_text(r, below(r, 24));
    }
    for (long i = 0; i < r->count; i++) {
        try_numbers_column(r);
        try_amounts_column(r);
        try_dates_column(r);
    }
    try_ends(r);
}

#ifdef THREADS
#include <pthread.h>

static void *in_thread(void *r) {
    try_all((run *)r);
    return NULL;
}

static int is_same_in_threads(const run *wanted) {
    pthread_t threads[4];
    run runs[4];
    int same = 1;
    for (int i = 0; i < 4; i++) {
        runs[i] = *wanted;
        if (pthread_create(&threads[i], NULL, in_thread, &runs[i]) != 0)
            return 0;
    }
    for (int i = 0; i < 4; i++)
        same &= pthread_join(threads[i], NULL) == 0 && runs[i].sum == wanted->sum;
    return same;
}
#else
static int is_same_in_threads(const run *wanted) {
    return wanted != NULL;
}
#endif

/* The time of a call that prints or reads a number of 64 bits. */
static void show_times(run *r, int rounds) {
    static uint8_t rooms[SAMPLES][CN_MOST_BYTES];
    static size_t lengths[SAMPLES];
    static uint64_t numbers[SAMPLES];
    clock_t print = 0, read = 0;
    cn_reading reading;
    for (int i = 0; i < SAMPLES; i++)
        numbers[i] = some(r) >> i % 64;
    for (int round = 0; round < rounds; round++) {
        clock_t start = clock(), middle, end;
        for (int i = 0; i < SAMPLES; i++)
            chinese_number_print(numbers[i], 0, CN_U64, CN_TEN_THOUSAND, CN_SIMPLIFIED, CN_LOWER,
                                 rooms[i], CN_MOST_BYTES, &lengths[i]);
        middle = clock();
        for (int i = 0; i < SAMPLES; i++)
            chinese_number_read(rooms[i], lengths[i], CN_U64, CN_TEN_THOUSAND, &reading);
        end = clock();
        print = round == 0 || middle - start < print ? middle - start : print;
        read = round == 0 || end - middle < read ? end - middle : read;
    }
    printf("print %.0f ns, read %.0f ns\n", 1e9 * (double)print / CLOCKS_PER_SEC / SAMPLES,
           1e9 * (double)read / CLOCKS_PER_SEC / SAMPLES);
}

int main(int argc, char **argv) {
    run r = {0, 0, argc > 1 ? atol(argv[1]) : 100, 0};
    try_all(&r);
    printf("%ld numbers, quantities, amounts, dates and texts, sum %08lx%08lx\n", r.cases,
           (unsigned long)(r.sum >> 32), (unsigned long)(r.sum & UINT32_MAX));
    if (!is_same_in_threads(&r)) {
        puts("a thread found another sum");
        return 1;
    }
    if (argc > 2)
        show_times(&r, atoi(argv[2]));
    return 0;
}
