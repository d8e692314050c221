/* Answers the questions of test.py, one per line; test.py describes them. */
#include "chinese_number.h"

#include <stdio.h>
#include <stdlib.h>
#include <string.h>

enum { MOST_BYTES_OF_LINE = 4096, MOST_WORDS = 6 };

/* The names, in the order of their codes. */
static const char *const KINDS[] = {
    "u8", "u16", "u32", "u64", "u128", "i8", "i16", "i32", "i64", "i128", NULL,
};
static const char *const WAYS[] = {"naive", "low", "ten_thousand", "middle", "high", "any", NULL};
static const char *const SCRIPTS[] = {"traditional", "simple", NULL};
static const char *const CASES[] = {"upper", "lower", NULL};
static const char *const QUANTITY_FORMS[] = {"whole", "decimal", "percent", "fraction", NULL};
static const char *const DOUBTS[] = {"none", "word", "digits", "term", "part", "time", "range"};
static const char *const PHRASE_KINDS[] = {
    "expression", "date", "years", "months", "days", "time", "duration", "half", "length", "score",
    "range", "money",
};
static const char *const PHRASE_STATES[] = {"certain", "doubtful", "refused"};
/* The codes of flags, of options for replacing and of forms of an amount are added together. */
static const char *const FLAGS[] = {"plain", "alone", "about", "one", NULL};
static const char *const OPTIONS[] = {
    "plain", "alone", "about", "one", "doubtful", "expanded", "canonical", "compact",
    "codes", NULL,
};
static const char *const FORMS[] = {
    "currency", "round_yuan", "upright_closing", "bracketed_sign", NULL,
};
static const char *const INPUTS[] = {
    "amount", "signed_amount", "typed_amount", "typed_signed_amount", "date", "figures", NULL,
};
static const char *const LANGUAGES[] = {"en", "zh-Hans", "zh-Hant", NULL};
static const char *const CHANGES[] = {"none", "insert", "replace", "delete"};
static const char *const FAULTS[] = {
    "none", "empty", "too_large", "too_small", "start", "character", "digits", "units", "ge",
    "groups", "bare_ten", "repeated_ten", "after_zero", "weight", "two_readings", "left_out_zero",
    "denominator",
};

/* The code of a name. For an unknown name it is the first code that the library refuses. */
static uint32_t code_of(const char *const *names, const char *name) {
    uint32_t code = 0;
    while (names[code] != NULL && strcmp(names[code], name) != 0)
        code++;
    return code;
}

/* The flags or the form of words that `+` separates. A word that is not a name means none. */
static uint32_t flags_of(const char *const *names, char *words) {
    uint32_t flags = 0;
    for (char *word = strtok(words, "+"); word != NULL; word = strtok(NULL, "+")) {
        uint32_t code = code_of(names, word);
        flags |= names[code] != NULL ? UINT32_C(1) << code : 0;
    }
    return flags;
}

static cn_number negated(cn_number number) {
    number.high = ~number.high + (number.low == 0);
    number.low = ~number.low + 1;
    return number;
}

/* The number of a text in decimal, in 128 bits: 32 bits are multiplied at a time. */
static cn_number number_of(const char *text) {
    cn_number number = {0, 0};
    int is_negative = *text == '-';
    for (text += is_negative; *text != '\0'; text++) {
        uint64_t low = (number.low & UINT32_MAX) * 10 + (uint64_t)(*text - '0');
        uint64_t middle = (number.low >> 32) * 10 + (low >> 32);
        number.low = middle << 32 | (low & UINT32_MAX);
        number.high = number.high * 10 + (middle >> 32);
    }
    return is_negative ? negated(number) : number;
}

/* Takes the last digit off a number in decimal. */
static char take_digit(cn_number *number) {
    uint64_t middle = (number->high % 10) << 32 | number->low >> 32;
    uint64_t low = (middle % 10) << 32 | (number->low & UINT32_MAX);
    number->high /= 10;
    number->low = (middle / 10) << 32 | low / 10;
    return (char)('0' + low % 10);
}

static void put_number(cn_number number, cn_kind kind) {
    char digits[40];
    size_t first = sizeof digits - 1;
    if (kind >= CN_I8 && number.high >> 63) {
        putchar('-');
        number = negated(number);
    }
    digits[first] = '\0';
    do
        digits[--first] = take_digit(&number);
    while (number.low != 0 || number.high != 0);
    fputs(digits + first, stdout);
}

/* Writes why a text is not a number, amount or date, or why there is no text. */
static void put_refusal(const char *what, cn_status status, size_t char_index) {
    if (status == CN_INCORRECT)
        printf("err the %s is incorrect (position: %lu)", what, (unsigned long)char_index);
    else if (status == CN_UNFINISHED)
        printf("err the %s is not finished", what);
    else
        printf("err %s", cn_status_text(status));
}

static void put_reading(cn_status status, const cn_reading *reading, cn_kind kind) {
    if (status == CN_DONE) {
        fputs("ok ", stdout);
        put_number(reading->number, kind);
    } else {
        put_refusal("chinese number", status, reading->char_index);
    }
}

static void put_printed(const char *what, cn_status status, const char *text) {
    if (status == CN_DONE)
        printf("ok %s", text);
    else
        put_refusal(what, status, 0);
}

static void answer_read(char **words) {
    cn_kind kind = (cn_kind)code_of(KINDS, words[1]);
    cn_way way = (cn_way)code_of(WAYS, words[2]);
    cn_reading reading;
    put_reading(cn_read(words[3], strlen(words[3]), kind, way, &reading), &reading, kind);
}

static void answer_print(char **words) {
    char text[CN_MOST_BYTES + 1];
    cn_kind kind = (cn_kind)code_of(KINDS, words[1]);
    cn_way way = (cn_way)code_of(WAYS, words[2]);
    cn_script script = (cn_script)code_of(SCRIPTS, words[3]);
    cn_case letter_case = (cn_case)code_of(CASES, words[4]);
    cn_number number = number_of(words[5]);
    put_printed("chinese number",
                cn_print(number, kind, way, script, letter_case, text, sizeof text), text);
}

static void put_fen(cn_status status, int64_t fen, size_t char_index) {
    if (status == CN_DONE)
        printf("ok %lld", (long long)fen);
    else
        put_refusal("amount", status, char_index);
}

static void answer_read_amount(char **words) {
    cn_amount amount;
    cn_status status = cn_read_amount(words[1], strlen(words[1]), &amount);
    put_fen(status, (int64_t)amount.fen, amount.char_index);
}

static void answer_read_typed_amount(char **words) {
    cn_amount amount;
    cn_status status = cn_read_typed_amount(words[1], strlen(words[1]), &amount);
    put_fen(status, (int64_t)amount.fen, amount.char_index);
}

typedef cn_status read_signed(const char *, size_t, cn_signed_amount *);

static void put_signed_read(read_signed *read, const char *text) {
    cn_signed_amount amount;
    cn_status status = read(text, strlen(text), &amount);
    put_fen(status, amount.fen, amount.char_index);
}

static void answer_read_signed_amount(char **words) {
    put_signed_read(cn_read_signed_amount, words[1]);
}

static void answer_read_typed_signed_amount(char **words) {
    put_signed_read(cn_read_typed_signed_amount, words[1]);
}

static void answer_yuan_to_fen(char **words) {
    put_signed_read(cn_read_figures, words[1]);
}

static void put_amount(const char *script, cn_form form, const char *figures) {
    char text[CN_MOST_AMOUNT_BYTES + 1];
    uint64_t fen = strtoull(figures, NULL, 10);
    cn_script code = (cn_script)code_of(SCRIPTS, script);
    put_printed("amount", cn_print_amount(fen, code, form, text, sizeof text), text);
}

static void answer_print_amount(char **words) {
    put_amount(words[1], CN_PLAIN, words[2]);
}

static void answer_print_amount_as(char **words) {
    put_amount(words[1], (cn_form)flags_of(FORMS, words[2]), words[3]);
}

static void put_signed_amount(const char *script, cn_form form, const char *figures) {
    char text[CN_MOST_SIGNED_AMOUNT_BYTES + 1];
    int64_t fen = strtoll(figures, NULL, 10);
    cn_script code = (cn_script)code_of(SCRIPTS, script);
    put_printed("amount", cn_print_signed_amount(fen, code, form, text, sizeof text), text);
}

static void answer_print_signed_amount(char **words) {
    put_signed_amount(words[1], CN_PLAIN, words[2]);
}

static void answer_print_signed_amount_as(char **words) {
    put_signed_amount(words[1], (cn_form)flags_of(FORMS, words[2]), words[3]);
}

static void answer_read_date(char **words) {
    cn_date date;
    cn_status status = cn_read_date(words[1], strlen(words[1]), &date);
    if (status == CN_DONE)
        printf("ok %04u-%02u-%02u", date.year, date.month, date.day);
    else
        put_refusal("date", status, date.char_index);
}

static void answer_print_date(char **words) {
    char text[CN_MOST_DATE_BYTES + 1];
    unsigned year = 0, month = 0, day = 0;
    cn_script script = (cn_script)code_of(SCRIPTS, words[1]);
    sscanf(words[2], "%u-%u-%u", &year, &month, &day);
    put_printed("date", cn_print_date(year, month, day, script, text, sizeof text), text);
}

/* The quantity of words such as 350000/10 decimal. */
static cn_quantity quantity_of(char *words) {
    cn_quantity quantity = {{0, 0}, {0, 0}, 0, 0, 0};
    quantity.numerator = number_of(strtok(words, "/"));
    quantity.denominator = number_of(strtok(NULL, " "));
    quantity.form = code_of(QUANTITY_FORMS, strtok(NULL, " "));
    return quantity;
}

static void put_ratio(const cn_quantity *quantity) {
    put_number(quantity->numerator, CN_I128);
    putchar('/');
    put_number(quantity->denominator, CN_U128);
}

static void put_quantity(const cn_quantity *quantity) {
    fputs("ok ", stdout);
    put_ratio(quantity);
    printf(" %s", QUANTITY_FORMS[quantity->form]);
}

static void put_quantity_read(const char *text, size_t length, cn_way method) {
    cn_quantity quantity;
    cn_status status = cn_read_quantity(text, length, method, &quantity);
    if (status == CN_DONE)
        put_quantity(&quantity);
    else
        put_refusal("chinese number", status, quantity.char_index);
}

static void answer_read_quantity(char **words) {
    put_quantity_read(words[2], strlen(words[2]), (cn_way)code_of(WAYS, words[1]));
}

static void answer_print_quantity(char **words) {
    char text[CN_MOST_QUANTITY_BYTES + 1];
    cn_way method = (cn_way)code_of(WAYS, words[1]);
    cn_script script = (cn_script)code_of(SCRIPTS, words[2]);
    cn_case letter_case = (cn_case)code_of(CASES, words[3]);
    cn_quantity quantity = quantity_of(words[4]);
    put_printed("quantity",
                cn_print_quantity(&quantity, method, script, letter_case, text, sizeof text), text);
}

static void answer_quantity_figures(char **words) {
    char text[CN_MOST_FIGURES_BYTES + 1];
    cn_quantity quantity = quantity_of(words[1]);
    put_printed("quantity", cn_quantity_figures(&quantity, text, sizeof text), text);
}

/* Figures are read as the trimmed quantity, except those of a fraction, which are refused. */
static void answer_trim_quantity(char **words) {
    char text[CN_MOST_FIGURES_BYTES + 1];
    cn_quantity quantity = quantity_of(words[1]), trimmed;
    cn_status status = cn_quantity_figures(&quantity, text, sizeof text);
    if (status == CN_DONE)
        status = cn_read_quantity(text, strlen(text), CN_TEN_THOUSAND, &trimmed);
    put_quantity(status == CN_DONE ? &trimmed : &quantity);
}

/* Writes a run that was found in a text. */
static void put_found_number(const char *text, const cn_span *span) {
    cn_reading reading;
    cn_status status = cn_read_found(text, span, CN_I128, CN_TEN_THOUSAND, &reading);
    put_reading(status, &reading, CN_I128);
}

static void put_found_quantity(const char *text, const cn_span *span) {
    put_quantity_read(text + span->start, span->end - span->start, CN_TEN_THOUSAND);
}

static void put_flags(const char *text, const cn_span *span) {
    const char *between = "";
    (void)text;
    for (size_t i = 0; FLAGS[i] != NULL; i++)
        if (span->flags >> i & 1) {
            printf("%s%s", between, FLAGS[i]);
            between = " ";
        }
}

static void put_doubt(const char *text, const cn_span *span) {
    (void)text;
    fputs(DOUBTS[cn_doubt_of(span)], stdout);
}

typedef cn_status search(const char *, size_t, uint32_t, cn_unit, cn_span *);

/* Writes a text with each of its runs replaced by its description, in brackets. */
static void answer_found(const char *text, search *next, void (*put)(const char *, const cn_span *)) {
    size_t length = strlen(text), at = 0;
    cn_span span = {0, 0, 0};
    fputs("ok ", stdout);
    while (next(text, length, 0, CN_ZHAO, &span) == CN_DONE) {
        printf("%.*s[", (int)(span.start - at), text + at);
        put(text, &span);
        putchar(']');
        at = span.end;
    }
    fputs(text + at, stdout);
}

static void answer_find(char **words) {
    answer_found(words[1], cn_find_next, put_found_number);
}

static void answer_flags(char **words) {
    answer_found(words[1], cn_find_next, put_flags);
}

static void answer_find_quantities(char **words) {
    answer_found(words[1], cn_find_next_quantity, put_found_quantity);
}

static void answer_doubts(char **words) {
    answer_found(words[1], cn_find_next_quantity, put_doubt);
}

typedef cn_status to_figures(const char *, size_t, uint32_t, cn_unit, cn_way, uint32_t, char *, size_t,
                             size_t *);

static void put_in_figures(to_figures *write, char **words) {
    char text[2 * MOST_BYTES_OF_LINE];
    size_t length;
    uint32_t options = flags_of(OPTIONS, words[1]);
    put_printed("text",
                write(words[2], strlen(words[2]), 0, CN_ZHAO, CN_TEN_THOUSAND, options, text,
                      sizeof text, &length), text);
}

static void answer_quantities_to_figures(char **words) {
    put_in_figures(cn_quantities_to_figures, words);
}

static void answer_text_to_figures(char **words) {
    put_in_figures(cn_text_to_figures, words);
}

static void answer_text_to_speech(char **words) {
    char text[8 * MOST_BYTES_OF_LINE], meant[MOST_BYTES_OF_LINE];
    size_t length;
    put_printed("text",
                cn_text_to_speech(words[2], strlen(words[2]), 0, CN_ZHAO, CN_TEN_THOUSAND,
                                  strcmp(words[1], "simplified") == 0 ? CN_SIMPLIFIED : CN_TRADITIONAL, 0, meant,
                                  sizeof meant, text, sizeof text, &length), text);
}

static cn_status find_next_unspoken(const char *text, size_t length, uint32_t upper, cn_unit greatest, cn_span *span) {
    char meant[MOST_BYTES_OF_LINE];
    return cn_find_next_unspoken(text, length, upper, greatest, meant, sizeof meant, span);
}

static void put_unspoken(const char *text, const cn_span *span) {
    printf("%.*s", (int)(span->end - span->start), text + span->start);
}

static void answer_find_unspoken(char **words) {
    answer_found(words[1], find_next_unspoken, put_unspoken);
}

/* Writes a part of a date that is given. */
static void put_part(int is_given, uint32_t part) {
    if (is_given)
        printf("%u", part);
    else
        putchar('?');
}

static void put_date(const cn_phrase *date) {
    put_part((date->fourth & 1) != 0, date->first);
    putchar('-');
    put_part((date->fourth & 2) != 0, date->second);
    putchar('-');
    put_part((date->fourth & 4) != 0, date->third);
}

static void put_time(const cn_phrase *time) {
    printf("%u:%u:%u =", time->first, time->second, time->third);
    put_part(time->fourth != 255, time->fourth);
}

static void put_duration(const cn_phrase *duration) {
    uint32_t minutes = duration->first * 60 + duration->second;
    printf("%u:%u:%u", minutes / 60, minutes % 60, duration->third);
}

static void put_length(const cn_phrase *length) {
    uint32_t power = length->third == 1 ? 10 : 100;
    printf("%u/%u", length->first * power + length->second, power);
}

static void put_range(const char *text, const cn_phrase *range) {
    cn_quantity low, high;
    if (cn_read_range(text, range, &low, &high) != CN_DONE)
        return;
    put_ratio(&low);
    fputs("..", stdout);
    put_ratio(&high);
}

/* Writes a sum of money in yuan, or - if its fen are not known. */
static void put_money(const cn_phrase *phrase) {
    uint64_t fen = ((uint64_t)phrase->second << 32) + phrase->first;
    if (phrase->third == 0)
        putchar('-');
    else
        printf("%llu/100", (unsigned long long)fen);
}

/* Writes the value of a phrase that is not refused. */
static void put_value(const char *text, const cn_phrase *phrase) {
    if (phrase->kind == CN_PHRASE_KIND_DATE)
        put_date(phrase);
    else if (phrase->kind == CN_PHRASE_KIND_TIME)
        put_time(phrase);
    else if (phrase->kind == CN_PHRASE_KIND_DURATION)
        put_duration(phrase);
    else if (phrase->kind == CN_PHRASE_KIND_HALF)
        printf("%u/10", phrase->first * 10 + 5);
    else if (phrase->kind == CN_PHRASE_KIND_LENGTH)
        put_length(phrase);
    else if (phrase->kind == CN_PHRASE_KIND_RANGE)
        put_range(text, phrase);
    else if (phrase->kind == CN_PHRASE_KIND_MONEY)
        put_money(phrase);
    else
        printf(phrase->kind == CN_PHRASE_KIND_SCORE ? "%u:%u" : "%u..%u", phrase->first,
               phrase->second);
}

/* Writes the phrases of a text, with a tab between them. */
static void answer_phrases(char **words) {
    const char *text = words[1], *between = "";
    cn_phrase phrase = {0, 0, 0, 0, 0, 0, 0, 0, 0, 0};
    fputs("ok ", stdout);
    while (cn_find_next_phrase(text, strlen(text), 0, CN_ZHAO, &phrase) == CN_DONE) {
        if (phrase.kind == CN_PHRASE_KIND_EXPRESSION)
            continue;
        printf("%s%s %s %.*s ", between, PHRASE_KINDS[phrase.kind], PHRASE_STATES[phrase.state],
               (int)(phrase.end - phrase.start), text + phrase.start);
        if (phrase.state == CN_PHRASE_STATE_REFUSED)
            putchar('-');
        else
            put_value(text, &phrase);
        between = "\t";
    }
}

/* Writes an expression of a text, if it is not a fraction, in numerals; returns whether it did. */
static int write_in_numerals(const char *text, const cn_span *span, char *room, size_t room_length) {
    cn_quantity quantity;
    cn_status status = cn_read_quantity(text + span->start, span->end - span->start,
                                        CN_TEN_THOUSAND, &quantity);
    if (status != CN_DONE || quantity.form == CN_FRACTION)
        return 0;
    status = cn_print_quantity(&quantity, CN_ANY, CN_SIMPLIFIED, CN_LOWER, room, room_length);
    return status == CN_DONE;
}

/* Whether an expression is replaced with these options, if it has a quantity. */
static int is_included(const cn_span *span, uint32_t options) {
    cn_doubt doubt = cn_doubt_of(span);
    if ((span->flags & (CN_ABOUT | CN_ONE_CHARACTER) & ~options) != 0)
        return 0;
    return doubt == CN_NO_DOUBT || ((options & CN_DOUBTFUL) != 0 && doubt != CN_DOUBT_PART);
}

static void answer_replace_quantities(char **words) {
    uint32_t options = flags_of(OPTIONS, words[1]);
    const char *text = words[2];
    size_t length = strlen(text), at = 0;
    cn_span span = {0, 0, 0};
    char numerals[CN_MOST_QUANTITY_BYTES + 1];
    fputs("ok ", stdout);
    while (cn_find_next_quantity(text, length, 0, CN_ZHAO, &span) == CN_DONE)
        if (is_included(&span, options)
            && write_in_numerals(text, &span, numerals, sizeof numerals)) {
            printf("%.*s%s", (int)(span.start - at), text + at, numerals);
            at = span.end;
        }
    fputs(text + at, stdout);
}

/* Writes a character in UTF-8. Those that may follow or repair a text have at most 16 bits. */
static void put_character(uint32_t character) {
    if (character < 0x80) {
        putchar((int)character);
        return;
    }
    if (character < 0x800) {
        putchar((int)(0xC0 | character >> 6));
    } else {
        putchar((int)(0xE0 | character >> 12));
        putchar((int)(0x80 | (character >> 6 & 0x3F)));
    }
    putchar((int)(0x80 | (character & 0x3F)));
}

static void answer_expected(char **words) {
    cn_input input = (cn_input)code_of(INPUTS, words[1]);
    cn_expected next;
    cn_status status = cn_input_expected(words[2], strlen(words[2]), input, &next);
    if (status != CN_DONE) {
        put_refusal("text", status, 0);
        return;
    }
    printf("ok %lu %s %s", (unsigned long)next.char_index, next.may_end ? "end" : "-",
           next.white_space ? "space" : "-");
    for (uint32_t i = 0; i < next.count; i++) {
        fputs(i == 0 ? " " : "", stdout);
        put_character(next.characters[i]);
    }
}

static void answer_repair(char **words) {
    cn_input input = (cn_input)code_of(INPUTS, words[1]);
    cn_repair repair;
    cn_status status = cn_input_repair(words[2], strlen(words[2]), input, &repair);
    if (status != CN_DONE) {
        put_refusal("text", status, 0);
        return;
    }
    printf("ok %s", CHANGES[repair.change]);
    if (repair.change != CN_NO_CHANGE)
        printf(" %lu", (unsigned long)repair.char_index);
    if (repair.character != 0) {
        putchar(' ');
        put_character(repair.character);
    }
}

static void answer_explain(char **words) {
    cn_kind kind = (cn_kind)code_of(KINDS, words[1]);
    cn_way way = (cn_way)code_of(WAYS, words[2]);
    printf("ok %s", FAULTS[cn_explain(words[3], strlen(words[3]), kind, way)]);
}

static void answer_explain_quantity(char **words) {
    cn_way method = (cn_way)code_of(WAYS, words[1]);
    printf("ok %s", FAULTS[cn_explain_quantity(words[2], strlen(words[2]), method)]);
}

static void answer_input_message(char **words) {
    char message[CN_MOST_MESSAGE_BYTES + 1];
    cn_language language = (cn_language)code_of(LANGUAGES, words[1]);
    cn_input input = (cn_input)code_of(INPUTS, words[2]);
    put_printed("text",
                cn_input_message(words[3], strlen(words[3]), input, language, message,
                                 sizeof message), message);
}

static void answer_number_message(char **words) {
    char message[CN_MOST_MESSAGE_BYTES + 1];
    cn_language language = (cn_language)code_of(LANGUAGES, words[1]);
    cn_kind kind = (cn_kind)code_of(KINDS, words[2]);
    cn_way way = (cn_way)code_of(WAYS, words[3]);
    put_printed("text",
                cn_number_message(words[4], strlen(words[4]), kind, way, language, message,
                                  sizeof message), message);
}

static void answer_quantity_message(char **words) {
    char message[CN_MOST_MESSAGE_BYTES + 1];
    cn_language language = (cn_language)code_of(LANGUAGES, words[1]);
    cn_way method = (cn_way)code_of(WAYS, words[2]);
    put_printed("text",
                cn_quantity_message(words[3], strlen(words[3]), method, language, message,
                                    sizeof message), message);
}

static const struct {
    const char *name;
    size_t words;
    void (*answer)(char **words);
} CALLS[] = {
    {"read", 4, answer_read},
    {"print", 6, answer_print},
    {"read_amount", 2, answer_read_amount},
    {"print_amount", 3, answer_print_amount},
    {"print_amount_as", 4, answer_print_amount_as},
    {"read_typed_amount", 2, answer_read_typed_amount},
    {"read_signed_amount", 2, answer_read_signed_amount},
    {"read_typed_signed_amount", 2, answer_read_typed_signed_amount},
    {"print_signed_amount", 3, answer_print_signed_amount},
    {"print_signed_amount_as", 4, answer_print_signed_amount_as},
    {"yuan_to_fen", 2, answer_yuan_to_fen},
    {"read_date", 2, answer_read_date},
    {"print_date", 3, answer_print_date},
    {"find", 2, answer_find},
    {"flags", 2, answer_flags},
    {"read_quantity", 3, answer_read_quantity},
    {"find_quantities", 2, answer_find_quantities},
    {"doubts", 2, answer_doubts},
    {"print_quantity", 5, answer_print_quantity},
    {"quantity_figures", 2, answer_quantity_figures},
    {"trim_quantity", 2, answer_trim_quantity},
    {"quantities_to_figures", 3, answer_quantities_to_figures},
    {"text_to_figures", 3, answer_text_to_figures},
    {"text_to_speech", 3, answer_text_to_speech},
    {"find_unspoken", 2, answer_find_unspoken},
    {"phrases", 2, answer_phrases},
    {"replace_quantities", 3, answer_replace_quantities},
    {"expected", 3, answer_expected},
    {"repair", 3, answer_repair},
    {"explain", 4, answer_explain},
    {"explain_quantity", 3, answer_explain_quantity},
    {"input_message", 4, answer_input_message},
    {"number_message", 5, answer_number_message},
    {"quantity_message", 4, answer_quantity_message},
};

/* Splits a line into words, and returns how many there are. */
static size_t part(char *line, char **words) {
    size_t count = 0;
    while (line != NULL && count < MOST_WORDS) {
        words[count++] = line;
        line = strchr(line, '\t');
        if (line != NULL)
            *line++ = '\0';
    }
    return count;
}

static void answer(char **words, size_t count) {
    for (size_t i = 0; i < sizeof CALLS / sizeof *CALLS; i++)
        if (strcmp(words[0], CALLS[i].name) == 0 && count == CALLS[i].words)
            CALLS[i].answer(words);
    putchar('\n');
}

int main(void) {
    char line[MOST_BYTES_OF_LINE], *words[MOST_WORDS];
    while (fgets(line, sizeof line, stdin) != NULL) {
        line[strcspn(line, "\n")] = '\0';
        answer(words, part(line, words));
    }
    return 0;
}
