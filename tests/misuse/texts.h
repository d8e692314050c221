/* Random values and texts, for programs that try the library with them. */
#include "calls.h"

__extension__ typedef unsigned __int128 whole;

/* A draft has room for one character after a text. */
enum { MOST_WRITTEN = 12 * MOST_TEXT, MOST_OF_TEXT = 480, MOST_OF_DRAFT = MOST_OF_TEXT + 4 };

static uint64_t random_state;

/* ---- Random values ---- */

static uint64_t below(uint64_t limit) { return next_random(&random_state) % limit; }

#define ONE_OF(list) (list)[below(LENGTH_OF(list))]

static int once_in(uint64_t times) { return below(times) == 0; }

static uint64_t random_bits(unsigned bits) {
    uint64_t all = next_random(&random_state) << 32 ^ next_random(&random_state);
    return bits == 0 ? 0 : all >> (64 - bits);
}

/* A number of up to this many bits; or one with zeros in between. */
static whole random_whole(unsigned most_bits) {
    unsigned bits = (unsigned)below(most_bits + 1);
    whole value = bits <= 64 ? random_bits(bits) : (whole)random_bits(bits - 64) << 64 | random_bits(64);
    if (once_in(3)) {
        value = 0;
        for (uint64_t digits = below(17); digits > 0; digits--)
            value = value * 10 + (once_in(2) ? 0 : below(10));
    }
    return value;
}

static whole power_of_ten(uint64_t exponent) {
    whole power = 1;
    while (exponent-- > 0)
        power *= 10;
    return power;
}

/* The values of a call that prints. */
static void random_values(const call *by, uint64_t *values) {
    whole one = random_whole(128), other = once_in(3) ? power_of_ten(below(38)) : random_whole(128);
    one = once_in(3) ? -one : one;
    for (size_t at = 0; at < 2; at++) {
        values[at] = (uint64_t)(one >> 64 * at);
        values[2 + at] = (uint64_t)(other >> 64 * at);
    }
    if (by->ask == date_print) {
        values[0] = below(10050);
        values[1] = below(14);
        values[2] = below(33);
    }
}

/* Each place has a code that names something, or sometimes another one. */
static int random_codes(const call *by, uint32_t *codes) {
    int all = 1;
    for (size_t place = 0; place < PLACES && by->named[place] != 0; place++) {
        codes[place] = once_in(20) ? ONE_OF(tried) : (uint32_t)below(by->named[place]);
        all &= codes[place] < by->named[place];
    }
    return all;
}

static cn_number halves(whole value) { return (cn_number){(uint64_t)value, (uint64_t)(value >> 64)}; }

static whole joined(cn_number number) { return (whole)number.high << 64 | number.low; }

/* Whether a type holds a number, which is given in two's complement if it is below 0. */
static int holds(uint32_t kind, whole value, int is_negative) {
    unsigned bits = 8u << kind % 5;
    if (kind >= CN_I8)
        return (is_negative ? ~value : value) >> (bits - 1) == 0;
    return !is_negative && (bits == 128 || value >> bits == 0);
}

static int is_negative_of(uint32_t kind, whole value) { return kind >= CN_I8 && value >> 127 != 0; }

static uint32_t days_of(uint64_t year, uint64_t month) {
    static const uint32_t days[] = {31, 28, 31, 30, 31, 30, 31, 31, 30, 31, 30, 31};
    int is_leap = year % 4 == 0 && (year % 100 != 0 || year % 400 == 0);
    return month < 1 || month > 12 ? 0 : days[month - 1] + (month == 2 && is_leap);
}

/* ---- Texts ---- */

typedef struct draft {
    uint8_t bytes[MOST_WRITTEN];
    size_t length;
} draft;

static void add_bytes(draft *to, const uint8_t *bytes, size_t length) {
    if (length > MOST_OF_DRAFT - to->length)
        return;
    memcpy(to->bytes + to->length, bytes, length);
    to->length += length;
}

static void add(draft *to, const char *text) { add_bytes(to, (const uint8_t *)text, strlen(text)); }

static void add_code_point(draft *to, uint32_t code) {
    uint8_t bytes[4] = {(uint8_t)code};
    size_t more = code < 0x80 ? 0 : code < 0x800 ? 1 : code < 0x10000 ? 2 : 3;
    for (size_t at = more; at > 0; at--, code >>= 6)
        bytes[at] = (uint8_t)(0x80 | (code & 0x3F));
    if (more > 0)
        bytes[0] = (uint8_t)(0xFF00u >> (more + 1) | code);
    add_bytes(to, bytes, more + 1);
}

/* The characters of the digits and of the units that have several, each list in docs/RULES.md. */
static const char *const same[] = {"零〇", "一壹", "二貳贰貮兩两", "三參叁叄参", "四肆", "五伍", "六陸陆", "七柒", "八捌",
                                   "九玖", "個个", "十拾", "百佰", "千仟", "萬万", "億亿", "溝沟", "澗涧", "載载", "極极",
                                   "負负"};
static const char *const greater[] = {"兆", "京", "垓", "秭", "穰", "正", "廿", "卅", "又", "零下", "‰", "％"};
/* In a template, # is a number below 64, @ a year, $ a numeral, and ~ a link. */
static const char *const templates[] = {
    "@年#月#日", "@-#-#", "@/#/#", "#月#号", "#月底", "@年", "#时#分#秒", "下午#点半", "晚上#点", "#:#", "上午#:#:#",
    "#点#刻", "#小时#分#秒", "#个半小时", "#年半", "#米#", "#比#", "$~$万", "#%~#%", "#月~#月", "@年~@年", "#日~#日",
    "百分之$", "$分之$", "$点$万", "周三#点", "两$", "$两", "$两%", "廿#", "第#条", "乾隆@年", "农历#月#日", "#.#", "#,000",
    "几$", "$多", "#折", "#成", "#个#", "#十#", "$又#分之#", "-$", "¥#", "《$》", "_$", "#进制", "#0", "人民币$元"};
static const char *const links[] = {"到", "至", "~", "～", "–", "—", "〜", "-"};

/* One of the characters of a text, each of which has three bytes. */
static void add_one_of(draft *to, const char *characters) {
    add_bytes(to, (const uint8_t *)characters + 3 * below(strlen(characters) / 3), 3);
}

static void add_number(draft *to, whole value, uint32_t kind, uint32_t way) {
    uint8_t text[CN_MOST_BYTES];
    size_t length;
    cn_number number = halves(value);
    uint32_t script = (uint32_t)below(2), letter_case = (uint32_t)!once_in(4);
    if (chinese_number_print(number.low, number.high, kind, way, script, letter_case, text, sizeof text,
                             &length) == CN_DONE)
        add_bytes(to, text, length);
}

/* A number below 100, in figures, as a count in Chinese, or digit by digit. */
static void add_count(draft *to, uint64_t value, uint64_t form) {
    char figures[8];
    snprintf(figures, sizeof figures, form == 0 ? "%02u" : "%u", (unsigned)value);
    if (form < 2)
        add(to, figures);
    else if (value == 0)
        add(to, "〇");
    else {
        if (value >= 20)
            add_bytes(to, (const uint8_t *)same[value / 10], 3);
        add(to, value >= 10 ? "十" : "");
        add_bytes(to, (const uint8_t *)same[value % 10], value % 10 == 0 ? 0 : 3);
    }
}

static void add_year(draft *to, uint64_t year, int in_figures) {
    char figures[8];
    snprintf(figures, sizeof figures, "%04u", (unsigned)year);
    for (const char *at = figures; *at != 0; at++)
        if (in_figures)
            add_bytes(to, (const uint8_t *)at, 1);
        else
            add_bytes(to, (const uint8_t *)same[*at - '0'], 3);
}

static void add_template(draft *to, const char *template) {
    for (const char *at = template; *at != 0; at++)
        if (*at == '#')
            add_count(to, below(64), below(3));
        else if (*at == '@')
            add_year(to, 1000 + below(2000), once_in(2));
        else if (*at == '~')
            add(to, ONE_OF(links));
        else if (*at == '$')
            add_number(to, random_whole(40), CN_U128, CN_LOW + (uint32_t)below(5));
        else
            add_bytes(to, (const uint8_t *)at, 1);
}

static void add_amount(draft *to) {
    uint8_t text[CN_MOST_SIGNED_AMOUNT_BYTES];
    size_t length;
    int64_t fen = (int64_t)random_whole(60) * (once_in(4) ? -1 : 1);
    if (chinese_signed_amount_print(fen, (uint32_t)below(2), (uint32_t)below(16), text, sizeof text, &length)
        == CN_DONE)
        add_bytes(to, text, length);
}

static void add_date(draft *to) {
    uint8_t text[CN_MOST_DATE_BYTES];
    size_t length;
    if (chinese_date_print((uint32_t)below(10000), (uint32_t)below(13), (uint32_t)below(32),
                           (uint32_t)below(2), text, sizeof text, &length) == CN_DONE)
        add_bytes(to, text, length);
}

static void add_pieces(draft *to) {
    for (uint64_t count = below(16); count > 0; count--)
        switch (below(8)) {
        case 0: add(to, ONE_OF(greater)); break;
        case 1: add_code_point(to, (uint32_t)below(once_in(9) ? 0xD800 : 0xA000)); break;
        case 2: add(to, once_in(20) ? ONE_OF(broken) : ONE_OF(links)); break;
        case 3:
        case 4: add_one_of(to, ONE_OF(same)); break;
        default: add(to, ONE_OF(parts));
        }
}

/* Changes a byte, or cuts, inserts or doubles something, mostly at a character. */
static void edit(draft *text) {
    draft old = *text;
    size_t at = below(old.length + 1), to = at + below(4);
    while (!once_in(30) && at > 0 && at < old.length && (old.bytes[at] & 0xC0) == 0x80)
        at--;
    to = to < at ? at : to > old.length ? old.length : to;
    while (!once_in(30) && to < old.length && (old.bytes[to] & 0xC0) == 0x80)
        to++;
    text->length = at;
    if (once_in(2))
        add(text, once_in(2) ? ONE_OF(parts) : once_in(40) ? ONE_OF(broken) : ONE_OF(greater));
    if (once_in(4))
        add_bytes(text, old.bytes + at, to - at);
    if (once_in(20))
        to = old.length;
    add_bytes(text, old.bytes + to, old.length - to);
}

/* A count has no zero in Chinese. */
static void add_slot(draft *to, uint64_t value, const char *word) {
    add_count(to, value, value == 0 ? below(2) : below(3));
    add(to, word);
}

static const char *const full_width[] = {"０", "１", "２", "３", "４", "５", "６", "７", "８", "９"};

static void add_figure(draft *to, char figure) {
    if (once_in(5))
        add(to, full_width[figure - '0']);
    else
        add_bytes(to, (const uint8_t *)&figure, 1);
}

/* The digits of a number, sometimes with commas, and a point before so many of them. */
static void add_figures(draft *to, uint64_t value, uint64_t decimals) {
    char digits[24];
    int has_commas = once_in(2);
    size_t length = (size_t)snprintf(digits, sizeof digits, "%0*llu", (int)decimals + 1,
                                     (unsigned long long)value);
    for (size_t at = 0; at < length; at++) {
        size_t left = length - (size_t)decimals - at;
        if (at + decimals == length)
            add(to, once_in(5) ? "．" : ".");
        else if (has_commas && at > 0 && at + decimals < length && left % 3 == 0)
            add(to, once_in(5) ? "，" : ",");
        add_figure(to, digits[at]);
    }
}

/* Writes one of the characters of the same meaning in the place of each. */
static void vary(const draft *text, draft *to) {
    to->length = 0;
    for (size_t at = 0; at < text->length; at += 3) {
        const char *list = NULL;
        for (size_t which = 0; which < LENGTH_OF(same) && list == NULL; which++)
            for (const char *one = same[which]; *one != 0; one += 3)
                list = memcmp(one, text->bytes + at, 3) == 0 ? same[which] : list;
        if (list == NULL)
            add_bytes(to, text->bytes + at, 3);
        else
            add_one_of(to, list);
    }
}

static size_t characters_of(const uint8_t *text, size_t length) {
    size_t count = 0;
    for (size_t at = 0; at < length; at++)
        count += (text[at] & 0xC0) != 0x80;
    return count;
}

/* Where the character with this number begins. */
static size_t byte_of(const draft *text, size_t number) {
    size_t at = 0;
    while (at < text->length && characters_of(text->bytes, at + 1) <= number)
        at++;
    return at;
}

/* A date that may not exist, often in February or at the end of a month, and in years whose number
 * ends with 00. */
static void random_date(uint64_t first_year, uint64_t years, uint32_t *date) {
    date[0] = (uint32_t)(first_year + below(years));
    date[0] -= once_in(4) ? date[0] % 100 : 0;
    date[1] = once_in(3) ? 2 : (uint32_t)below(14);
    date[2] = (uint32_t)(once_in(2) ? 28 + below(4) : below(33));
}

static void add_text(draft *to) {
    switch (below(8)) {
    case 0:
    case 1: add_template(to, ONE_OF(templates)); break;
    case 2: add_number(to, random_whole(128), once_in(2) ? CN_I128 : CN_U128, (uint32_t)below(6)); break;
    case 3: add_amount(to); break;
    case 4: add_date(to); break;
    default: add_pieces(to);
    }
}
