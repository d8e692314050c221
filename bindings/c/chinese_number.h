/* The C binding of the proved library chinese_number, for C99 and later. It prints and reads
 * Chinese numerals for whole numbers and exact quantities, finds and replaces them in a text, also in
 * phrases such as dates and times, and prints and reads amounts of money and dates in capitals, and
 * amounts in figures. It says what may follow a text, and why a text is refused, in three languages.
 * chinese_number.hpp has classes over it for C++17.
 *
 * The calls chinese_.. are the proved ones: texts are bytes, and choices are codes. The calls
 * cn_.., which are written here over them, take texts in char and the enumerations below, so that a
 * compiler can detect swapped arguments.
 *
 * On Linux on x86-64 and aarch64, with any C library, link libchinese_number.a or
 * libchinese_number.so. From the C library they need at most memcpy, memmove and memset, and from
 * the compiler's library __divti3 and __udivti3. On other systems compile chinese_number.c, which
 * is the proved WebAssembly module as C source. It needs at most abort, memcpy, memmove and memset.
 * No call allocates memory, opens a file, reads the locale or keeps state between calls, so any
 * number of threads may call at the same time.
 *
 * The caller must ensure the following, since nothing tests it:
 * - No pointer is NULL, not even for an empty text, buffer or array. (cn_.. accept NULL for a text
 *   or a buffer of length 0.)
 * - A text and a buffer have as many bytes as their length says, and an array has `most` spans or
 *   phrases, or as many values as its length says: at most PTRDIFF_MAX bytes.
 * - What a call writes (the buffer `room`, *length, *reading, *quantity, *low, *high, the spans, the
 *   phrases, *count; of a column the offsets, values and statuses that it writes, and *done) does not
 *   overlap any other argument.
 * - Nothing else writes to the arguments before the call returns.
 *
 * All names begin with chinese_, cn_ or CN_. */
#ifndef CHINESE_NUMBER_H
#define CHINESE_NUMBER_H

#include <stddef.h>
#include <stdint.h>

#if SIZE_MAX != UINT64_MAX && SIZE_MAX != UINT32_MAX
#error "chinese_number.h: the library is for processors where size_t has 64 or 32 bits"
#endif

#define CN_VERSION "0.1.0"
#define CN_VERSION_MAJOR 0
#define CN_VERSION_MINOR 1
#define CN_VERSION_PATCH 0
/* The version as one number. chinese_number_version() returns that of the linked library. */
#define CN_VERSION_NUMBER (CN_VERSION_MAJOR * 1000000 + CN_VERSION_MINOR * 1000 + CN_VERSION_PATCH)

/* In C++ a code has exactly 32 bits, so that it can hold any status. */
#ifdef __cplusplus
#define CN_OF_CODE : uint32_t
#else
#define CN_OF_CODE
#endif

/* For an enumeration of flags; without it clang warns when flags are added together. */
#ifdef __clang__
#define CN_FLAGS __attribute__((flag_enum))
#else
#define CN_FLAGS
#endif

/* Before a call whose status must not be ignored: compilers that support it warn otherwise. */
#if defined(__cplusplus) && __cplusplus >= 201703L
#define CN_NODISCARD [[nodiscard]]
#elif defined(__GNUC__)
#define CN_NODISCARD __attribute__((warn_unused_result))
#else
#define CN_NODISCARD
#endif

/* Casts, in the style of each language. */
#ifdef __cplusplus
#define CN_AS(type, value) static_cast<type>(value)
#define CN_POINTER(type, value) reinterpret_cast<type *>(value)
#else
#define CN_AS(type, value) ((type)(value))
#define CN_POINTER(type, value) ((type *)(value))
#endif

#ifdef __cplusplus
extern "C" {
#endif

/* Made by bindings/codes.py, from here .. */

/* The integer type that a number must fit: of u8 a number is from 0 to 255, of i8 from -128 to
 * 127. */
typedef enum cn_kind CN_OF_CODE {
    CN_U8 = 0,
    CN_U16 = 1,
    CN_U32 = 2,
    CN_U64 = 3,
    CN_U128 = 4,
    CN_I8 = 5,
    CN_I16 = 6,
    CN_I32 = 7,
    CN_I64 = 8,
    CN_I128 = 9,
#if SIZE_MAX == UINT64_MAX
    CN_USIZE = CN_U64, /* size_t */
    CN_ISIZE = CN_I64, /* ptrdiff_t */
#else
    CN_USIZE = CN_U32,
    CN_ISIZE = CN_I32,
#endif
} cn_kind;

/* How a number is read or written: as plain digits, 一二三, or with units, 一百二十三, by one of four
 * methods. CN_ANY is the one to use. It reads a text as CN_DIGITS if all of it is digits, with
 * or without a sign, otherwise as CN_TEN_THOUSAND. It can read back what it writes: in
 * simplified script below 10^16 it writes as CN_MIDDLE, so that 10^12 is 一万亿, and otherwise as
 * CN_TEN_THOUSAND. CN_TEN_THOUSAND writes 10^12 as 兆, as in Taiwan; CN_MIDDLE and CN_HIGH write
 * it as 萬億, as on the mainland. */
typedef enum cn_way CN_OF_CODE {
    /* As plain digits: 一二三 is 123. */
    CN_DIGITS = 0,
    /* Each unit is ten times the one before: 億 is 10^5. */
    CN_LOW = 1,
    /* After 萬 each unit is 10^4 times the one before: 億 is 10^8, 兆 is 10^12. */
    CN_TEN_THOUSAND = 2,
    /* After 億 each unit is 10^8 times the one before: 兆 is 10^16, 京 is 10^24. */
    CN_MIDDLE = 3,
    /* From 億 on each unit is the square of the one before: 兆 is 10^16, 京 is 10^32. */
    CN_HIGH = 4,
    /* Chooses by the text, or by the script and the number. */
    CN_ANY = 5,
} cn_way;

/* The script of a text that is written: 萬 or 万. Both are read. */
typedef enum cn_script CN_OF_CODE {
    /* 萬, 億 */
    CN_TRADITIONAL = 0,
    /* 万, 亿 */
    CN_SIMPLIFIED = 1,
} cn_script;

/* The case of a number that is written: 壹拾 or 一十. Both are read. */
typedef enum cn_case CN_OF_CODE {
    /* 壹, 拾: the characters of cheques. */
    CN_UPPER = 0,
    /* 一, 十 */
    CN_LOWER = 1,
} cn_case;

/* A unit; each is greater than the one before. A search takes the greatest one that it looks
 * for: CN_ZHAO is the one to use, since in sentences greater ones nearly always mean something
 * else. */
typedef enum cn_unit CN_OF_CODE {
    /* 個, 个 */
    CN_GE = 0,
    /* 十, 拾 */
    CN_SHI = 1,
    /* 百, 佰 */
    CN_BAI = 2,
    /* 千, 仟 */
    CN_QIAN = 3,
    /* 萬, 万 */
    CN_WAN = 4,
    /* 億, 亿 */
    CN_YI = 5,
    /* 兆 */
    CN_ZHAO = 6,
    /* 京 */
    CN_JING = 7,
    /* 垓 */
    CN_GAI = 8,
    /* 秭 */
    CN_ZI = 9,
    /* 穰 */
    CN_RANG = 10,
    /* 溝, 沟 */
    CN_GOU = 11,
    /* 澗, 涧 */
    CN_JIAN = 12,
    /* 正 */
    CN_ZHENG = 13,
    /* 載, 载 */
    CN_ZAI = 14,
    /* 極, 极 */
    CN_JI = 15,
} cn_unit;

/* How a quantity is written. */
typedef enum cn_quantity_form CN_OF_CODE {
    /* 35, 三十五, 3万 */
    CN_WHOLE = 0,
    /* 3.5, 三點五, 3.5万 */
    CN_DECIMAL = 1,
    /* 12.5%, 百分之五十 */
    CN_PERCENT = 2,
    /* 三分之一, 千分之五 */
    CN_FRACTION = 3,
} cn_quantity_form;

/* Why a reader may understand an expression as something other than its quantity. If several
 * reasons apply, CN_DOUBT_PART is reported if it is among them, and otherwise the first in this
 * list. The flags of a span contain the reason, multiplied by 16; cn_doubt_of returns it. A
 * number has none. */
typedef enum cn_doubt CN_OF_CODE {
    /* There is no reason. */
    CN_NO_DOUBT = 0,
    /* It is part of a word or a title, or the year of an era: 十二 of 十二指肠, 十一 of 双十一, 四十一 of
     * 乾隆四十一年. */
    CN_DOUBT_WORD = 1,
    /* It is two or three Chinese digits, or more in rising order, or two numbers: 五一, 一二三四,
     * 十五十六. */
    CN_DOUBT_DIGITS = 2,
    /* It is part of a term: 负二 of 负二项, 十六 of 十六进制. */
    CN_DOUBT_TERM = 3,
    /* It is part of an expression with 折, 成, 半 or 分之几: 八五 of 八五折, 一 of 一个半; or its last 一 begins
     * the next word: 两百一 of 两百一个月. */
    CN_DOUBT_PART = 4,
    /* It may be a time: 三点五 of 下午三点五, 十点零五. */
    CN_DOUBT_TIME = 5,
    /* It is one end of a range whose ends share a unit or 百分之: 3 and 5万 of 3~5万. */
    CN_DOUBT_RANGE = 6,
} cn_doubt;

/* What an item of a text is: an expression that is in no phrase, or a phrase of a kind. What is
 * in brackets are the numbers first, second, third and fourth of a phrase, where a language has
 * no type of its own for its value. */
typedef enum cn_phrase_kind CN_OF_CODE {
    /* An expression in no phrase. */
    CN_PHRASE_KIND_EXPRESSION = 0,
    /* A date or a part of one (the year, the month, the day). */
    CN_PHRASE_KIND_DATE = 1,
    /* From a year to another one. */
    CN_PHRASE_KIND_YEARS = 2,
    /* From a month to another one of the same year. */
    CN_PHRASE_KIND_MONTHS = 3,
    /* From a day to another one of the same month. */
    CN_PHRASE_KIND_DAYS = 4,
    /* A time of day (the hour as it is written, the minute, the second, the hour of 24). */
    CN_PHRASE_KIND_TIME = 5,
    /* A duration (hours, minutes and seconds). */
    CN_PHRASE_KIND_DURATION = 6,
    /* A number and a half, as 一个半小时 (the number without the half). */
    CN_PHRASE_KIND_HALF = 7,
    /* A number with decimals, as 一米七五 (the number, the decimals, how many decimals there are). */
    CN_PHRASE_KIND_LENGTH = 8,
    /* Two numbers that are compared. */
    CN_PHRASE_KIND_SCORE = 9,
    /* From a quantity to another one. */
    CN_PHRASE_KIND_RANGE = 10,
    /* A sum of money, as 三块五: the fen by their lower and their upper 32 bits, and 1; all 0 if
     * they are no whole number below 10^18. */
    CN_PHRASE_KIND_MONEY = 11,
} cn_phrase_kind;

/* What is known of a phrase. */
typedef enum cn_phrase_state CN_OF_CODE {
    /* It has a value. */
    CN_PHRASE_STATE_CERTAIN = 0,
    /* It has a value, but may mean something else: 1000年 of 1000年前, 五到八 of 五到八折. */
    CN_PHRASE_STATE_DOUBTFUL = 1,
    /* It has no value: it names a day or a time that does not exist, or does not rise. */
    CN_PHRASE_STATE_REFUSED = 2,
} cn_phrase_state;

/* What a text is meant to be, for the calls that say what may follow it and why it is refused:
 * each names the call that reads it. */
typedef enum cn_input CN_OF_CODE {
    /* What chinese_amount_read reads. */
    CN_AMOUNT = 0,
    /* What chinese_signed_amount_read reads. */
    CN_SIGNED_AMOUNT = 1,
    /* What chinese_typed_amount_read reads. */
    CN_TYPED_AMOUNT = 2,
    /* What chinese_typed_signed_amount_read reads. */
    CN_TYPED_SIGNED_AMOUNT = 3,
    /* What chinese_date_read reads. */
    CN_DATE = 4,
    /* What chinese_figures_read reads. */
    CN_FIGURES = 5,
} cn_input;

/* What is changed in a text to repair it. */
typedef enum cn_change CN_OF_CODE {
    /* No change is known. */
    CN_NO_CHANGE = 0,
    /* The character is inserted at the place. */
    CN_INSERT = 1,
    /* The character replaces the one at the place. */
    CN_REPLACE = 2,
    /* The character at the place is deleted. */
    CN_DELETE = 3,
} cn_change;

/* Why a text is not a number or a quantity. From CN_FAULT_START on it is the rule that the wrong
 * character breaks; from CN_FAULT_BARE_TEN on, a rule of quantities alone. */
typedef enum cn_fault CN_OF_CODE {
    /* There is no fault. */
    CN_NO_FAULT = 0,
    /* The text is empty without its white space and, for signed types, one sign. */
    CN_FAULT_EMPTY = 1,
    /* The number is above the type's maximum, or has more than 128 bits. */
    CN_FAULT_TOO_LARGE = 2,
    /* The number is below the type's minimum. */
    CN_FAULT_TOO_SMALL = 3,
    /* A numeral starts with a digit or 十: 百 of 百五. */
    CN_FAULT_START = 4,
    /* It is no digit or unit: 角 of 一角. */
    CN_FAULT_CHARACTER = 5,
    /* A digit is directly after it, in a numeral with units: 一 of 一二. */
    CN_FAULT_DIGITS = 6,
    /* A unit that is not greater is directly after it: 百 of 一百十. */
    CN_FAULT_UNITS = 7,
    /* No greater unit is after 個: 個 of 三個. */
    CN_FAULT_GE = 8,
    /* The same unit is used again: 萬 of 一萬二萬. */
    CN_FAULT_GROUPS = 9,
    /* 十 has no 一 before it: 十 of 三千零十万. */
    CN_FAULT_BARE_TEN = 10,
    /* 十 or 百 is directly after 十: the second 十 of 十十. */
    CN_FAULT_REPEATED_TEN = 11,
    /* A unit is directly after 零: 万 of 一亿零万. */
    CN_FAULT_AFTER_ZERO = 12,
    /* 两 may be a unit of weight: 两 of 二两. */
    CN_FAULT_WEIGHT = 13,
    /* The unit can multiply one digit or all before it: 万 of 一百五万. */
    CN_FAULT_TWO_READINGS = 14,
    /* 零 or a unit seems to be left out: 二 of 一亿二千. */
    CN_FAULT_LEFT_OUT_ZERO = 15,
    /* The denominator is not a whole number above 0: 零 of 零分之一. */
    CN_FAULT_DENOMINATOR = 16,
} cn_fault;

/* The language of a message. */
typedef enum cn_language CN_OF_CODE {
    /* English, en. */
    CN_ENGLISH = 0,
    /* Chinese in simplified script, zh-Hans. */
    CN_SIMPLIFIED_CHINESE = 1,
    /* Chinese in traditional script, zh-Hant. */
    CN_TRADITIONAL_CHINESE = 2,
} cn_language;

/* The status of a call. At CN_NO_ROOM *length says how many bytes the text has. */
typedef enum cn_status CN_OF_CODE {
    /* The text was read, written or searched. */
    CN_DONE = 0,
    /* When reading, the text is empty without white space and, for signed types, one sign. */
    CN_EMPTY = 1,
    /* When reading, the character at the place cannot be there; no amount, figures or date begin
     * with the text up to and including it. */
    CN_INCORRECT = 2,
    /* When reading, the number is above the type's maximum, or has more than 128 bits; when
     * writing with CN_LOW, the number, or one within a quantity, is 10^16 or more; when writing
     * an amount or reading figures, the amount is 10^18 fen or more. */
    CN_TOO_LARGE = 3,
    /* When reading, the number is below the type's minimum; when writing with CN_LOW, the number
     * is -10^16 or less, or one within a negative quantity is 10^16 or more; when writing an
     * amount, it is -10^18 fen or less. */
    CN_TOO_SMALL = 4,
    /* When reading, finding or replacing, the bytes are not UTF-8; when finding, also: the
     * search starts neither at a character nor at the end of the text. */
    CN_NOT_UTF8 = 5,
    /* When writing or replacing, the text has more bytes than the buffer; when reading a column,
     * the offsets of the row are not those of a text. */
    CN_NO_ROOM = 6,
    /* When writing, the type does not hold the number. */
    CN_NOT_HELD = 7,
    /* A code names no type, way, script, case, form, unit, option, input, language or status;
     * CN_DIGITS is not a method. */
    CN_UNKNOWN = 8,
    /* When reading an amount, figures or a date, the text is not one, but more text can make it
     * one. */
    CN_UNFINISHED = 9,
    /* When finding the next number or quantity, there is no further one in the text; in a
     * column, the row is missing. */
    CN_NONE = 10,
    /* When writing a date, the date does not exist. */
    CN_NOT_A_DATE = 11,
    /* When writing a quantity, the denominator is 0. */
    CN_NOT_A_QUANTITY = 12,
} cn_status;

/* The form of an amount that is written: none or several of these, added together. All are read. */
typedef enum cn_form CN_OF_CODE {
    /* With 元, 整 and 负. */
    CN_PLAIN = 0,
    /* With the prefix 人民币. */
    CN_CURRENCY = 1,
    /* 圆 instead of 元. */
    CN_ROUND_YUAN = 2,
    /* 正 instead of 整. */
    CN_UPRIGHT_CLOSING = 4,
    /* （负数） instead of 负 before a negative amount. */
    CN_BRACKETED_SIGN = 8,
} CN_FLAGS cn_form;

/* The flags of a number or an expression in a text: none or several of these, added together. */
typedef enum cn_flag CN_OF_CODE {
    /* Each character is a digit, so CN_DIGITS reads it; a method reads the others. */
    CN_PLAIN_DIGITS = 1,
    /* No letter or digit touches it or is linked to it: no part of 3.5萬 or 1,280 does so. */
    CN_STANDS_ALONE = 2,
    /* It is approximate, such as 十 in 十几 and 几十, and 五六. */
    CN_ABOUT = 4,
    /* It is one character and no figure, such as 一 in 一般, and % in 一两%. */
    CN_ONE_CHARACTER = 8,
} CN_FLAGS cn_flag;

/* The options for writing a text in figures, added together, and to CN_ABOUT and
 * CN_ONE_CHARACTER. */
/* Doubtful expressions are replaced too, except those with CN_DOUBT_PART. */
#define CN_DOUBTFUL 16u
/* 万, 亿 and so on are written out: 三千五百亿 becomes 350000000000, not 3500亿. */
#define CN_EXPANDED 32u
/* What is only figures becomes ASCII without commas and leading zeros: １,２８０ becomes 1280. */
#define CN_CANONICAL 64u
/* Dates, times, halves and sums of money become as short as possible: 2026-01-05, 15:30, 1.5小时,
 * 3.5元; only for chinese_text_to_figures. */
#define CN_COMPACT 128u
/* Codes, such as telephone numbers, room numbers and versions, are written in figures too:
 * 一三八零零一三八零零零 becomes 13800138000; only for chinese_text_to_figures. */
#define CN_CODES 256u

/* The option for speaking a text: 0, or this. */
/* 1 is 幺 in codes, such as telephone numbers; otherwise it is 一. */
#define CN_YAO 1u

/* How long the texts are that are written. These do not count the zero byte that cn_print,
 * cn_input_message and so on write. */
/* The most bytes of a number. */
#define CN_MOST_BYTES 234
/* The most bytes of a quantity. */
#define CN_MOST_QUANTITY_BYTES 471
/* The most bytes of a quantity in figures. */
#define CN_MOST_FIGURES_BYTES 80
/* The most bytes of an amount. */
#define CN_MOST_AMOUNT_BYTES 117
/* The most bytes of a signed amount. */
#define CN_MOST_SIGNED_AMOUNT_BYTES 129
/* The most bytes of a date. */
#define CN_MOST_DATE_BYTES 39
/* The most bytes of a message. */
#define CN_MOST_MESSAGE_BYTES 512
/* The most bytes of an answer to a line. */
#define CN_MOST_ANSWER_BYTES 256

/* The most characters that may come next in a text. */
#define CN_MOST_EXPECTED 48

/* The status of the C source alone for a text, or a text and the buffer for the new one, of more
 * than 4,293,918,720 bytes. What the call writes is then 0. */
#define CN_TOO_LONG 4294967295u

/* A status in words. What has no text here has that of a refusal. */
static inline const char *cn_status_text(uint32_t status) {
    switch (status) {
    case CN_DONE: return "done";
    case CN_EMPTY: return "a chinese number cannot be empty";
    case CN_INCORRECT: return "the chinese number is incorrect";
    case CN_TOO_LARGE: return "number is too large";
    case CN_TOO_SMALL: return "number is too small";
    case CN_NOT_UTF8: return "the text is no UTF-8";
    case CN_NO_ROOM: return "the room is too small for the text";
    case CN_NOT_HELD: return "the type does not hold the number";
    case CN_UNKNOWN: return "a code names no type, way, script, case, form, unit or option";
    case CN_UNFINISHED: return "the amount or date is not finished";
    case CN_NONE: return "there is no number in the text";
    case CN_NOT_A_DATE: return "there is no such date";
    case CN_NOT_A_QUANTITY: return "the denominator is 0";
    case CN_TOO_LONG: return "the text is too long";
    default: return "no status of this library";
    }
}

/* .. up to here. */

/* A whole number in two halves of 64 bits; for a signed type, in two's complement of 128 bits. So
 * (int8_t)number.low is the value of a number of the type CN_I8. */
typedef struct cn_number {
    uint64_t low;
    uint64_t high;
} cn_number;

/* The result of reading: at CN_DONE the number; at CN_INCORRECT how many characters and how many
 * bytes come before the wrong character, white space included. The other fields are 0. */
typedef struct cn_reading {
    cn_number number;
    size_t char_index;
    size_t byte_index;
} cn_reading;

/* The result of reading a quantity, exactly and as written. At CN_DONE: the numerator with the
 * sign, in two's complement as for CN_I128; the denominator, as for CN_U128 and above 0; and the
 * form, of cn_quantity_form. So 12.5% is 125/1000. At CN_INCORRECT: how many characters and how
 * many bytes come before the wrong character. The other fields are 0. */
typedef struct cn_quantity {
    cn_number numerator;
    cn_number denominator;
    uint32_t form;
    size_t char_index;
    size_t byte_index;
} cn_quantity;

/* The place of a number or an expression in a text, in bytes from its start, and its flags: flags
 * of cn_flag, added together, and 16 times a reason of cn_doubt. So test single flags with &, and
 * do not compare the flags as a whole. */
typedef struct cn_span {
    size_t start;
    size_t end;
    uint32_t flags;
} cn_span;

/* Reads a text, in UTF-8, as a number of a type. Writes all of *reading at each status, and nothing
 * else.
 *
 * Returns CN_DONE, CN_EMPTY, CN_INCORRECT, CN_TOO_LARGE, CN_TOO_SMALL, CN_NOT_UTF8 or
 * CN_UNKNOWN. */
uint32_t chinese_number_read(const uint8_t *text, size_t text_length, uint32_t kind, uint32_t way, cn_reading *reading);

/* The same for bytes that the caller knows to be UTF-8. Nothing tests this: for other bytes the
 * behaviour is undefined. */
uint32_t chinese_number_read_utf8(const uint8_t *text, size_t text_length, uint32_t kind, uint32_t way,
                                  cn_reading *reading);

/* Prints a number of a type, given in its two halves, at the start of a buffer, in UTF-8. Writes
 * *length at each status: at CN_DONE and CN_NO_ROOM how many bytes the text has, otherwise 0.
 * Writes to the buffer only at CN_DONE, and then only the text.
 *
 * Returns CN_DONE, CN_TOO_LARGE, CN_TOO_SMALL, CN_NO_ROOM, CN_NOT_HELD or CN_UNKNOWN. A buffer of
 * CN_MOST_BYTES is never too small. */
uint32_t chinese_number_print(uint64_t low, uint64_t high, uint32_t kind, uint32_t way, uint32_t script,
                              uint32_t letter_case, uint8_t *room, size_t room_length, size_t *length);

/* Finds the numbers of a text in UTF-8, in order from byte `from` on, until there are no more or
 * `most` are found. Numbers are the runs of digits and of units up to the greatest one, in lower
 * case (upper 0) or in both cases (upper 1). `from` is 0, or any byte where a character begins or
 * the text ends. At each status the call writes *count, and *count spans, and nothing else. At
 * CN_DONE *count is how many were found, which may be 0; otherwise it is 0. If *count is less than
 * `most`, there are no further numbers; otherwise search for the next ones from the end of the last
 * span.
 *
 * Returns CN_DONE, CN_NOT_UTF8 or CN_UNKNOWN. The whole text is tested, whatever `from` is. So a
 * loop over all numbers of a text should call this once, and then chinese_number_find_utf8, as
 * cn_find_next does. */
uint32_t chinese_number_find(const uint8_t *text, size_t text_length, size_t from, uint32_t upper, uint32_t greatest,
                             cn_span *spans, size_t most, size_t *count);

/* The same for bytes that the caller knows to be UTF-8. Nothing tests this: for other bytes the
 * behaviour is undefined. */
uint32_t chinese_number_find_utf8(const uint8_t *text, size_t text_length, size_t from, uint32_t upper, uint32_t greatest,
                                  cn_span *spans, size_t most, size_t *count);

/* Reads a text, in UTF-8, as a quantity: a whole number, a decimal, a percentage or a fraction, in
 * figures, in numerals or in both, with or without one leading sign. The method is CN_LOW to
 * CN_HIGH, or CN_ANY, which means CN_TEN_THOUSAND here. Writes all of *quantity at each status, and
 * nothing else.
 *
 * Returns CN_DONE, CN_EMPTY, CN_INCORRECT, CN_TOO_LARGE, CN_TOO_SMALL, CN_NOT_UTF8 or
 * CN_UNKNOWN. */
uint32_t chinese_quantity_read(const uint8_t *text, size_t text_length, uint32_t method, cn_quantity *quantity);

/* Finds the expressions of a text, as chinese_number_find finds its numbers: numbers with their
 * sign, figures, point and units, percentages and fractions. chinese_quantity_read reads each of
 * them. cn_doubt_of a span says why a reader may understand it as something else. */
uint32_t chinese_quantity_find(const uint8_t *text, size_t text_length, size_t from, uint32_t upper, uint32_t greatest,
                               cn_span *spans, size_t most, size_t *count);

/* The same for bytes that the caller knows to be UTF-8. Nothing tests this: for other bytes the
 * behaviour is undefined. */
uint32_t chinese_quantity_find_utf8(const uint8_t *text, size_t text_length, size_t from, uint32_t upper, uint32_t greatest,
                                    cn_span *spans, size_t most, size_t *count);

/* Prints a quantity at the start of a buffer, in UTF-8: 三点一四 for 314/100 of CN_DECIMAL, 百分之十二点五 for
 * 125/1000 of CN_PERCENT, 三分之一 for 1/3. The method is CN_LOW to CN_HIGH, or CN_ANY, which means
 * CN_MIDDLE if the script is CN_SIMPLIFIED and each number spelled in the text is below 10^16, and
 * otherwise CN_TEN_THOUSAND. If the denominator does not match the form (1 for a whole number; 10,
 * 100 and so on for a decimal; 100, 1000 and so on for a percentage), the quantity is printed as a
 * fraction. chinese_quantity_read reads the text as the same numerator and denominator. The call
 * ignores char_index and byte_index. The length and the buffer are as for chinese_number_print.
 *
 * Returns CN_DONE, CN_TOO_LARGE, CN_TOO_SMALL, CN_NO_ROOM, CN_NOT_A_QUANTITY or CN_UNKNOWN (also
 * for an unknown form). A buffer of CN_MOST_QUANTITY_BYTES is never too small. */
uint32_t chinese_quantity_print(const cn_quantity *quantity, uint32_t method, uint32_t script, uint32_t letter_case,
                                uint8_t *room, size_t room_length, size_t *length);

/* Prints a quantity in figures, in ASCII, likewise: 35000, -3.5, 12.5%, 1/3. Zeros at the end of
 * the decimals are omitted. What would be printed as a fraction is printed as
 * numerator/denominator, even if the denominator is 0.
 *
 * Returns CN_DONE, CN_NO_ROOM or CN_UNKNOWN (for an unknown form). A buffer of
 * CN_MOST_FIGURES_BYTES is never too small. */
uint32_t chinese_quantity_figures(const cn_quantity *quantity, uint8_t *room, size_t room_length, size_t *length);

/* Rewrites a text in UTF-8, with the numerals among the expressions of chinese_quantity_find in
 * figures, as an editor does: 市值三点五亿元，占百分之十二点五 becomes 市值3.5亿元，占12.5%. `options` is 0, or a sum of
 * CN_ABOUT, CN_ONE_CHARACTER, CN_DOUBTFUL, CN_EXPANDED and CN_CANONICAL. docs/RULES.md has the full
 * rules. In short, these expressions stay as they are:
 * - those already in figures, except with 分之 (and with CN_EXPANDED, CN_CANONICAL);
 * - those that chinese_quantity_read refuses by the method;
 * - approximate expressions, single Chinese characters and doubtful expressions, unless `options`
 *   has CN_ABOUT, CN_ONE_CHARACTER or CN_DOUBTFUL; those with CN_DOUBT_PART always stay;
 * - a part of a name, an address or another number, as in a_十二;
 * - a fraction with a denominator of 1000 or more, such as 千分之五, or with 又;
 * - all of a date, a time, a length, an amount or a range of which one part stays.
 *
 * The rest of the text stays as it is. Writes *length at each status: at CN_DONE and CN_NO_ROOM how
 * many bytes the new text has (SIZE_MAX for more), otherwise 0. The contents of the buffer after
 * the new text, and at other statuses, are unspecified.
 *
 * Returns CN_DONE, CN_NO_ROOM, CN_NOT_UTF8 or CN_UNKNOWN (also if `options` has any other bit). */
uint32_t chinese_quantities_to_figures(const uint8_t *text, size_t text_length, uint32_t upper, uint32_t greatest,
                                       uint32_t method, uint32_t options, uint8_t *room, size_t room_length,
                                       size_t *length);

/* A phrase of a text, or an expression that is in none: the bytes before its start and before its end;
 * for a range, how many bytes its first end has, after which its link is one character; the codes of its
 * kind and its state (cn_phrase_kind, cn_phrase_state); its flags, as those of a cn_span; and its
 * numbers, which are 0 for an expression, for a range and for a refused phrase:
 * - a date: the year, the month, the day, and the sum of 1, 2 and 4 for those that are given;
 * - years, months, days: the first and the last;
 * - a time: the hour as it is written, the minute, the second, and the hour of 24, or 255 if it is not
 *   known;
 * - a duration: the hours, the minutes, the seconds;
 * - a half: the number without the half;
 * - a length: the number before its decimals, the decimals, and how many decimals there are;
 * - a score: the two numbers;
 * - a sum of money: the fen by their lower and their upper 32 bits, and 1; all 0 if they are no whole
 *   number below 10^18. */
typedef struct cn_phrase {
    size_t start;
    size_t end;
    size_t split;
    uint32_t kind;
    uint32_t state;
    uint32_t flags;
    uint32_t first;
    uint32_t second;
    uint32_t third;
    uint32_t fourth;
} cn_phrase;

/* Finds the phrases of a text, and its expressions that are in none, as chinese_quantity_find finds its
 * expressions: dates, times of day, durations, ranges, scores, halves and lengths. docs/RULES.md has the
 * full rules. */
uint32_t chinese_phrase_find(const uint8_t *text, size_t text_length, size_t from, uint32_t upper, uint32_t greatest,
                             cn_phrase *phrases, size_t most, size_t *count);

/* The same for bytes that the caller knows to be UTF-8. Nothing tests this: for other bytes the
 * behaviour is undefined. */
uint32_t chinese_phrase_find_utf8(const uint8_t *text, size_t text_length, size_t from, uint32_t upper,
                                  uint32_t greatest, cn_phrase *phrases, size_t most, size_t *count);

/* Reads the two ends of a range: the text before its link, and the text after it. What counts for both
 * ends does, as 万 in 三到五万 and % in 3-5%. Writes all of *low and *high at each status, and nothing else.
 *
 * Returns CN_DONE, CN_INCORRECT (if an end is no quantity, or the second is not greater) or
 * CN_NOT_UTF8. */
uint32_t chinese_range_read(const uint8_t *first, size_t first_length, const uint8_t *second, size_t second_length,
                            cn_quantity *low, cn_quantity *high);

/* Rewrites a text in UTF-8, with its dates, times, durations, ranges, scores, lengths, sums of money
 * and quantities in figures: 二零二六年一月五日下午三点半，三到五万元 becomes 2026年1月5日下午3点半，3万到5万元. The words of a
 * phrase stay. `options` is as for chinese_quantities_to_figures; doubtful phrases, and halves after one
 * Chinese character, as in 一个半小时, stay unless it has CN_DOUBTFUL or CN_ONE_CHARACTER. A phrase that is
 * refused stays. With CN_COMPACT whole dates, times whose hour of 24 is known, all halves, and sums of
 * money with 角 or 分 are as short as possible: 2026-01-05 15:30, 1.5小时, 3.5元. With CN_CODES codes, such as
 * telephone numbers, rooms and versions, become figures digit by digit: 打幺幺零 becomes 打110. The length,
 * the buffer and the statuses are those of chinese_quantities_to_figures, on which CN_COMPACT and CN_CODES
 * have no effect. */
uint32_t chinese_text_to_figures(const uint8_t *text, size_t text_length, uint32_t upper, uint32_t greatest,
                                 uint32_t method, uint32_t options, uint8_t *room, size_t room_length, size_t *length);

/* Rewrites a text in UTF-8 as it is spoken, with its figures, signs and measures in Chinese characters of a
 * script: 15:30到，共2.5kg becomes 十五点三十分到，共二点五千克. What no rule of docs/RULES.md covers stays;
 * chinese_speech_left finds its figures. `options` is 0 or CN_YAO. `meant` is another buffer, of at least as
 * many bytes as the text, in which the call works; the three must not overlap. Writes *length at each status:
 * the length of the new text, or 0 if there is none. If the new text fits, it is at the start of `room`;
 * otherwise some bytes of `room` may change too.
 *
 * Returns CN_DONE, CN_NO_ROOM (`room` is too short, or, with the length 0, `meant` is), CN_NOT_UTF8 or
 * CN_UNKNOWN. */
uint32_t chinese_text_to_speech(const uint8_t *text, size_t text_length, uint32_t upper, uint32_t greatest,
                                uint32_t method, uint32_t script, uint32_t options, uint8_t *meant,
                                size_t meant_length, uint8_t *room, size_t room_length, size_t *length);

/* Finds the parts with figures that chinese_text_to_speech leaves as they are, from a byte of a text on, as
 * chinese_quantity_find finds expressions: 86 of x86, and 2026.1.15. `meant` is a buffer as for that call.
 *
 * Returns CN_DONE, CN_NO_ROOM (`meant` is shorter than the text), CN_NOT_UTF8 or CN_UNKNOWN. */
uint32_t chinese_speech_left(const uint8_t *text, size_t text_length, size_t from, uint32_t upper, uint32_t greatest,
                             uint8_t *meant, size_t meant_length, cn_span *spans, size_t most, size_t *count);

/* The result of reading an amount: at CN_DONE the fen, hundredths of a yuan; at CN_INCORRECT how
 * many characters and how many bytes come before the wrong character. The other fields are 0. */
typedef struct cn_amount {
    uint64_t fen;
    size_t char_index;
    size_t byte_index;
} cn_amount;

/* Prints an amount of fen in capitals, as on a cheque, in a form, at the start of a buffer, in
 * UTF-8. Writes *length at each status: at CN_DONE and CN_NO_ROOM how many bytes the text has,
 * otherwise 0. Writes to the buffer only at CN_DONE, and then only the text.
 *
 * Returns CN_DONE, CN_NO_ROOM, CN_TOO_LARGE (10^18 fen or more) or CN_UNKNOWN. A buffer of
 * CN_MOST_AMOUNT_BYTES is never too small. */
uint32_t chinese_amount_print(uint64_t fen, uint32_t script, uint32_t form, uint8_t *room, size_t room_length,
                              size_t *length);

/* Reads a text in capitals, in UTF-8, as an amount. White space is an error at its place. Writes
 * all of *reading at each status, and nothing else.
 *
 * Returns CN_DONE, CN_UNFINISHED (also for the empty text), CN_INCORRECT at the first character
 * with which no amount begins, or CN_NOT_UTF8. The call tests that the whole text is UTF-8, and
 * then reads up to the wrong character, which is among the first 40. */
uint32_t chinese_amount_read(const uint8_t *text, size_t text_length, cn_amount *reading);

/* Reads a text as it is typed: like chinese_amount_read, but ignores white space, then one ⊗ or ⓧ at
 * the start, and then, directly after a leading 人民币, one note, （大写） or （大寫） (also with ASCII
 * parentheses), and one colon (: or ：). The place of the wrong character is that in the text as it is
 * typed, and so may be anywhere. */
uint32_t chinese_typed_amount_read(const uint8_t *text, size_t text_length, cn_amount *reading);

/* The result of reading an amount that may be negative, as on a red invoice; like cn_amount. */
typedef struct cn_signed_amount {
    int64_t fen;
    size_t char_index;
    size_t byte_index;
} cn_signed_amount;

/* Prints an amount as chinese_amount_print does, and a negative one with the prefix 负 (負 in
 * traditional script), or （负数） if the form has CN_BRACKETED_SIGN. chinese_amount_print ignores
 * CN_BRACKETED_SIGN.
 *
 * Returns CN_DONE, CN_NO_ROOM, CN_TOO_LARGE (10^18 fen or more), CN_TOO_SMALL (-10^18 fen or less)
 * or CN_UNKNOWN. A buffer of CN_MOST_SIGNED_AMOUNT_BYTES is never too small. */
uint32_t chinese_signed_amount_print(int64_t fen, uint32_t script, uint32_t form, uint8_t *room, size_t room_length,
                                     size_t *length);

/* Reads a text as chinese_amount_read does, with or without one prefix 负 or 負; 负零元整 is 0. A wrong
 * character is among the first 41. */
uint32_t chinese_signed_amount_read(const uint8_t *text, size_t text_length, cn_signed_amount *reading);

/* Reads a text as it is typed, or copied from an invoice, with or without a sign: as
 * chinese_typed_amount_read does, and before the amount there may be one of 负, 負, （负数） and （負數）
 * (also with ASCII parentheses): before or after ⊗, and before or after 人民币 with its note and its
 * colon. 人民币 cannot be before ⊗. */
uint32_t chinese_typed_signed_amount_read(const uint8_t *text, size_t text_length, cn_signed_amount *reading);

/* Reads figures in yuan, in UTF-8, as an amount; nothing is rounded. Figures consist, in this
 * order, of:
 * - optionally a minus: -, − (U+2212) or full-width －;
 * - optionally ¥;
 * - digits without commas, or one to three digits followed by one or more groups of a comma and
 *   three digits;
 * - optionally a point and one or more digits; digits after the second must be 0.
 *
 * Digits, commas, points and ¥ may be full-width. White space is an error at its place. Writes all
 * of *reading at each status, and nothing else.
 *
 * Returns CN_DONE, CN_UNFINISHED (also for the empty text), CN_INCORRECT at the first character
 * with which no figures begin, CN_TOO_LARGE (10^18 fen or more, or -10^18 or less) or CN_NOT_UTF8.
 * The call tests that the whole text is UTF-8. */
uint32_t chinese_figures_read(const uint8_t *text, size_t text_length, cn_signed_amount *reading);

/* The result of reading a date: at CN_DONE the year, month (1 is January) and day; at CN_INCORRECT
 * how many characters and how many bytes come before the wrong character. The other fields are
 * 0. */
typedef struct cn_date {
    uint32_t year;
    uint32_t month;
    uint32_t day;
    size_t char_index;
    size_t byte_index;
} cn_date;

/* Prints a date of the Gregorian calendar, from year 1 to 9999, in capitals, as on a cheque, at the
 * start of a buffer, in UTF-8. Writes *length at each status: at CN_DONE and CN_NO_ROOM how many
 * bytes the text has, otherwise 0. Writes to the buffer only at CN_DONE, and then only the text.
 *
 * Returns CN_DONE, CN_NO_ROOM, CN_NOT_A_DATE or CN_UNKNOWN. A buffer of CN_MOST_DATE_BYTES is never
 * too small. */
uint32_t chinese_date_print(uint32_t year, uint32_t month, uint32_t day, uint32_t script, uint8_t *room, size_t room_length,
                            size_t *length);

/* Reads a text in capitals, in UTF-8, as a date. White space is an error at its place. Writes all
 * of *reading at each status, and nothing else.
 *
 * Returns CN_DONE, CN_UNFINISHED (also for the empty text), CN_INCORRECT at the first character
 * with which no date begins, or CN_NOT_UTF8. The call tests that the whole text is UTF-8, and then
 * reads up to the wrong character, which is among the first 14. */
uint32_t chinese_date_read(const uint8_t *text, size_t text_length, cn_date *reading);

/* A column is many rows in one call. A column of texts is as Arrow has its large strings: the texts, in
 * UTF-8, one after another in one array of bytes, and one offset more than there are rows: the text of
 * row i is the bytes from offsets[i] up to, not including, offsets[i + 1]. A bitmap says which rows are
 * present, 1 for a present one: that of row i is bit `first` + i, counted from the least bit of
 * bitmap[0] on. A row beyond the bitmap is present, so with an empty bitmap all are. Each row has a
 * status of its own, so a refused row does not affect the others. A missing row has CN_NONE.
 *
 * A call has as many rows as the shortest of its arrays: values, statuses, and the offsets after the
 * first. */

/* Prints numbers of a type, given in 64 bits, as a column of texts: each row as chinese_number_print
 * prints it. A number of a signed type is in two's complement of 64 bits. The caller sets offsets[0]:
 * the first text begins at this byte of the buffer.
 *
 * Writes *done, and of the first *done rows the status, the end (row i's to offsets[i + 1]) and the
 * text, which is empty if the row is missing or refused; nothing else. At CN_DONE these are all rows.
 * At CN_NO_ROOM the text of row *done does not fit the buffer. To go on, in a larger buffer or, with
 * another offsets[0], in another one, call again with values, offsets and statuses from row *done on,
 * and with `first` + *done; the bytes are then the same as from one call with a buffer that is large
 * enough.
 *
 * Returns CN_DONE, CN_NO_ROOM or CN_UNKNOWN (*done is then 0). The status of a row is CN_DONE, CN_NONE,
 * CN_TOO_LARGE, CN_TOO_SMALL or CN_NOT_HELD. A buffer with CN_MOST_BYTES for each row is never too
 * small. */
uint32_t chinese_numbers_print_column(const uint64_t *values, size_t values_length, const uint8_t *bitmap,
                                      size_t bitmap_length, size_t first, uint32_t kind, uint32_t way,
                                      uint32_t script, uint32_t letter_case, uint64_t *offsets,
                                      size_t offsets_length, uint8_t *room, size_t room_length, uint32_t *statuses,
                                      size_t statuses_length, size_t *done);

/* The same for numbers of 128 bits, in two halves. In memory they are as Arrow's decimals of 128 bits,
 * if the processor is little-endian. */
uint32_t chinese_wide_numbers_print_column(const cn_number *values, size_t values_length, const uint8_t *bitmap,
                                           size_t bitmap_length, size_t first, uint32_t kind, uint32_t way,
                                           uint32_t script, uint32_t letter_case, uint64_t *offsets,
                                           size_t offsets_length, uint8_t *room, size_t room_length,
                                           uint32_t *statuses, size_t statuses_length, size_t *done);

/* Prints amounts of fen, likewise: each row as chinese_signed_amount_print prints it, which prints an
 * amount that is not negative as chinese_amount_print does. A buffer with CN_MOST_SIGNED_AMOUNT_BYTES
 * for each row is never too small. */
uint32_t chinese_amounts_print_column(const int64_t *values, size_t values_length, const uint8_t *bitmap,
                                      size_t bitmap_length, size_t first, uint32_t script, uint32_t form,
                                      uint64_t *offsets, size_t offsets_length, uint8_t *room, size_t room_length,
                                      uint32_t *statuses, size_t statuses_length, size_t *done);

/* A row of a column of dates. */
typedef struct cn_day {
    uint32_t year;
    uint32_t month;
    uint32_t day;
} cn_day;

/* Prints dates, likewise: each row as chinese_date_print prints it. The status of a row is CN_DONE,
 * CN_NONE or CN_NOT_A_DATE. A buffer with CN_MOST_DATE_BYTES for each row is never too small. */
uint32_t chinese_dates_print_column(const cn_day *values, size_t values_length, const uint8_t *bitmap,
                                    size_t bitmap_length, size_t first, uint32_t script, uint64_t *offsets,
                                    size_t offsets_length, uint8_t *room, size_t room_length, uint32_t *statuses,
                                    size_t statuses_length, size_t *done);

/* Reads a column of texts as numbers of a type: each row as chinese_number_read reads its text. Writes
 * the value and the status of each row, and nothing else. The value is the lower 64 bits of the number,
 * which are all of a number of up to 64 bits, and 0 if the row is not read: if it is missing (CN_NONE),
 * refused, or not between two offsets of the texts (CN_NO_ROOM): if they fall, or are beyond the end.
 *
 * Returns CN_DONE or CN_UNKNOWN, which writes nothing. */
uint32_t chinese_numbers_read_column(const uint8_t *texts, size_t texts_length, const uint64_t *offsets,
                                     size_t offsets_length, const uint8_t *bitmap, size_t bitmap_length,
                                     size_t first, uint32_t kind, uint32_t way, uint64_t *values,
                                     size_t values_length, uint32_t *statuses, size_t statuses_length);

/* The same for numbers of 128 bits. */
uint32_t chinese_wide_numbers_read_column(const uint8_t *texts, size_t texts_length, const uint64_t *offsets,
                                          size_t offsets_length, const uint8_t *bitmap, size_t bitmap_length,
                                          size_t first, uint32_t kind, uint32_t way, cn_number *values,
                                          size_t values_length, uint32_t *statuses, size_t statuses_length);

/* Reads a column of texts as amounts of fen, likewise: each row as the call of the input reads it, which
 * is CN_AMOUNT, CN_SIGNED_AMOUNT, CN_TYPED_AMOUNT, CN_TYPED_SIGNED_AMOUNT or CN_FIGURES. Returns
 * CN_DONE, or CN_UNKNOWN for CN_DATE and for a code that names no input. */
uint32_t chinese_amounts_read_column(const uint8_t *texts, size_t texts_length, const uint64_t *offsets,
                                     size_t offsets_length, const uint8_t *bitmap, size_t bitmap_length,
                                     size_t first, uint32_t input, int64_t *values, size_t values_length,
                                     uint32_t *statuses, size_t statuses_length);

/* Reads a column of texts as dates, likewise: each row as chinese_date_read reads it. Returns CN_DONE. */
uint32_t chinese_dates_read_column(const uint8_t *texts, size_t texts_length, const uint64_t *offsets,
                                   size_t offsets_length, const uint8_t *bitmap, size_t bitmap_length,
                                   size_t first, cn_day *values, size_t values_length, uint32_t *statuses,
                                   size_t statuses_length);

/* What may come next in a text after its longest part, from the start, that begins such an input.
 * char_index and byte_index are its length: all of the text, or up to the wrong character. may_end
 * is 1 if this part is complete, so that the text may end there, otherwise 0. The first `count`
 * characters are those that may come next, as code points; the others are 0. white_space is 1 if
 * white space may come next too. */
typedef struct cn_expected {
    size_t char_index;
    size_t byte_index;
    uint32_t may_end;
    uint32_t white_space;
    uint32_t count;
    uint32_t characters[CN_MOST_EXPECTED];
} cn_expected;

/* One change of a text: what is changed, of cn_change; the code point that is inserted or replaces
 * another, otherwise 0; and how many characters and bytes come before the place. */
typedef struct cn_repair {
    size_t char_index;
    size_t byte_index;
    uint32_t change;
    uint32_t character;
} cn_repair;

/* Says what may come next in a text in UTF-8 that is meant to be an input of cn_input, for example
 * to list keys. If the reader of the input returns CN_INCORRECT, char_index is the same. Writes all
 * of *expected at each status, only zeros if it is not CN_DONE.
 *
 * Returns CN_DONE, CN_NOT_UTF8 or CN_UNKNOWN. */
uint32_t chinese_input_expected(const uint8_t *text, size_t text_length, uint32_t input, cn_expected *expected);

/* Finds one change after which a text that is not such an input goes on past its wrong character:
 * in 壹佰贰元整, CN_INSERT of 零 at 2. A text that is only unfinished becomes such an input. There may
 * be another fault further on, and only a person can say that the change is what was meant. The
 * change is CN_NO_CHANGE if the text is right, or if no change is found. Writes all of *repair at
 * each status, only zeros if it is not CN_DONE.
 *
 * Returns CN_DONE, CN_NOT_UTF8 or CN_UNKNOWN. */
uint32_t chinese_input_repair(const uint8_t *text, size_t text_length, uint32_t input, cn_repair *repair);

/* Says why chinese_number_read refuses a text, as a code of cn_fault. If a character is wrong, it is
 * the rule that the text from there on breaks first. CN_NO_FAULT means that the text is read. Writes
 * *fault at each status, 0 if it is not CN_DONE.
 *
 * Returns CN_DONE, CN_NOT_UTF8 or CN_UNKNOWN. */
uint32_t chinese_number_explain(const uint8_t *text, size_t text_length, uint32_t kind, uint32_t way, uint32_t *fault);

/* Says why chinese_quantity_read refuses a text, likewise. */
uint32_t chinese_quantity_explain(const uint8_t *text, size_t text_length, uint32_t method, uint32_t *fault);

/* Prints a message for the person who typed a text, in a language of cn_language: why it is not such
 * an input, with the wrong character, its position counted from 1, and the repair, if there is one,
 * such as 第3个字“贰”前缺“零”。 The message is empty if the text is right. Writes *length at each status:
 * at CN_DONE and CN_NO_ROOM how many bytes the message has, otherwise 0. Writes to the buffer only at
 * CN_DONE, and then only the message.
 *
 * Returns CN_DONE, CN_NO_ROOM, CN_NOT_UTF8 or CN_UNKNOWN. A buffer of CN_MOST_MESSAGE_BYTES is never
 * too small. */
uint32_t chinese_input_message(const uint8_t *text, size_t text_length, uint32_t input, uint32_t language,
                               uint8_t *room, size_t room_length, size_t *length);

/* The same for a text that chinese_number_read refuses. */
uint32_t chinese_number_message(const uint8_t *text, size_t text_length, uint32_t kind, uint32_t way, uint32_t language,
                                uint8_t *room, size_t room_length, size_t *length);

/* The same for a text that chinese_quantity_read refuses. */
uint32_t chinese_quantity_message(const uint8_t *text, size_t text_length, uint32_t method, uint32_t language,
                                  uint8_t *room, size_t room_length, size_t *length);

/* Prints what a status means, in a language, likewise; for example to a person whose number is too
 * large to be printed. The message is empty for CN_DONE. Returns CN_DONE, CN_NO_ROOM or CN_UNKNOWN
 * (also if there is no such status). */
uint32_t chinese_status_message(uint32_t status, uint32_t language, uint8_t *room, size_t room_length, size_t *length);

/* Answers a line, which may be any bytes: `print u128 naive traditional lower 123` with `ok 一二三`, and what
 * is no question with `bad line`. numeral.c answers each line of its input so. Writes *length, how many
 * bytes the answer has. Writes to the buffer only at CN_DONE, and then only the answer.
 *
 * Returns CN_DONE or CN_NO_ROOM. A buffer of CN_MOST_ANSWER_BYTES is never too small. */
uint32_t chinese_number_answer_line(const uint8_t *line, size_t line_length, uint8_t *room, size_t room_length,
                                    size_t *length);

/* The version of the linked library: CN_VERSION_NUMBER of its header. */
uint32_t chinese_number_version(void);

/* The halves of a number of an unsigned type of up to 64 bits. */
static inline cn_number cn_unsigned(uint64_t value) {
    cn_number number;
    number.low = value;
    number.high = 0;
    return number;
}

/* The halves of a number of a signed type of up to 64 bits. */
static inline cn_number cn_signed(int64_t value) {
    cn_number number;
    number.low = CN_AS(uint64_t, value);
    number.high = value < 0 ? UINT64_MAX : 0;
    return number;
}

/* A text in char as the proved calls take it. */
static inline const uint8_t *cn_bytes(const char *text, size_t text_length) {
    return CN_POINTER(const uint8_t, text_length == 0 ? "" : text);
}

/* chinese_number_read for a text in char. The text may contain zero bytes, which are not numerals;
 * use strlen(text) for a text that ends at the first one. */
CN_NODISCARD static inline cn_status cn_read(const char *text, size_t text_length, cn_kind kind, cn_way way,
                                             cn_reading *reading) {
    return CN_AS(cn_status, chinese_number_read(cn_bytes(text, text_length), text_length, kind, way, reading));
}

/* chinese_quantity_read for a text in char. */
CN_NODISCARD static inline cn_status cn_read_quantity(const char *text, size_t text_length, cn_way method,
                                                      cn_quantity *quantity) {
    return CN_AS(cn_status, chinese_quantity_read(cn_bytes(text, text_length), text_length, method, quantity));
}

/* chinese_amount_read for a text in char. */
CN_NODISCARD static inline cn_status cn_read_amount(const char *text, size_t text_length, cn_amount *reading) {
    return CN_AS(cn_status, chinese_amount_read(cn_bytes(text, text_length), text_length, reading));
}

/* chinese_typed_amount_read for a text in char. */
CN_NODISCARD static inline cn_status cn_read_typed_amount(const char *text, size_t text_length, cn_amount *reading) {
    return CN_AS(cn_status, chinese_typed_amount_read(cn_bytes(text, text_length), text_length, reading));
}

/* chinese_signed_amount_read for a text in char. */
CN_NODISCARD static inline cn_status cn_read_signed_amount(const char *text, size_t text_length,
                                                           cn_signed_amount *reading) {
    return CN_AS(cn_status, chinese_signed_amount_read(cn_bytes(text, text_length), text_length, reading));
}

/* chinese_typed_signed_amount_read for a text in char. */
CN_NODISCARD static inline cn_status cn_read_typed_signed_amount(const char *text, size_t text_length,
                                                                 cn_signed_amount *reading) {
    return CN_AS(cn_status, chinese_typed_signed_amount_read(cn_bytes(text, text_length), text_length, reading));
}

/* chinese_figures_read for a text in char. */
CN_NODISCARD static inline cn_status cn_read_figures(const char *text, size_t text_length, cn_signed_amount *reading) {
    return CN_AS(cn_status, chinese_figures_read(cn_bytes(text, text_length), text_length, reading));
}

/* chinese_date_read for a text in char. */
CN_NODISCARD static inline cn_status cn_read_date(const char *text, size_t text_length, cn_date *reading) {
    return CN_AS(cn_status, chinese_date_read(cn_bytes(text, text_length), text_length, reading));
}

/* chinese_input_expected for a text in char. */
CN_NODISCARD static inline cn_status cn_input_expected(const char *text, size_t text_length, cn_input input,
                                                       cn_expected *expected) {
    return CN_AS(cn_status, chinese_input_expected(cn_bytes(text, text_length), text_length, input, expected));
}

/* chinese_input_repair for a text in char. */
CN_NODISCARD static inline cn_status cn_input_repair(const char *text, size_t text_length, cn_input input,
                                                     cn_repair *repair) {
    return CN_AS(cn_status, chinese_input_repair(cn_bytes(text, text_length), text_length, input, repair));
}

/* Why cn_read refuses a text in char: CN_NO_FAULT also if the text is not UTF-8 or a code names
 * nothing, which cn_read returns. */
static inline cn_fault cn_explain(const char *text, size_t text_length, cn_kind kind, cn_way way) {
    uint32_t fault;
    (void)chinese_number_explain(cn_bytes(text, text_length), text_length, kind, way, &fault);
    return CN_AS(cn_fault, fault);
}

/* Why cn_read_quantity refuses a text in char, likewise. */
static inline cn_fault cn_explain_quantity(const char *text, size_t text_length, cn_way method) {
    uint32_t fault;
    (void)chinese_quantity_explain(cn_bytes(text, text_length), text_length, method, &fault);
    return CN_AS(cn_fault, fault);
}

/* The status of a search for one span or phrase. */
static inline cn_status cn_status_of_next(uint32_t status, size_t count) {
    return status == CN_DONE && count == 0 ? CN_NONE : CN_AS(cn_status, status);
}

/* Returns the status of a search for one span. If none is found, the span becomes zeros. */
static inline cn_status cn_next(uint32_t status, size_t count, cn_span *span) {
    if (count == 0) {
        span->start = span->end = 0;
        span->flags = 0;
    }
    return cn_status_of_next(status, count);
}

/* Finds the next number of a text in char after span->end; with a span of zeros, the first number.
 * At CN_DONE the span is its place in the whole text, otherwise zeros. Only the first call tests
 * the text: with a span that an earlier call wrote, the text must be the same. */
CN_NODISCARD static inline cn_status cn_find_next(const char *text, size_t text_length, uint32_t upper,
                                                  cn_unit greatest, cn_span *span) {
    const uint8_t *bytes = cn_bytes(text, text_length);
    size_t from = span->end, count = 0;
    uint32_t status = from == 0 ? chinese_number_find(bytes, text_length, 0, upper, greatest, span, 1, &count)
                                : chinese_number_find_utf8(bytes, text_length, from, upper, greatest, span, 1, &count);
    return cn_next(status, count, span);
}

/* Finds the next expression after span->end, likewise. */
CN_NODISCARD static inline cn_status cn_find_next_quantity(const char *text, size_t text_length, uint32_t upper,
                                                           cn_unit greatest, cn_span *span) {
    const uint8_t *bytes = cn_bytes(text, text_length);
    size_t from = span->end, count = 0;
    uint32_t status = from == 0
        ? chinese_quantity_find(bytes, text_length, 0, upper, greatest, span, 1, &count)
        : chinese_quantity_find_utf8(bytes, text_length, from, upper, greatest, span, 1, &count);
    return cn_next(status, count, span);
}

/* Finds the next phrase after phrase->end, or the next expression that is in no phrase, likewise. */
CN_NODISCARD static inline cn_status cn_find_next_phrase(const char *text, size_t text_length, uint32_t upper,
                                                         cn_unit greatest, cn_phrase *phrase) {
    const cn_phrase none = {0, 0, 0, 0, 0, 0, 0, 0, 0, 0};
    const uint8_t *bytes = cn_bytes(text, text_length);
    size_t from = phrase->end, count = 0;
    uint32_t status = from == 0
        ? chinese_phrase_find(bytes, text_length, 0, upper, greatest, phrase, 1, &count)
        : chinese_phrase_find_utf8(bytes, text_length, from, upper, greatest, phrase, 1, &count);
    if (count == 0)
        *phrase = none;
    return cn_status_of_next(status, count);
}

/* The span of a phrase, or of an expression that cn_find_next_phrase found. */
static inline cn_span cn_span_of(const cn_phrase *phrase) {
    cn_span span;
    span.start = phrase->start;
    span.end = phrase->end;
    span.flags = phrase->flags;
    return span;
}

/* Reads the two ends of a range that a search found in this text, with chinese_range_read. Returns
 * CN_INCORRECT if the phrase is refused or is no range. */
CN_NODISCARD static inline cn_status cn_read_range(const char *text, const cn_phrase *range, cn_quantity *low,
                                                   cn_quantity *high) {
    const uint8_t *first = cn_bytes(text, range->end) + range->start;
    size_t length = range->end - range->start, after_link = range->split == 0 ? 0 : range->split + 1;
    while (after_link < length && (first[after_link] & 0xC0) == 0x80)
        after_link++;
    return CN_AS(cn_status, chinese_range_read(first, range->split, first + after_link, length - after_link, low, high));
}

/* Why a reader may take the expression at a span for something other than its quantity. */
static inline cn_doubt cn_doubt_of(const cn_span *span) {
    return CN_AS(cn_doubt, span->flags / 16);
}

/* Reads the number at a span of a text: plain digits as such, anything else by a method, where
 * CN_ANY means CN_TEN_THOUSAND. A search must have written the span for this text; its bytes are
 * not tested again. */
CN_NODISCARD static inline cn_status cn_read_found(const char *text, const cn_span *span, cn_kind kind, cn_way method,
                                                   cn_reading *reading) {
    const uint8_t *found = cn_bytes(text, span->end) + span->start;
    cn_way units = method == CN_ANY ? CN_TEN_THOUSAND : method;
    cn_way way = (span->flags & CN_PLAIN_DIGITS) != 0 ? CN_DIGITS : units;
    return CN_AS(cn_status, chinese_number_read_utf8(found, span->end - span->start, kind, way, reading));
}

/* A buffer of char as the proved calls take it. One of length 0, which may be NULL, is replaced by
 * `none`. */
static inline uint8_t *cn_room(char *room, size_t room_length, uint8_t *none) {
    return room_length == 0 ? none : CN_POINTER(uint8_t, room);
}

/* How many bytes a text can have in a buffer that also holds its zero byte. */
static inline size_t cn_most_of_text(size_t room_length) {
    return room_length == 0 ? 0 : room_length - 1;
}

/* Writes a zero byte after the text at CN_DONE, otherwise at the start of the buffer, if it is not
 * empty. */
static inline cn_status cn_ended(uint32_t status, char *room, size_t room_length, size_t length) {
    if (room_length != 0)
        room[status == CN_DONE ? length : 0] = '\0';
    return CN_AS(cn_status, status);
}

/* chinese_number_print into a buffer of char, with a zero byte after the text. A buffer of
 * CN_MOST_BYTES + 1 is never too small. At other statuses the buffer contains the empty text. */
CN_NODISCARD static inline cn_status cn_print(cn_number number, cn_kind kind, cn_way way, cn_script script,
                                              cn_case letter_case, char *room, size_t room_length) {
    uint8_t none;
    size_t length, most = cn_most_of_text(room_length);
    uint32_t status = chinese_number_print(number.low, number.high, kind, way, script, letter_case,
                                           cn_room(room, room_length, &none), most, &length);
    return cn_ended(status, room, room_length, length);
}

/* chinese_quantity_print into a buffer of char, likewise. A buffer of CN_MOST_QUANTITY_BYTES + 1 is
 * never too small. */
CN_NODISCARD static inline cn_status cn_print_quantity(const cn_quantity *quantity, cn_way method, cn_script script,
                                                       cn_case letter_case, char *room, size_t room_length) {
    uint8_t none;
    size_t length, most = cn_most_of_text(room_length);
    uint32_t status = chinese_quantity_print(quantity, method, script, letter_case, cn_room(room, room_length, &none), most,
                                             &length);
    return cn_ended(status, room, room_length, length);
}

/* chinese_quantity_figures into a buffer of char, likewise. A buffer of CN_MOST_FIGURES_BYTES + 1
 * is never too small. */
CN_NODISCARD static inline cn_status cn_quantity_figures(const cn_quantity *quantity, char *room, size_t room_length) {
    uint8_t none;
    size_t length, most = cn_most_of_text(room_length);
    uint32_t status = chinese_quantity_figures(quantity, cn_room(room, room_length, &none), most, &length);
    return cn_ended(status, room, room_length, length);
}

/* chinese_quantities_to_figures for a text in char, into a buffer of char, likewise. At CN_NO_ROOM,
 * a buffer of *length + 1 is large enough. */
CN_NODISCARD static inline cn_status cn_quantities_to_figures(const char *text, size_t text_length, uint32_t upper,
                                                              cn_unit greatest, cn_way method, uint32_t options,
                                                              char *room, size_t room_length, size_t *length) {
    uint8_t none;
    size_t most = cn_most_of_text(room_length);
    uint32_t status = chinese_quantities_to_figures(cn_bytes(text, text_length), text_length, upper, greatest, method,
                                                    options, cn_room(room, room_length, &none), most, length);
    return cn_ended(status, room, room_length, *length);
}

/* chinese_text_to_figures for a text in char, into a buffer of char, likewise. */
CN_NODISCARD static inline cn_status cn_text_to_figures(const char *text, size_t text_length, uint32_t upper,
                                                        cn_unit greatest, cn_way method, uint32_t options,
                                                        char *room, size_t room_length, size_t *length) {
    uint8_t none;
    size_t most = cn_most_of_text(room_length);
    uint32_t status = chinese_text_to_figures(cn_bytes(text, text_length), text_length, upper, greatest, method, options,
                                              cn_room(room, room_length, &none), most, length);
    return cn_ended(status, room, room_length, *length);
}

/* chinese_text_to_speech for a text in char, into a buffer of char, likewise. `meant` is a buffer of char, too,
 * of at least as many bytes as the text. */
CN_NODISCARD static inline cn_status cn_text_to_speech(const char *text, size_t text_length, uint32_t upper,
                                                       cn_unit greatest, cn_way method, cn_script script,
                                                       uint32_t options, char *meant, size_t meant_length,
                                                       char *room, size_t room_length, size_t *length) {
    uint8_t none, none_meant;
    size_t most = cn_most_of_text(room_length);
    uint32_t status = chinese_text_to_speech(cn_bytes(text, text_length), text_length, upper, greatest, method, script,
                                             options, cn_room(meant, meant_length, &none_meant), meant_length,
                                             cn_room(room, room_length, &none), most, length);
    return cn_ended(status, room, room_length, *length);
}

/* Finds the next part of a text in char that cn_text_to_speech leaves, after span->end; with a span of zeros,
 * the first one. At CN_DONE the span is its place in the whole text, otherwise zeros. */
CN_NODISCARD static inline cn_status cn_find_next_unspoken(const char *text, size_t text_length, uint32_t upper,
                                                           cn_unit greatest, char *meant, size_t meant_length,
                                                           cn_span *span) {
    uint8_t none;
    size_t count = 0;
    uint32_t status = chinese_speech_left(cn_bytes(text, text_length), text_length, span->end, upper, greatest,
                                          cn_room(meant, meant_length, &none), meant_length, span, 1, &count);
    return cn_next(status, count, span);
}

/* chinese_amount_print into a buffer of char, likewise. A buffer of CN_MOST_AMOUNT_BYTES + 1 is
 * never too small. */
CN_NODISCARD static inline cn_status cn_print_amount(uint64_t fen, cn_script script, cn_form form, char *room,
                                                     size_t room_length) {
    uint8_t none;
    size_t length, most = cn_most_of_text(room_length);
    uint32_t status = chinese_amount_print(fen, script, form, cn_room(room, room_length, &none), most, &length);
    return cn_ended(status, room, room_length, length);
}

/* chinese_signed_amount_print into a buffer of char, likewise. A buffer of
 * CN_MOST_SIGNED_AMOUNT_BYTES + 1 is never too small. */
CN_NODISCARD static inline cn_status cn_print_signed_amount(int64_t fen, cn_script script, cn_form form, char *room,
                                                            size_t room_length) {
    uint8_t none;
    size_t length, most = cn_most_of_text(room_length);
    uint32_t status = chinese_signed_amount_print(fen, script, form, cn_room(room, room_length, &none), most, &length);
    return cn_ended(status, room, room_length, length);
}

/* chinese_date_print into a buffer of char, likewise. A buffer of CN_MOST_DATE_BYTES + 1 is never
 * too small. */
CN_NODISCARD static inline cn_status cn_print_date(uint32_t year, uint32_t month, uint32_t day, cn_script script,
                                                   char *room, size_t room_length) {
    uint8_t none;
    size_t length, most = cn_most_of_text(room_length);
    uint32_t status = chinese_date_print(year, month, day, script, cn_room(room, room_length, &none), most, &length);
    return cn_ended(status, room, room_length, length);
}

/* chinese_input_message for a text in char, into a buffer of char, likewise. A buffer of
 * CN_MOST_MESSAGE_BYTES + 1 is never too small. */
CN_NODISCARD static inline cn_status cn_input_message(const char *text, size_t text_length, cn_input input,
                                                      cn_language language, char *room, size_t room_length) {
    uint8_t none;
    size_t length, most = cn_most_of_text(room_length);
    uint32_t status = chinese_input_message(cn_bytes(text, text_length), text_length, input, language,
                                            cn_room(room, room_length, &none), most, &length);
    return cn_ended(status, room, room_length, length);
}

/* chinese_number_message, likewise. */
CN_NODISCARD static inline cn_status cn_number_message(const char *text, size_t text_length, cn_kind kind, cn_way way,
                                                       cn_language language, char *room, size_t room_length) {
    uint8_t none;
    size_t length, most = cn_most_of_text(room_length);
    uint32_t status = chinese_number_message(cn_bytes(text, text_length), text_length, kind, way, language,
                                             cn_room(room, room_length, &none), most, &length);
    return cn_ended(status, room, room_length, length);
}

/* chinese_quantity_message, likewise. */
CN_NODISCARD static inline cn_status cn_quantity_message(const char *text, size_t text_length, cn_way method,
                                                         cn_language language, char *room, size_t room_length) {
    uint8_t none;
    size_t length, most = cn_most_of_text(room_length);
    uint32_t status = chinese_quantity_message(cn_bytes(text, text_length), text_length, method, language,
                                               cn_room(room, room_length, &none), most, &length);
    return cn_ended(status, room, room_length, length);
}

/* chinese_status_message, likewise. */
CN_NODISCARD static inline cn_status cn_status_message(cn_status of, cn_language language, char *room,
                                                       size_t room_length) {
    uint8_t none;
    size_t length, most = cn_most_of_text(room_length);
    uint32_t status = chinese_status_message(of, language, cn_room(room, room_length, &none), most, &length);
    return cn_ended(status, room, room_length, length);
}

#ifdef __cplusplus
}

/* Flags of a form, added together; in C they are integers. */
constexpr cn_form operator|(cn_form one, cn_form other) {
    return CN_AS(cn_form, CN_AS(uint32_t, one) | CN_AS(uint32_t, other));
}
#endif

#endif
