/* Chinese numerals for C++17 and later: writes numbers, exact quantities, amounts of money and
 * dates as std::string, and reads and finds them in a std::string_view, also in phrases such as dates
 * and times. It says what may follow a text, and why a text is refused. chinese_number.h, which this file wraps, documents the choices,
 * the statuses and what to link. Texts are UTF-8. The only exceptions are that of Result::value,
 * those of the standard library when memory runs out, and those of the caller's functions.
 *
 *     auto number = chinese_number::to_number<int>("一百二");
 *     if (number)
 *         use(*number); // 120
 *     else
 *         report(number.error().message());
 *     std::string text = chinese_number::to_chinese(120).value(); // 一百二十
 */
#ifndef CHINESE_NUMBER_HPP
#define CHINESE_NUMBER_HPP

#include "chinese_number.h"

#include <algorithm>
#include <chrono>
#include <cstddef>
#include <cstdint>
#include <cstdlib>
#include <iterator>
#include <optional>
#include <stdexcept>
#include <string>
#include <string_view>
#include <type_traits>
#include <utility>
#include <variant>
#include <vector>

namespace chinese_number {

/* Made by bindings/codes.py, from here .. */

/* How a number is read or written. */
enum class Way : std::uint32_t {
    digits = CN_DIGITS, low = CN_LOW, ten_thousand = CN_TEN_THOUSAND, middle = CN_MIDDLE,
    high = CN_HIGH, any = CN_ANY,
};

/* The script of a text that is written. */
enum class Script : std::uint32_t {
    traditional = CN_TRADITIONAL, simplified = CN_SIMPLIFIED,
};

/* The case of a number that is written. */
enum class Case : std::uint32_t {
    upper = CN_UPPER, lower = CN_LOWER,
};

/* A unit; each is greater than the one before. */
enum class Unit : std::uint32_t {
    ge = CN_GE, shi = CN_SHI, bai = CN_BAI, qian = CN_QIAN, wan = CN_WAN, yi = CN_YI,
    zhao = CN_ZHAO, jing = CN_JING, gai = CN_GAI, zi = CN_ZI, rang = CN_RANG, gou = CN_GOU,
    jian = CN_JIAN, zheng = CN_ZHENG, zai = CN_ZAI, ji = CN_JI,
};

/* How a quantity is written. */
enum class QuantityForm : std::uint32_t {
    whole = CN_WHOLE, decimal = CN_DECIMAL, percent = CN_PERCENT, fraction = CN_FRACTION,
};

/* Why a reader may understand an expression as something other than its quantity. */
enum class Doubt : std::uint32_t {
    none = CN_NO_DOUBT, word = CN_DOUBT_WORD, digits = CN_DOUBT_DIGITS, term = CN_DOUBT_TERM,
    part = CN_DOUBT_PART, time = CN_DOUBT_TIME, range = CN_DOUBT_RANGE,
};

/* What an item of a text is. */
enum class PhraseKind : std::uint32_t {
    expression = CN_PHRASE_KIND_EXPRESSION, date = CN_PHRASE_KIND_DATE,
    years = CN_PHRASE_KIND_YEARS, months = CN_PHRASE_KIND_MONTHS, days = CN_PHRASE_KIND_DAYS,
    time = CN_PHRASE_KIND_TIME, duration = CN_PHRASE_KIND_DURATION, half = CN_PHRASE_KIND_HALF,
    length = CN_PHRASE_KIND_LENGTH, score = CN_PHRASE_KIND_SCORE, range = CN_PHRASE_KIND_RANGE,
    money = CN_PHRASE_KIND_MONEY,
};

/* What is known of a phrase. */
enum class PhraseState : std::uint32_t {
    certain = CN_PHRASE_STATE_CERTAIN, doubtful = CN_PHRASE_STATE_DOUBTFUL,
    refused = CN_PHRASE_STATE_REFUSED,
};

/* What a text is meant to be, for the calls that say what may follow it and why it is refused. */
enum class Input : std::uint32_t {
    amount = CN_AMOUNT, signed_amount = CN_SIGNED_AMOUNT, typed_amount = CN_TYPED_AMOUNT,
    typed_signed_amount = CN_TYPED_SIGNED_AMOUNT, date = CN_DATE, figures = CN_FIGURES,
};

/* What is changed in a text to repair it. */
enum class Change : std::uint32_t {
    insert = CN_INSERT, replace = CN_REPLACE, erase = CN_DELETE,
};

/* Why a text is not a number or a quantity. */
enum class Fault : std::uint32_t {
    empty = CN_FAULT_EMPTY, too_large = CN_FAULT_TOO_LARGE, too_small = CN_FAULT_TOO_SMALL,
    start = CN_FAULT_START, character = CN_FAULT_CHARACTER, digits = CN_FAULT_DIGITS,
    units = CN_FAULT_UNITS, ge = CN_FAULT_GE, groups = CN_FAULT_GROUPS,
    bare_ten = CN_FAULT_BARE_TEN, repeated_ten = CN_FAULT_REPEATED_TEN,
    after_zero = CN_FAULT_AFTER_ZERO, weight = CN_FAULT_WEIGHT,
    two_readings = CN_FAULT_TWO_READINGS, left_out_zero = CN_FAULT_LEFT_OUT_ZERO,
    denominator = CN_FAULT_DENOMINATOR,
};

/* The language of a message. */
enum class Language : std::uint32_t {
    english = CN_ENGLISH, simplified_chinese = CN_SIMPLIFIED_CHINESE,
    traditional_chinese = CN_TRADITIONAL_CHINESE,
};

/* The status of a call. */
enum class Status : std::uint32_t {
    done = CN_DONE, empty = CN_EMPTY, incorrect = CN_INCORRECT, too_large = CN_TOO_LARGE,
    too_small = CN_TOO_SMALL, not_utf8 = CN_NOT_UTF8, no_room = CN_NO_ROOM, not_held = CN_NOT_HELD,
    unknown = CN_UNKNOWN, unfinished = CN_UNFINISHED, none = CN_NONE, not_a_date = CN_NOT_A_DATE,
    not_a_quantity = CN_NOT_A_QUANTITY,
    too_long = CN_TOO_LONG
};

/* .. up to here. */

/* How a number is printed. */
struct Style {
    Way way = Way::any;
    Script script = Script::simplified;
    Case letter_case = Case::lower;
};

/* How an amount is printed: with the prefix 人民币, with 圆 instead of 元, with 正 instead of 整, and a
 * negative one with （负数） instead of 负. */
struct AmountForm {
    bool currency = false;
    bool round_yuan = false;
    bool upright_closing = false;
    bool bracketed_sign = false;
};

/* A day of the Gregorian calendar; month 1 is January. */
struct Date {
    std::uint32_t year;
    std::uint32_t month;
    std::uint32_t day;
};

/* What a search looks for: units up to the greatest one, and with `upper` also the characters of
 * cheques. */
struct Wanted {
    bool upper = false;
    Unit greatest = Unit::zhao;
};

/* Which quantities are replaced that otherwise stay: approximate ones, those of one Chinese
 * character, and doubtful ones except those with Doubt::part. */
struct Included {
    bool about = false;
    bool one_character = false;
    bool doubtful = false;
};

/* How text_to_figures and quantities_to_figures write. With `expanded` 三千五百亿 becomes 350000000000,
 * otherwise 3500亿. With `canonical` what is only figures is rewritten in ASCII, without commas and
 * leading zeros. With `compact` text_to_figures writes dates, times, halves and sums of money as short as
 * possible: 2026-01-05, 15:30, 1.5小时, 3.5元. With `codes` it also writes codes, such as telephone numbers:
 * 打幺幺零 becomes 打110. */
struct Figures {
    bool expanded = false;
    bool canonical = false;
    bool compact = false;
    bool codes = false;
};

/* Why there is no number, amount, date or text. At Status::incorrect it has the place of the wrong
 * character. */
struct Error {
    Status status;
    const char *subject; /* what was read or printed */
    std::size_t char_index;
    std::size_t byte_index;
    const char *advice = ""; /* the end of the message: which call to use instead */

    std::string message() const {
        const std::string the_subject = std::string("the ") + subject;
        if (status == Status::incorrect)
            return the_subject + " is incorrect (position: " + std::to_string(char_index) + ")";
        if (status == Status::unfinished)
            return the_subject + " is not finished";
        return std::string(cn_status_text(static_cast<std::uint32_t>(status))) + advice;
    }
};

#ifdef __clang__
#pragma clang diagnostic push
#pragma clang diagnostic ignored "-Wweak-vtables" /* a header cannot avoid them */
#endif

/* What Result::value throws if there is no value. what() is the error's message. */
class BadResultAccess : public std::runtime_error {
public:
    explicit BadResultAccess(const Error &error) : std::runtime_error(error.message()), held(error) {}

    const Error &error() const noexcept { return held; }

private:
    Error held;
};

#ifdef __clang__
#pragma clang diagnostic pop
#endif

namespace detail {

[[noreturn]] inline void throw_or_abort([[maybe_unused]] const Error &error) {
#if defined(__cpp_exceptions) || defined(_CPPUNWIND)
    throw BadResultAccess(error);
#else
    std::abort();
#endif
}

} // namespace detail

/* A value, or the error why there is none. If there is no value, value() throws a BadResultAccess;
 * in a program without exceptions (-fno-exceptions) it aborts, as std::expected of libstdc++ does.
 * Accessing a missing value with * or ->, or the error of a result that has a value, is undefined
 * behaviour.
 *
 * Of a temporary result, such as that of a call, * and the methods move the value and return it
 * itself, not a reference: `const auto &text = *to_chinese(120)` is valid. */
template <typename Value>
class [[nodiscard]] Result {
public:
    Result(Value value) : held(std::in_place_index<0>, std::move(value)) {}
    Result(Error error) : held(std::in_place_index<1>, error) {}

    bool has_value() const noexcept { return held.index() == 0; }
    explicit operator bool() const noexcept { return has_value(); }

    const Value &operator*() const & noexcept { return *std::get_if<0>(&held); }
    Value operator*() && noexcept(std::is_nothrow_move_constructible_v<Value>) {
        return std::move(*std::get_if<0>(&held));
    }
    const Value *operator->() const noexcept { return std::get_if<0>(&held); }

    const Value &value() const & {
        if (!has_value())
            detail::throw_or_abort(error());
        return **this;
    }
    Value value() && {
        if (!has_value())
            detail::throw_or_abort(error());
        return *std::move(*this);
    }

    Value value_or(Value other) const & { return has_value() ? **this : std::move(other); }
    Value value_or(Value other) && { return has_value() ? *std::move(*this) : std::move(other); }

    std::optional<Value> optional() const & { return has_value() ? std::optional<Value>(**this) : std::nullopt; }
    std::optional<Value> optional() && {
        return has_value() ? std::optional<Value>(*std::move(*this)) : std::nullopt;
    }

    const Error &error() const noexcept { return *std::get_if<1>(&held); }

private:
    std::variant<Value, Error> held;
};

namespace detail {

#ifdef __SIZEOF_INT128__
__extension__ typedef __int128 Signed128;
__extension__ typedef unsigned __int128 Unsigned128;
template <typename T>
inline constexpr bool is_128_bits = std::is_same_v<T, Signed128> || std::is_same_v<T, Unsigned128>;
#else
template <typename T>
inline constexpr bool is_128_bits = false;
#endif

template <typename T, typename... Others>
inline constexpr bool is_one_of = (std::is_same_v<T, Others> || ...);

/* The integers, without characters and bool. */
template <typename T>
inline constexpr bool is_whole =
    is_128_bits<T> || (std::is_integral_v<T> && !is_one_of<T, bool, char, wchar_t, char16_t, char32_t>);

template <typename T>
inline constexpr bool is_signed = static_cast<T>(-1) < static_cast<T>(1);

/* The signed types follow the unsigned ones, and each has twice the bits of the one before it. */
template <typename T>
constexpr cn_kind kind_of() {
    static_assert(is_whole<T>, "a number must be an integer of 8 to 128 bits, not a character");
    std::uint32_t code = is_signed<T> ? CN_I8 : CN_U8;
    for (std::size_t bytes = 1; bytes < sizeof(T); bytes *= 2)
        code++;
    return static_cast<cn_kind>(code);
}

template <typename T>
cn_number halves_of(T value) {
    if constexpr (is_128_bits<T>)
        return {static_cast<std::uint64_t>(value), static_cast<std::uint64_t>(value >> 64)};
    else if constexpr (is_signed<T>)
        return cn_signed(value);
    else
        return cn_unsigned(value);
}

template <typename T>
T of_halves(cn_number number) {
#ifdef __SIZEOF_INT128__
    return static_cast<T>(static_cast<Unsigned128>(number.high) << 64 | number.low);
#else
    return static_cast<T>(number.low);
#endif
}

constexpr cn_form flags_of(AmountForm form) {
    return (form.currency ? CN_CURRENCY : CN_PLAIN) | (form.round_yuan ? CN_ROUND_YUAN : CN_PLAIN)
         | (form.upright_closing ? CN_UPRIGHT_CLOSING : CN_PLAIN)
         | (form.bracketed_sign ? CN_BRACKETED_SIGN : CN_PLAIN);
}

constexpr std::uint32_t options_of(Included included, Figures figures) {
    return (included.about ? CN_ABOUT : 0u) | (included.one_character ? CN_ONE_CHARACTER : 0u)
         | (included.doubtful ? CN_DOUBTFUL : 0u) | (figures.expanded ? CN_EXPANDED : 0u)
         | (figures.canonical ? CN_CANONICAL : 0u) | (figures.compact ? CN_COMPACT : 0u)
         | (figures.codes ? CN_CODES : 0u);
}

constexpr bool are_same(cn_number one, cn_number other) {
    return one.low == other.low && one.high == other.high;
}

/* The negated number in two's complement if `is_negative`. Converts between a number and its
 * magnitude. */
constexpr cn_number negated_if(bool is_negative, cn_number number) {
    if (!is_negative)
        return number;
    return {~number.low + 1, ~number.high + (number.low == 0)};
}

struct Division {
    cn_number quotient;
    cn_number rest;
};

/* A division bit by bit, since not every compiler has integers of 128 bits. */
constexpr Division divided(cn_number dividend, cn_number divisor) {
    Division done = {{0, 0}, {0, 0}};
    for (unsigned bit = 128; bit-- > 0;) {
        const bool carries = done.rest.high >> 63 != 0;
        const std::uint64_t next = (bit >= 64 ? dividend.high >> (bit - 64) : dividend.low >> bit) & 1;
        cn_number &rest = done.rest, &quotient = done.quotient;
        rest = {rest.low << 1 | next, rest.high << 1 | rest.low >> 63};
        const bool fits = carries || rest.high > divisor.high || (rest.high == divisor.high && rest.low >= divisor.low);
        if (fits)
            rest = {rest.low - divisor.low, rest.high - divisor.high - (rest.low < divisor.low)};
        quotient = {quotient.low << 1 | fits, quotient.high << 1 | quotient.low >> 63};
    }
    return done;
}

template <typename Value>
Result<Value> result_of(cn_status status, Value value, const char *subject, std::size_t char_index = 0,
                   std::size_t byte_index = 0) {
    if (status == CN_DONE)
        return Result<Value>(std::move(value));
    return Error{static_cast<Status>(status), subject, char_index, byte_index};
}

/* The text that a call prints into a buffer of char, of at most this many bytes. */
template <std::size_t most, typename Print, typename... Arguments>
Result<std::string> printed(const char *subject, Print print, Arguments... arguments) {
    char room[most + 1];
    const cn_status status = print(arguments..., room, sizeof room);
    return result_of(status, std::string(room), subject);
}

/* The fen that a call reads in a text. */
template <typename Reading>
auto fen_of(std::string_view text, cn_status (*read)(const char *, std::size_t, Reading *)) {
    Reading reading;
    const cn_status status = read(text.data(), text.size(), &reading);
    return result_of(status, reading.fen, "amount", reading.char_index, reading.byte_index);
}

/* A character in UTF-8. Each byte but the first has six of its bits. */
inline std::string utf8_of(std::uint32_t character) {
    if (character < 0x80)
        return std::string(1, static_cast<char>(character));
    std::string done;
    std::uint32_t most_of_first = 0x3F;
    do {
        done.insert(done.begin(), static_cast<char>(0x80 | (character & 0x3F)));
        character >>= 6;
        most_of_first >>= 1;
    } while (character > most_of_first);
    done.insert(done.begin(), static_cast<char>(~most_of_first << 1 | character));
    return done;
}

template <typename T>
constexpr bool is_below_zero(T value) {
    if constexpr (is_signed<T>)
        return value < 0;
    else
        return false;
}

/* An amount of fen in the type that a call takes. */
template <typename Held, typename T>
Result<Held> held_as(T fen) {
    static_assert(is_whole<T>, "an amount must be a whole number of fen");
    const Held held = static_cast<Held>(fen);
    if (is_below_zero(held) != is_below_zero(fen) || static_cast<T>(held) != fen)
        return Error{is_below_zero(fen) ? Status::too_small : Status::too_large, "amount", 0, 0};
    return held;
}

} // namespace detail

/* Reads a text as a number of the type with a code, in halves. This is for 128 bits if the compiler
 * has no such type. */
inline Result<cn_number> to_number(std::string_view text, cn_kind kind, Way way = Way::any) {
    cn_reading reading;
    const cn_status status = cn_read(text.data(), text.size(), kind, static_cast<cn_way>(way), &reading);
    return detail::result_of(status, reading.number, "chinese number", reading.char_index, reading.byte_index);
}

/* Reads a text as a number: to_number<int>("一百二"). */
template <typename T>
Result<T> to_number(std::string_view text, Way way = Way::any) {
    const Result<cn_number> read = to_number(text, detail::kind_of<T>(), way);
    return read ? Result<T>(detail::of_halves<T>(*read)) : read.error();
}

/* An exact quantity, as written and not reduced: 12.5% is 125/1000. Its numbers are in halves: the
 * numerator in two's complement as for CN_I128, and the denominator, above 0, as for CN_U128. Two
 * quantities are equal if their numerators, denominators and forms are: 3.10 and 3.1 differ. */
struct Quantity {
    cn_number numerator;
    cn_number denominator;
    QuantityForm form;

    /* The value as an integer, if it is a whole number and the type holds it: 35000 for 3.5万,
     * nothing for 3.5. */
    template <typename T>
    std::optional<T> to_whole() const;

    /* The same quantity without the zeros at the end of its decimals: 35000 for 3.5万, 3.1 for 3.10,
     * 12.5% for 12.50%. */
    Quantity trimmed() const;

    /* The text: 三点五, 百分之十二点五, 三分之一. There is none if the denominator is 0 (Status::not_a_quantity),
     * or with Way::low if a number in it is 10^16 or more. The style's way must not be
     * Way::digits. */
    Result<std::string> to_chinese(Style style = {}) const;

    /* The text in figures, without zeros at the end of the decimals: 35000, -3.5, 12.5%, 1/3. */
    std::string to_figures() const;

    friend bool operator==(const Quantity &one, const Quantity &other) {
        return detail::are_same(one.numerator, other.numerator) && detail::are_same(one.denominator, other.denominator)
            && one.form == other.form;
    }
    friend bool operator!=(const Quantity &one, const Quantity &other) { return !(one == other); }

private:
    cn_quantity in_c() const {
        return {numerator, denominator, static_cast<std::uint32_t>(form), 0, 0};
    }
};

namespace detail {

inline Quantity quantity_of(const cn_quantity &read) {
    return {read.numerator, read.denominator, static_cast<QuantityForm>(read.form)};
}

} // namespace detail

/* Reads a text as an exact quantity, by a method: a whole number, a decimal, a percentage or a
 * fraction, such as 3.5万 and 三分之一. */
inline Result<Quantity> chinese_to_quantity(std::string_view text, Way method = Way::any) {
    cn_quantity read;
    const cn_status status = cn_read_quantity(text.data(), text.size(), static_cast<cn_way>(method), &read);
    return detail::result_of(status, detail::quantity_of(read), "chinese number", read.char_index, read.byte_index);
}

template <typename T>
std::optional<T> Quantity::to_whole() const {
    static_assert(detail::is_whole<T>, "a whole number must be an integer of 8 to 128 bits, not a character");
    const bool is_negative = numerator.high >> 63 != 0;
    const auto [quotient, rest] = detail::divided(detail::negated_if(is_negative, numerator), denominator);
    const cn_number whole = detail::negated_if(is_negative, quotient);
    const T value = detail::of_halves<T>(whole);
    const bool is_held = detail::are_same(detail::halves_of(value), whole) && detail::is_below_zero(value) == is_negative;
    const bool is_whole = !detail::are_same(denominator, {0, 0}) && detail::are_same(rest, {0, 0});
    return is_whole && is_held ? std::optional<T>(value) : std::nullopt;
}

/* The figures are read back as the trimmed quantity; those of a fraction are refused. */
inline Quantity Quantity::trimmed() const {
    return chinese_to_quantity(to_figures()).value_or(*this);
}

inline Result<std::string> Quantity::to_chinese(Style style) const {
    const cn_quantity quantity = in_c();
    return detail::printed<CN_MOST_QUANTITY_BYTES>(
        "quantity", cn_print_quantity, &quantity, static_cast<cn_way>(style.way), static_cast<cn_script>(style.script),
        static_cast<cn_case>(style.letter_case));
}

inline std::string Quantity::to_figures() const {
    const cn_quantity quantity = in_c();
    return detail::printed<CN_MOST_FIGURES_BYTES>("quantity", cn_quantity_figures, &quantity).value_or("");
}

/* Writes a number in halves. Way::low refuses 10^16 and more. */
inline Result<std::string> to_chinese(cn_number number, cn_kind kind, Style style = {}) {
    return detail::printed<CN_MOST_BYTES>("chinese number", cn_print, number, kind, static_cast<cn_way>(style.way),
                                          static_cast<cn_script>(style.script), static_cast<cn_case>(style.letter_case));
}

/* Writes a number: to_chinese(120). */
template <typename T>
Result<std::string> to_chinese(T number, Style style = {}) {
    return to_chinese(detail::halves_of(number), detail::kind_of<T>(), style);
}

/* Writes an amount of fen, hundredths of a yuan, in capitals: amount_to_chinese(1500). Refuses
 * negative amounts, and 10^18 and more. */
template <typename T>
Result<std::string> amount_to_chinese(T fen, AmountForm form = {}, Script script = Script::simplified) {
    if (detail::is_below_zero(fen))
        return Error{Status::too_small, "amount", 0, 0, ": signed_amount_to_chinese writes amounts below zero"};
    const Result<std::uint64_t> held = detail::held_as<std::uint64_t>(fen);
    if (!held)
        return held.error();
    return detail::printed<CN_MOST_AMOUNT_BYTES>("amount", cn_print_amount, *held, static_cast<cn_script>(script),
                                                 detail::flags_of(form));
}

/* Writes an amount likewise, and a negative one, as on a red invoice, with the prefix 负, or （负数） in
 * the form with bracketed_sign. Refuses -10^18 and less, 10^18 and more. */
template <typename T>
Result<std::string> signed_amount_to_chinese(T fen, AmountForm form = {}, Script script = Script::simplified) {
    const Result<std::int64_t> held = detail::held_as<std::int64_t>(fen);
    if (!held)
        return held.error();
    return detail::printed<CN_MOST_SIGNED_AMOUNT_BYTES>("amount", cn_print_signed_amount, *held,
                                                        static_cast<cn_script>(script), detail::flags_of(form));
}

/* Reads a text in capitals as fen. */
inline Result<std::uint64_t> chinese_to_amount(std::string_view text) {
    return detail::fen_of(text, cn_read_amount);
}

/* Reads a text in capitals as it is typed as fen: ignores white space, a leading ⊗, and a colon
 * after 人民币. chinese_number.h has the full rules. */
inline Result<std::uint64_t> chinese_to_amount_as_typed(std::string_view text) {
    return detail::fen_of(text, cn_read_typed_amount);
}

/* Reads a text in capitals, with or without the prefix 负, as fen. */
inline Result<std::int64_t> chinese_to_signed_amount(std::string_view text) {
    return detail::fen_of(text, cn_read_signed_amount);
}

/* Reads a text in capitals as it is typed, or copied from a red invoice, as fen, likewise:
 * chinese_to_signed_amount_as_typed("人民币（大写）：（负数）壹拾伍元整"). */
inline Result<std::int64_t> chinese_to_signed_amount_as_typed(std::string_view text) {
    return detail::fen_of(text, cn_read_typed_signed_amount);
}

/* Converts figures in yuan to fen, exactly: yuan_to_fen("-1,409.50"). */
inline Result<std::int64_t> yuan_to_fen(std::string_view figures) {
    return detail::fen_of(figures, cn_read_figures);
}

/* Writes a date, from year 1 to 9999, in capitals. */
inline Result<std::string> date_to_chinese(Date date, Script script = Script::simplified) {
    return detail::printed<CN_MOST_DATE_BYTES>("date", cn_print_date, date.year, date.month, date.day,
                                               static_cast<cn_script>(script));
}

/* Reads a text in capitals as a date. */
inline Result<Date> chinese_to_date(std::string_view text) {
    cn_date read;
    const cn_status status = cn_read_date(text.data(), text.size(), &read);
    return detail::result_of(status, Date{read.year, read.month, read.day}, "date", read.char_index, read.byte_index);
}

/* Texts of many values, one after another in one string. Each row is a text, or is refused and then has
 * no text. */
class Column {
public:
    Column(std::string bytes, std::vector<std::uint64_t> offsets, std::vector<Status> statuses)
        : texts(std::move(bytes)), ends(std::move(offsets)), states(std::move(statuses)) {}

    /* How many rows there are. */
    std::size_t size() const noexcept { return states.size(); }
    bool empty() const noexcept { return states.empty(); }

    /* The text of a row, empty if the row is refused. The column must outlive it. */
    std::string_view operator[](std::size_t row) const {
        const std::size_t start = static_cast<std::size_t>(ends[row]);
        return std::string_view(texts.data() + start, static_cast<std::size_t>(ends[row + 1]) - start);
    }

    /* Status::done, or why the row is refused. */
    Status status(std::size_t row) const { return states[row]; }

    /* The texts of all rows, and where each begins, as Arrow has its large strings: the text of row i is
     * from offsets()[i] up to offsets()[i + 1]. */
    const std::string &bytes() const noexcept { return texts; }
    const std::vector<std::uint64_t> &offsets() const noexcept { return ends; }

    class iterator {
    public:
        using iterator_category = std::input_iterator_tag;
        using value_type = std::string_view;
        using difference_type = std::ptrdiff_t;
        using pointer = const std::string_view *;
        using reference = std::string_view;

        iterator() = default;
        iterator(const Column &of, std::size_t at) : column(&of), row(at) {}

        std::string_view operator*() const { return (*column)[row]; }
        iterator &operator++() {
            row++;
            return *this;
        }
        iterator operator++(int) { return iterator(*column, row++); }
        bool operator==(const iterator &other) const { return row == other.row; }
        bool operator!=(const iterator &other) const { return row != other.row; }

    private:
        const Column *column = nullptr;
        std::size_t row = 0;
    };

    iterator begin() const { return {*this, 0}; }
    iterator end() const { return {*this, size()}; }

private:
    std::string texts;
    std::vector<std::uint64_t> ends;
    std::vector<Status> states;
};

namespace detail {

/* The arrays of a call that prints a piece of a column. */
template <typename Row>
struct Piece {
    /* So few rows that the memory for their longest texts is small. */
    static constexpr std::size_t most_rows = 256;

    Row rows[most_rows];
    std::size_t count;
    std::uint64_t offsets[most_rows + 1];
    std::vector<std::uint8_t> room;
    std::uint32_t statuses[most_rows];
    std::size_t done;
};

/* Prints values in pieces, each as a row that row_of makes. No text has more bytes than `most`. */
template <typename Row, typename Value, typename RowOf, typename Print>
Result<Column> printed_column(const char *subject, std::size_t most, const Value *values, std::size_t count,
                              RowOf row_of, Print print) {
    std::string texts;
    std::vector<std::uint64_t> offsets(count + 1);
    std::vector<Status> statuses(count);
    Piece<Row> piece;
    piece.room.resize(most * std::min(count, piece.most_rows));
    piece.offsets[0] = 0;
    for (std::size_t from = 0; from < count; from += piece.count) {
        piece.count = std::min(count - from, piece.most_rows);
        std::transform(values + from, values + from + piece.count, piece.rows, row_of);
        const std::uint32_t status = print(piece);
        if (status != CN_DONE)
            return Error{static_cast<Status>(status), subject, 0, 0};
        for (std::size_t row = 0; row < piece.count; row++) {
            offsets[from + row + 1] = texts.size() + piece.offsets[row + 1];
            statuses[from + row] = static_cast<Status>(piece.statuses[row]);
        }
        const std::size_t length = static_cast<std::size_t>(piece.offsets[piece.count]);
        if (from == 0) /* the other pieces are often about as long */
            texts.reserve((length + length / 8) * (count / piece.count + 1));
        texts.append(reinterpret_cast<const char *>(piece.room.data()), length);
    }
    return Column(std::move(texts), std::move(offsets), std::move(statuses));
}

/* What a call answers for each text of a range. */
template <typename Range, typename Read>
auto read_column(const Range &texts, Read read) {
    std::vector<decltype(read(std::string_view()))> done;
    done.reserve(static_cast<std::size_t>(std::distance(std::begin(texts), std::end(texts))));
    for (const std::string_view text : texts)
        done.push_back(read(text));
    return done;
}

/* An amount of fen as a column has it: refused alike if it is held by no row. */
template <typename T>
std::int64_t fen_of_row(T fen) {
    return held_as<std::int64_t>(fen).value_or(is_below_zero(fen) ? INT64_MIN : INT64_MAX);
}

} // namespace detail

/* Writes many numbers, each as to_chinese does. The only error is Status::unknown, for a style with a
 * value that its type does not name. */
template <typename T>
Result<Column> numbers_to_chinese(const T *numbers, std::size_t count, Style style = {}) {
    return detail::printed_column<cn_number>(
        "chinese number", CN_MOST_BYTES, numbers, count, detail::halves_of<T>, [&](auto &piece) {
            const std::uint8_t present = 0;
            return chinese_wide_numbers_print_column(
                piece.rows, piece.count, &present, 0, 0, detail::kind_of<T>(), static_cast<std::uint32_t>(style.way),
                static_cast<std::uint32_t>(style.script), static_cast<std::uint32_t>(style.letter_case), piece.offsets,
                piece.count + 1, piece.room.data(), piece.room.size(), piece.statuses, piece.count, &piece.done);
        });
}

/* Writes the numbers of an array, a std::vector or a std::span, likewise:
 *
 *     const std::vector<int> numbers = {120, -7};
 *     for (std::string_view text : numbers_to_chinese(numbers).value())
 *         use(text); // 一百二十, then 负七 */
template <typename Range>
Result<Column> numbers_to_chinese(const Range &numbers, Style style = {}) {
    return numbers_to_chinese(std::data(numbers), std::size(numbers), style);
}

/* Writes many amounts of fen, each as signed_amount_to_chinese does. */
template <typename T>
Result<Column> signed_amounts_to_chinese(const T *fen, std::size_t count, AmountForm form = {},
                                         Script script = Script::simplified) {
    return detail::printed_column<std::int64_t>(
        "amount", CN_MOST_SIGNED_AMOUNT_BYTES, fen, count, detail::fen_of_row<T>, [&](auto &piece) {
            const std::uint8_t present = 0;
            return chinese_amounts_print_column(
                piece.rows, piece.count, &present, 0, 0, static_cast<std::uint32_t>(script),
                static_cast<std::uint32_t>(detail::flags_of(form)), piece.offsets, piece.count + 1, piece.room.data(),
                piece.room.size(), piece.statuses, piece.count, &piece.done);
        });
}

template <typename Range>
Result<Column> signed_amounts_to_chinese(const Range &fen, AmountForm form = {}, Script script = Script::simplified) {
    return signed_amounts_to_chinese(std::data(fen), std::size(fen), form, script);
}

/* Writes many dates, each as date_to_chinese does. */
inline Result<Column> dates_to_chinese(const Date *dates, std::size_t count, Script script = Script::simplified) {
    const auto row_of = [](const Date &date) { return cn_day{date.year, date.month, date.day}; };
    return detail::printed_column<cn_day>("date", CN_MOST_DATE_BYTES, dates, count, row_of, [&](auto &piece) {
        const std::uint8_t present = 0;
        return chinese_dates_print_column(piece.rows, piece.count, &present, 0, 0, static_cast<std::uint32_t>(script),
                                          piece.offsets, piece.count + 1, piece.room.data(), piece.room.size(),
                                          piece.statuses, piece.count, &piece.done);
    });
}

template <typename Range>
Result<Column> dates_to_chinese(const Range &dates, Script script = Script::simplified) {
    return dates_to_chinese(std::data(dates), std::size(dates), script);
}

/* Reads each text of a range, such as a Column or a std::vector of std::string, as to_number does. In
 * C++ this is as fast as a call for all of them. */
template <typename T, typename Range>
std::vector<Result<T>> to_numbers(const Range &texts, Way way = Way::any) {
    return detail::read_column(texts, [way](std::string_view text) { return to_number<T>(text, way); });
}

/* Reads each text of a range as chinese_to_signed_amount does. */
template <typename Range>
std::vector<Result<std::int64_t>> chinese_to_signed_amounts(const Range &texts) {
    return detail::read_column(texts, chinese_to_signed_amount);
}

/* Reads each text of a range as chinese_to_signed_amount_as_typed does. */
template <typename Range>
std::vector<Result<std::int64_t>> chinese_to_signed_amounts_as_typed(const Range &texts) {
    return detail::read_column(texts, chinese_to_signed_amount_as_typed);
}

/* Reads each text of a range as chinese_to_date does. */
template <typename Range>
std::vector<Result<Date>> chinese_to_dates(const Range &texts) {
    return detail::read_column(texts, chinese_to_date);
}

/* What may come next in a text after its longest part, from the start, that begins such an input. */
struct Expected {
    std::size_t char_index; /* the length of this part, in characters and in bytes */
    std::size_t byte_index;
    bool may_end;     /* this part is complete */
    bool white_space; /* white space may come next, too */
    std::vector<std::string> characters;
};

/* One change of a text. At Change::insert and Change::replace it has the new character, in UTF-8. */
struct Repair {
    Change change;
    std::size_t char_index;
    std::size_t byte_index;
    std::string character;
};

/* Says what may come next in a text, for example to list keys: after 壹佰贰 of an amount, 拾. The error
 * is Status::not_utf8 if the bytes are not UTF-8. */
inline Result<Expected> input_expected(std::string_view text, Input input) {
    cn_expected next;
    const cn_status status = cn_input_expected(text.data(), text.size(), static_cast<cn_input>(input), &next);
    Expected expected = {next.char_index, next.byte_index, next.may_end != 0, next.white_space != 0, {}};
    for (std::uint32_t i = 0; i < next.count; i++)
        expected.characters.push_back(detail::utf8_of(next.characters[i]));
    return detail::result_of(status, std::move(expected), "text");
}

/* Finds one change after which a text that is refused goes on past its wrong character: in 壹佰贰元整, the
 * insertion of 零 at 2. Only a person can say that it is what was meant. There is none if the text is
 * right, if no change is found, or if the bytes are not UTF-8. */
inline std::optional<Repair> input_repair(std::string_view text, Input input) {
    cn_repair found;
    const cn_status status = cn_input_repair(text.data(), text.size(), static_cast<cn_input>(input), &found);
    if (status != CN_DONE || found.change == CN_NO_CHANGE)
        return std::nullopt;
    return Repair{static_cast<Change>(found.change), found.char_index, found.byte_index,
                  found.change == CN_DELETE ? "" : detail::utf8_of(found.character)};
}

namespace detail {

inline std::optional<Fault> fault_of(cn_fault fault) {
    return fault == CN_NO_FAULT ? std::nullopt : std::optional<Fault>(static_cast<Fault>(fault));
}

} // namespace detail

/* Says why to_number refuses a text for a type with a code. There is no fault if the text is a
 * number, or if the bytes are not UTF-8. */
inline std::optional<Fault> explain_number(std::string_view text, cn_kind kind, Way way = Way::any) {
    return detail::fault_of(cn_explain(text.data(), text.size(), kind, static_cast<cn_way>(way)));
}

/* Says why to_number<T> refuses a text: explain_number<int>("百五") is Fault::start. */
template <typename T>
std::optional<Fault> explain_number(std::string_view text, Way way = Way::any) {
    return explain_number(text, detail::kind_of<T>(), way);
}

/* Says why chinese_to_quantity refuses a text, likewise. */
inline std::optional<Fault> explain_quantity(std::string_view text, Way method = Way::any) {
    return detail::fault_of(cn_explain_quantity(text.data(), text.size(), static_cast<cn_way>(method)));
}

/* Writes a message for the person who typed a text: why it is not such an input, with the wrong
 * character, its position counted from 1, and the repair, if there is one. The message is empty if
 * the text is right. The error is Status::not_utf8 if the bytes are not UTF-8.
 *
 *     input_message("壹佰贰元整", Input::amount, Language::simplified_chinese); // 第3个字“贰”前缺“零”。 */
inline Result<std::string> input_message(std::string_view text, Input input, Language language) {
    return detail::printed<CN_MOST_MESSAGE_BYTES>("text", cn_input_message, text.data(), text.size(),
                                                  static_cast<cn_input>(input), static_cast<cn_language>(language));
}

/* Writes a message on a text that to_number refuses for a type with a code, likewise. */
inline Result<std::string> number_message(std::string_view text, cn_kind kind, Language language, Way way = Way::any) {
    return detail::printed<CN_MOST_MESSAGE_BYTES>("text", cn_number_message, text.data(), text.size(), kind,
                                                  static_cast<cn_way>(way), static_cast<cn_language>(language));
}

/* Writes a message on a text that to_number<T> refuses: number_message<int>("百五", language). */
template <typename T>
Result<std::string> number_message(std::string_view text, Language language, Way way = Way::any) {
    return number_message(text, detail::kind_of<T>(), language, way);
}

/* Writes a message on a text that chinese_to_quantity refuses, likewise. */
inline Result<std::string> quantity_message(std::string_view text, Language language, Way method = Way::any) {
    return detail::printed<CN_MOST_MESSAGE_BYTES>("text", cn_quantity_message, text.data(), text.size(),
                                                  static_cast<cn_way>(method), static_cast<cn_language>(language));
}

/* Writes what a status means, for example to a person whose number is too large to be printed. It is
 * empty for Status::done. */
inline std::string status_message(Status status, Language language) {
    return detail::printed<CN_MOST_MESSAGE_BYTES>("status", cn_status_message, static_cast<cn_status>(status),
                                                  static_cast<cn_language>(language))
        .value_or("");
}

/* A number or an expression that was found in a text, its place there, in bytes, and its flags and
 * doubt (see cn_flag and cn_doubt). */
struct Found {
    std::string_view text;
    std::size_t start;
    std::size_t end;
    bool is_plain; /* each character is a digit */
    bool stands_alone;
    bool is_about;
    bool is_one_character;
    Doubt doubt; /* for a number always Doubt::none */

    /* Reads the number: plain digits as such, anything else by a method, where Way::any means
     * Way::ten_thousand. */
    template <typename T>
    Result<T> number(Way method = Way::any) const {
        const Way units = method == Way::any ? Way::ten_thousand : method;
        return to_number<T>(text, is_plain ? Way::digits : units);
    }

    /* The number, or nothing if the run is not one (百 alone), or the type does not hold it. */
    template <typename T>
    std::optional<T> value(Way method = Way::any) const {
        return number<T>(method).optional();
    }

    /* Reads the text as an exact quantity; for the results of find_quantities. */
    Result<Quantity> quantity(Way method = Way::any) const { return chinese_to_quantity(text, method); }
};

/* A date, as far as it is given. Its year may have two digits, or be one of an era. */
struct PartialDate {
    std::optional<std::uint32_t> year;
    std::optional<std::uint32_t> month;
    std::optional<std::uint32_t> day;
};

/* A time of day, from 0:00:00 to 24:00:00, with the hour as it is written, and the hour of the
 * 24-hour clock, if it is known: 15 in 下午三点半, none in 三点半. */
struct ClockTime {
    std::uint32_t hour;
    std::uint32_t minute;
    std::uint32_t second;
    std::optional<std::uint32_t> hour_of_day;
};

/* The value of a phrase, by its kind:
 * - date: a Date if it has a year of four digits, a month and a day, and otherwise a PartialDate;
 * - years, months, days, score: a pair of numbers;
 * - time: a ClockTime;
 * - duration: seconds;
 * - half and length: a Quantity, 15/10 for 一个半小时, and 175/100 for 一米七五;
 * - range: a pair of quantities;
 * - money: a Quantity of yuan, 350/100 for 三块五; none if it is no whole number of fen below 10^18. */
using PhraseValue = std::variant<Date, PartialDate, std::pair<std::uint32_t, std::uint32_t>, ClockTime,
                                 std::chrono::seconds, Quantity, std::pair<Quantity, Quantity>>;

/* A phrase that was found in a text, its place there, in bytes, and what it means. If it is refused,
 * as 二月三十日 is, it has no value. */
struct Phrase {
    std::string_view text;
    std::size_t start;
    std::size_t end;
    PhraseKind kind; /* never PhraseKind::expression */
    PhraseState state;
    std::optional<PhraseValue> value;
};

/* What find_phrases finds: an expression that is in no phrase, or a phrase. */
using Item = std::variant<Found, Phrase>;

namespace detail {

inline std::string_view text_at(std::string_view text, std::size_t start, std::size_t end) {
    return text.substr(start, end - start);
}

inline Found item_of(std::string_view text, const cn_span &span) {
    const auto has = [&](cn_flag flag) { return (span.flags & flag) != 0; };
    return {text_at(text, span.start, span.end), span.start, span.end, has(CN_PLAIN_DIGITS), has(CN_STANDS_ALONE),
            has(CN_ABOUT), has(CN_ONE_CHARACTER), static_cast<Doubt>(cn_doubt_of(&span))};
}

inline PhraseValue date_of(const cn_phrase &read) {
    const auto given = [&](std::uint32_t part, std::uint32_t flag) {
        return (read.fourth & flag) != 0 ? std::optional<std::uint32_t>(part) : std::nullopt;
    };
    if (read.fourth == 7 && read.first >= 1000)
        return Date{read.first, read.second, read.third};
    return PartialDate{given(read.first, 1), given(read.second, 2), given(read.third, 4)};
}

inline PhraseValue time_of(const cn_phrase &read) {
    const bool is_known = read.fourth != 255;
    return ClockTime{read.first, read.second, read.third,
                     is_known ? std::optional<std::uint32_t>(read.fourth) : std::nullopt};
}

/* A number with decimals, at most two. */
inline Quantity decimal_of(std::uint32_t whole, std::uint32_t decimals, std::uint32_t places) {
    const std::uint64_t power = places == 1 ? 10 : 100;
    return {cn_unsigned(whole * power + decimals), cn_unsigned(power), QuantityForm::decimal};
}

/* A sum of money in yuan, if its fen are known. */
inline std::optional<PhraseValue> money_of(const cn_phrase &read) {
    const std::uint64_t fen = (std::uint64_t(read.second) << 32) + read.first;
    if (read.third == 0)
        return std::nullopt;
    return Quantity{cn_unsigned(fen), cn_unsigned(100), QuantityForm::decimal};
}

inline std::optional<PhraseValue> range_of(std::string_view text, const cn_phrase &read) {
    cn_quantity low, high;
    if (cn_read_range(text.data(), &read, &low, &high) != CN_DONE)
        return std::nullopt;
    return std::pair(quantity_of(low), quantity_of(high));
}

inline std::optional<PhraseValue> value_of(std::string_view text, const cn_phrase &read) {
    const PhraseKind kind = static_cast<PhraseKind>(read.kind);
    if (static_cast<PhraseState>(read.state) == PhraseState::refused)
        return std::nullopt;
    if (kind == PhraseKind::date)
        return date_of(read);
    if (kind == PhraseKind::time)
        return time_of(read);
    if (kind == PhraseKind::duration)
        return std::chrono::hours(read.first) + std::chrono::minutes(read.second) + std::chrono::seconds(read.third);
    if (kind == PhraseKind::half)
        return decimal_of(read.first, 5, 1);
    if (kind == PhraseKind::length)
        return decimal_of(read.first, read.second, read.third);
    if (kind == PhraseKind::range)
        return range_of(text, read);
    if (kind == PhraseKind::money)
        return money_of(read);
    return std::pair(read.first, read.second);
}

inline Item item_of(std::string_view text, const cn_phrase &read) {
    const PhraseKind kind = static_cast<PhraseKind>(read.kind);
    if (kind == PhraseKind::expression)
        return item_of(text, cn_span_of(&read));
    return Phrase{text_at(text, read.start, read.end), read.start, read.end, kind,
                  static_cast<PhraseState>(read.state), value_of(text, read)};
}

} // namespace detail

/* What a search finds in a text, in order. The text must outlive it. */
template <typename Value, typename Place>
class Search {
    using Next = cn_status (*)(const char *, std::size_t, std::uint32_t, cn_unit, Place *);

public:
    class iterator {
    public:
        using iterator_category = std::input_iterator_tag;
        using value_type = Value;
        using difference_type = std::ptrdiff_t;
        using pointer = const Value *;
        using reference = Value;

        /* The end iterator for every text. */
        iterator() = default;
        iterator(std::string_view searched, Wanted what, Next next) : text(searched), wanted(what), find(next) {
            search();
        }

        Value operator*() const { return detail::item_of(text, place); }
        iterator &operator++() {
            search();
            return *this;
        }
        iterator operator++(int) {
            const iterator before = *this;
            search();
            return before;
        }
        bool operator==(const iterator &other) const { return place.end == other.place.end; }
        bool operator!=(const iterator &other) const { return !(*this == other); }
        Status status() const { return last; }

    private:
        /* The place is zeros if there is nothing further, and nothing ends at 0. */
        void search() {
            const cn_unit greatest = static_cast<cn_unit>(wanted.greatest);
            last = static_cast<Status>(find(text.data(), text.size(), wanted.upper, greatest, &place));
        }

        std::string_view text;
        Wanted wanted;
        Next find = nullptr;
        Place place = {};
        Status last = Status::none;
    };

    Search(std::string_view searched, Wanted what, Next next) : first(searched, what, next) {}

    iterator begin() const { return first; }
    iterator end() const { return {}; }
    /* Status::done if there is something, or Status::none, Status::not_utf8, Status::too_long. */
    Status status() const { return first.status(); }

private:
    iterator first;
};

/* The numbers or the expressions of a text. */
using Numbers = Search<Found, cn_span>;

/* The phrases of a text, and its expressions that are in none. */
using Phrases = Search<Item, cn_phrase>;

/* Finds the numbers of a text: for (auto found : find_numbers(text)). There are none if the bytes
 * are not UTF-8. */
inline Numbers find_numbers(std::string_view text, Wanted wanted = {}) {
    return {text, wanted, cn_find_next};
}

/* Finds the expressions of a text: numbers with their sign, figures, point and units, percentages
 * and fractions. Found::quantity reads each. */
inline Numbers find_quantities(std::string_view text, Wanted wanted = {}) {
    return {text, wanted, cn_find_next_quantity};
}

/* Finds the phrases of a text, and its expressions that are in no phrase: dates, times of day,
 * durations, ranges, scores, halves, lengths and sums of money. There are none if the bytes are not
 * UTF-8.
 *
 *     for (const Item item : find_phrases(text))
 *         if (const auto *phrase = std::get_if<Phrase>(&item); phrase && phrase->value)
 *             if (const auto *date = std::get_if<Date>(&*phrase->value))
 *                 use(*date); // 2026, 1, 5 for 二零二六年一月五日 */
inline Phrases find_phrases(std::string_view text, Wanted wanted = {}) {
    return {text, wanted, cn_find_next_phrase};
}

namespace detail {

inline bool is_included(const Found &found, Included included) {
    return (!found.is_about || included.about) && (!found.is_one_character || included.one_character)
        && (found.doubt == Doubt::none || (included.doubtful && found.doubt != Doubt::part));
}

} // namespace detail

/* Replaces the quantities of a text. Calls a function with the Found of each expression that has a
 * quantity by the method, in order. The function returns the new text as a std::string, or
 * std::nullopt to keep it. Approximate, one-character and doubtful expressions stay unless they are
 * included; those with Doubt::part always stay. Returns an error if the bytes are not UTF-8
 * (Status::not_utf8).
 *
 *     auto text = replace_quantities("共3.5万元", [](Found found) {
 *         return '[' + found.quantity()->to_figures() + ']';
 *     });
 *     *text; // 共[35000]元 */
template <typename Replacement>
Result<std::string> replace_quantities(std::string_view text, Replacement &&replacement, Wanted wanted = {},
                                       Way method = Way::any, Included included = {}) {
    const Numbers expressions = find_quantities(text, wanted);
    if (expressions.status() != Status::done && expressions.status() != Status::none)
        return Error{expressions.status(), "text", 0, 0};
    std::string done;
    std::size_t at = 0;
    for (const Found found : expressions) {
        const Result<Quantity> quantity = found.quantity(method);
        if (!quantity && quantity.error().status == Status::unknown)
            return quantity.error();
        if (!quantity || !detail::is_included(found, included))
            continue;
        if (const std::optional<std::string> written = replacement(found)) {
            done.append(text.substr(at, found.start - at)).append(*written);
            at = found.end;
        }
    }
    return done.append(text.substr(at));
}

namespace detail {

/* The text that a call writes in figures. */
template <typename Call>
Result<std::string> in_figures(Call call, std::string_view text, Wanted wanted, Way method, std::uint32_t options) {
    std::string done(text.size(), '\0');
    std::size_t length = 0;
    const auto write = [&] {
        return call(text.data(), text.size(), wanted.upper, static_cast<cn_unit>(wanted.greatest),
                    static_cast<cn_way>(method), options, done.data(), done.size() + 1, &length);
    };
    cn_status status = write();
    if (status == CN_NO_ROOM) {
        done.resize(length);
        status = write();
    }
    done.resize(length);
    return result_of(status, std::move(done), "text");
}

} // namespace detail

/* Rewrites a text in figures, as an editor does, with its dates, times, durations, ranges, scores,
 * lengths, sums of money and quantities: 二零二六年一月五日下午三点半，三到五万元 becomes 2026年1月5日下午3点半，3万到5万元.
 * chinese_text_to_figures documents what stays as it is. The error is Status::not_utf8 if the bytes
 * are not UTF-8, and Status::unknown for Way::digits. */
inline Result<std::string> text_to_figures(std::string_view text, Wanted wanted = {}, Way method = Way::any,
                                           Included included = {}, Figures figures = {}) {
    return detail::in_figures(cn_text_to_figures, text, wanted, method, detail::options_of(included, figures));
}

/* Rewrites a text as it is spoken, with its figures, signs and measures in Chinese characters: 15:30到，共2.5kg
 * becomes 十五点三十分到，共二点五千克. With `yao` 1 is 幺 in codes, such as telephone numbers. What no rule covers
 * stays, such as x86, whose 86 find_unspoken finds. The errors are those of text_to_figures. */
inline Result<std::string> text_to_speech(std::string_view text, Script script = Script::simplified,
                                          Way method = Way::any, bool yao = false) {
    std::string meant(text.size(), '\0');
    const auto speak = [&](const char *given, std::size_t size, std::uint32_t upper, cn_unit greatest, cn_way way,
                           std::uint32_t options, char *room, std::size_t room_size, std::size_t *length) {
        return cn_text_to_speech(given, size, upper, greatest, way, static_cast<cn_script>(script), options,
                                 meant.data(), meant.size(), room, room_size, length);
    };
    return detail::in_figures(speak, text, {}, method, yao ? CN_YAO : 0u);
}

/* Finds the parts with figures that text_to_speech leaves as they are, in order: 86 of x86. Not all of them
 * are quantities. The text must outlive them. The error is Status::not_utf8 if the bytes are not UTF-8. */
inline Result<std::vector<Found>> find_unspoken(std::string_view text) {
    std::string meant(text.size() + 1, '\0');
    std::vector<Found> all;
    std::size_t from = 0;
    /* Each call goes through the whole text, so each one finds twice as many as the one before. */
    for (std::size_t most = 32;; most *= 2) {
        std::vector<cn_span> spans(most);
        std::size_t count = 0;
        const std::uint32_t status =
            chinese_speech_left(cn_bytes(text.data(), text.size()), text.size(), from, 0, CN_ZHAO,
                                reinterpret_cast<std::uint8_t *>(meant.data()), text.size(), spans.data(), most, &count);
        if (status != CN_DONE)
            return Error{static_cast<Status>(status), "text", 0, 0};
        for (std::size_t at = 0; at < count; from = spans[at++].end)
            all.push_back(detail::item_of(text, spans[at]));
        if (count < most)
            return all;
    }
}

/* Rewrites the numerals of a text in figures, likewise, but not in phrases: 市值三点五亿元，占百分之十二点五 becomes
 * 市值3.5亿元，占12.5%. chinese_quantities_to_figures documents which expressions stay as they are. */
inline Result<std::string> quantities_to_figures(std::string_view text, Wanted wanted = {}, Way method = Way::any,
                                                 Included included = {}, Figures figures = {}) {
    return detail::in_figures(cn_quantities_to_figures, text, wanted, method, detail::options_of(included, figures));
}

/* Not for a temporary string, which is destroyed before its numbers are used. */
template <typename String, std::enable_if_t<std::is_same_v<String, std::string>, int> = 0>
Numbers find_numbers(String &&text, Wanted wanted = {}) = delete;
template <typename String, std::enable_if_t<std::is_same_v<String, std::string>, int> = 0>
Numbers find_quantities(String &&text, Wanted wanted = {}) = delete;
template <typename String, std::enable_if_t<std::is_same_v<String, std::string>, int> = 0>
Phrases find_phrases(String &&text, Wanted wanted = {}) = delete;

} // namespace chinese_number

#endif
