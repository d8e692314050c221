/* Numbers, quantities, amounts and dates with chinese_number.hpp: first steps, and cases that the
 * rows of test.py do not have. */
#include "chinese_number.hpp"

#include <functional>
#include <iostream>
#include <memory>
#include <vector>

namespace {

using namespace chinese_number;

int failed = 0;

void expect(const char *what, bool holds) {
    if (!holds) {
        failed++;
        std::cout << "not as wanted: " << what << '\n';
    }
}

void first_steps() {
    std::cout << to_chinese(-105000).value() << '\n'; // 负十万五千
    std::cout << to_number<int>("一百二").value_or(0) << '\n'; // 120
    for (auto found : find_numbers("百分之五十的人"))
        if (auto number = found.value<int>())
            std::cout << *number << '\n'; // 50
    if (auto it = to_number<unsigned>("二十十"); !it)
        std::cout << it.error().message() << '\n'; // the chinese number is incorrect (position: 1)

    std::string typed = "壹佰贰元整";
    const auto message = input_message(typed, Input::amount, Language::simplified_chinese);
    std::cout << message.value_or("") << '\n'; // 第3个字“贰”前缺“零”。
    if (auto repair = input_repair(typed, Input::amount); repair && repair->change == Change::insert)
        std::cout << typed.insert(repair->byte_index, repair->character) << '\n'; // 壹佰零贰元整

    const auto column = numbers_to_chinese(std::vector<int>{120, -7}).value();
    std::cout << column[0] << ' ' << column[1] << '\n'; // 一百二十 负七

    AmountForm form;
    form.currency = true;
    std::cout << amount_to_chinese(1500, form).value_or("") << '\n'; // 人民币壹拾伍元整
    std::cout << chinese_to_amount("壹拾伍圆正").value_or(0) << '\n'; // 1500
    std::cout << signed_amount_to_chinese(-1500).value_or("") << '\n'; // 负壹拾伍元整
    std::cout << date_to_chinese({2026, 1, 15}).value_or("") << '\n'; // 贰零贰陆年零壹月壹拾伍日

    if (auto quantity = chinese_to_quantity("12.5%"))
        std::cout << quantity->to_chinese().value_or("") << '\n'; // 百分之十二点五
    const char *const sentence = "二零二六年一月五日下午三点半，三到五万元";
    std::cout << text_to_figures(sentence).value_or("") << '\n'; // 2026年1月5日下午3点半，3万到5万元
    for (const Item item : find_phrases(sentence))
        if (const auto *phrase = std::get_if<Phrase>(&item); phrase && phrase->value)
            if (const auto *date = std::get_if<Date>(&*phrase->value))
                std::cout << date->year << '-' << date->month << '-' << date->day << '\n'; // 2026-1-5
}

/* Whether there is no result, with this status. */
template <typename Value>
bool is_refused(const Result<Value> &answer, Status status) {
    return !answer && answer.error().status == status;
}

/* A result throws if it has no value, and moves what it has out of a temporary. */
void results() {
    try {
        to_number<int>(" 二 十 十 ").value();
        expect("an exception", false);
    } catch (const BadResultAccess &it) {
        expect("its error", it.error().status == Status::incorrect && it.error().char_index == 3);
        expect("its message", it.what() == it.error().message());
    }
    const Result<int> none = to_number<int>("");
    try {
        expect("another exception", none.value() != none.value());
    } catch (const std::exception &it) {
        expect("another message", it.what() == std::string("a chinese number cannot be empty"));
    }

    const auto text_of = [] { return to_chinese(INT64_MAX); };
    const std::string wanted = *text_of();
    const std::string &kept = *text_of(), &kept_value = text_of().value();
    expect("a text that is kept", kept == wanted && kept_value == wanted);
    Result<std::string> one = text_of(), other = text_of(), third = text_of(), fourth = text_of();
    const char *const places[] = {one->data(), other->data(), third->data(), fourth->data()};
    expect("a reference", &*one == &one.value() && (*one).data() == places[0]);
    const std::string moved = *std::move(one), moved_value = std::move(other).value();
    const std::string moved_or = std::move(third).value_or("");
    const std::optional<std::string> moved_optional = std::move(fourth).optional();
    expect("a text that is moved", moved.data() == places[0] && moved_value.data() == places[1]);
    expect("moved otherwise", moved_or.data() == places[2] && moved_optional->data() == places[3]);
    const auto pointer = [] { return detail::result_of(CN_DONE, std::make_unique<int>(7), "number"); };
    expect("what has no copy", **pointer() == 7 && *pointer().value() == 7 && *pointer().value_or(nullptr) == 7);
}

void numbers() {
    const Style unknown = {static_cast<Way>(CN_ANY + 1), Script::simplified, Case::lower};
    const Style low = {Way::low, Script::simplified, Case::lower};
    const Style traditional = {Way::ten_thousand, Script::traditional, Case::lower};
    expect("a type", is_refused(to_number<std::uint8_t>("二百五十六"), Status::too_large));
    expect("no text", is_refused(to_number<int>({}), Status::empty));
    expect("any way", to_chinese(1000000000000).value_or("") == "一万亿");
    expect("an unknown way", is_refused(to_chinese(1, unknown), Status::unknown));
    expect("a way of small numbers", is_refused(to_chinese(INT64_MAX, low), Status::too_large));
    expect("no such date", is_refused(date_to_chinese({2025, 2, 29}), Status::not_a_date));
    expect("no UTF-8", is_refused(chinese_to_date("\xff"), Status::not_utf8));

    const Result<long> none = to_number<long>(" 二 十 十 ");
    expect("a place", is_refused(none, Status::incorrect) && none.error().char_index == 3);
    expect("a place in bytes", none.error().byte_index == 5);
    expect("nothing", !none.optional() && none.value_or(7) == 7);

    const Result<cn_number> halves = to_number("三百四十澗", CN_U128);
    expect("a number in halves", halves && halves->high != 0);
    expect("its text", to_chinese(*halves, CN_U128, traditional).value_or("") == "三百四十澗");
}

void quantities() {
    const Quantity half = {{1, 0}, {2, 0}, QuantityForm::fraction}, over_zero = {{1, 0}, {0, 0}, QuantityForm::whole};
    const Style digits = {Way::digits, Script::simplified, Case::lower};
    const Style low = {Way::low, Script::simplified, Case::lower};
    const auto quantity_of = [](const char *text) { return *chinese_to_quantity(text); };
    expect("no whole number", !half.to_whole<int>() && !over_zero.to_whole<int>());
    expect("over 0", is_refused(over_zero.to_chinese(), Status::not_a_quantity));
    expect("any method", quantity_of("一万亿点五").to_chinese().value_or("") == "一万亿点五");
    expect("no method", is_refused(half.to_chinese(digits), Status::unknown));
    expect("a method of small numbers", is_refused(quantity_of("-10000000000000000").to_chinese(low), Status::too_small));
    expect("a whole number", quantity_of("3.5万").to_whole<int>() == 35000);
    expect("one below 0", quantity_of("-300%").to_whole<std::int8_t>() == -3);
    expect("none below 0", !quantity_of("-300%").to_whole<unsigned>());
    expect("a type that holds it", quantity_of("128").to_whole<std::uint8_t>() == 128);
    expect("a type that does not", !quantity_of("128").to_whole<std::int8_t>());
    const char *const least = "-170141183460469231731687303715884105728";
    expect("the least number", quantity_of(least).to_figures() == least && !quantity_of(least).to_whole<std::int64_t>());
    expect("equal by all three", quantity_of("3.50").trimmed() == quantity_of("3.5"));
    expect("two quantities", quantity_of("3.50") != quantity_of("3.5") && quantity_of("50%") == quantity_of("百分之五十"));
}

void replaced_quantities() {
    std::vector<std::string> asked;
    const auto note = [&](const Found &found) {
        asked.emplace_back(found.text);
        return found.text == "5%" ? std::nullopt : std::optional<std::string>("?");
    };
    const Result<std::string> noted = replace_quantities("十几个，3万，5%，1.2.3，一般", note);
    expect("what is asked for", noted.value_or("") == "十几个，?，5%，1.2.3，一般");
    expect("in order", asked == std::vector<std::string>{"3万", "5%"});
    const auto removed = [](const Found &) { return ""; };
    expect("a text with its end", replace_quantities("3万元", removed).value_or("") == "元");
    expect("no UTF-8 to replace", is_refused(replace_quantities("一\xff", removed), Status::not_utf8));
    expect("no method to replace by", is_refused(replace_quantities("一", removed, {}, Way::digits), Status::unknown));
    expect("no UTF-8 for figures", is_refused(quantities_to_figures("\xff"), Status::not_utf8));
    expect("nor for a text", is_refused(text_to_figures("\xff"), Status::not_utf8));
    expect("no method for a text", is_refused(text_to_figures("一", {}, Way::digits), Status::unknown));
    expect("a longer text of a range", text_to_figures("三到五百万亿").value_or("") == "300万亿到500万亿");
    expect("no method for figures", is_refused(quantities_to_figures("一", {}, Way::digits), Status::unknown));
    expect("a shorter text", quantities_to_figures("一百亿").value_or("") == "100亿");
}

/* Members with these names choose what is replaced. */
void options() {
    Included doubtful;
    doubtful.doubtful = true;
    Figures expanded, canonical, compact, codes;
    expanded.expanded = canonical.canonical = compact.compact = codes.codes = true;
    const auto in_figures = [](std::string_view text, Included included, Figures figures) {
        return quantities_to_figures(text, {}, Way::any, included, figures).value_or("");
    };
    expect("a longer text", in_figures("一百亿", {}, expanded) == "10000000000");
    expect("plain figures", in_figures("1,280元", {}, canonical) == "1280元");
    expect("a short date", text_to_figures("二零二六年一月五日", {}, Way::any, {}, compact).value_or("") == "2026-01-05");
    expect("a text as it is spoken", text_to_speech("15:30到").value_or("") == "十五点三十分到");
    expect("what is not spoken", find_unspoken("x86，3天")->size() == 1);
    expect("no text to be spoken", is_refused(text_to_speech("\xff"), Status::not_utf8)
                                       && is_refused(find_unspoken("\xff"), Status::not_utf8));
    expect("a number to call", text_to_figures("打幺幺零", {}, Way::any, {}, codes).value_or("") == "打110");
    expect("what is doubtful", in_figures("五一，八五折", doubtful, {}) == "51，八五折");
    const auto in_brackets = [](const Found &found) { return '[' + std::string(found.text) + ']'; };
    const auto replaced = [&](Included included) {
        return replace_quantities("五一，八五折，二十", in_brackets, {}, Way::any, included).value_or("");
    };
    expect("nothing doubtful is replaced", replaced({}) == "五一，八五折，[二十]");
    expect("but no part of something", replaced(doubtful) == "[五一]，八五折，[二十]");
}

void doubts() {
    const Numbers expressions = find_quantities("五一，二十");
    const std::vector<Found> found(expressions.begin(), expressions.end());
    expect("digits", found.size() == 2 && found[0].doubt == Doubt::digits && found[0].is_plain);
    expect("no doubt", found[1].doubt == Doubt::none && !found[1].is_plain);
    expect("a number without doubt", (*find_numbers("五一").begin()).doubt == Doubt::none);
}

/* The phrases of a text, without the expressions that are in none. */
std::vector<Phrase> phrases_of(std::string_view text) {
    std::vector<Phrase> found;
    for (const Item item : find_phrases(text))
        if (const auto *phrase = std::get_if<Phrase>(&item))
            found.push_back(*phrase);
    return found;
}

/* The value of the only phrase of a text, if it has this type. */
template <typename Value>
std::optional<Value> value_of(std::string_view text) {
    const std::vector<Phrase> found = phrases_of(text);
    const Value *value = found.size() == 1 && found[0].value ? std::get_if<Value>(&*found[0].value) : nullptr;
    return value ? std::optional<Value>(*value) : std::nullopt;
}

void values_of_phrases() {
    using Pair = std::pair<std::uint32_t, std::uint32_t>;
    const auto date = value_of<Date>("二零二六年一月五日");
    expect("a date", date && date->year == 2026 && date->month == 1 && date->day == 5);
    const auto month = value_of<PartialDate>("二零二六年一月"), era = value_of<PartialDate>("民国115年3月20日");
    expect("a part of a date", month && month->year == 2026 && month->month == 1 && !month->day);
    expect("a year of an era", era && era->year == 115 && era->month == 3 && era->day == 20);
    expect("years", value_of<Pair>("一九九五至二〇〇三年") == Pair(1995, 2003));
    expect("a score", value_of<Pair>("三比二") == Pair(3, 2));
    const auto afternoon = value_of<ClockTime>("下午三点半"), unknown = value_of<ClockTime>("三点半");
    expect("a time", afternoon && afternoon->hour == 3 && afternoon->minute == 30 && afternoon->second == 0);
    expect("the hour of it", afternoon->hour_of_day == 15 && unknown && !unknown->hour_of_day);
    expect("a duration", value_of<std::chrono::seconds>("一小时二十分") == std::chrono::minutes(80));
    const Quantity half = {cn_unsigned(15), cn_unsigned(10), QuantityForm::decimal};
    const Quantity length = {cn_unsigned(175), cn_unsigned(100), QuantityForm::decimal};
    expect("a half", value_of<Quantity>("一个半小时") == half && value_of<Quantity>("一米七五") == length);
    const Quantity sum = {cn_unsigned(500000000000), cn_unsigned(100), QuantityForm::decimal};
    expect("a sum of money", value_of<Quantity>("五十亿元") == sum && !value_of<Quantity>("3.555元"));
    const auto range = value_of<std::pair<Quantity, Quantity>>("三到五万元");
    expect("a range", range && range->first.to_whole<int>() == 30000 && range->second.to_whole<int>() == 50000);
}

void found_phrases() {
    const Phrases items = find_phrases("二十人，二月三十日");
    const std::vector<Item> found(items.begin(), items.end());
    const auto *expression = std::get_if<Found>(&found[0]);
    const auto *refused = std::get_if<Phrase>(&found[1]);
    expect("two items", found.size() == 2 && items.status() == Status::done && expression && refused);
    expect("an expression in none", expression->text == "二十" && expression->stands_alone && expression->end == 6);
    expect("a refused phrase", refused->kind == PhraseKind::date && refused->state == PhraseState::refused && !refused->value);
    expect("its place", refused->text == "二月三十日" && refused->start == 12 && refused->end == 27);
    expect("a doubtful one", phrases_of("五到八折")[0].state == PhraseState::doubtful);
    const Phrases none = find_phrases("一\xff");
    expect("no phrases of no UTF-8", none.begin() == none.end() && none.status() == Status::not_utf8);
    expect("nothing in figures", find_phrases("").status() == Status::none);
}

void amounts() {
    AmountForm bracketed;
    bracketed.bracketed_sign = bracketed.currency = true;
    const std::string text = signed_amount_to_chinese(-1500, bracketed).value_or("");
    expect("a red invoice", text == "（负数）人民币壹拾伍元整");
    expect("one that is read", chinese_to_signed_amount_as_typed(text).value_or(0) == -1500);
    const char *const advice = "number is too small: signed_amount_to_chinese writes amounts below zero";
    expect("another call", amount_to_chinese(-1).error().message() == advice);
    expect("no other call", signed_amount_to_chinese(INT64_MIN).error().message() == "number is too small");
    expect("a large amount", amount_to_chinese(UINT64_MAX).error().message() == "number is too large");
}

void refused_texts() {
    const Result<Expected> next = input_expected("壹佰贰元整", Input::amount);
    expect("what may come next", next && next->characters == std::vector<std::string>{"拾"} && next->byte_index == 9);
    expect("flags of it", !next->may_end && !next->white_space && input_expected("", Input::typed_amount)->white_space);
    const std::vector<std::string> start = input_expected("-", Input::figures)->characters;
    expect("of each length in UTF-8", start[0] == "0" && start[10] == "０" && start[20] == "¥" && start.size() == 22);
    expect("no UTF-8 before it", is_refused(input_expected("\xff", Input::date), Status::not_utf8));

    const std::optional<Repair> erased = input_repair("¥760.00元", Input::figures);
    expect("a character is deleted", erased && erased->change == Change::erase && erased->byte_index == 8);
    expect("nothing is written", erased->character.empty() && erased->char_index == 7);
    expect("no repair", !input_repair("壹佰元整", Input::amount) && !input_repair("\xff", Input::amount));

    expect("a reason", explain_number<int>("百五") == Fault::start && !explain_number<int>("一百"));
    expect("a reason for a type", explain_number("二百五十六", CN_U8) == Fault::too_large && !explain_number<int>("\xff"));
    expect("a reason for a quantity", explain_quantity("二两") == Fault::weight && !explain_quantity("12.5%"));

    const Language traditional = Language::traditional_chinese;
    expect("a message on a number", number_message<int>("", traditional).value_or("") == "缺少數字。");
    expect("on one by a way", number_message<int>("二十", traditional, Way::digits).value_or("") == "第2個字「十」不是零到九的數字。");
    expect("on one in halves", number_message("一", CN_U128, traditional).value_or("none").empty());
    expect("on a quantity", quantity_message("零分之一", traditional).value_or("") == "分母必須是大於零的整數。");
    expect("on no UTF-8", is_refused(input_message("\xff", Input::date, traditional), Status::not_utf8));
    expect("on a status", status_message(Status::too_large, traditional) == "數值太大。");
    expect("on no refusal", status_message(Status::done, traditional).empty());
}

void found_numbers() {
    const Numbers numbers_of_text = find_numbers("第二十三回，二零二五年");
    const std::vector<Found> found(numbers_of_text.begin(), numbers_of_text.end());
    expect("two numbers", found.size() == 2 && numbers_of_text.status() == Status::done);
    expect("the first one", found[0].text == "二十三" && !found[0].is_plain);
    expect("where it stands", found[0].start == 3 && found[0].end == 12);
    expect("plain digits", found[1].is_plain && found[1].value<int>() == 2025);
    expect("no such type", !found[1].value<std::int8_t>());
    const Found unit_in_front = *find_numbers("正33", {true, Unit::ji}).begin();
    expect("by units", is_refused(unit_in_front.number<int>(), Status::incorrect));

    Wanted both_cases;
    both_cases.upper = true;
    expect("both cases", find_numbers("正在參加", both_cases).status() == Status::done);
    expect("the lower case", find_numbers("正在參加").status() == Status::none);
    const Numbers none = find_numbers("一\xff");
    expect("no UTF-8", none.begin() == none.end() && none.status() == Status::not_utf8);
}

/* Whether each row of a column is what the call for one value answers. */
template <typename Values, typename Print>
bool are_rows(const Result<Column> &column, const Values &values, Print print) {
    std::string texts;
    for (std::size_t row = 0; row < values.size(); row++) {
        const Result<std::string> one = print(values[row]);
        const Status status = one ? Status::done : one.error().status;
        if (column->status(row) != status || (*column)[row] != one.value_or(""))
            return false;
        texts += one.value_or("");
    }
    return column->size() == values.size() && column->bytes() == texts && column->offsets().back() == texts.size();
}

/* Whether each answer for a range of texts is that of the call for one text. */
template <typename Value, typename Texts, typename Read, typename Same>
bool are_answers(const std::vector<Result<Value>> &answers, const Texts &texts, Read read, Same same) {
    std::size_t row = 0;
    for (const std::string_view text : texts) {
        const Result<Value> one = read(text), &other = answers[row++];
        if (one ? !other || !same(*one, *other) : other || one.error().message() != other.error().message())
            return false;
    }
    return row == answers.size();
}

/* Numbers of each length and both signs, in more rows than a call of the library has. */
std::vector<std::int64_t> some_numbers() {
    std::vector<std::int64_t> numbers;
    std::uint64_t state = 88172645463325252u;
    for (int row = 0; row < 1000; row++) {
        state ^= state << 13;
        state ^= state >> 7;
        state ^= state << 17;
        const std::int64_t number = static_cast<std::int64_t>(state >> (1 + row % 63));
        numbers.push_back(row % 3 == 0 ? -number : number);
    }
    return numbers;
}

void columns() {
    const std::vector<std::int64_t> numbers_of_rows = some_numbers();
    const Style low = {Way::low, Script::traditional, Case::upper};
    for (const Style &style : {Style(), low}) {
        const Result<Column> column = numbers_to_chinese(numbers_of_rows, style);
        expect("numbers", are_rows(column, numbers_of_rows, [&](std::int64_t it) { return to_chinese(it, style); }));
        expect("numbers read", are_answers(to_numbers<std::int32_t>(*column, style.way), *column,
                                           [&](std::string_view it) { return to_number<std::int32_t>(it, style.way); },
                                           std::equal_to<std::int32_t>()));
    }
    const std::vector<std::uint8_t> bytes(numbers_of_rows.begin(), numbers_of_rows.end());
    expect("small numbers", are_rows(numbers_to_chinese(bytes), bytes, [](std::uint8_t it) { return to_chinese(it); }));

    AmountForm form;
    form.bracketed_sign = true;
    const auto print_amount = [&](auto it) { return signed_amount_to_chinese(it, form); };
    const Result<Column> amounts_of_rows = signed_amounts_to_chinese(numbers_of_rows, form);
    expect("amounts", are_rows(amounts_of_rows, numbers_of_rows, print_amount));
    const std::vector<std::uint64_t> large = {1500, UINT64_MAX};
    expect("large amounts", are_rows(signed_amounts_to_chinese(large, form), large, print_amount));
    const auto same = std::equal_to<std::int64_t>();
    expect("amounts read", are_answers(chinese_to_signed_amounts_as_typed(*amounts_of_rows), *amounts_of_rows,
                                       chinese_to_signed_amount_as_typed, same));
    const std::vector<std::string> typed = {"负壹拾伍元整", "壹佰贰元整", "", "\xff"};
    expect("texts", are_answers(chinese_to_signed_amounts(typed), typed, chinese_to_signed_amount, same));

    std::vector<Date> dates;
    for (std::uint32_t row = 0; row < 1000; row++)
        dates.push_back({row * 11, 1 + row % 12, 1 + row % 31});
    const Result<Column> dates_of_rows = dates_to_chinese(dates, Script::traditional);
    expect("dates", are_rows(dates_of_rows, dates, [](Date it) { return date_to_chinese(it, Script::traditional); }));
    expect("dates read", are_answers(chinese_to_dates(*dates_of_rows), *dates_of_rows, chinese_to_date,
                                     [](Date one, Date other) {
                                         return one.year == other.year && one.month == other.month && one.day == other.day;
                                     }));

    const Style unknown = {static_cast<Way>(9), Script::simplified, Case::lower};
    expect("no such way", is_refused(numbers_to_chinese(numbers_of_rows, unknown), Status::unknown));
    const Result<Column> none = numbers_to_chinese(static_cast<const int *>(nullptr), 0);
    expect("no rows", none && none->empty() && none->begin() == none->end());
}

} // namespace

int main() {
    first_steps();
    results();
    numbers();
    quantities();
    replaced_quantities();
    options();
    doubts();
    values_of_phrases();
    found_phrases();
    amounts();
    refused_texts();
    found_numbers();
    columns();
    return failed != 0;
}
