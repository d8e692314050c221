/* Answers the questions of test.py, one per line, with chinese_number.hpp; test.py describes them. */
#include "chinese_number.hpp"

#include <cstdio>
#include <iostream>
#include <map>
#include <sstream>
#include <vector>

namespace {

using namespace chinese_number;
using Signed = detail::Signed128;
using Unsigned = detail::Unsigned128;
using Words = std::vector<std::string>;

const std::map<std::string, Way> ways = {
    {"naive", Way::digits},  {"low", Way::low},   {"ten_thousand", Way::ten_thousand},
    {"middle", Way::middle}, {"high", Way::high}, {"any", Way::any},
};
const std::map<std::string, Script> scripts = {
    {"traditional", Script::traditional},
    {"simple", Script::simplified},
    {"simplified", Script::simplified},
};
const std::map<std::string, Case> cases = {{"upper", Case::upper}, {"lower", Case::lower}};
const std::map<std::string, Input> inputs = {
    {"amount", Input::amount},
    {"signed_amount", Input::signed_amount},
    {"typed_amount", Input::typed_amount},
    {"typed_signed_amount", Input::typed_signed_amount},
    {"date", Input::date},
    {"figures", Input::figures},
};
const std::map<std::string, Language> languages = {
    {"en", Language::english},
    {"zh-Hans", Language::simplified_chinese},
    {"zh-Hant", Language::traditional_chinese},
};

std::string figures(Unsigned number) {
    const std::string last(1, static_cast<char>('0' + static_cast<int>(number % 10)));
    return number < 10 ? last : figures(number / 10) + last;
}

template <typename T>
T number_of(const std::string &text) {
    Unsigned number = 0;
    for (char figure : text)
        if (figure != '-')
            number = number * 10 + static_cast<Unsigned>(figure - '0');
    return static_cast<T>(text[0] == '-' ? -number : number);
}

std::string shown(const std::string &text) {
    return text;
}

std::string shown(Date date) {
    char text[40];
    std::snprintf(text, sizeof text, "%04u-%02u-%02u", date.year, date.month, date.day);
    return text;
}

std::string shown(const Quantity &quantity);

std::string shown(const Expected &expected);

template <typename T>
std::string shown(T number) {
    const auto wide = static_cast<Unsigned>(number);
    const bool is_negative = number != 0 && number < T{1};
    return is_negative ? '-' + figures(-wide) : figures(wide);
}

const char *const quantity_forms[] = {"whole", "decimal", "percent", "fraction"};
const char *const changes[] = {"none", "insert", "replace", "delete"};
const char *const faults[] = {
    "none", "empty", "too_large", "too_small", "start", "character", "digits", "units", "ge", "groups", "bare_ten",
    "repeated_ten", "after_zero", "weight", "two_readings", "left_out_zero", "denominator",
};

std::string ratio(const Quantity &quantity) {
    return shown(detail::of_halves<Signed>(quantity.numerator)) + '/'
         + shown(detail::of_halves<Unsigned>(quantity.denominator));
}

std::string shown(const Quantity &quantity) {
    return ratio(quantity) + ' ' + quantity_forms[static_cast<std::size_t>(quantity.form)];
}

std::string shown(const Expected &expected) {
    std::string done = std::to_string(expected.char_index) + (expected.may_end ? " end" : " -")
                     + (expected.white_space ? " space" : " -") + (expected.characters.empty() ? "" : " ");
    for (const std::string &character : expected.characters)
        done += character;
    return done;
}

/* The quantity of words such as 350000/10 decimal. */
Quantity quantity_of(const std::string &words) {
    const std::size_t line = words.find('/'), blank = words.find(' ');
    const std::string numerator = words.substr(0, line), denominator = words.substr(line + 1, blank - line - 1);
    std::uint32_t form = 0;
    while (words.substr(blank + 1) != quantity_forms[form])
        form++;
    return {detail::halves_of(number_of<Signed>(numerator)), detail::halves_of(number_of<Unsigned>(denominator)),
            static_cast<QuantityForm>(form)};
}

template <typename Value>
std::string told(const Result<Value> &answer) {
    return answer ? "ok " + shown(*answer) : "err " + answer.error().message();
}

std::string told(std::optional<Fault> fault) {
    return std::string("ok ") + faults[fault ? static_cast<std::size_t>(*fault) : 0];
}

std::string told(const std::optional<Repair> &repair) {
    if (!repair)
        return "ok none";
    const std::string character = repair->character.empty() ? "" : ' ' + repair->character;
    return std::string("ok ") + changes[static_cast<std::size_t>(repair->change)] + ' '
         + std::to_string(repair->char_index) + character;
}

template <typename T>
std::string of_number(const Words &words) {
    if (words[0] == "number_message")
        return told(number_message<T>(words[4], languages.at(words[1]), ways.at(words[3])));
    const Way way = ways.at(words[2]);
    if (words[0] == "explain")
        return told(explain_number<T>(words[3], way));
    if (words[0] == "read")
        return told(to_number<T>(words[3], way));
    const Style style = {way, scripts.at(words[3]), cases.at(words[4])};
    return told(to_chinese(number_of<T>(words[5]), style));
}

const std::map<std::string, std::string (*)(const Words &)> kinds = {
    {"u8", of_number<std::uint8_t>},   {"i8", of_number<std::int8_t>},
    {"u16", of_number<std::uint16_t>}, {"i16", of_number<std::int16_t>},
    {"u32", of_number<std::uint32_t>}, {"i32", of_number<std::int32_t>},
    {"u64", of_number<std::uint64_t>}, {"i64", of_number<std::int64_t>},
    {"u128", of_number<Unsigned>},     {"i128", of_number<Signed>},
};

std::string print_amount(const std::string &script, const std::string &fen, AmountForm form) {
    return told(amount_to_chinese(number_of<std::uint64_t>(fen), form, scripts.at(script)));
}

std::string print_signed_amount(const std::string &script, const std::string &fen, AmountForm form) {
    return told(signed_amount_to_chinese(number_of<std::int64_t>(fen), form, scripts.at(script)));
}

bool has(const std::string &words, const char *word) {
    return words.find(word) != std::string::npos;
}

/* The form of words that + separates; `plain` means none of them. */
AmountForm form_of(const std::string &words) {
    return {has(words, "currency"), has(words, "round_yuan"), has(words, "upright_closing"),
            has(words, "bracketed_sign")};
}

/* What is included, and how figures are written, likewise; `none` means nothing. */
Included included_of(const std::string &words) {
    return {has(words, "about"), has('+' + words + '+', "+one+"), has(words, "doubtful")};
}

Figures figures_of(const std::string &words) {
    return {has(words, "expanded"), has(words, "canonical"), has(words, "compact"),
            has(words, "codes")};
}

std::string print_date(const std::string &script, const std::string &figures_of_date) {
    Date date = {0, 0, 0};
    std::sscanf(figures_of_date.c_str(), "%u-%u-%u", &date.year, &date.month, &date.day);
    return told(date_to_chinese(date, scripts.at(script)));
}

std::string number_told(const Found &found) {
    return told(found.number<Signed>());
}

std::string quantity_told(const Found &found) {
    return told(found.quantity());
}

std::string flags_of(const Found &found) {
    const std::pair<bool, const char *> flags[] = {{found.is_plain, " plain"},
                                                   {found.stands_alone, " alone"},
                                                   {found.is_about, " about"},
                                                   {found.is_one_character, " one"}};
    std::string done;
    for (const auto &[is_told, name] : flags)
        done += is_told ? name : "";
    return done.substr(done.empty() ? 0 : 1);
}

std::string doubt_of(const Found &found) {
    const char *const doubts[] = {"none", "word", "digits", "term", "part", "time", "range"};
    return doubts[static_cast<std::size_t>(found.doubt)];
}

/* The text with each of its runs replaced by its description, in brackets. */
template <typename Runs>
std::string in_place(const std::string &text, const Runs &runs, std::string (*shown_of)(const Found &)) {
    std::string done = "ok ";
    std::size_t at = 0;
    for (const Found &found : runs) {
        done += text.substr(at, found.start - at) + '[' + shown_of(found) + ']';
        at = found.end;
    }
    return done + text.substr(at);
}

const char *const phrase_kinds[] = {
    "expression", "date", "years", "months", "days", "time", "duration", "half", "length", "score", "range",
    "money",
};
const char *const phrase_states[] = {"certain", "doubtful", "refused"};

std::string part_of(std::optional<std::uint32_t> part) {
    return part ? shown(*part) : "?";
}

/* A value in words, by its type; a pair of numbers with what is between them. */
struct InWords {
    const char *between;

    std::string operator()(Date date) const {
        return shown(date.year) + '-' + shown(date.month) + '-' + shown(date.day);
    }
    std::string operator()(const PartialDate &date) const {
        return part_of(date.year) + '-' + part_of(date.month) + '-' + part_of(date.day);
    }
    std::string operator()(const ClockTime &time) const {
        return shown(time.hour) + ':' + shown(time.minute) + ':' + shown(time.second) + " =" + part_of(time.hour_of_day);
    }
    std::string operator()(std::chrono::seconds duration) const {
        const auto seconds = duration.count();
        return shown(seconds / 3600) + ':' + shown(seconds / 60 % 60) + ':' + shown(seconds % 60);
    }
    std::string operator()(const Quantity &quantity) const { return ratio(quantity); }
    std::string operator()(std::pair<std::uint32_t, std::uint32_t> pair) const {
        return shown(pair.first) + between + shown(pair.second);
    }
    std::string operator()(const std::pair<Quantity, Quantity> &range) const {
        return ratio(range.first) + between + ratio(range.second);
    }
};

std::string phrase_in_words(const Phrase &phrase) {
    const InWords in_words = {phrase.kind == PhraseKind::score ? ":" : ".."};
    const std::string value = phrase.value ? std::visit(in_words, *phrase.value) : "-";
    return std::string(phrase_kinds[static_cast<std::size_t>(phrase.kind)]) + ' '
         + phrase_states[static_cast<std::size_t>(phrase.state)] + ' ' + std::string(phrase.text) + ' ' + value;
}

/* The phrases of a text, with a tab between them. */
std::string phrases(const Words &words) {
    std::string done;
    for (const Item item : find_phrases(words[1]))
        if (const auto *phrase = std::get_if<Phrase>(&item))
            done += (done.empty() ? "" : "\t") + phrase_in_words(*phrase);
    return "ok " + done;
}

std::string print_quantity(const Words &words) {
    const Style style = {ways.at(words[1]), scripts.at(words[2]), cases.at(words[3])};
    return told(quantity_of(words[4]).to_chinese(style));
}

std::optional<std::string> in_numerals(const Found &found) {
    const Result<Quantity> quantity = found.quantity();
    return quantity->form == QuantityForm::fraction ? std::nullopt : quantity->to_chinese().optional();
}

std::string of_kind(const Words &words) {
    return kinds.at(words[words[0] == "number_message" ? 2 : 1])(words);
}

const std::map<std::string, std::string (*)(const Words &)> calls = {
    {"read", of_kind},
    {"print", of_kind},
    {"read_amount", [](const Words &words) { return told(chinese_to_amount(words[1])); }},
    {"print_amount", [](const Words &words) { return print_amount(words[1], words[2], {}); }},
    {"print_amount_as",
     [](const Words &words) { return print_amount(words[1], words[3], form_of(words[2])); }},
    {"read_typed_amount",
     [](const Words &words) { return told(chinese_to_amount_as_typed(words[1])); }},
    {"read_signed_amount",
     [](const Words &words) { return told(chinese_to_signed_amount(words[1])); }},
    {"read_typed_signed_amount",
     [](const Words &words) { return told(chinese_to_signed_amount_as_typed(words[1])); }},
    {"print_signed_amount",
     [](const Words &words) { return print_signed_amount(words[1], words[2], {}); }},
    {"print_signed_amount_as",
     [](const Words &words) { return print_signed_amount(words[1], words[3], form_of(words[2])); }},
    {"yuan_to_fen", [](const Words &words) { return told(yuan_to_fen(words[1])); }},
    {"read_date", [](const Words &words) { return told(chinese_to_date(words[1])); }},
    {"print_date", [](const Words &words) { return print_date(words[1], words[2]); }},
    {"find", [](const Words &words) { return in_place(words[1], find_numbers(words[1]), number_told); }},
    {"flags", [](const Words &words) { return in_place(words[1], find_numbers(words[1]), flags_of); }},
    {"read_quantity",
     [](const Words &words) { return told(chinese_to_quantity(words[2], ways.at(words[1]))); }},
    {"find_quantities",
     [](const Words &words) { return in_place(words[1], find_quantities(words[1]), quantity_told); }},
    {"doubts", [](const Words &words) { return in_place(words[1], find_quantities(words[1]), doubt_of); }},
    {"print_quantity", print_quantity},
    {"quantity_figures", [](const Words &words) { return "ok " + quantity_of(words[1]).to_figures(); }},
    {"trim_quantity", [](const Words &words) { return "ok " + shown(quantity_of(words[1]).trimmed()); }},
    {"quantities_to_figures",
     [](const Words &words) {
         return told(quantities_to_figures(words[2], {}, Way::ten_thousand, included_of(words[1]), figures_of(words[1])));
     }},
    {"text_to_figures",
     [](const Words &words) {
         return told(text_to_figures(words[2], {}, Way::ten_thousand, included_of(words[1]), figures_of(words[1])));
     }},
    {"text_to_speech",
     [](const Words &words) { return told(text_to_speech(words[2], scripts.at(words[1]), Way::ten_thousand)); }},
    {"find_unspoken",
     [](const Words &words) {
         return in_place(words[1], *find_unspoken(words[1]), [](const Found &found) { return std::string(found.text); });
     }},
    {"phrases", phrases},
    {"replace_quantities",
     [](const Words &words) {
         return told(replace_quantities(words[2], in_numerals, {}, Way::ten_thousand, included_of(words[1])));
     }},
    {"expected", [](const Words &words) { return told(input_expected(words[2], inputs.at(words[1]))); }},
    {"repair", [](const Words &words) { return told(input_repair(words[2], inputs.at(words[1]))); }},
    {"explain", of_kind},
    {"explain_quantity",
     [](const Words &words) { return told(explain_quantity(words[2], ways.at(words[1]))); }},
    {"input_message",
     [](const Words &words) {
         return told(input_message(words[3], inputs.at(words[2]), languages.at(words[1])));
     }},
    {"number_message", of_kind},
    {"quantity_message",
     [](const Words &words) {
         return told(quantity_message(words[3], languages.at(words[1]), ways.at(words[2])));
     }},
};

} // namespace

int main() {
    for (std::string line; std::getline(std::cin, line);) {
        Words words(1);
        for (char byte : line)
            if (byte == '\t')
                words.emplace_back();
            else
                words.back() += byte;
        std::cout << calls.at(words[0])(words) << '\n';
    }
}
