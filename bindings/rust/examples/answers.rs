//! Answers the questions of test.py, one per line; test.py describes them.

use std::fmt::{Debug, Display};
use std::io;
use std::str::FromStr;

use chinese_number::{
    amount_to_chinese, amount_to_chinese_as, chinese_to_amount, chinese_to_amount_as_typed,
    chinese_to_date, chinese_to_quantity, chinese_to_signed_amount,
    chinese_to_signed_amount_as_typed, date_to_chinese, explain_number, explain_quantity,
    find_numbers, find_phrases, find_quantities, find_unspoken, input_expected, input_message,
    input_repair, number_message, quantities_to_figures, quantity_message, replace_quantities,
    signed_amount_to_chinese, text_to_figures, text_to_speech, yuan_to_fen, AmountForm, BillDate,
    ChineseCase, ChineseCountMethod, ChineseToNumber, ChineseVariant, ClockTime, Doubt, Fault,
    Figures, Found, Hint, Included, Input, Integer, Item, Language, NumberToChinese, PartialDate,
    Phrase, PhraseValue, Quantity, QuantityForm, Repair, Style, Voice, Wanted, Way,
};

const FORMS: [(&str, QuantityForm); 4] = [
    ("whole", QuantityForm::Whole),
    ("decimal", QuantityForm::Decimal),
    ("percent", QuantityForm::Percent),
    ("fraction", QuantityForm::Fraction),
];

// The words of the reasons, in the order of their codes.
const FAULTS: [&str; 16] = [
    "empty",
    "too_large",
    "too_small",
    "start",
    "character",
    "digits",
    "units",
    "ge",
    "groups",
    "bare_ten",
    "repeated_ten",
    "after_zero",
    "weight",
    "two_readings",
    "left_out_zero",
    "denominator",
];

fn told<T: Display, E: Display>(answer: Result<T, E>) -> String {
    match answer {
        Ok(value) => format!("ok {value}"),
        Err(error) => format!("err {error}"),
    }
}

fn method(way: &str) -> ChineseCountMethod {
    match way {
        "low" => ChineseCountMethod::Low,
        "ten_thousand" => ChineseCountMethod::TenThousand,
        "middle" => ChineseCountMethod::Middle,
        "high" => ChineseCountMethod::High,
        _ => panic!("no way is named {way}"),
    }
}

fn variant(script: &str) -> ChineseVariant {
    match script {
        "traditional" => ChineseVariant::Traditional,
        "simple" | "simplified" => ChineseVariant::Simple,
        _ => panic!("no script is named {script}"),
    }
}

fn case(name: &str) -> ChineseCase {
    match name {
        "upper" => ChineseCase::Upper,
        "lower" => ChineseCase::Lower,
        _ => panic!("no case is named {name}"),
    }
}

fn number<T: FromStr<Err: Debug>>(decimal: &str) -> T {
    decimal.parse().expect("a number of the type")
}

fn read<T: Display>(way: &str, text: &str) -> String
where
    for<'a> &'a str: ChineseToNumber<T>,
{
    told(match way {
        "any" => text.to_number_any(),
        "naive" => text.to_number_naive(),
        _ => text.to_number(method(way)),
    })
}

fn print<T>(way: &str, script: &str, letter_case: &str, decimal: &str) -> String
where
    T: Integer + NumberToChinese + FromStr<Err: Debug>,
{
    let (variant, case) = (variant(script), case(letter_case));
    let value: T = number(decimal);
    told(match way {
        "any" => Ok(value.to_chinese_any(variant, case)),
        "naive" => Ok(value.to_chinese_naive(variant, case)),
        _ => value.to_chinese(variant, case, method(way)),
    })
}

/// The form of words that `+` separates, such as `currency+round_yuan`; `plain` means none of them.
fn form(words: &str) -> AmountForm {
    let mut form = AmountForm::PLAIN;
    for word in words.split('+') {
        match word {
            "plain" => (),
            "currency" => form.currency = true,
            "round_yuan" => form.round_yuan = true,
            "upright_closing" => form.upright_closing = true,
            "bracketed_sign" => form.bracketed_sign = true,
            _ => panic!("no form is named {word}"),
        }
    }
    form
}

fn print_amount_as(script: &str, words: &str, fen: &str) -> String {
    told(amount_to_chinese_as(variant(script), form(words), number(fen)))
}

fn print_signed_amount(script: &str, words: &str, fen: &str) -> String {
    told(signed_amount_to_chinese(variant(script), form(words), number(fen)))
}

fn read_date(text: &str) -> String {
    let figures = |date: BillDate| format!("{:04}-{:02}-{:02}", date.year, date.month, date.day);
    told(chinese_to_date(text).map(figures))
}

fn print_date(script: &str, date: &str) -> String {
    let parts: Vec<&str> = date.split('-').collect();
    let date = BillDate { year: number(parts[0]), month: number(parts[1]), day: number(parts[2]) };
    told(date_to_chinese(variant(script), date))
}

fn ratio(Quantity { numerator, denominator, .. }: Quantity) -> String {
    format!("{numerator}/{denominator}")
}

fn shown(quantity: Quantity) -> String {
    format!("{} {}", ratio(quantity), FORMS[quantity.form as usize].0)
}

/// The quantity of words such as `350000/10 decimal`.
fn quantity(words: &str) -> Quantity {
    let (numerator, rest) = words.split_once('/').expect("a line");
    let (denominator, name) = rest.split_once(' ').expect("a form");
    let form = FORMS.iter().find(|form| form.0 == name).expect("the name of a form").1;
    Quantity { numerator: number(numerator), denominator: number(denominator), form }
}

fn print_quantity(way: &str, script: &str, letter_case: &str, words: &str) -> String {
    let (quantity, variant, case) = (quantity(words), variant(script), case(letter_case));
    told(match way {
        "any" => quantity.to_chinese_any(variant, case),
        _ => quantity.to_chinese(variant, case, method(way)),
    })
}

/// What is included, in words that `+` separates; `none` means nothing.
fn included(words: &str) -> Included {
    let has = |name| words.split('+').any(|word| word == name);
    Included { about: has("about"), one_character: has("one"), doubtful: has("doubtful") }
}

fn speak(script: &str, text: &str) -> String {
    format!("ok {}", text_to_speech(text, Voice { script: variant(script), ..Voice::DEFAULT }))
}

type ToFigures = fn(&str, Wanted, ChineseCountMethod, Figures) -> String;

fn to_figures(call: ToFigures, words: &str, text: &str) -> String {
    let has = |name| words.split('+').any(|word| word == name);
    let style = if has("expanded") { Style::Expanded } else { Style::Kept };
    let (canonical, compact, codes) = (has("canonical"), has("compact"), has("codes"));
    let figures = Figures { included: included(words), style, canonical, compact, codes };
    let text = call(text, Wanted::EVERYDAY, ChineseCountMethod::TenThousand, figures);
    format!("ok {text}")
}

fn to_numerals(words: &str, text: &str) -> String {
    let method = ChineseCountMethod::TenThousand;
    replace_quantities(text, Wanted::EVERYDAY, method, included(words), |found| {
        let quantity = found.quantity(method).ok()?;
        let text = quantity.to_chinese(ChineseVariant::Simple, ChineseCase::Lower, method);
        text.ok().filter(|_| quantity.form != QuantityForm::Fraction)
    })
}

fn flags(found: Found<'_>) -> String {
    let flags = [
        (found.is_plain(), "plain"),
        (found.stands_alone(), "alone"),
        (found.is_about(), "about"),
        (found.is_one_character(), "one"),
    ];
    let told: Vec<&str> = flags.iter().filter(|(is_told, _)| *is_told).map(|it| it.1).collect();
    told.join(" ")
}

fn doubt(found: Found<'_>) -> String {
    let name = match found.doubt() {
        None => "none",
        Some(Doubt::Word) => "word",
        Some(Doubt::Digits) => "digits",
        Some(Doubt::Term) => "term",
        Some(Doubt::Part) => "part",
        Some(Doubt::Time) => "time",
        Some(Doubt::Range) => "range",
        Some(_) => "another",
    };
    String::from(name)
}

// The text with each of its runs replaced by its description, in brackets.
fn in_place<'a>(
    text: &str,
    runs: impl IntoIterator<Item = Found<'a>>,
    shown: impl Fn(Found<'_>) -> String,
) -> String {
    let (mut done, mut at) = (String::from("ok "), 0);
    for found in runs {
        done.extend([&text[at..found.start()], "[", &shown(found), "]"]);
        at = found.end();
    }
    done + &text[at..]
}

fn find(text: &str) -> String {
    in_place(text, find_numbers(text, Wanted::EVERYDAY), |found| {
        told(found.number::<i128>(ChineseCountMethod::TenThousand))
    })
}

fn find_expressions(text: &str) -> String {
    in_place(text, find_quantities(text, Wanted::EVERYDAY), |found| {
        told(found.quantity(ChineseCountMethod::TenThousand).map(shown))
    })
}

fn part<T: Display>(part: Option<T>) -> String {
    part.map_or(String::from("?"), |part| part.to_string())
}

fn value(value: PhraseValue) -> String {
    match value {
        PhraseValue::Date(BillDate { year, month, day }) => format!("{year}-{month}-{day}"),
        PhraseValue::PartialDate(PartialDate { year, month, day }) => {
            format!("{}-{}-{}", part(year), part(month), part(day))
        }
        PhraseValue::Years(first, last)
        | PhraseValue::Months(first, last)
        | PhraseValue::Days(first, last) => format!("{first}..{last}"),
        PhraseValue::Time(ClockTime { hour, minute, second, hour_of_day }) => {
            format!("{hour}:{minute}:{second} ={}", part(hour_of_day))
        }
        PhraseValue::Duration(duration) => {
            let seconds = duration.as_secs();
            format!("{}:{}:{}", seconds / 3600, seconds / 60 % 60, seconds % 60)
        }
        PhraseValue::Half(quantity) | PhraseValue::Length(quantity) | PhraseValue::Money(quantity) => {
            ratio(quantity)
        }
        PhraseValue::Score(first, second) => format!("{first}:{second}"),
        PhraseValue::Range(low, high) => format!("{}..{}", ratio(low), ratio(high)),
        _ => String::from("another"),
    }
}

// The phrases of a text, with a tab between them.
fn phrases(text: &str) -> String {
    let told = |it: Phrase<'_>| {
        let (kind, state) = (format!("{:?}", it.kind), format!("{:?}", it.state));
        let value = it.value.map_or(String::from("-"), value);
        format!("{} {} {} {value}", kind.to_lowercase(), state.to_lowercase(), it.text)
    };
    let found = find_phrases(text, Wanted::EVERYDAY).filter_map(Item::phrase);
    format!("ok {}", found.map(told).collect::<Vec<_>>().join("\t"))
}

fn any_way(way: &str) -> Way {
    match way {
        "any" => Way::Any,
        "naive" => Way::Digits,
        _ => method(way).into(),
    }
}

fn input(name: &str) -> Input {
    match name {
        "amount" => Input::Amount,
        "signed_amount" => Input::SignedAmount,
        "typed_amount" => Input::TypedAmount,
        "typed_signed_amount" => Input::TypedSignedAmount,
        "date" => Input::Date,
        "figures" => Input::Figures,
        _ => panic!("no input is named {name}"),
    }
}

fn language(tag: &str) -> Language {
    match tag {
        "en" => Language::English,
        "zh-Hans" => Language::SimplifiedChinese,
        "zh-Hant" => Language::TraditionalChinese,
        _ => panic!("no language has the tag {tag}"),
    }
}

fn expected(name: &str, text: &str) -> String {
    let expected = input_expected(text, input(name));
    let end = if expected.may_end { "end" } else { "-" };
    let space = if expected.white_space { "space" } else { "-" };
    let characters: String = expected.characters().iter().collect();
    let line = format!("ok {} {end} {space} {characters}", expected.char_index);
    String::from(line.trim_end())
}

fn repair(name: &str, text: &str) -> String {
    let Some(Hint { char_index, repair, .. }) = input_repair(text, input(name)) else {
        return String::from("ok none");
    };
    match repair {
        Repair::Insert(new) => format!("ok insert {char_index} {new}"),
        Repair::Replace(new) => format!("ok replace {char_index} {new}"),
        Repair::Delete => format!("ok delete {char_index}"),
    }
}

fn reason(fault: Option<Fault>) -> String {
    format!("ok {}", fault.map_or("none", |fault| FAULTS[fault as usize - 1]))
}

fn explain<T: Integer>(way: &str, text: &str) -> String {
    reason(explain_number::<T>(text, any_way(way)))
}

fn message<T: Integer>(tag: &str, way: &str, text: &str) -> String {
    format!("ok {}", number_message::<T>(text, any_way(way), language(tag)))
}

macro_rules! by_kind {
    ($kind:expr, $call:ident($($word:expr),*)) => {
        match $kind {
            "u8" => $call::<u8>($($word),*),
            "u16" => $call::<u16>($($word),*),
            "u32" => $call::<u32>($($word),*),
            "u64" => $call::<u64>($($word),*),
            "u128" => $call::<u128>($($word),*),
            "i8" => $call::<i8>($($word),*),
            "i16" => $call::<i16>($($word),*),
            "i32" => $call::<i32>($($word),*),
            "i64" => $call::<i64>($($word),*),
            "i128" => $call::<i128>($($word),*),
            kind => panic!("no kind is named {kind}"),
        }
    };
}

fn answer(line: &str) -> String {
    let words: Vec<&str> = line.split('\t').collect();
    match words[..] {
        ["read", kind, way, text] => by_kind!(kind, read(way, text)),
        ["print", kind, way, script, letter_case, decimal] => {
            by_kind!(kind, print(way, script, letter_case, decimal))
        }
        ["read_amount", text] => told(chinese_to_amount(text)),
        ["print_amount", script, fen] => told(amount_to_chinese(variant(script), number(fen))),
        ["print_amount_as", script, form, fen] => print_amount_as(script, form, fen),
        ["read_signed_amount", text] => told(chinese_to_signed_amount(text)),
        ["print_signed_amount", script, fen] => print_signed_amount(script, "plain", fen),
        ["print_signed_amount_as", script, form, fen] => print_signed_amount(script, form, fen),
        ["read_typed_amount", text] => told(chinese_to_amount_as_typed(text)),
        ["read_typed_signed_amount", text] => told(chinese_to_signed_amount_as_typed(text)),
        ["yuan_to_fen", figures] => told(yuan_to_fen(figures)),
        ["read_date", text] => read_date(text),
        ["print_date", script, date] => print_date(script, date),
        ["find", text] => find(text),
        ["flags", text] => in_place(text, find_numbers(text, Wanted::EVERYDAY), flags),
        ["read_quantity", way, text] => told(chinese_to_quantity(text, method(way)).map(shown)),
        ["find_quantities", text] => find_expressions(text),
        ["doubts", text] => in_place(text, find_quantities(text, Wanted::EVERYDAY), doubt),
        ["print_quantity", way, script, case, words] => print_quantity(way, script, case, words),
        ["quantity_figures", words] => format!("ok {}", quantity(words).to_figures()),
        ["trim_quantity", words] => format!("ok {}", shown(quantity(words).trimmed())),
        ["quantities_to_figures", words, text] => to_figures(quantities_to_figures, words, text),
        ["text_to_figures", words, text] => to_figures(text_to_figures, words, text),
        ["text_to_speech", script, text] => speak(script, text),
        ["find_unspoken", text] => in_place(text, find_unspoken(text), |it| it.text.into()),
        ["phrases", text] => phrases(text),
        ["replace_quantities", words, text] => format!("ok {}", to_numerals(words, text)),
        _ => answer_on_refusal(&words),
    }
}

fn answer_on_refusal(words: &[&str]) -> String {
    match *words {
        ["expected", name, text] => expected(name, text),
        ["repair", name, text] => repair(name, text),
        ["explain", kind, way, text] => by_kind!(kind, explain(way, text)),
        ["explain_quantity", way, text] => reason(explain_quantity(text, method(way))),
        ["input_message", tag, name, text] => {
            format!("ok {}", input_message(text, input(name), language(tag)))
        }
        ["number_message", tag, kind, way, text] => by_kind!(kind, message(tag, way, text)),
        ["quantity_message", tag, way, text] => {
            format!("ok {}", quantity_message(text, method(way), language(tag)))
        }
        _ => panic!("no question: {words:?}"),
    }
}

fn main() {
    for line in io::stdin().lines() {
        println!("{}", answer(&line.expect("a line in UTF-8")));
    }
}
