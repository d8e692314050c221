//! The interface of the upstream crate for the integer types: each name with its signature, and the
//! results of its trait; what each type and trait can do; the texts of the errors, an empty text,
//! and several threads at once.

use std::error::Error;
use std::fmt::{Debug, Display};
use std::hash::Hash;
use std::ops::Range;
use std::thread;

use chinese_number::*;

type Answer<T> = Result<T, ChineseToNumberError>;
type Printed = Result<String, NumberToChineseError>;

/// The method in the name of a call: `None` for plain digits, and `Low` if the name has none.
fn way(name: &str) -> Option<ChineseCountMethod> {
    use ChineseCountMethod::*;
    let named = [("_naive", None), ("_ten_thousand", Some(TenThousand)), ("_middle", Some(Middle))];
    let found = named.iter().find(|(end, _)| name.ends_with(end));
    found.map_or(Some(if name.ends_with("_high") { High } else { Low }), |(_, way)| *way)
}

/// Texts that distinguish the ways: the greatest unit whose scale fits, and the next one.
const TEXTS: [&str; 11] = [
    "",
    "零極零五",
    "零澗零五",
    "負零澗零五",
    "零正零五",
    "零垓零五",
    "零秭零五",
    "零京零五",
    "零億五",
    "一二三",
    "負一二三",
];

/// A number that fits the type, and that each distinguishable way writes differently.
const NUMBERS: [u128; 4] = [10, 100_000, 1_000_100_000_000, 1_000_000_000_000_000_000_000_000];

/// Each of these calls has this type, and returns what the trait does in the way of its name.
macro_rules! readers {
    ($($t:ty: $($name:ident)+;)+) => {
        $($(
            let _: fn(&'static str) -> Answer<$t> = $name::<&str>;
            let _: fn(String) -> Answer<$t> = $name::<String>;
            let _: fn(&'static String) -> Answer<$t> = $name::<&String>;
            for text in TEXTS {
                let by_trait: Answer<$t> = match way(stringify!($name)) {
                    Some(method) => text.to_number(method),
                    None => text.to_number_naive(),
                };
                assert_eq!($name(text), by_trait, "{} of {text}", stringify!($name));
            }
        )+)+
    };
}

macro_rules! printers {
    ($printed:ty, $written:expr; $($t:ty: $($name:ident)+;)+) => {
        $($(
            let _: fn(ChineseVariant, ChineseCase, $t) -> $printed = $name;
            for number in NUMBERS.into_iter().filter_map(|it| <$t>::try_from(it).ok()) {
                let (script, case) = (ChineseVariant::Simple, ChineseCase::Upper);
                let by_trait: Printed = match way(stringify!($name)) {
                    Some(method) => number.to_chinese(script, case, method),
                    None => Ok(number.to_chinese_naive(script, case)),
                };
                let written = $written($name(script, case, number));
                assert_eq!(written, by_trait, "{} of {number}", stringify!($name));
            }
        )+)+
    };
}

#[test]
fn readers_by_name() {
    readers! {
        u8: from_chinese_to_u8_naive from_chinese_to_u8;
        u16: from_chinese_to_u16_naive from_chinese_to_u16;
        u32: from_chinese_to_u32_naive from_chinese_to_u32_low from_chinese_to_u32_ten_thousand
            from_chinese_to_u32_middle from_chinese_to_u32_high;
        u64: from_chinese_to_u64_naive from_chinese_to_u64_low from_chinese_to_u64_ten_thousand
            from_chinese_to_u64_middle from_chinese_to_u64_high;
        u128: from_chinese_to_u128_naive from_chinese_to_u128_low from_chinese_to_u128_ten_thousand
            from_chinese_to_u128_middle from_chinese_to_u128_high;
        usize: from_chinese_to_usize_naive from_chinese_to_usize_low
            from_chinese_to_usize_ten_thousand from_chinese_to_usize_middle
            from_chinese_to_usize_high;
        i8: from_chinese_to_i8_naive from_chinese_to_i8;
        i16: from_chinese_to_i16_naive from_chinese_to_i16;
        i32: from_chinese_to_i32_naive from_chinese_to_i32_low from_chinese_to_i32_ten_thousand
            from_chinese_to_i32_middle from_chinese_to_i32_high;
        i64: from_chinese_to_i64_naive from_chinese_to_i64_low from_chinese_to_i64_ten_thousand
            from_chinese_to_i64_middle from_chinese_to_i64_high;
        i128: from_chinese_to_i128_naive from_chinese_to_i128_low from_chinese_to_i128_ten_thousand
            from_chinese_to_i128_middle from_chinese_to_i128_high;
        isize: from_chinese_to_isize_naive from_chinese_to_isize_low
            from_chinese_to_isize_ten_thousand from_chinese_to_isize_middle
            from_chinese_to_isize_high;
    }
}

#[test]
fn printers_by_name() {
    printers! { String, Ok;
        u8: from_u8_to_chinese_naive from_u8_to_chinese;
        u16: from_u16_to_chinese_naive from_u16_to_chinese;
        u32: from_u32_to_chinese_naive from_u32_to_chinese_low from_u32_to_chinese_ten_thousand
            from_u32_to_chinese_middle from_u32_to_chinese_high;
        u64: from_u64_to_chinese_naive from_u64_to_chinese_ten_thousand from_u64_to_chinese_middle
            from_u64_to_chinese_high;
        u128: from_u128_to_chinese_naive from_u128_to_chinese_ten_thousand
            from_u128_to_chinese_middle from_u128_to_chinese_high;
        usize: from_usize_to_chinese_naive from_usize_to_chinese_ten_thousand
            from_usize_to_chinese_middle from_usize_to_chinese_high;
        i8: from_i8_to_chinese_naive from_i8_to_chinese;
        i16: from_i16_to_chinese_naive from_i16_to_chinese;
        i32: from_i32_to_chinese_naive from_i32_to_chinese_low from_i32_to_chinese_ten_thousand
            from_i32_to_chinese_middle from_i32_to_chinese_high;
        i64: from_i64_to_chinese_naive from_i64_to_chinese_ten_thousand from_i64_to_chinese_middle
            from_i64_to_chinese_high;
        i128: from_i128_to_chinese_naive from_i128_to_chinese_ten_thousand
            from_i128_to_chinese_middle from_i128_to_chinese_high;
        isize: from_isize_to_chinese_naive from_isize_to_chinese_ten_thousand
            from_isize_to_chinese_middle from_isize_to_chinese_high;
    }
    printers! { Printed, |it| it;
        u64: from_u64_to_chinese_low;
        u128: from_u128_to_chinese_low;
        usize: from_usize_to_chinese_low;
        i64: from_i64_to_chinese_low;
        i128: from_i128_to_chinese_low;
        isize: from_isize_to_chinese_low;
    }
    let _: [ChineseCountMethod; 4] = const { ChineseCountMethod::variants() };
}

#[test]
fn signatures_of_amounts_of_dates_and_of_the_search() {
    type Written = Result<String, AmountToChineseError>;
    let _: fn(ChineseVariant, u64) -> Written = amount_to_chinese;
    let _: fn(ChineseVariant, AmountForm, u64) -> Written = amount_to_chinese_as;
    let _: fn(&str) -> Result<u64, ChineseToAmountError> = chinese_to_amount;
    let _: fn(ChineseVariant, AmountForm, i64) -> Written = signed_amount_to_chinese;
    let _: fn(&str) -> Result<i64, ChineseToAmountError> = chinese_to_signed_amount;
    let _: fn(&str) -> Result<u64, ChineseToAmountError> = chinese_to_amount_as_typed;
    let _: fn(&str) -> Result<i64, ChineseToAmountError> = chinese_to_signed_amount_as_typed;
    let _: fn(&str) -> Result<i64, FiguresError> = yuan_to_fen;
    let _: fn(ChineseVariant, BillDate) -> Result<String, DateToChineseError> = date_to_chinese;
    let _: fn(&str) -> Result<BillDate, ChineseToDateError> = chinese_to_date;
    let _: fn(&'static str, Wanted) -> Numbers<'static> = find_numbers;
    let _: fn(Found<'static>, ChineseCountMethod) -> Answer<u8> = Found::number;
    let _: fn(Found<'static>) -> Option<u8> = Found::value;
    let _: fn(Found<'static>) -> Range<usize> = Found::range;
    let _: fn(Found<'static>) -> Option<Doubt> = Found::doubt;
    let _: fn(&'static str, Wanted) -> Numbers<'static> = find_quantities;
    let _: fn(&str, Wanted, ChineseCountMethod, Figures) -> String = quantities_to_figures;
    let _: fn(&'static str, Wanted) -> Phrases<'static> = find_phrases;
    let _: fn(Item<'static>) -> Option<Phrase<'static>> = Item::phrase;
    let _: fn(Phrase<'static>) -> Range<usize> = Phrase::range;
    let _: fn(&str, Wanted, ChineseCountMethod, Figures) -> String = text_to_figures;
    let _: [Wanted; 2] = const { [Wanted::EVERYDAY, Wanted::ALL] };
    let _: (Included, Figures) = const { (Included::NONE, Figures::DEFAULT) };
}

#[test]
fn signatures_of_refusals() {
    type Method = ChineseCountMethod;
    let _: fn(&str, Input) -> Expected = input_expected;
    let _: for<'a> fn(&'a Expected) -> &'a [char] = Expected::characters;
    let _: fn(&str, Input) -> Option<Hint> = input_repair;
    let _: fn(&str, Way) -> Option<Fault> = explain_number::<u8>;
    let _: fn(&str, Method) -> Option<Fault> = explain_number::<i128>;
    let _: fn(&str, Method) -> Option<Fault> = explain_quantity;
    let _: fn(&str, Input, Language) -> String = input_message;
    let _: fn(&str, Way, Language) -> String = number_message::<u8>;
    let _: fn(&str, Method, Language) -> String = number_message::<i128>;
    let _: fn(&str, Method, Language) -> String = quantity_message;
    let _: fn(NumberToChineseError, Language) -> String = NumberToChineseError::message_in;
    let _: fn(QuantityToChineseError, Language) -> String = QuantityToChineseError::message_in;
    let _: fn(AmountToChineseError, Language) -> String = AmountToChineseError::message_in;
    let _: fn(DateToChineseError, Language) -> String = DateToChineseError::message_in;
}

// What is read and written by the traits as a number of this type.
fn is_an_integer<T>()
where
    T: NumberToChinese,
    for<'a> &'a str: ChineseToNumber<T>,
    for<'a> &'a &'a str: ChineseToNumber<T>,
    for<'a> &'a String: ChineseToNumber<T>,
    String: ChineseToNumber<T>,
    Box<str>: ChineseToNumber<T>,
    for<'a> std::borrow::Cow<'a, str>: ChineseToNumber<T>,
{
}

fn is_a_value<T: Copy + Eq + Debug + Send + Sync + Unpin + 'static>() {}

fn is_an_error<T: Error + Copy + Eq + Send + Sync + 'static>() {}

fn has_a_hash<T: Hash>() {}

#[test]
fn traits() {
    macro_rules! integers {
        ($($t:ty)+) => { $(is_an_integer::<$t>();)+ };
    }
    integers!(u8 u16 u32 u64 u128 usize i8 i16 i32 i64 i128 isize);
    is_a_value::<ChineseVariant>();
    is_a_value::<ChineseCase>();
    is_a_value::<ChineseCountMethod>();
    is_an_error::<ChineseToNumberError>();
    is_an_error::<NumberToChineseError>();
    is_a_value::<Unit>();
    is_a_value::<Wanted>();
    is_a_value::<Found<'static>>();
    is_a_value::<Item<'static>>();
    is_a_value::<Phrase<'static>>();
    is_a_value::<PhraseKind>();
    is_a_value::<PhraseState>();
    is_a_value::<PhraseValue>();
    is_a_value::<PartialDate>();
    is_a_value::<ClockTime>();
    is_an_error::<AmountToChineseError>();
    is_an_error::<ChineseToAmountError>();
    is_an_error::<FiguresError>();
    is_a_value::<BillDate>();
    is_a_value::<AmountForm>();
    is_a_value::<Quantity>();
    is_a_value::<QuantityForm>();
    is_a_value::<Included>();
    is_a_value::<Doubt>();
    is_a_value::<Way>();
    is_a_value::<Input>();
    is_a_value::<Expected>();
    is_a_value::<Repair>();
    is_a_value::<Hint>();
    is_a_value::<Fault>();
    is_a_value::<Language>();
    is_a_value::<Style>();
    is_a_value::<Figures>();
    is_an_error::<QuantityToChineseError>();
    is_an_error::<DateToChineseError>();
    is_an_error::<ChineseToDateError>();
    has_a_hash::<ChineseVariant>();
    has_a_hash::<ChineseCase>();
    has_a_hash::<ChineseCountMethod>();
    has_a_hash::<Unit>();
    has_a_hash::<Wanted>();
    has_a_hash::<Quantity>();
    has_a_hash::<QuantityForm>();
    has_a_hash::<Included>();
    has_a_hash::<Doubt>();
    has_a_hash::<Way>();
    has_a_hash::<Input>();
    has_a_hash::<Repair>();
    has_a_hash::<Hint>();
    has_a_hash::<Fault>();
    has_a_hash::<Language>();
    has_a_hash::<Style>();
    has_a_hash::<Figures>();
    has_a_hash::<BillDate>();
    has_a_hash::<PhraseKind>();
    has_a_hash::<PhraseState>();
    has_a_hash::<PhraseValue>();
    has_a_hash::<PartialDate>();
    has_a_hash::<ClockTime>();
    has_a_hash::<AmountForm>();
    assert_eq!(Figures::default(), Figures::DEFAULT);
    assert!(Unit::Wan < Unit::Yi);
    assert!(ChineseVariant::Traditional < ChineseVariant::Simple);
}

#[test]
fn methods_in_their_order() {
    use ChineseCountMethod::*;
    assert_eq!(ChineseCountMethod::variants(), [Low, TenThousand, Middle, High]);
}

#[test]
fn texts_of_errors() {
    use ChineseToNumberError::*;
    let rows: [(&dyn Display, &str); 19] = [
        (&ChineseNumberEmpty, "a chinese number cannot be empty"),
        (
            &ChineseNumberIncorrect { char_index: 12 },
            "the chinese number is incorrect (position: 12)",
        ),
        (&Overflow, "number is too large"),
        (&Underflow, "number is too small"),
        (&NumberToChineseError::Overflow, "number is too large"),
        (&NumberToChineseError::Underflow, "number is too small"),
        (&QuantityToChineseError::Overflow, "number is too large"),
        (&QuantityToChineseError::Underflow, "number is too small"),
        (&QuantityToChineseError::ZeroDenominator, "the denominator is 0"),
        (&AmountToChineseError::Overflow, "number is too large"),
        (&AmountToChineseError::Underflow, "number is too small"),
        (&ChineseToAmountError::Unfinished, "the amount is not finished"),
        (
            &ChineseToAmountError::Incorrect { char_index: 3 },
            "the amount is incorrect (position: 3)",
        ),
        (&FiguresError::Unfinished, "the amount is not finished"),
        (&FiguresError::Incorrect { char_index: 5 }, "the amount is incorrect (position: 5)"),
        (&FiguresError::Overflow, "number is too large"),
        (&DateToChineseError::NotADate, "there is no such date"),
        (&ChineseToDateError::Unfinished, "the date is not finished"),
        (&ChineseToDateError::Incorrect { char_index: 10 }, "the date is incorrect (position: 10)"),
    ];
    for (error, text) in rows {
        assert_eq!(error.to_string(), text);
    }
}

#[test]
fn empty_texts() {
    for text in ["", " ", "負"] {
        let by_units: Answer<i8> = text.to_number(ChineseCountMethod::High);
        assert_eq!(by_units, Err(ChineseToNumberError::ChineseNumberEmpty));
        let by_digits: Answer<i128> = text.to_number_naive();
        assert_eq!(by_digits, Err(ChineseToNumberError::ChineseNumberEmpty));
    }
}

// Each number of 64 bits that this step leads to, ten thousand of them, is printed by each method
// and read back.
fn reads_back(step: i64) {
    let limits = -9_999_999_999_999_999..=9_999_999_999_999_999;
    for number in (0..10_000).map(|count| step.wrapping_mul(count)) {
        let text = number.to_chinese_naive(ChineseVariant::Simple, ChineseCase::Upper);
        assert_eq!(text.to_number_naive(), Ok(number));
        for method in ChineseCountMethod::variants() {
            match number.to_chinese(ChineseVariant::Traditional, ChineseCase::Lower, method) {
                Ok(text) => assert_eq!(text.to_number(method), Ok(number)),
                Err(_) => assert!(method == ChineseCountMethod::Low && !limits.contains(&number)),
            }
        }
    }
}

#[test]
fn four_threads() {
    let steps = [1, -1_000_003, 1_000_000_007_000_000_009, -7_777_777_777_777_777_777];
    let threads = steps.map(|step| thread::spawn(move || reads_back(step)));
    for thread in threads {
        thread.join().unwrap();
    }
}
