//! Each row of a column is what the call for one value answers, also where a buffer has grown and a
//! row is refused.

#![allow(
    clippy::cast_lossless,
    clippy::cast_possible_truncation,
    clippy::cast_possible_wrap,
    clippy::cast_sign_loss,
    reason = "any numbers will do"
)]

use chinese_number::*;

const ROWS: usize = 3_000;

// Words that look random: the generator is SplitMix64.
fn words() -> impl Iterator<Item = u64> {
    let mut state: u64 = 0;
    core::iter::from_fn(move || {
        state = state.wrapping_add(0x9e37_79b9_7f4a_7c15);
        let mixed = (state ^ (state >> 30)).wrapping_mul(0xbf58_476d_1ce4_e5b9);
        let mixed = (mixed ^ (mixed >> 27)).wrapping_mul(0x94d0_49bb_1331_11eb);
        Some(mixed ^ (mixed >> 31))
    })
}

// Numbers of each length and of both signs.
fn numbers() -> Vec<i64> {
    let (first, second) = (words(), words().skip(ROWS));
    first.zip(second).map(|(word, other)| word as i64 >> (other % 64)).take(ROWS).collect()
}

// The rows of a column as texts of their own.
macro_rules! texts {
    ($column:expr) => {
        $column.rows().map(|row| row.map(String::from)).collect::<Vec<_>>()
    };
}

fn written<T: Integer + NumberToChinese + core::fmt::Debug + PartialEq>(values: &[T]) {
    let (variant, case) = (ChineseVariant::Traditional, ChineseCase::Upper);
    for method in ChineseCountMethod::variants() {
        let column = numbers_to_chinese(variant, case, method, values);
        let wanted: Vec<_> = values
            .iter()
            .map(|it| NumberToChinese::to_chinese(*it, variant, case, method))
            .collect();
        assert_eq!(texts!(column), wanted);
    }
    let column = numbers_to_chinese(ChineseVariant::Simple, ChineseCase::Lower, Way::Any, values);
    let texts = column.rows().map(Result::unwrap);
    assert!(chinese_to_numbers(texts, Way::Any).eq(values.iter().map(|it| Ok(*it))));
}

#[test]
fn numbers_of_each_type() {
    let numbers = numbers();
    macro_rules! each {
        ($($t:ty)*) => {
            $(written(&numbers.iter().map(|it| *it as $t).collect::<Vec<_>>());)*
        };
    }
    each! { u8 u16 u32 u64 usize i8 i16 i32 i64 isize }
    let wide = numbers.iter().map(|it| i128::from(*it) << 60);
    written(&wide.clone().collect::<Vec<i128>>());
    written(&wide.map(i128::unsigned_abs).collect::<Vec<u128>>());
}

#[test]
fn amounts() {
    let (variant, fen) = (ChineseVariant::Simple, numbers());
    let form = AmountForm { bracketed_sign: true, ..AmountForm::PLAIN };
    let column = signed_amounts_to_chinese(variant, form, &fen);
    let wanted: Vec<_> =
        fen.iter().map(|fen| signed_amount_to_chinese(variant, form, *fen)).collect();
    assert!(wanted.iter().any(Result::is_err) && wanted.iter().any(Result::is_ok));
    assert_eq!(texts!(column), wanted);
    let texts: Vec<&str> = column.rows().map(|row| row.unwrap_or("壹佰贰元整")).collect();
    let wanted = texts.iter().map(|text| chinese_to_signed_amount_as_typed(text));
    assert!(chinese_to_signed_amounts_as_typed(&texts).eq(wanted));
    let wanted = texts.iter().map(|text| chinese_to_signed_amount(text));
    assert!(chinese_to_signed_amounts(&texts).eq(wanted));
}

#[test]
fn dates() {
    let number = |word: u64, limit: u64| u8::try_from(word % limit).unwrap();
    let dates: Vec<BillDate> = words()
        .map(|word| BillDate {
            year: u16::try_from(word % 10_010).unwrap(),
            month: number(word >> 20, 14),
            day: number(word >> 30, 33),
        })
        .take(ROWS)
        .collect();
    let variant = ChineseVariant::Simple;
    let column = dates_to_chinese(variant, &dates);
    let wanted: Vec<_> = dates.iter().map(|date| date_to_chinese(variant, *date)).collect();
    assert!(wanted.iter().any(Result::is_err) && wanted.iter().any(Result::is_ok));
    assert_eq!(texts!(column), wanted);
    let texts: Vec<&str> = column.rows().map(|row| row.unwrap_or("贰零贰陆年")).collect();
    let wanted = texts.iter().map(|text| chinese_to_date(text));
    assert!(chinese_to_dates(&texts).eq(wanted));
}

#[test]
fn no_row() {
    let (variant, case) = (ChineseVariant::Simple, ChineseCase::Lower);
    let column = numbers_to_chinese::<u8>(variant, case, Way::Any, &[]);
    assert!(column.is_empty() && column.get(0).is_none() && column.as_str().is_empty());
    let column = numbers_to_chinese(variant, case, Way::Any, &[7]);
    assert_eq!((column.get(0), column.get(1)), (Some(Ok("七")), None));
}
