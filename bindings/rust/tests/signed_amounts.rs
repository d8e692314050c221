//! Amounts that may be negative: many of them written and read back, in capitals and in figures,
//! and those that are refused.
//!
//! `CHINESE_NUMBER_FEN=10000000` tries all from this many fen below zero to as many above it, and
//! as many others; the default is 100,000.

use std::env;

use chinese_number::*;

const LIMIT: u64 = 1_000_000_000_000_000_000;
const FORM: AmountForm =
    AmountForm { currency: true, round_yuan: true, upright_closing: true, bracketed_sign: false };

fn count() -> i64 {
    env::var("CHINESE_NUMBER_FEN").map_or(100_000, |count| count.parse().expect("a count of fen"))
}

// Amounts of each length and of both signs, which look random: the generator is SplitMix64.
fn others(count: i64) -> impl Iterator<Item = i64> {
    let mut state: u64 = 0;
    let mut next = move || {
        state = state.wrapping_add(0x9e37_79b9_7f4a_7c15);
        let mixed = (state ^ (state >> 30)).wrapping_mul(0xbf58_476d_1ce4_e5b9);
        let mixed = (mixed ^ (mixed >> 27)).wrapping_mul(0x94d0_49bb_1331_11eb);
        mixed ^ (mixed >> 31)
    };
    (0..count).map(move |count| {
        let magnitude = i64::try_from((next() % LIMIT) >> (next() % 60)).unwrap();
        if count % 2 == 0 {
            magnitude
        } else {
            -magnitude
        }
    })
}

fn figures(fen: i64) -> String {
    let (sign, magnitude) = (if fen < 0 { "-" } else { "" }, fen.unsigned_abs());
    format!("{sign}{}.{:02}", magnitude / 100, magnitude % 100)
}

fn bracketed(form: AmountForm) -> AmountForm {
    AmountForm { bracketed_sign: true, ..form }
}

// A negative amount is written like its magnitude, after the sign. Only the reader of amounts as
// typed reads the sign in brackets.
fn reads_back(variant: ChineseVariant, form: AmountForm, sign: &str, fen: i64) {
    let magnitude = fen.unsigned_abs();
    let text = signed_amount_to_chinese(variant, form, fen).unwrap();
    let unsigned = text.strip_prefix(sign).unwrap_or(&text);
    let bracketed = form.bracketed_sign && fen < 0;
    assert_eq!(text.len() > unsigned.len(), fen < 0, "{text}");
    assert_eq!(amount_to_chinese_as(variant, form, magnitude).unwrap(), unsigned);
    assert_eq!(chinese_to_signed_amount(&text).ok(), (!bracketed).then_some(fen), "{text}");
    assert_eq!(chinese_to_signed_amount_as_typed(&text), Ok(fen), "{text}");
    assert_eq!(chinese_to_amount_as_typed(unsigned), Ok(magnitude), "{text}");
}

#[test]
fn reads_back_each_of_many() {
    let count = count();
    for fen in (-count..=count).chain(others(count)) {
        reads_back(ChineseVariant::Traditional, FORM, "負", fen);
        reads_back(ChineseVariant::Simple, AmountForm::PLAIN, "负", fen);
        reads_back(ChineseVariant::Traditional, bracketed(FORM), "（負數）", fen);
        reads_back(ChineseVariant::Simple, bracketed(AmountForm::PLAIN), "（负数）", fen);
        assert_eq!(yuan_to_fen(&figures(fen)), Ok(fen), "{fen}");
    }
}

#[test]
fn refuses_great_amounts() {
    let limit = i64::try_from(LIMIT).unwrap();
    let written = |fen| signed_amount_to_chinese(ChineseVariant::Simple, FORM, fen);
    for fen in [limit, limit + 1, i64::MAX] {
        assert_eq!(written(fen), Err(AmountToChineseError::Overflow));
        assert_eq!(written(-fen), Err(AmountToChineseError::Underflow));
        assert_eq!(yuan_to_fen(&figures(fen)), Err(FiguresError::Overflow));
        assert_eq!(yuan_to_fen(&figures(-fen)), Err(FiguresError::Overflow));
    }
    assert_eq!(written(i64::MIN), Err(AmountToChineseError::Underflow));
}

// No row contains a line end. An amount as typed can have white space anywhere.
#[test]
fn the_end_of_a_line() {
    let refused = Err(ChineseToAmountError::Incorrect { char_index: 4 });
    assert_eq!(chinese_to_signed_amount("负壹元整\n"), refused);
    assert_eq!(chinese_to_amount_as_typed("⊗\r\n壹元整\n"), Ok(100));
    assert_eq!(chinese_to_signed_amount_as_typed("⊗\r\n负壹元整\n"), Ok(-100));
    assert_eq!(yuan_to_fen("15\n"), Err(FiguresError::Incorrect { char_index: 2 }));
}
