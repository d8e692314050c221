//! Amounts of money: many of them written and read back, and those that are refused.

use chinese_number::*;

const LIMIT: u64 = 1_000_000_000_000_000_000;

#[test]
fn reads_back_each_of_many() {
    for count in 0..100_000 {
        for fen in [count, count * 9_999_900_000_001 % LIMIT, LIMIT - 1 - count] {
            for variant in [ChineseVariant::Traditional, ChineseVariant::Simple] {
                let text = amount_to_chinese(variant, fen).unwrap();
                assert_eq!(chinese_to_amount(&text), Ok(fen), "{text}");
            }
        }
    }
}

#[test]
fn refuses_great_amounts() {
    for fen in [LIMIT, LIMIT + 1, u64::MAX] {
        let refused = amount_to_chinese(ChineseVariant::Simple, fen);
        assert_eq!(refused, Err(AmountToChineseError::Overflow));
    }
}

#[test]
fn refuses_the_end_of_a_line() {
    let refused = Err(ChineseToAmountError::Incorrect { char_index: 3 });
    assert_eq!(chinese_to_amount("壹元整\n"), refused);
}
