//! Printing without allocating: the text in a buffer is that of the call that returns a `String`.

use std::fmt::Write;

use chinese_number::*;

const SCRIPTS: [ChineseVariant; 2] = [ChineseVariant::Traditional, ChineseVariant::Simple];
const CASES: [ChineseCase; 2] = [ChineseCase::Upper, ChineseCase::Lower];

#[test]
fn numbers() {
    let mut room = Room::default();
    for number in [i128::MIN, -1, 0, 10_000_000_000_000_000, i128::MAX] {
        for (script, case) in SCRIPTS.into_iter().flat_map(|it| CASES.map(|case| (it, case))) {
            let text = number.to_chinese_naive(script, case);
            assert_eq!(room.number_naive(script, case, number), text);
            for method in ChineseCountMethod::variants() {
                let text = number.to_chinese(script, case, method);
                assert_eq!(room.number(script, case, method, number).map(String::from), text);
            }
        }
    }
    assert_eq!(room.number_naive(ChineseVariant::Simple, ChineseCase::Lower, 12u8), "一二");
}

#[test]
fn quantities() {
    let mut room = Room::new();
    let greatest = Quantity::fraction(i128::MIN, u128::MAX);
    for quantity in [Quantity::percent(-125, 1), greatest].into_iter().flatten() {
        assert_eq!(room.figures(quantity), quantity.to_figures());
        for (script, case) in SCRIPTS.into_iter().flat_map(|it| CASES.map(|case| (it, case))) {
            for method in ChineseCountMethod::variants() {
                let text = quantity.to_chinese(script, case, method);
                assert_eq!(room.quantity(script, case, method, quantity).map(String::from), text);
            }
        }
    }
}

#[test]
fn amounts() {
    let mut room = Room::new();
    for fen in [0, 140_950, 999_999_999_999_999_999, 1_000_000_000_000_000_000] {
        for script in SCRIPTS {
            let text = amount_to_chinese(script, fen);
            assert_eq!(room.amount(script, AmountForm::PLAIN, fen).map(String::from), text);
        }
    }
}

#[test]
fn signed_amounts() {
    let mut room = Room::new();
    let form = AmountForm {
        currency: true,
        round_yuan: true,
        upright_closing: true,
        bracketed_sign: true,
    };
    for fen in [i64::MIN, -999_999_999_999_999_999, -1_500, 0, 1_500, i64::MAX] {
        for script in SCRIPTS {
            let text = signed_amount_to_chinese(script, form, fen);
            assert_eq!(room.signed_amount(script, form, fen).map(String::from), text);
        }
    }
}

#[test]
fn dates() {
    let mut room = Room::new();
    for day in [0, 15, 31] {
        let date = BillDate { year: 2026, month: 11, day };
        for script in SCRIPTS {
            assert_eq!(room.date(script, date).map(String::from), date_to_chinese(script, date));
        }
    }
}

fn write_digits(to: &mut impl Write, number: impl Integer) -> std::fmt::Result {
    to.write_str(Room::new().number_naive(ChineseVariant::Simple, ChineseCase::Lower, number))
}

#[test]
fn into_a_writer() -> std::fmt::Result {
    let mut text = String::new();
    write_digits(&mut text, 12u8)?;
    write_digits(&mut text, -3i128)?;
    assert_eq!(text, "一二负三");
    Ok(())
}
