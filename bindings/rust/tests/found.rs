//! The numbers in running text: their places, their values, and that they split their text.
use std::iter::FusedIterator;

use chinese_number::*;

const METHOD: ChineseCountMethod = ChineseCountMethod::TenThousand;

// The rows of a table, each with its cells, below the names of the columns.
fn rows(table: &str) -> impl Iterator<Item = Vec<&str>> {
    table.lines().skip(1).map(|row| row.split('\t').collect())
}

#[test]
fn finds_the_first_number() {
    for row in rows(include_str!("../../../tests/rows/first.tsv")) {
        let found = find_numbers(row[0], Wanted::EVERYDAY).next().unwrap();
        let answer = match found.number::<u64>(METHOD) {
            Ok(number) => format!("ok {number}"),
            Err(error) => format!("err {error}"),
        };
        let (start, end) = (found.start().to_string(), found.end().to_string());
        let plain = found.is_plain().to_string();
        assert_eq!([row[0], &start, &end, &plain, &answer], row[..]);
    }
}

#[test]
fn finds_each_number_in_its_text() {
    for row in rows(include_str!("../../../tests/rows/found.tsv")) {
        for (wanted, texts) in [(Wanted::EVERYDAY, row[1]), (Wanted::ALL, row[2])] {
            let numbers: Vec<Found> = find_numbers(row[0], wanted).collect();
            let found: Vec<&str> = numbers.iter().map(|it| it.text).collect();
            assert_eq!(found.join(" "), texts, "{}", row[0]);
            for it in numbers {
                assert_eq!([it.before, it.text, it.after].concat(), row[0]);
                assert_eq!(&row[0][it.start()..it.end()], it.text);
            }
        }
    }
}

#[test]
fn answers_as_the_readers_do() {
    let found = find_numbers("共三百人", Wanted::EVERYDAY).next().unwrap();
    assert_eq!(found.number::<u8>(METHOD), Err(ChineseToNumberError::Overflow));
    assert_eq!(found.number::<i16>(METHOD), Ok(300));
    let found = find_numbers("三億", Wanted::ALL).next().unwrap();
    assert_eq!(found.number::<i128>(ChineseCountMethod::Low), Ok(300_000));
    let found = find_numbers("正五", Wanted::ALL).next().unwrap();
    let refused = Err(ChineseToNumberError::ChineseNumberIncorrect { char_index: 0 });
    assert_eq!(found.number::<u8>(METHOD), refused);
    assert_eq!(found.number::<i8>(METHOD), Ok(5));
    let found = find_numbers("正33", Wanted::ALL).next().unwrap();
    let refused = Err(ChineseToNumberError::ChineseNumberIncorrect { char_index: 1 });
    assert_eq!((found.number::<i64>(METHOD), found.value::<i64>()), (refused, None));
}

#[test]
fn looks_for_units_up_to_the_greatest() {
    let units = "個十百千萬億兆京垓秭穰溝澗正載極";
    let greatest = [
        Unit::Ge,
        Unit::Shi,
        Unit::Bai,
        Unit::Qian,
        Unit::Wan,
        Unit::Yi,
        Unit::Zhao,
        Unit::Jing,
        Unit::Gai,
        Unit::Zi,
        Unit::Rang,
        Unit::Gou,
        Unit::Jian,
        Unit::Zheng,
        Unit::Zai,
        Unit::Ji,
    ];
    for (rank, greatest) in greatest.into_iter().enumerate() {
        let wanted = Wanted { upper: false, greatest };
        let texts: String = find_numbers(units, wanted).map(|found| found.text).collect();
        // 個 is not directly before a unit from 萬 up.
        let looked_for: String = units.chars().skip(1).take(rank).collect();
        assert_eq!(texts, looked_for);
        assert_eq!(greatest as usize, rank);
    }
}

#[test]
fn ends_and_begins_again() {
    fn is_fused<T: FusedIterator + Clone>(_: &T) {}
    let mut numbers = find_numbers("一，二", Wanted::EVERYDAY);
    is_fused(&numbers);
    let again = numbers.clone();
    assert_eq!(numbers.by_ref().count(), 2);
    assert_eq!(numbers.next(), None);
    assert_eq!(again.count(), 2);
}

#[test]
fn goes_over_each_character_once() {
    let text = "一，".repeat(500_000);
    assert_eq!(find_numbers(&text, Wanted::EVERYDAY).count(), 500_000);
    let text = "文".repeat(1_000_000);
    assert_eq!(find_numbers(&text, Wanted::ALL).next(), None);
}
