//! Each date written and read back, and texts that are not dates.

use chinese_number::*;

fn date_of(year: u16, month: u8, day: u8) -> BillDate {
    BillDate { year, month, day }
}

#[test]
fn reads_back_each_date() {
    let mut count = 0;
    for year in 0..=10_000 {
        for (month, day) in (0..=13).flat_map(|month| (0..=32).map(move |day| (month, day))) {
            let date = date_of(year, month, day);
            for variant in [ChineseVariant::Traditional, ChineseVariant::Simple] {
                let Ok(text) = date_to_chinese(variant, date) else {
                    continue;
                };
                assert_eq!(chinese_to_date(&text), Ok(date), "{text}");
                count += 1;
            }
        }
    }
    // 25 times 400 years of 365 days with 97 leap days, without the year 10,000, a leap year.
    assert_eq!(count, 2 * (25 * (400 * 365 + 97) - 366));
}

#[test]
fn refuses_what_is_no_date() {
    for row in include_str!("../../../tests/rows/no_dates.tsv").lines().skip(1) {
        let parts: Vec<&str> = row.split('\t').collect();
        let (year, month, day) = (parts[0].parse(), parts[1].parse(), parts[2].parse());
        let date = date_of(year.unwrap(), month.unwrap(), day.unwrap());
        let refused = date_to_chinese(ChineseVariant::Simple, date);
        assert_eq!(refused, Err(DateToChineseError::NotADate), "{row}");
    }
}

#[test]
fn refuses_the_end_of_a_line() {
    let refused = Err(ChineseToDateError::Incorrect { char_index: 12 });
    assert_eq!(chinese_to_date("贰零贰陆年零壹月壹拾伍日\n"), refused);
}
