//! The phrases in running text: their places, their values, and the texts in figures.
use std::iter::FusedIterator;
use std::time::Duration;

use chinese_number::*;

const METHOD: ChineseCountMethod = ChineseCountMethod::TenThousand;

// The value of the first item of a text, which is a phrase.
fn value(text: &str) -> Option<PhraseValue> {
    find_phrases(text, Wanted::EVERYDAY).next().unwrap().phrase().unwrap().value
}

fn decimal(numerator: i128, decimals: u32) -> Quantity {
    Quantity::decimal(numerator, decimals).unwrap()
}

#[test]
fn values_of_dates() {
    let date = BillDate { year: 2026, month: 1, day: 5 };
    assert_eq!(value("二零二六年一月五日"), Some(PhraseValue::Date(date)));
    assert_eq!(value("2026-01-05"), Some(PhraseValue::Date(date)));
    for (text, year, month, day) in [
        ("二零二六年一月", Some(2026), Some(1), None),
        ("二零二六年", Some(2026), None, None),
        ("一月五日", None, Some(1), Some(5)),
        ("115年3月20日", Some(115), Some(3), Some(20)),
    ] {
        let date = PartialDate { year, month, day };
        assert_eq!(value(text), Some(PhraseValue::PartialDate(date)), "{text}");
    }
}

#[test]
fn values_of_times() {
    for (text, hour, minute, second, hour_of_day) in [
        ("下午三点半", 3, 30, 0, Some(15)),
        ("三点半", 3, 30, 0, None),
        ("二十四点零分", 24, 0, 0, Some(24)),
        ("15:04:05", 15, 4, 5, Some(15)),
    ] {
        let time = ClockTime { hour, minute, second, hour_of_day };
        assert_eq!(value(text), Some(PhraseValue::Time(time)), "{text}");
    }
    let duration = Duration::from_secs(3_600 + 20 * 60);
    assert_eq!(value("一小时二十分"), Some(PhraseValue::Duration(duration)));
}

#[test]
fn values_of_numbers() {
    assert_eq!(value("一九九五至二〇〇三年"), Some(PhraseValue::Years(1995, 2003)));
    assert_eq!(value("三至五月"), Some(PhraseValue::Months(3, 5)));
    assert_eq!(value("三至五日"), Some(PhraseValue::Days(3, 5)));
    assert_eq!(value("三比二"), Some(PhraseValue::Score(3, 2)));
    assert_eq!(value("一个半小时"), Some(PhraseValue::Half(decimal(15, 1))));
    assert_eq!(value("一米七五"), Some(PhraseValue::Length(decimal(175, 2))));
    assert_eq!(value("一米七"), Some(PhraseValue::Length(decimal(17, 1))));
    assert_eq!(value("三块五毛二"), Some(PhraseValue::Money(decimal(352, 2))));
    assert_eq!(value("五十亿元"), Some(PhraseValue::Money(decimal(500_000_000_000, 2))));
    assert_eq!(value("3.555元"), None);
    for text in ["三到五万元", "3~5万元"] {
        let range = PhraseValue::Range(decimal(30_000, 0), decimal(50_000, 0));
        assert_eq!(value(text), Some(range), "{text}");
    }
}

#[test]
fn items_in_their_text() {
    let text = "二十人，二月三十日，五到八折";
    let items: Vec<Item> = find_phrases(text, Wanted::EVERYDAY).collect();
    let expression = find_quantities(text, Wanted::EVERYDAY).next().unwrap();
    assert_eq!(items.len(), 3);
    assert_eq!((items[0], items[0].phrase()), (Item::Expression(expression), None));
    let phrase = items[1].phrase().unwrap();
    assert_eq!((phrase.kind, phrase.state), (PhraseKind::Date, PhraseState::Refused));
    assert_eq!((phrase.text, phrase.value), ("二月三十日", None));
    assert_eq!((phrase.start(), phrase.end(), phrase.range()), (12, 27, 12..27));
    assert_eq!([phrase.before, phrase.text, phrase.after].concat(), text);
    let doubtful = items[2].phrase().unwrap();
    assert_eq!((doubtful.kind, doubtful.state), (PhraseKind::Range, PhraseState::Doubtful));
    assert_eq!(doubtful.value, Some(PhraseValue::Range(decimal(5, 0), decimal(8, 0))));
}

#[test]
fn ends_and_begins_again() {
    fn is_fused<T: FusedIterator + Clone>(_: &T) {}
    let text = "一月五日，二十人，".repeat(1_000);
    let mut items = find_phrases(&text, Wanted::EVERYDAY);
    is_fused(&items);
    let again = items.clone();
    assert_eq!(items.by_ref().count(), 2_000);
    assert_eq!(items.next(), None);
    assert_eq!(again.filter_map(Item::phrase).count(), 1_000);
}

#[test]
fn in_figures() {
    let write = |text, figures| text_to_figures(text, Wanted::EVERYDAY, METHOD, figures);
    let text = "二零二六年一月五日下午三点半，三到五万元，二月三十日，一个半小时";
    let new = "2026年1月5日下午3点半，3万到5万元，二月三十日，一个半小时";
    assert_eq!(write(text, Figures::DEFAULT), new);
    let included = Included { one_character: true, ..Included::NONE };
    let one = Figures { included, ..Figures::DEFAULT };
    assert_eq!(write("一个半小时", one), "1个半小时");
    let compact = Figures { compact: true, ..Figures::DEFAULT };
    assert_eq!(write("二零二六年一月五日下午三点半", compact), "2026-01-05 15:30");
    let codes = Figures { codes: true, ..Figures::DEFAULT };
    assert_eq!(write("打幺幺零", codes), "打110");
    let included = Included { doubtful: true, ..Included::NONE };
    let doubtful = Figures { included, ..Figures::DEFAULT };
    assert_eq!(write("五到八折", doubtful), "5到8折");
    let many = write(&"三到五百万亿，".repeat(1_000), Figures::DEFAULT);
    assert!(many == "300万亿到500万亿，".repeat(1_000));
}
