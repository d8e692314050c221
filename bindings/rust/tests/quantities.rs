//! What this crate itself does with exact quantities: it makes them, converts them to whole
//! numbers, trims them, and replaces those of a text.
use chinese_number::*;

fn whole<T: TryFrom<i128>>(text: &str) -> Option<T> {
    chinese_to_quantity(text, ChineseCountMethod::TenThousand).unwrap().to_whole()
}

#[test]
fn whole_numbers() {
    assert_eq!(whole("3.5万"), Some(35_000u16));
    assert_eq!(whole("-1.20百"), Some(-120i8));
    assert_eq!(whole("百分之三百"), Some(3u8));
    assert_eq!(whole("0%"), Some(0i64));
    assert_eq!(whole(&i128::MIN.to_string()), Some(i128::MIN));
    assert_eq!(whole(&i128::MAX.to_string()), Some(i128::MAX as u128));
}

#[test]
fn none() {
    assert_eq!(whole::<i128>("3.5"), None);
    assert_eq!(whole::<i128>("三分之一"), None);
    assert_eq!(whole::<u16>("7万"), None);
    assert_eq!(whole::<u8>("-1"), None);
    let nothing = Quantity { numerator: 1, denominator: 0, form: QuantityForm::Whole };
    assert_eq!(nothing.to_whole::<i128>(), None);
    let large = Quantity { numerator: i128::MIN, denominator: u128::MAX, ..nothing };
    assert_eq!(large.to_whole::<i128>(), None);
}

#[test]
fn made() {
    let decimal = Quantity { numerator: -5, denominator: 100, form: QuantityForm::Decimal };
    assert_eq!(Quantity::decimal(-5, 2), Some(decimal));
    let whole = Quantity { numerator: -5, denominator: 1, form: QuantityForm::Whole };
    assert_eq!(Quantity::decimal(-5, 0), Some(whole));
    let percent = Quantity { numerator: -5, denominator: 100, form: QuantityForm::Percent };
    assert_eq!(Quantity::percent(-5, 0), Some(percent));
    let fraction = Quantity { numerator: -5, denominator: 3, form: QuantityForm::Fraction };
    assert_eq!(Quantity::fraction(-5, 3), Some(fraction));
}

#[test]
fn not_made() {
    assert!(Quantity::decimal(1, 38).is_some() && Quantity::percent(1, 36).is_some());
    assert_eq!(Quantity::decimal(1, 39), None);
    assert_eq!(Quantity::percent(1, 37), None);
    assert_eq!(Quantity::percent(1, u32::MAX), None);
    assert_eq!(Quantity::fraction(1, 0), None);
}

#[test]
fn trimmed_at_the_ends() {
    let zero = Quantity::decimal(0, 38).unwrap();
    assert_eq!(Some(zero.trimmed()), Quantity::decimal(0, 0));
    let zero = Quantity::percent(0, 36).unwrap();
    assert_eq!(Some(zero.trimmed()), Quantity::percent(0, 0));
    let least = Quantity::decimal(i128::MIN, 38).unwrap();
    assert_eq!(least.trimmed(), least);
    let over_zero = Quantity { denominator: 0, ..zero };
    assert_eq!(over_zero.trimmed(), over_zero);
}

const BY: (Wanted, ChineseCountMethod) = (Wanted::EVERYDAY, ChineseCountMethod::TenThousand);

#[test]
fn replaced() {
    let mut asked = Vec::new();
    let text =
        replace_quantities("十几个，3万，5%，1.2.3", BY.0, BY.1, Included::NONE, |found| {
            asked.push(found.range());
            (found.text != "5%").then_some("?")
        });
    assert_eq!(text, "十几个，?，5%，1.2.3");
    assert_eq!(asked, [12..16, 19..21]);
}

#[test]
fn in_figures() {
    let many = "共一百亿，".repeat(1_000);
    let text = quantities_to_figures(&many, BY.0, BY.1, Figures::DEFAULT);
    assert_eq!(text, "共100亿，".repeat(1_000));
    let expanded = Figures { style: Style::Expanded, ..Figures::default() };
    let text = quantities_to_figures(&many, BY.0, BY.1, expanded);
    assert_eq!(text, "共10000000000，".repeat(1_000));
    let text = quantities_to_figures("一亿", BY.0, ChineseCountMethod::Low, expanded);
    assert_eq!(text, "100000");
    let canonical = Figures { canonical: true, ..Figures::DEFAULT };
    assert_eq!(quantities_to_figures("1,280元", BY.0, BY.1, canonical), "1280元");
    let upper = Wanted { upper: true, ..Wanted::EVERYDAY };
    assert_eq!(quantities_to_figures("陆拾", upper, BY.1, Figures::DEFAULT), "60");
}

#[test]
fn in_doubt() {
    let doubts = |text| find_quantities(text, BY.0).map(Found::doubt).collect::<Vec<_>>();
    assert_eq!(doubts("五一，二十"), [Some(Doubt::Digits), None]);
    assert_eq!(find_numbers("五一", BY.0).next().unwrap().doubt(), None);
    let doubtful = Included { doubtful: true, ..Included::NONE };
    let text = "五一，八五折";
    let all = |included| replace_quantities(text, BY.0, BY.1, included, |_| Some("?"));
    assert_eq!(all(Included::NONE), text);
    assert_eq!(all(doubtful), "?，八五折");
    let figures = Figures { included: doubtful, ..Figures::DEFAULT };
    assert_eq!(quantities_to_figures(text, BY.0, BY.1, figures), "51，八五折");
}
