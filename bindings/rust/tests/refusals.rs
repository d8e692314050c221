//! What may come next in a text, a change that repairs it, why it is refused, and the messages: what
//! this crate makes of the answers of the library.

use chinese_number::*;

const INPUTS: [Input; 6] = [
    Input::Amount,
    Input::SignedAmount,
    Input::TypedAmount,
    Input::TypedSignedAmount,
    Input::Date,
    Input::Figures,
];
const LANGUAGES: [Language; 3] =
    [Language::English, Language::SimplifiedChinese, Language::TraditionalChinese];
const METHOD: ChineseCountMethod = ChineseCountMethod::TenThousand;
// Texts that are refused: unfinished ones, and others with a wrong character.
const TEXTS: [&str; 9] = [
    "",
    "壹佰元",
    "壹佰贰元整",
    "伍佰块整",
    "捌佰零伍拾元整",
    "负负壹元整",
    "⊗ 拾伍元整",
    "贰零贰陆年叁月",
    "15.",
];

macro_rules! place {
    ($read:expr, $error:ident) => {
        $read.map(drop).map_err(|error| match error {
            $error::Incorrect { char_index } => Some(char_index),
            _ => None,
        })
    };
}

// Whether a text is read, or the place of the wrong character, if there is one.
fn read(text: &str, input: Input) -> Result<(), Option<usize>> {
    match input {
        Input::Amount => place!(chinese_to_amount(text), ChineseToAmountError),
        Input::SignedAmount => place!(chinese_to_signed_amount(text), ChineseToAmountError),
        Input::TypedAmount => place!(chinese_to_amount_as_typed(text), ChineseToAmountError),
        Input::TypedSignedAmount => {
            place!(chinese_to_signed_amount_as_typed(text), ChineseToAmountError)
        }
        Input::Date => place!(chinese_to_date(text), ChineseToDateError),
        Input::Figures => place!(yuan_to_fen(text), FiguresError),
    }
}

// The text after a change.
fn repaired(text: &str, hint: Hint) -> String {
    let (before, from) = text.split_at(hint.byte_index);
    assert_eq!(before.chars().count(), hint.char_index);
    let mut after = from.chars();
    let new = match hint.repair {
        Repair::Insert(new) => Some(new),
        Repair::Replace(new) => after.next().and(Some(new)),
        Repair::Delete => after.next().and(None),
    };
    before.chars().chain(new).chain(after).collect()
}

#[test]
fn each_expected_character_continues_the_text() {
    for (text, input) in TEXTS.iter().flat_map(|text| INPUTS.map(|input| (text, input))) {
        let expected = input_expected(text, input);
        let begun = &text[..expected.byte_index];
        assert_eq!(begun.chars().count(), expected.char_index);
        assert_eq!(expected.may_end, read(begun, input).is_ok(), "{begun}");
        if let Err(Some(place)) = read(text, input) {
            assert_eq!(expected.char_index, place, "{text}");
        }
        let space = expected.white_space.then_some(' ');
        for character in expected.characters().iter().copied().chain(space) {
            let longer = format!("{begun}{character}");
            assert!(!matches!(read(&longer, input), Err(Some(_))), "{longer}");
        }
    }
}

#[test]
fn expected_in_full() {
    let expected = input_expected("15.005", Input::Figures);
    assert_eq!((expected.char_index, expected.byte_index), (5, 5));
    assert_eq!(expected.characters(), ['0', '０']);
    assert!(expected.may_end && !expected.white_space);
    assert_eq!(
        format!("{expected:?}"),
        "Expected { char_index: 5, byte_index: 5, may_end: true, white_space: false, \
         characters: ['0', '０'] }"
    );
    assert_eq!(expected, input_expected("15.00", Input::Figures));
    assert!(input_expected("壹元整", Input::Amount).characters().is_empty());
}

#[test]
fn each_repair_helps() {
    let mut count = 0;
    for (text, input) in TEXTS.iter().flat_map(|text| INPUTS.map(|input| (text, input))) {
        let Some(hint) = input_repair(text, input) else {
            continue;
        };
        let new = repaired(text, hint);
        let left = |text: &str, place: usize| text.chars().count() - place;
        match (read(text, input), read(&new, input)) {
            (Ok(()), _) => panic!("{text} needs no repair"),
            (Err(None), then) => assert_eq!(then, Ok(()), "{text}, {new}"),
            (Err(Some(place)), Err(Some(next))) => {
                assert!(left(&new, next) < left(text, place), "{text}, {new}");
            }
            (Err(Some(_)), _) => count += 1,
        }
    }
    assert!(count > 0);
}

#[test]
fn repairs() {
    let repair =
        |text| input_repair(text, Input::Amount).map(|hint| (hint.char_index, hint.repair));
    assert_eq!(repair("壹佰贰元整"), Some((2, Repair::Insert('零'))));
    assert_eq!(repair("伍佰块整"), Some((2, Repair::Replace('元'))));
    assert_eq!(repair("捌佰零伍拾元整"), Some((2, Repair::Delete)));
    assert_eq!(repair("捌佰伍拾元整"), None);
}

#[test]
fn each_reason() {
    let numbers = [
        ("", Fault::Empty),
        ("一百二十八", Fault::TooLarge),
        ("负一百二十九", Fault::TooSmall),
        ("百五", Fault::Start),
        ("一角", Fault::Character),
        ("一二", Fault::Digits),
        ("一百十", Fault::Units),
        ("三個", Fault::Ge),
        ("一萬二萬", Fault::Groups),
    ];
    for (text, fault) in numbers {
        assert_eq!(explain_number::<i8>(text, METHOD), Some(fault), "{text}");
    }
    let quantities = [
        ("三千零十万", Fault::BareTen),
        ("十十", Fault::RepeatedTen),
        ("一亿零万", Fault::AfterZero),
        ("二两", Fault::Weight),
        ("一百五万", Fault::TwoReadings),
        ("一亿二千", Fault::LeftOutZero),
        ("零分之一", Fault::Denominator),
    ];
    for (text, fault) in quantities {
        assert_eq!(explain_quantity(text, METHOD), Some(fault), "{text}");
    }
}

#[test]
fn reasons_by_way() {
    assert_eq!(explain_number::<u8>("一二三", Way::Digits), None);
    assert_eq!(explain_number::<u8>("一二三", Way::Any), None);
    assert_eq!(explain_number::<u8>("一百", Way::Digits), Some(Fault::Character));
    for way in ChineseCountMethod::variants() {
        assert_eq!(explain_number::<u8>("一二三", way), Some(Fault::Digits));
        assert_eq!(explain_number::<u8>("一百", way), None);
        let is_refused = "一億".to_number(way) == Err::<u32, _>(ChineseToNumberError::Overflow);
        let too_large = is_refused.then_some(Fault::TooLarge);
        assert_eq!(explain_number::<u32>("一億", way), too_large);
        let by_method = explain_quantity("一亿亿", way);
        assert_eq!(by_method.is_some(), chinese_to_quantity("一亿亿", way).is_err());
    }
}

#[test]
fn messages_of_what_is_refused() {
    for language in LANGUAGES {
        for (text, input) in TEXTS.iter().flat_map(|text| INPUTS.map(|input| (text, input))) {
            let is_read = read(text, input).is_ok();
            assert_eq!(input_message(text, input, language).is_empty(), is_read, "{text}");
        }
        assert_eq!(number_message::<i8>("一百二十七", METHOD, language), "");
        assert_ne!(number_message::<i8>("一百二十八", METHOD, language), "");
        assert_eq!(quantity_message("三分之一", METHOD, language), "");
        assert_ne!(quantity_message("零分之一", METHOD, language), "");
    }
}

#[test]
fn messages_of_each_language() {
    let texts = LANGUAGES.map(|language| input_message("壹佰贰元整", Input::Amount, language));
    let written = [
        "“零” is missing before character 3, “贰”.",
        "第3个字“贰”前缺“零”。",
        "第3個字「贰」前缺「零」。",
    ];
    assert_eq!(texts, written);
}

#[test]
fn messages_of_printing() {
    let [english, simplified, traditional] = LANGUAGES;
    let too_large = AmountToChineseError::Overflow;
    assert_eq!(too_large.message_in(english), "The number is too large.");
    assert_eq!(NumberToChineseError::Overflow.message_in(english), too_large.message_in(english));
    assert_eq!(AmountToChineseError::Underflow.message_in(simplified), "数值太小。");
    let zero = QuantityToChineseError::ZeroDenominator.message_in(traditional);
    assert_eq!(zero, "分母必須是大於零的整數。");
    assert_eq!(DateToChineseError::NotADate.message_in(traditional), "沒有這個日期。");
}
