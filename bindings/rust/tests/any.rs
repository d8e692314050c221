//! Numerals that are written in either way, for a type that has only upstream's two methods.

use chinese_number::*;

type Answer = Result<i8, ChineseToNumberError>;

const TEXTS: [&str; 12] = [
    "",
    "负",
    "五",
    "十",
    "一二三",
    "一二三四",
    "一二三四百",
    "负 一百",
    "负一千",
    "一二百",
    "一人",
    " 〇〇七 ",
];

struct Text(&'static str);

impl ChineseToNumber<i8> for Text {
    fn to_number(&self, method: ChineseCountMethod) -> Answer {
        self.0.to_number(method)
    }

    fn to_number_naive(&self) -> Answer {
        self.0.to_number_naive()
    }
}

#[test]
fn of_two_methods_is_made_the_third() {
    for text in TEXTS {
        let wanted: Answer = text.to_number_any();
        assert_eq!(Text(text).to_number_any(), wanted, "{text}");
    }
}
