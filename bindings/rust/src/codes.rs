//! The choices, statuses, limits and texts of the library. Made by bindings/codes.py.

#![allow(dead_code, reason = "each feature has its own, and some statuses never occur")]
#![allow(clippy::unreadable_literal, reason = "a code is as in the other languages")]

/// The integer type that a number must fit: of u8 a number is from 0 to 255, of i8 from -128 to
/// 127.
#[derive(Debug, Copy, Clone, Eq, PartialEq, Hash)]
pub enum Kind {
    U8 = 0,
    U16 = 1,
    U32 = 2,
    U64 = 3,
    U128 = 4,
    I8 = 5,
    I16 = 6,
    I32 = 7,
    I64 = 8,
    I128 = 9,
}

/// How a number is read or written: as plain digits, 一二三, or with units, 一百二十三, by one of four
/// methods. `Any` is the one to use. It reads a text as `Digits` if all of it is digits, with or
/// without a sign, otherwise as `TenThousand`. It can read back what it writes: in simplified
/// script below 10^16 it writes as `Middle`, so that 10^12 is 一万亿, and otherwise as
/// `TenThousand`. `TenThousand` writes 10^12 as 兆, as in Taiwan; `Middle` and `High` write it as
/// 萬億, as on the mainland. A [`ChineseCountMethod`](crate::ChineseCountMethod) is a way too.
#[derive(Debug, Copy, Clone, Eq, PartialEq, Hash)]
pub enum Way {
    /// As plain digits: 一二三 is 123.
    Digits = 0,
    /// Each unit is ten times the one before: 億 is 10^5.
    Low = 1,
    /// After 萬 each unit is 10^4 times the one before: 億 is 10^8, 兆 is 10^12.
    TenThousand = 2,
    /// After 億 each unit is 10^8 times the one before: 兆 is 10^16, 京 is 10^24.
    Middle = 3,
    /// From 億 on each unit is the square of the one before: 兆 is 10^16, 京 is 10^32.
    High = 4,
    /// Chooses by the text, or by the script and the number.
    Any = 5,
}

/// The case of a number that is written: 壹拾 or 一十. Both are read.
#[derive(Debug, Copy, Clone, Eq, PartialEq, Hash)]
pub enum ChineseCase {
    /// 壹, 拾: the characters of cheques.
    Upper = 0,
    /// 一, 十
    Lower = 1,
}

/// How a quantity is written.
#[derive(Debug, Copy, Clone, Eq, PartialEq, Hash)]
pub enum QuantityForm {
    /// 35, 三十五, 3万
    Whole = 0,
    /// 3.5, 三點五, 3.5万
    Decimal = 1,
    /// 12.5%, 百分之五十
    Percent = 2,
    /// 三分之一, 千分之五
    Fraction = 3,
}

/// What a text is meant to be, for the calls that say what may follow it and why it is refused:
/// each names the call that reads it.
#[derive(Debug, Copy, Clone, Eq, PartialEq, Hash)]
pub enum Input {
    /// What `chinese_to_amount` reads.
    Amount = 0,
    /// What `chinese_to_signed_amount` reads.
    SignedAmount = 1,
    /// What `chinese_to_amount_as_typed` reads.
    TypedAmount = 2,
    /// What `chinese_to_signed_amount_as_typed` reads.
    TypedSignedAmount = 3,
    /// What `chinese_to_date` reads.
    Date = 4,
    /// What `yuan_to_fen` reads.
    Figures = 5,
}

/// The language of a message.
#[derive(Debug, Copy, Clone, Eq, PartialEq, Hash)]
pub enum Language {
    /// English, en.
    English = 0,
    /// Chinese in simplified script, zh-Hans.
    SimplifiedChinese = 1,
    /// Chinese in traditional script, zh-Hant.
    TraditionalChinese = 2,
}

/// The script of a text that is written: 萬 or 万. Both are read.
#[derive(Debug, Copy, Clone, Eq, PartialEq, Ord, PartialOrd, Hash)]
pub enum ChineseVariant {
    /// 萬, 億
    Traditional = 0,
    /// 万, 亿
    Simple = 1,
}

/// A unit; each is greater than the one before. A search takes the greatest one that it looks
/// for: `Zhao` is the one to use, since in sentences greater ones nearly always mean something
/// else.
#[derive(Debug, Copy, Clone, Eq, PartialEq, Ord, PartialOrd, Hash)]
pub enum Unit {
    /// 個, 个
    Ge = 0,
    /// 十, 拾
    Shi = 1,
    /// 百, 佰
    Bai = 2,
    /// 千, 仟
    Qian = 3,
    /// 萬, 万
    Wan = 4,
    /// 億, 亿
    Yi = 5,
    /// 兆
    Zhao = 6,
    /// 京
    Jing = 7,
    /// 垓
    Gai = 8,
    /// 秭
    Zi = 9,
    /// 穰
    Rang = 10,
    /// 溝, 沟
    Gou = 11,
    /// 澗, 涧
    Jian = 12,
    /// 正
    Zheng = 13,
    /// 載, 载
    Zai = 14,
    /// 極, 极
    Ji = 15,
}

/// Why a reader may understand an expression as something other than its quantity. If several
/// reasons apply, `Part` is reported if it is among them, and otherwise the first in this list.
#[non_exhaustive]
#[derive(Debug, Copy, Clone, Eq, PartialEq, Hash)]
pub enum Doubt {
    /// It is part of a word or a title, or the year of an era: 十二 of 十二指肠, 十一 of 双十一, 四十一 of
    /// 乾隆四十一年.
    Word = 1,
    /// It is two or three Chinese digits, or more in rising order, or two numbers: 五一, 一二三四,
    /// 十五十六.
    Digits = 2,
    /// It is part of a term: 负二 of 负二项, 十六 of 十六进制.
    Term = 3,
    /// It is part of an expression with 折, 成, 半 or 分之几: 八五 of 八五折, 一 of 一个半; or its last 一
    /// begins the next word: 两百一 of 两百一个月.
    Part = 4,
    /// It may be a time: 三点五 of 下午三点五, 十点零五.
    Time = 5,
    /// It is one end of a range whose ends share a unit or 百分之: 3 and 5万 of 3~5万.
    Range = 6,
}

/// What an item of a text is: an expression that is in no phrase, or a phrase of a kind. What is
/// in brackets are the numbers first, second, third and fourth of a phrase, where a language has
/// no type of its own for its value.
#[non_exhaustive]
#[derive(Debug, Copy, Clone, Eq, PartialEq, Hash)]
pub enum PhraseKind {
    /// An expression in no phrase.
    Expression = 0,
    /// A date or a part of one (the year, the month, the day).
    Date = 1,
    /// From a year to another one.
    Years = 2,
    /// From a month to another one of the same year.
    Months = 3,
    /// From a day to another one of the same month.
    Days = 4,
    /// A time of day (the hour as it is written, the minute, the second, the hour of 24).
    Time = 5,
    /// A duration (hours, minutes and seconds).
    Duration = 6,
    /// A number and a half, as 一个半小时 (the number without the half).
    Half = 7,
    /// A number with decimals, as 一米七五 (the number, the decimals, how many decimals there are).
    Length = 8,
    /// Two numbers that are compared.
    Score = 9,
    /// From a quantity to another one.
    Range = 10,
    /// A sum of money, as 三块五: the fen by their lower and their upper 32 bits, and 1; all 0 if
    /// they are no whole number below 10^18.
    Money = 11,
}

/// What is known of a phrase.
#[non_exhaustive]
#[derive(Debug, Copy, Clone, Eq, PartialEq, Hash)]
pub enum PhraseState {
    /// It has a value.
    Certain = 0,
    /// It has a value, but may mean something else: 1000年 of 1000年前, 五到八 of 五到八折.
    Doubtful = 1,
    /// It has no value: it names a day or a time that does not exist, or does not rise.
    Refused = 2,
}

/// Why a text is not a number or a quantity. From `Start` on it is the rule that the wrong
/// character breaks; from `BareTen` on, a rule of quantities alone.
#[non_exhaustive]
#[derive(Debug, Copy, Clone, Eq, PartialEq, Hash)]
pub enum Fault {
    /// The text is empty without its white space and, for signed types, one sign.
    Empty = 1,
    /// The number is above the type's maximum, or has more than 128 bits.
    TooLarge = 2,
    /// The number is below the type's minimum.
    TooSmall = 3,
    /// A numeral starts with a digit or 十: 百 of 百五.
    Start = 4,
    /// It is no digit or unit: 角 of 一角.
    Character = 5,
    /// A digit is directly after it, in a numeral with units: 一 of 一二.
    Digits = 6,
    /// A unit that is not greater is directly after it: 百 of 一百十.
    Units = 7,
    /// No greater unit is after 個: 個 of 三個.
    Ge = 8,
    /// The same unit is used again: 萬 of 一萬二萬.
    Groups = 9,
    /// 十 has no 一 before it: 十 of 三千零十万.
    BareTen = 10,
    /// 十 or 百 is directly after 十: the second 十 of 十十.
    RepeatedTen = 11,
    /// A unit is directly after 零: 万 of 一亿零万.
    AfterZero = 12,
    /// 两 may be a unit of weight: 两 of 二两.
    Weight = 13,
    /// The unit can multiply one digit or all before it: 万 of 一百五万.
    TwoReadings = 14,
    /// 零 or a unit seems to be left out: 二 of 一亿二千.
    LeftOutZero = 15,
    /// The denominator is not a whole number above 0: 零 of 零分之一.
    Denominator = 16,
}

impl QuantityForm {
    /// All members, to find one by its code.
    #[rustfmt::skip]
    pub(crate) const ALL: [Self; 4] = [
        Self::Whole, Self::Decimal, Self::Percent, Self::Fraction,
    ];
}

impl Doubt {
    /// All members, to find one by its code.
    #[rustfmt::skip]
    pub(crate) const ALL: [Self; 6] = [
        Self::Word, Self::Digits, Self::Term, Self::Part, Self::Time, Self::Range,
    ];
}

impl PhraseKind {
    /// All members, to find one by its code.
    #[rustfmt::skip]
    pub(crate) const ALL: [Self; 12] = [
        Self::Expression, Self::Date, Self::Years, Self::Months, Self::Days, Self::Time,
        Self::Duration, Self::Half, Self::Length, Self::Score, Self::Range, Self::Money,
    ];
}

impl PhraseState {
    /// All members, to find one by its code.
    #[rustfmt::skip]
    pub(crate) const ALL: [Self; 3] = [
        Self::Certain, Self::Doubtful, Self::Refused,
    ];
}

impl Fault {
    /// All members, to find one by its code.
    #[rustfmt::skip]
    pub(crate) const ALL: [Self; 16] = [
        Self::Empty, Self::TooLarge, Self::TooSmall, Self::Start, Self::Character, Self::Digits,
        Self::Units, Self::Ge, Self::Groups, Self::BareTen, Self::RepeatedTen, Self::AfterZero,
        Self::Weight, Self::TwoReadings, Self::LeftOutZero, Self::Denominator,
    ];
}

/// The form of an amount that is written: none or several of these, added together. All are
/// read.
pub mod form {
    pub const CURRENCY: u32 = 1;
    pub const ROUND_YUAN: u32 = 2;
    pub const UPRIGHT_CLOSING: u32 = 4;
    pub const BRACKETED_SIGN: u32 = 8;
}

/// The flags of a number or an expression in a text: none or several of these, added together.
pub mod flag {
    pub const PLAIN_DIGITS: u32 = 1;
    pub const STANDS_ALONE: u32 = 2;
    pub const ABOUT: u32 = 4;
    pub const ONE_CHARACTER: u32 = 8;
}

/// The options for writing a text in figures, added together, and to `About` and `OneCharacter`.
pub mod option {
    pub const DOUBTFUL: u32 = 16;
    pub const EXPANDED: u32 = 32;
    pub const CANONICAL: u32 = 64;
    pub const COMPACT: u32 = 128;
    pub const CODES: u32 = 256;
}

/// The option for speaking a text: 0, or this.
pub mod speech_option {
    pub const YAO: u32 = 1;
}

/// What is changed in a text to repair it.
pub mod change {
    pub const INSERT: u32 = 1;
    pub const REPLACE: u32 = 2;
    pub const DELETE: u32 = 3;
}

/// The status of a call.
pub mod status {
    pub const DONE: u32 = 0;
    pub const EMPTY: u32 = 1;
    pub const INCORRECT: u32 = 2;
    pub const TOO_LARGE: u32 = 3;
    pub const TOO_SMALL: u32 = 4;
    pub const NOT_UTF8: u32 = 5;
    pub const NO_ROOM: u32 = 6;
    pub const NOT_HELD: u32 = 7;
    pub const UNKNOWN: u32 = 8;
    pub const UNFINISHED: u32 = 9;
    pub const NONE: u32 = 10;
    pub const NOT_A_DATE: u32 = 11;
    pub const NOT_A_QUANTITY: u32 = 12;
}

/// The status of the C source alone for a text, or a text and the buffer for the new one, of
/// more than 4,293,918,720 bytes. What the call writes is then 0.
pub const TOO_LONG: u32 = 4294967295;

/// The most characters that may come next in a text.
pub const MOST_EXPECTED: usize = 48;

/// The most bytes of a number.
pub const MOST_BYTES: usize = 234;
/// The most bytes of a quantity.
pub const MOST_QUANTITY_BYTES: usize = 471;
/// The most bytes of a quantity in figures.
pub const MOST_FIGURES_BYTES: usize = 80;
/// The most bytes of an amount.
pub const MOST_AMOUNT_BYTES: usize = 117;
/// The most bytes of a signed amount.
pub const MOST_SIGNED_AMOUNT_BYTES: usize = 129;
/// The most bytes of a date.
pub const MOST_DATE_BYTES: usize = 39;
/// The most bytes of a message.
pub const MOST_MESSAGE_BYTES: usize = 512;
/// The most bytes of an answer to a line.
pub const MOST_ANSWER_BYTES: usize = 256;

/// The texts of refusals. An `incorrect` is followed by the position.
pub mod text {
    pub const EMPTY: &str = "a chinese number cannot be empty";
    pub const INCORRECT: &str = "the chinese number is incorrect";
    pub const TOO_LARGE: &str = "number is too large";
    pub const TOO_SMALL: &str = "number is too small";
    pub const AMOUNT_UNFINISHED: &str = "the amount is not finished";
    pub const AMOUNT_INCORRECT: &str = "the amount is incorrect";
    pub const DATE_UNFINISHED: &str = "the date is not finished";
    pub const DATE_INCORRECT: &str = "the date is incorrect";
    pub const NOT_A_DATE: &str = "there is no such date";
    pub const NOT_A_QUANTITY: &str = "the denominator is 0";
}
