//! The readers: they read texts as numbers, exact quantities, amounts of money and dates.

use core::fmt::{self, Display, Formatter};

use crate::abi::{self, Whole};
use crate::codes::{status, text};
use crate::{BillDate, ChineseCountMethod, Integer, Quantity, Way};

/// Why a text is not a number of a type, or not a quantity. For a person,
/// [`number_message`](crate::number_message) and [`quantity_message`](crate::quantity_message) say
/// it in a language.
#[derive(Debug, Copy, Clone, Eq, PartialEq)]
pub enum ChineseToNumberError {
    /// The text is empty without its white space and, for signed types, one sign.
    ChineseNumberEmpty,
    /// A character cannot be at its place.
    ChineseNumberIncorrect {
        /// How many characters of the text come before it, white space included.
        char_index: usize,
    },
    /// The number is above the type's maximum, or has more than 128 bits.
    Overflow,
    /// The number is below the type's minimum.
    Underflow,
}

impl Display for ChineseToNumberError {
    fn fmt(&self, f: &mut Formatter<'_>) -> fmt::Result {
        match self {
            Self::ChineseNumberEmpty => f.write_str(text::EMPTY),
            Self::ChineseNumberIncorrect { char_index } => {
                write!(f, "{} (position: {char_index})", text::INCORRECT)
            }
            Self::Overflow => f.write_str(text::TOO_LARGE),
            Self::Underflow => f.write_str(text::TOO_SMALL),
        }
    }
}

impl core::error::Error for ChineseToNumberError {}

fn refusal((status, char_index): (u32, usize)) -> ChineseToNumberError {
    match status {
        status::EMPTY => ChineseToNumberError::ChineseNumberEmpty,
        status::INCORRECT => ChineseToNumberError::ChineseNumberIncorrect { char_index },
        status::TOO_LARGE => ChineseToNumberError::Overflow,
        status::TOO_SMALL => ChineseToNumberError::Underflow,
        _ => unreachable!("the codes are the library's"),
    }
}

#[inline]
fn read<T: Whole>(text: &str, way: Way) -> Result<T, ChineseToNumberError> {
    abi::read(text, way).map_err(refusal)
}

/// Reads a text as an exact quantity: a whole number, a decimal, a percentage or a fraction, in
/// figures, in numerals or in both, with or without one leading sign.
///
/// ```rust
/// use chinese_number::{chinese_to_quantity, ChineseCountMethod, Quantity, QuantityForm};
///
/// let quantity = chinese_to_quantity("-12.5%", ChineseCountMethod::TenThousand);
/// let form = QuantityForm::Percent;
/// assert_eq!(quantity, Ok(Quantity { numerator: -125, denominator: 1_000, form }));
/// ```
///
/// # Errors
///
/// Returns a [`ChineseToNumberError`] if the text is refused: `Overflow` or `Underflow` if a number
/// does not fit in 128 bits.
#[inline]
pub fn chinese_to_quantity<S: AsRef<str>>(
    text: S,
    method: ChineseCountMethod,
) -> Result<Quantity, ChineseToNumberError> {
    abi::read_quantity(text.as_ref(), method.into()).map_err(refusal)
}

/// A text that is read as a number of the integer type `T`.
///
/// ```rust
/// use chinese_number::{ChineseCountMethod, ChineseToNumber, ChineseToNumberError};
///
/// let number: Result<i8, _> = "負一百二十八".to_number(ChineseCountMethod::TenThousand);
/// assert_eq!(number, Ok(-128));
/// let number: Result<i8, _> = " 二 十 十 ".to_number(ChineseCountMethod::TenThousand);
/// assert_eq!(number, Err(ChineseToNumberError::ChineseNumberIncorrect { char_index: 3 }));
/// let numbers = ["一二三", "一百二十三"].map(|text| text.to_number_any());
/// assert_eq!(numbers, [Ok(123i8), Ok(123)]);
/// ```
pub trait ChineseToNumber<T> {
    /// Reads a numeral with units, by a method: 一百二 is 120.
    ///
    /// # Errors
    ///
    /// Returns a [`ChineseToNumberError`] if the text is refused.
    fn to_number(&self, method: ChineseCountMethod) -> Result<T, ChineseToNumberError>;

    /// Reads plain digits: 一二三 is 123.
    ///
    /// # Errors
    ///
    /// Returns a [`ChineseToNumberError`] if the text is refused.
    fn to_number_naive(&self) -> Result<T, ChineseToNumberError>;

    /// Reads a numeral that is written in either way: as plain digits if it is only digits,
    /// otherwise by `TenThousand`. Both 一二三 and 一百二十三 are 123.
    ///
    /// # Errors
    ///
    /// Returns a [`ChineseToNumberError`] if the text is refused.
    fn to_number_any(&self) -> Result<T, ChineseToNumberError> {
        match self.to_number_naive() {
            Err(ChineseToNumberError::ChineseNumberIncorrect { .. }) => {
                self.to_number(ChineseCountMethod::TenThousand)
            }
            read => read,
        }
    }
}

/// Reads texts as numbers, each as [`ChineseToNumber`] does, when the iterator comes to it. In Rust
/// this is as fast as a call for all of them, and keeps no copy of the texts.
///
/// ```rust
/// use chinese_number::{chinese_to_numbers, ChineseToNumberError, Way};
///
/// let numbers = chinese_to_numbers(["一百二", "二十十"], Way::Any);
/// let refused = ChineseToNumberError::ChineseNumberIncorrect { char_index: 1 };
/// assert!(numbers.eq([Ok(120i64), Err(refused)]));
/// ```
pub fn chinese_to_numbers<T: Integer, S: AsRef<str>>(
    texts: impl IntoIterator<Item = S>,
    way: impl Into<Way>,
) -> impl Iterator<Item = Result<T, ChineseToNumberError>> {
    let way = way.into();
    texts.into_iter().map(move |text| read(text.as_ref(), way))
}

macro_rules! reader {
    ($t:ty, $name:ident, $way:ident, $reads:expr) => {
        #[doc = concat!("Reads ", $reads, " as a `", stringify!($t), "`.")]
        ///
        /// # Errors
        ///
        /// Returns a [`ChineseToNumberError`] if the text is refused.
        #[inline]
        pub fn $name<S: AsRef<str>>(chinese_number: S) -> Result<$t, ChineseToNumberError> {
            read(chinese_number.as_ref(), Way::$way)
        }
    };
}

macro_rules! readers {
    ($t:ty: $naive:ident $(, $name:ident $method:ident)*) => {
        impl<S: AsRef<str>> ChineseToNumber<$t> for S {
            #[inline]
            fn to_number(&self, method: ChineseCountMethod) -> Result<$t, ChineseToNumberError> {
                read(self.as_ref(), method.into())
            }

            #[inline]
            fn to_number_naive(&self) -> Result<$t, ChineseToNumberError> {
                $naive(self)
            }

            #[inline]
            fn to_number_any(&self) -> Result<$t, ChineseToNumberError> {
                read(self.as_ref(), Way::Any)
            }
        }

        reader!($t, $naive, Digits, "plain digits");
        $(reader!($t, $name, $method, concat!("a numeral by `", stringify!($method), "`"));)*
    };
}

readers! { u8: from_chinese_to_u8_naive, from_chinese_to_u8 Low }
readers! { u16: from_chinese_to_u16_naive, from_chinese_to_u16 Low }
readers! {
    u32: from_chinese_to_u32_naive,
    from_chinese_to_u32_low Low,
    from_chinese_to_u32_ten_thousand TenThousand,
    from_chinese_to_u32_middle Middle,
    from_chinese_to_u32_high High
}
readers! {
    u64: from_chinese_to_u64_naive,
    from_chinese_to_u64_low Low,
    from_chinese_to_u64_ten_thousand TenThousand,
    from_chinese_to_u64_middle Middle,
    from_chinese_to_u64_high High
}
readers! {
    u128: from_chinese_to_u128_naive,
    from_chinese_to_u128_low Low,
    from_chinese_to_u128_ten_thousand TenThousand,
    from_chinese_to_u128_middle Middle,
    from_chinese_to_u128_high High
}
readers! {
    usize: from_chinese_to_usize_naive,
    from_chinese_to_usize_low Low,
    from_chinese_to_usize_ten_thousand TenThousand,
    from_chinese_to_usize_middle Middle,
    from_chinese_to_usize_high High
}
readers! { i8: from_chinese_to_i8_naive, from_chinese_to_i8 Low }
readers! { i16: from_chinese_to_i16_naive, from_chinese_to_i16 Low }
readers! {
    i32: from_chinese_to_i32_naive,
    from_chinese_to_i32_low Low,
    from_chinese_to_i32_ten_thousand TenThousand,
    from_chinese_to_i32_middle Middle,
    from_chinese_to_i32_high High
}
readers! {
    i64: from_chinese_to_i64_naive,
    from_chinese_to_i64_low Low,
    from_chinese_to_i64_ten_thousand TenThousand,
    from_chinese_to_i64_middle Middle,
    from_chinese_to_i64_high High
}
readers! {
    i128: from_chinese_to_i128_naive,
    from_chinese_to_i128_low Low,
    from_chinese_to_i128_ten_thousand TenThousand,
    from_chinese_to_i128_middle Middle,
    from_chinese_to_i128_high High
}
readers! {
    isize: from_chinese_to_isize_naive,
    from_chinese_to_isize_low Low,
    from_chinese_to_isize_ten_thousand TenThousand,
    from_chinese_to_isize_middle Middle,
    from_chinese_to_isize_high High
}

/// Why a text is not an amount of money. For a person, [`input_message`](crate::input_message) says
/// it in a language.
#[non_exhaustive]
#[derive(Debug, Copy, Clone, Eq, PartialEq)]
pub enum ChineseToAmountError {
    /// Something is missing at the end: the text begins an amount, but is not one. `壹佰元` needs 整 or
    /// 伍角. The empty text is unfinished too.
    Unfinished,
    /// No amount begins with the text up to and including this character.
    Incorrect {
        /// How many characters of the text come before it.
        char_index: usize,
    },
}

impl Display for ChineseToAmountError {
    fn fmt(&self, f: &mut Formatter<'_>) -> fmt::Result {
        match self {
            Self::Unfinished => f.write_str(text::AMOUNT_UNFINISHED),
            Self::Incorrect { char_index } => {
                write!(f, "{} (position: {char_index})", text::AMOUNT_INCORRECT)
            }
        }
    }
}

impl core::error::Error for ChineseToAmountError {}

#[inline]
fn no_amount((status, char_index): (u32, usize)) -> ChineseToAmountError {
    match status {
        status::UNFINISHED => ChineseToAmountError::Unfinished,
        status::INCORRECT => ChineseToAmountError::Incorrect { char_index },
        _ => unreachable!("a `str` is UTF-8"),
    }
}

/// Reads an amount of money in capitals, in fen.
///
/// # Errors
///
/// Returns a [`ChineseToAmountError`] if the text is refused.
///
/// ```rust
/// use chinese_number::{chinese_to_amount, ChineseToAmountError};
///
/// assert_eq!(chinese_to_amount("人民币壹拾伍圆正"), Ok(1_500));
/// assert_eq!(chinese_to_amount("壹佰元"), Err(ChineseToAmountError::Unfinished));
/// let refused = Err(ChineseToAmountError::Incorrect { char_index: 3 });
/// assert_eq!(chinese_to_amount("壹佰贰元整"), refused);
/// ```
#[inline]
pub fn chinese_to_amount(text: &str) -> Result<u64, ChineseToAmountError> {
    abi::read_amount(text).map_err(no_amount)
}

/// Reads an amount of money in capitals, with or without one prefix 负 (負), in fen.
///
/// # Errors
///
/// Returns a [`ChineseToAmountError`] if the text is refused.
///
/// ```rust
/// use chinese_number::{chinese_to_signed_amount, ChineseToAmountError};
///
/// assert_eq!(chinese_to_signed_amount("负壹拾伍元整"), Ok(-1_500));
/// assert_eq!(chinese_to_signed_amount("壹拾伍元整"), Ok(1_500));
/// let refused = Err(ChineseToAmountError::Incorrect { char_index: 1 });
/// assert_eq!(chinese_to_signed_amount("负负壹元整"), refused);
/// ```
#[inline]
pub fn chinese_to_signed_amount(text: &str) -> Result<i64, ChineseToAmountError> {
    abi::read_signed_amount(text).map_err(no_amount)
}

/// Reads an amount of money in capitals as it is typed, in fen: ignores white space, then one
/// leading ⊗, and then one colon directly after a leading 人民币.
///
/// # Errors
///
/// Returns a [`ChineseToAmountError`] if the text is refused; `char_index` counts in the text as it
/// is typed.
///
/// ```rust
/// use chinese_number::{chinese_to_amount_as_typed, ChineseToAmountError};
///
/// assert_eq!(chinese_to_amount_as_typed("⊗壹拾 伍元整"), Ok(1_500));
/// assert_eq!(chinese_to_amount_as_typed("人民币：壹拾伍元整"), Ok(1_500));
/// let refused = Err(ChineseToAmountError::Incorrect { char_index: 2 });
/// assert_eq!(chinese_to_amount_as_typed("⊗ 拾伍元整"), refused);
/// ```
#[inline]
pub fn chinese_to_amount_as_typed(text: &str) -> Result<u64, ChineseToAmountError> {
    abi::read_typed_amount(text).map_err(no_amount)
}

/// Reads an amount of money in capitals as it is typed or copied from an invoice, with or without a
/// sign, in fen: ignores white space, and accepts ⊗ (or ⓧ), a sign, and 人民币 with or without a colon
/// in any order at the start. A sign is 负, 負, （负数） or （負數）, also with ASCII parentheses. 人民币（大写）
/// is read like 人民币.
///
/// # Errors
///
/// Returns a [`ChineseToAmountError`] if the text is refused; `char_index` counts in the text as it
/// is typed.
///
/// ```rust
/// use chinese_number::{chinese_to_signed_amount_as_typed, ChineseToAmountError};
///
/// let fen = chinese_to_signed_amount_as_typed("⊗（负数）人民币（大写）：壹拾伍元整");
/// assert_eq!(fen, Ok(-1_500));
/// assert_eq!(chinese_to_signed_amount_as_typed("人民币 负壹拾伍元整"), Ok(-1_500));
/// assert_eq!(chinese_to_signed_amount_as_typed("壹拾伍元整"), Ok(1_500));
/// let refused = Err(ChineseToAmountError::Incorrect { char_index: 2 });
/// assert_eq!(chinese_to_signed_amount_as_typed("负 负壹元整"), refused);
/// ```
#[inline]
pub fn chinese_to_signed_amount_as_typed(text: &str) -> Result<i64, ChineseToAmountError> {
    abi::read_typed_signed_amount(text).map_err(no_amount)
}

/// Reads texts as amounts of money, each as [`chinese_to_signed_amount`] does, when the iterator
/// comes to it.
///
/// ```rust
/// use chinese_number::{chinese_to_signed_amounts, ChineseToAmountError};
///
/// let fen = chinese_to_signed_amounts(["负壹拾伍元整", "壹佰元"]);
/// assert!(fen.eq([Ok(-1_500), Err(ChineseToAmountError::Unfinished)]));
/// ```
pub fn chinese_to_signed_amounts<S: AsRef<str>>(
    texts: impl IntoIterator<Item = S>,
) -> impl Iterator<Item = Result<i64, ChineseToAmountError>> {
    texts.into_iter().map(|text| chinese_to_signed_amount(text.as_ref()))
}

/// Reads texts as amounts of money as they are typed, each as [`chinese_to_signed_amount_as_typed`]
/// does, when the iterator comes to it.
///
/// ```rust
/// use chinese_number::chinese_to_signed_amounts_as_typed;
///
/// let fen = chinese_to_signed_amounts_as_typed(["⊗（负数）壹拾 伍元整", "壹元整"]);
/// assert!(fen.eq([Ok(-1_500), Ok(100)]));
/// ```
pub fn chinese_to_signed_amounts_as_typed<S: AsRef<str>>(
    texts: impl IntoIterator<Item = S>,
) -> impl Iterator<Item = Result<i64, ChineseToAmountError>> {
    texts.into_iter().map(|text| chinese_to_signed_amount_as_typed(text.as_ref()))
}

/// Why a text is not a date. For a person, [`input_message`](crate::input_message) says it in a
/// language.
#[non_exhaustive]
#[derive(Debug, Copy, Clone, Eq, PartialEq)]
pub enum ChineseToDateError {
    /// Something is missing at the end: the text begins a date, but is not one. The empty text is
    /// unfinished too.
    Unfinished,
    /// No date begins with the text up to and including this character.
    Incorrect {
        /// How many characters of the text come before it.
        char_index: usize,
    },
}

impl Display for ChineseToDateError {
    fn fmt(&self, f: &mut Formatter<'_>) -> fmt::Result {
        match self {
            Self::Unfinished => f.write_str(text::DATE_UNFINISHED),
            Self::Incorrect { char_index } => {
                write!(f, "{} (position: {char_index})", text::DATE_INCORRECT)
            }
        }
    }
}

impl core::error::Error for ChineseToDateError {}

/// Reads a date in capitals.
///
/// # Errors
///
/// Returns a [`ChineseToDateError`] if the text is refused.
///
/// ```rust
/// use chinese_number::{chinese_to_date, BillDate, ChineseToDateError};
///
/// let date = BillDate { year: 2026, month: 3, day: 1 };
/// assert_eq!(chinese_to_date("贰零贰陆年零叁月零壹日"), Ok(date));
/// assert_eq!(chinese_to_date("贰零贰陆年叁月"), Err(ChineseToDateError::Unfinished));
/// let refused = Err(ChineseToDateError::Incorrect { char_index: 10 });
/// assert_eq!(chinese_to_date("贰零贰伍年零贰月贰拾玖日"), refused);
/// ```
#[inline]
pub fn chinese_to_date(text: &str) -> Result<BillDate, ChineseToDateError> {
    abi::read_date(text).map_err(|(status, char_index)| match status {
        status::UNFINISHED => ChineseToDateError::Unfinished,
        status::INCORRECT => ChineseToDateError::Incorrect { char_index },
        _ => unreachable!("a `str` is UTF-8"),
    })
}

/// Reads texts as dates, each as [`chinese_to_date`] does, when the iterator comes to it.
///
/// ```rust
/// use chinese_number::{chinese_to_dates, BillDate, ChineseToDateError};
///
/// let dates = chinese_to_dates(["贰零贰陆年零叁月零壹日", "贰零贰陆年"]);
/// let date = BillDate { year: 2026, month: 3, day: 1 };
/// assert!(dates.eq([Ok(date), Err(ChineseToDateError::Unfinished)]));
/// ```
pub fn chinese_to_dates<S: AsRef<str>>(
    texts: impl IntoIterator<Item = S>,
) -> impl Iterator<Item = Result<BillDate, ChineseToDateError>> {
    texts.into_iter().map(|text| chinese_to_date(text.as_ref()))
}
