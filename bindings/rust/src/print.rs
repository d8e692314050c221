//! The printers: they write numbers, quantities, amounts of money and dates.

use core::fmt::{self, Display, Formatter};
use core::mem::MaybeUninit;

use alloc::string::String;

use crate::abi;
use crate::codes::{form, status, text, MOST_QUANTITY_BYTES};
use crate::columns::Refusal;
use crate::{
    BillDate, ChineseCase, ChineseCountMethod, ChineseVariant, Integer, Language, Quantity, Way,
};

/// Why a number cannot be written with `Low`.
#[derive(Debug, Copy, Clone, Eq, PartialEq)]
pub enum NumberToChineseError {
    /// The number is 10^16 or more.
    Overflow,
    /// The number is -10^16 or less.
    Underflow,
}

/// A buffer for one text, to print without allocating. The text stays in the buffer until the next
/// one is printed there. The buffer is large enough for every number, quantity, amount and date.
///
/// ```rust
/// use core::fmt::{self, Display, Formatter};
///
/// use chinese_number::{AmountForm, ChineseVariant, Room};
///
/// struct Price(u32);
///
/// impl Display for Price {
///     fn fmt(&self, f: &mut Formatter<'_>) -> fmt::Result {
///         let (mut room, form) = (Room::new(), AmountForm::PLAIN);
///         let text = room.amount(ChineseVariant::Simple, form, self.0.into());
///         f.write_str(text.map_err(|_| fmt::Error)?)
///     }
/// }
///
/// assert_eq!(Price(1_500).to_string(), "壹拾伍元整");
/// ```
#[derive(Clone)]
pub struct Room(abi::Bytes);

impl Room {
    /// Makes a buffer without a text.
    #[inline]
    #[must_use]
    pub const fn new() -> Self {
        Self([MaybeUninit::uninit(); MOST_QUANTITY_BYTES])
    }

    /// Prints a number with units, as [`NumberToChinese::to_chinese`] does.
    ///
    /// # Errors
    ///
    /// `Low` refuses numbers of 10^16 or more, and of -10^16 or less.
    #[inline]
    pub fn number<T: Integer>(
        &mut self,
        chinese_variant: ChineseVariant,
        chinese_case: ChineseCase,
        method: ChineseCountMethod,
        value: T,
    ) -> Result<&str, NumberToChineseError> {
        self.by_way(chinese_variant, chinese_case, method.into(), value)
    }

    /// Prints a number as plain digits, as [`NumberToChinese::to_chinese_naive`] does.
    #[inline]
    pub fn number_naive<T: Integer>(
        &mut self,
        chinese_variant: ChineseVariant,
        chinese_case: ChineseCase,
        value: T,
    ) -> &str {
        unrefused(self.by_way(chinese_variant, chinese_case, Way::Digits, value))
    }

    /// Prints a number as [`Integer::to_chinese_any`] does.
    #[inline]
    pub fn number_any<T: Integer>(
        &mut self,
        chinese_variant: ChineseVariant,
        chinese_case: ChineseCase,
        value: T,
    ) -> &str {
        unrefused(self.by_way(chinese_variant, chinese_case, Way::Any, value))
    }

    #[inline]
    fn by_way<T: Integer>(
        &mut self,
        variant: ChineseVariant,
        case: ChineseCase,
        way: Way,
        value: T,
    ) -> Result<&str, NumberToChineseError> {
        let text = abi::print(&mut self.0, variant, case, way, value);
        text.map_err(NumberToChineseError::of)
    }

    /// Prints a quantity, as [`Quantity::to_chinese`] does.
    ///
    /// # Errors
    ///
    /// Returns a [`QuantityToChineseError`] if the quantity is refused.
    #[inline]
    pub fn quantity(
        &mut self,
        chinese_variant: ChineseVariant,
        chinese_case: ChineseCase,
        method: ChineseCountMethod,
        quantity: Quantity,
    ) -> Result<&str, QuantityToChineseError> {
        self.quantity_by_way(chinese_variant, chinese_case, method.into(), quantity)
    }

    /// Prints a quantity, as [`Quantity::to_chinese_any`] does.
    ///
    /// # Errors
    ///
    /// A denominator of 0 is refused.
    #[inline]
    pub fn quantity_any(
        &mut self,
        chinese_variant: ChineseVariant,
        chinese_case: ChineseCase,
        quantity: Quantity,
    ) -> Result<&str, QuantityToChineseError> {
        self.quantity_by_way(chinese_variant, chinese_case, Way::Any, quantity)
    }

    #[inline]
    fn quantity_by_way(
        &mut self,
        variant: ChineseVariant,
        case: ChineseCase,
        way: Way,
        quantity: Quantity,
    ) -> Result<&str, QuantityToChineseError> {
        let text = abi::print_quantity(&mut self.0, variant, case, way, quantity);
        text.map_err(QuantityToChineseError::of)
    }

    /// Prints a quantity in figures, as [`Quantity::to_figures`] does.
    #[inline]
    pub fn figures(&mut self, quantity: Quantity) -> &str {
        let text = abi::print_figures(&mut self.0, quantity);
        text.unwrap_or_else(|_| unreachable!("the form is valid, and the buffer large enough"))
    }

    /// Prints an amount of money, in fen, as [`amount_to_chinese_as`] does.
    ///
    /// # Errors
    ///
    /// An amount of 10^18 fen or more is refused.
    #[inline]
    pub fn amount(
        &mut self,
        chinese_variant: ChineseVariant,
        form: AmountForm,
        fen: u64,
    ) -> Result<&str, AmountToChineseError> {
        let text = abi::print_amount(&mut self.0, chinese_variant, form.code(), fen);
        text.map_err(AmountToChineseError::of)
    }

    /// Prints an amount of money that may be negative, in fen, as [`signed_amount_to_chinese`]
    /// does.
    ///
    /// # Errors
    ///
    /// Amounts of 10^18 fen or more, and of -10^18 fen or less, are refused.
    #[inline]
    pub fn signed_amount(
        &mut self,
        chinese_variant: ChineseVariant,
        form: AmountForm,
        fen: i64,
    ) -> Result<&str, AmountToChineseError> {
        let text = abi::print_signed_amount(&mut self.0, chinese_variant, form.code(), fen);
        text.map_err(AmountToChineseError::of)
    }

    /// Prints a date, as [`date_to_chinese`] does.
    ///
    /// # Errors
    ///
    /// A date that is not a day of the Gregorian calendar from year 1 to 9999 is refused.
    #[inline]
    pub fn date(
        &mut self,
        chinese_variant: ChineseVariant,
        date: BillDate,
    ) -> Result<&str, DateToChineseError> {
        let text = abi::print_date(&mut self.0, chinese_variant, date);
        text.map_err(DateToChineseError::of)
    }
}

impl Default for Room {
    #[inline]
    fn default() -> Self {
        Self::new()
    }
}

impl fmt::Debug for Room {
    fn fmt(&self, f: &mut Formatter<'_>) -> fmt::Result {
        f.write_str("Room")
    }
}

// The text of a number in a way that never refuses one.
#[inline]
fn unrefused(text: Result<&str, NumberToChineseError>) -> &str {
    text.unwrap_or_else(|_| unreachable!("only `Low` refuses numbers, from 10^16 on"))
}

/// A number that can be written in Chinese.
///
/// ```rust
/// use chinese_number::{
///     ChineseCase, ChineseCountMethod, ChineseVariant, NumberToChinese, NumberToChineseError,
/// };
///
/// let (script, case) = (ChineseVariant::Simple, ChineseCase::Upper);
/// let text = 123i8.to_chinese(script, case, ChineseCountMethod::Low);
/// assert_eq!(text.unwrap(), "壹佰贰拾叁");
/// let text = u64::MAX.to_chinese(script, case, ChineseCountMethod::Low);
/// assert_eq!(text, Err(NumberToChineseError::Overflow));
/// ```
pub trait NumberToChinese {
    /// Writes the number with units, by a method: 123 is 一百二十三.
    ///
    /// # Errors
    ///
    /// `Low` refuses numbers of 10^16 or more, and of -10^16 or less.
    fn to_chinese(
        self,
        chinese_variant: ChineseVariant,
        chinese_case: ChineseCase,
        method: ChineseCountMethod,
    ) -> Result<String, NumberToChineseError>;

    /// Writes the number as plain digits: 123 is 一二三.
    #[must_use]
    fn to_chinese_naive(self, chinese_variant: ChineseVariant, chinese_case: ChineseCase)
        -> String;
}

macro_rules! printer {
    ($t:ty, $name:ident, $way:ident, $how:expr) => {
        #[doc = concat!("Writes a `", stringify!($t), "` ", $how, ".")]
        #[inline]
        #[must_use]
        pub fn $name(
            chinese_variant: ChineseVariant,
            chinese_case: ChineseCase,
            value: $t,
        ) -> String {
            unrefused(Room::new().by_way(chinese_variant, chinese_case, Way::$way, value)).into()
        }
    };
    ($t:ty, $name:ident, $way:ident, $how:expr, refuses) => {
        #[doc = concat!("Writes a `", stringify!($t), "` ", $how, ".")]
        ///
        /// # Errors
        ///
        /// Refuses numbers of 10^16 or more, and of -10^16 or less.
        #[inline]
        pub fn $name(
            chinese_variant: ChineseVariant,
            chinese_case: ChineseCase,
            value: $t,
        ) -> Result<String, NumberToChineseError> {
            value.to_chinese(chinese_variant, chinese_case, ChineseCountMethod::$way)
        }
    };
}

macro_rules! printers {
    ($t:ty: $naive:ident $(, $name:ident $method:ident $($refuses:ident)?)*) => {
        impl NumberToChinese for $t {
            #[inline]
            fn to_chinese(
                self,
                chinese_variant: ChineseVariant,
                chinese_case: ChineseCase,
                method: ChineseCountMethod,
            ) -> Result<String, NumberToChineseError> {
                Room::new().number(chinese_variant, chinese_case, method, self).map(String::from)
            }

            #[inline]
            fn to_chinese_naive(
                self,
                chinese_variant: ChineseVariant,
                chinese_case: ChineseCase,
            ) -> String {
                $naive(chinese_variant, chinese_case, self)
            }
        }

        printer!($t, $naive, Digits, "as plain digits");
        $(
            printer!($t, $name, $method, concat!("with `", stringify!($method), "`") $(, $refuses)?);
        )*
    };
}

printers! { u8: from_u8_to_chinese_naive, from_u8_to_chinese Low }
printers! { u16: from_u16_to_chinese_naive, from_u16_to_chinese Low }
printers! {
    u32: from_u32_to_chinese_naive,
    from_u32_to_chinese_low Low,
    from_u32_to_chinese_ten_thousand TenThousand,
    from_u32_to_chinese_middle Middle,
    from_u32_to_chinese_high High
}
printers! {
    u64: from_u64_to_chinese_naive,
    from_u64_to_chinese_low Low refuses,
    from_u64_to_chinese_ten_thousand TenThousand,
    from_u64_to_chinese_middle Middle,
    from_u64_to_chinese_high High
}
printers! {
    u128: from_u128_to_chinese_naive,
    from_u128_to_chinese_low Low refuses,
    from_u128_to_chinese_ten_thousand TenThousand,
    from_u128_to_chinese_middle Middle,
    from_u128_to_chinese_high High
}
printers! {
    usize: from_usize_to_chinese_naive,
    from_usize_to_chinese_low Low refuses,
    from_usize_to_chinese_ten_thousand TenThousand,
    from_usize_to_chinese_middle Middle,
    from_usize_to_chinese_high High
}
printers! { i8: from_i8_to_chinese_naive, from_i8_to_chinese Low }
printers! { i16: from_i16_to_chinese_naive, from_i16_to_chinese Low }
printers! {
    i32: from_i32_to_chinese_naive,
    from_i32_to_chinese_low Low,
    from_i32_to_chinese_ten_thousand TenThousand,
    from_i32_to_chinese_middle Middle,
    from_i32_to_chinese_high High
}
printers! {
    i64: from_i64_to_chinese_naive,
    from_i64_to_chinese_low Low refuses,
    from_i64_to_chinese_ten_thousand TenThousand,
    from_i64_to_chinese_middle Middle,
    from_i64_to_chinese_high High
}
printers! {
    i128: from_i128_to_chinese_naive,
    from_i128_to_chinese_low Low refuses,
    from_i128_to_chinese_ten_thousand TenThousand,
    from_i128_to_chinese_middle Middle,
    from_i128_to_chinese_high High
}
printers! {
    isize: from_isize_to_chinese_naive,
    from_isize_to_chinese_low Low refuses,
    from_isize_to_chinese_ten_thousand TenThousand,
    from_isize_to_chinese_middle Middle,
    from_isize_to_chinese_high High
}

/// Why a quantity cannot be written.
#[non_exhaustive]
#[derive(Debug, Copy, Clone, Eq, PartialEq)]
pub enum QuantityToChineseError {
    /// A number in it is 10^16 or more, and the method is `Low`.
    Overflow,
    /// The same, and the quantity is below zero.
    Underflow,
    /// The denominator is 0.
    ZeroDenominator,
}

impl Quantity {
    /// Writes the quantity by a method: 三点一四, 百分之十二点五, 三分之一. A quantity whose denominator does not
    /// match its form is written as a fraction. `chinese_to_quantity` reads the text as the same
    /// numerator and denominator.
    ///
    /// # Errors
    ///
    /// Refuses a denominator of 0, and with `Low` a quantity that contains a number of 10^16 or
    /// more.
    ///
    /// ```rust
    /// use chinese_number::{
    ///     ChineseCase, ChineseCountMethod, ChineseVariant, Quantity, QuantityToChineseError,
    /// };
    ///
    /// let written = |quantity: Quantity| {
    ///     let method = ChineseCountMethod::TenThousand;
    ///     quantity.to_chinese(ChineseVariant::Simple, ChineseCase::Lower, method)
    /// };
    /// assert_eq!(written(Quantity::percent(125, 1).unwrap()).unwrap(), "百分之十二点五");
    /// assert_eq!(written(Quantity::fraction(-1, 3).unwrap()).unwrap(), "负三分之一");
    /// let over_zero = Quantity { denominator: 0, ..Quantity::fraction(1, 3).unwrap() };
    /// assert_eq!(written(over_zero), Err(QuantityToChineseError::ZeroDenominator));
    /// ```
    #[inline]
    pub fn to_chinese(
        self,
        chinese_variant: ChineseVariant,
        chinese_case: ChineseCase,
        method: ChineseCountMethod,
    ) -> Result<String, QuantityToChineseError> {
        Room::new().quantity(chinese_variant, chinese_case, method, self).map(String::from)
    }

    /// Writes the quantity with `Middle` if the script is simple and each number spelled in it is
    /// below 10^16, otherwise with `TenThousand`. `chinese_to_quantity` reads it back with
    /// `TenThousand`.
    ///
    /// # Errors
    ///
    /// A denominator of 0 is refused.
    ///
    /// ```rust
    /// use chinese_number::{ChineseCase, ChineseVariant, Quantity};
    ///
    /// let quantity = Quantity::decimal(10_000_000_000_005, 1).unwrap();
    /// let text = quantity.to_chinese_any(ChineseVariant::Simple, ChineseCase::Lower);
    /// assert_eq!(text.unwrap(), "一万亿点五");
    /// let text = quantity.to_chinese_any(ChineseVariant::Traditional, ChineseCase::Lower);
    /// assert_eq!(text.unwrap(), "一兆點五");
    /// ```
    #[inline]
    pub fn to_chinese_any(
        self,
        chinese_variant: ChineseVariant,
        chinese_case: ChineseCase,
    ) -> Result<String, QuantityToChineseError> {
        Room::new().quantity_any(chinese_variant, chinese_case, self).map(String::from)
    }

    /// Writes the quantity in figures, without the zeros at the end of its decimals.
    ///
    /// ```rust
    /// use chinese_number::Quantity;
    ///
    /// assert_eq!(Quantity::decimal(350_000, 1).unwrap().to_figures(), "35000");
    /// assert_eq!(Quantity::percent(-125, 1).unwrap().to_figures(), "-12.5%");
    /// assert_eq!(Quantity::fraction(1, 3).unwrap().to_figures(), "1/3");
    /// ```
    #[inline]
    #[must_use]
    pub fn to_figures(self) -> String {
        Room::new().figures(self).into()
    }
}

/// How an amount of money is written: the choices in which cheques and invoices differ.
#[allow(clippy::struct_excessive_bools, reason = "any of them can be combined")]
#[derive(Debug, Default, Copy, Clone, Eq, PartialEq, Hash)]
pub struct AmountForm {
    /// Whether to write the prefix 人民币 (人民幣).
    pub currency: bool,
    /// Whether to write 圆 (圓) instead of 元.
    pub round_yuan: bool,
    /// Whether to write 正 instead of 整.
    pub upright_closing: bool,
    /// Whether to write （负数） (（負數）) instead of 负 (負) before a negative amount.
    pub bracketed_sign: bool,
}

impl AmountForm {
    /// With 元 and 整, and without a prefix; with 负 before a negative amount.
    pub const PLAIN: Self =
        Self { currency: false, round_yuan: false, upright_closing: false, bracketed_sign: false };

    #[inline]
    pub(crate) fn code(self) -> u32 {
        u32::from(self.currency) * form::CURRENCY
            + u32::from(self.round_yuan) * form::ROUND_YUAN
            + u32::from(self.upright_closing) * form::UPRIGHT_CLOSING
            + u32::from(self.bracketed_sign) * form::BRACKETED_SIGN
    }
}

/// Why an amount cannot be written.
///
/// ```rust
/// use chinese_number::{amount_to_chinese, ChineseVariant, Language};
///
/// let error = amount_to_chinese(ChineseVariant::Simple, u64::MAX).unwrap_err();
/// assert_eq!(error.to_string(), "number is too large");
/// assert_eq!(error.message_in(Language::SimplifiedChinese), "数值太大。");
/// ```
#[non_exhaustive]
#[derive(Debug, Copy, Clone, Eq, PartialEq)]
pub enum AmountToChineseError {
    /// The amount is 10^18 fen or more.
    Overflow,
    /// The amount is -10^18 fen or less.
    Underflow,
}

/// Writes an amount of money, in fen, in capitals as on a cheque, in the plain form.
///
/// # Errors
///
/// An amount of 10^18 fen or more is refused.
///
/// ```rust
/// use chinese_number::{amount_to_chinese, AmountToChineseError, ChineseVariant};
///
/// let text = amount_to_chinese(ChineseVariant::Simple, 1_500);
/// assert_eq!(text.unwrap(), "壹拾伍元整");
/// let text = amount_to_chinese(ChineseVariant::Simple, u64::MAX);
/// assert_eq!(text, Err(AmountToChineseError::Overflow));
/// ```
#[inline]
pub fn amount_to_chinese(
    chinese_variant: ChineseVariant,
    fen: u64,
) -> Result<String, AmountToChineseError> {
    amount_to_chinese_as(chinese_variant, AmountForm::PLAIN, fen)
}

/// Writes an amount of money, in fen, in capitals as on a cheque, in a form.
///
/// # Errors
///
/// An amount of 10^18 fen or more is refused.
///
/// ```rust
/// use chinese_number::{amount_to_chinese_as, AmountForm, ChineseVariant};
///
/// let form = AmountForm { currency: true, round_yuan: true, ..AmountForm::PLAIN };
/// let text = amount_to_chinese_as(ChineseVariant::Simple, form, 1_500);
/// assert_eq!(text.unwrap(), "人民币壹拾伍圆整");
/// ```
#[inline]
pub fn amount_to_chinese_as(
    chinese_variant: ChineseVariant,
    form: AmountForm,
    fen: u64,
) -> Result<String, AmountToChineseError> {
    Room::new().amount(chinese_variant, form, fen).map(String::from)
}

/// Writes an amount of money, in fen, in capitals and in a form. A negative amount, as on a red
/// invoice, has the prefix 负 (負), or （负数） (（負數）) with `bracketed_sign`. Cheques have no negative
/// amounts.
///
/// # Errors
///
/// Amounts of 10^18 fen or more, and of -10^18 fen or less, are refused.
///
/// ```rust
/// use chinese_number::{
///     signed_amount_to_chinese, AmountForm, AmountToChineseError, ChineseVariant,
/// };
///
/// let text = signed_amount_to_chinese(ChineseVariant::Simple, AmountForm::PLAIN, -1_500);
/// assert_eq!(text.unwrap(), "负壹拾伍元整");
/// let form = AmountForm { bracketed_sign: true, ..AmountForm::PLAIN };
/// let text = signed_amount_to_chinese(ChineseVariant::Simple, form, -1_500);
/// assert_eq!(text.unwrap(), "（负数）壹拾伍元整");
/// let text = signed_amount_to_chinese(ChineseVariant::Simple, AmountForm::PLAIN, i64::MIN);
/// assert_eq!(text, Err(AmountToChineseError::Underflow));
/// ```
#[inline]
pub fn signed_amount_to_chinese(
    chinese_variant: ChineseVariant,
    form: AmountForm,
    fen: i64,
) -> Result<String, AmountToChineseError> {
    Room::new().signed_amount(chinese_variant, form, fen).map(String::from)
}

/// Why a date cannot be written.
#[non_exhaustive]
#[derive(Debug, Copy, Clone, Eq, PartialEq)]
pub enum DateToChineseError {
    /// There is no such date.
    NotADate,
}

/// Writes a date in capitals as on a cheque.
///
/// # Errors
///
/// A date that is not a day of the Gregorian calendar from year 1 to 9999 is refused.
///
/// ```rust
/// use chinese_number::{date_to_chinese, BillDate, ChineseVariant, DateToChineseError};
///
/// let date = BillDate { year: 2025, month: 2, day: 28 };
/// let text = date_to_chinese(ChineseVariant::Simple, date);
/// assert_eq!(text.unwrap(), "贰零贰伍年零贰月贰拾捌日");
/// let text = date_to_chinese(ChineseVariant::Simple, BillDate { day: 30, ..date });
/// assert_eq!(text, Err(DateToChineseError::NotADate));
/// ```
#[inline]
pub fn date_to_chinese(
    chinese_variant: ChineseVariant,
    date: BillDate,
) -> Result<String, DateToChineseError> {
    Room::new().date(chinese_variant, date).map(String::from)
}

// The statuses of the errors: the error of a status, and the message and the text of an error.
macro_rules! errors {
    ($($error:ident: $($variant:ident $status:ident),+;)+) => {
        $(
            impl Refusal for $error {
                #[inline]
                fn of(status: u32) -> Self {
                    match status {
                        $(status::$status => Self::$variant,)+
                        _ => unreachable!("the codes and the values are valid"),
                    }
                }
            }

            impl $error {
                /// Writes what the error means, in a language, for the person whose value is refused.
                /// The text of the error itself stays in English.
                #[must_use]
                pub fn message_in(self, language: Language) -> String {
                    let status = match self {
                        $(Self::$variant => status::$status,)+
                    };
                    abi::status_message(status, language)
                }
            }

            impl Display for $error {
                fn fmt(&self, f: &mut Formatter<'_>) -> fmt::Result {
                    f.write_str(match self {
                        $(Self::$variant => text::$status,)+
                    })
                }
            }

            impl core::error::Error for $error {}
        )+
    };
}

errors! {
    NumberToChineseError: Overflow TOO_LARGE, Underflow TOO_SMALL;
    QuantityToChineseError: Overflow TOO_LARGE, Underflow TOO_SMALL, ZeroDenominator NOT_A_QUANTITY;
    AmountToChineseError: Overflow TOO_LARGE, Underflow TOO_SMALL;
    DateToChineseError: NotADate NOT_A_DATE;
}
