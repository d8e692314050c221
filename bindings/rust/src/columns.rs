//! Columns: many numbers, amounts of money or dates that are written into one buffer.

use core::marker::PhantomData;

use alloc::string::String;
use alloc::vec::Vec;

use crate::abi::{self, Texts};
use crate::codes::status;
use crate::{
    AmountForm, AmountToChineseError, BillDate, ChineseCase, ChineseVariant, DateToChineseError,
    Integer, NumberToChineseError, Way,
};

/// Why a value cannot be written: the error of a status.
pub trait Refusal {
    fn of(status: u32) -> Self;
}

/// Texts of many values, one after another in one buffer. Each row is a text, or the error of its
/// value, which has no text there.
///
/// ```rust
/// use chinese_number::{numbers_to_chinese, ChineseCase, ChineseVariant, Way};
///
/// let (variant, case) = (ChineseVariant::Simple, ChineseCase::Lower);
/// let column = numbers_to_chinese(variant, case, Way::Any, &[120, -7]);
/// assert_eq!(column.len(), 2);
/// assert_eq!(column.get(1), Some(Ok("负七")));
/// assert_eq!(column.as_str(), "一百二十负七");
/// ```
#[derive(Debug, Clone)]
pub struct Column<E> {
    text: String,
    offsets: Vec<u64>,
    statuses: Vec<u32>,
    error: PhantomData<fn() -> E>,
}

impl<E: Refusal> Column<E> {
    fn new(texts: Texts) -> Self {
        let Texts { text, offsets, statuses } = texts;
        Self { text, offsets, statuses, error: PhantomData }
    }

    /// How many rows there are.
    #[must_use]
    pub fn len(&self) -> usize {
        self.statuses.len()
    }

    /// Whether there is no row.
    #[must_use]
    pub fn is_empty(&self) -> bool {
        self.statuses.is_empty()
    }

    /// The text of a row, or its error; `None` if there is no such row.
    #[inline]
    #[must_use]
    pub fn get(&self, row: usize) -> Option<Result<&str, E>> {
        self.statuses.get(row).map(|_| self.row(row))
    }

    /// The rows in order.
    ///
    /// ```rust
    /// use chinese_number::{signed_amounts_to_chinese, AmountForm, ChineseVariant};
    ///
    /// let fen = [1_500, i64::MAX];
    /// let column = signed_amounts_to_chinese(ChineseVariant::Simple, AmountForm::PLAIN, &fen);
    /// let texts: Vec<&str> = column.rows().map(|row| row.unwrap_or("?")).collect();
    /// assert_eq!(texts, ["壹拾伍元整", "?"]);
    /// ```
    #[inline]
    #[must_use]
    pub fn rows(&self) -> impl DoubleEndedIterator<Item = Result<&str, E>> + ExactSizeIterator {
        (0..self.len()).map(|row| self.row(row))
    }

    /// The texts of all rows, one after another.
    #[must_use]
    pub fn as_str(&self) -> &str {
        &self.text
    }

    #[inline]
    #[allow(clippy::cast_possible_truncation, reason = "the offsets are within the buffer")]
    fn row(&self, row: usize) -> Result<&str, E> {
        match self.statuses[row] {
            status::DONE => {
                Ok(&self.text[self.offsets[row] as usize..self.offsets[row + 1] as usize])
            }
            status => Err(E::of(status)),
        }
    }
}

/// Writes numbers, each as [`NumberToChinese::to_chinese`](crate::NumberToChinese::to_chinese)
/// does, or in another way.
///
/// Only `Low` refuses numbers, those of 10^16 or more and of -10^16 or less.
///
/// ```rust
/// use chinese_number::{
///     numbers_to_chinese, ChineseCase, ChineseCountMethod, ChineseVariant, NumberToChineseError,
/// };
///
/// let (variant, case) = (ChineseVariant::Simple, ChineseCase::Lower);
/// let column = numbers_to_chinese(variant, case, ChineseCountMethod::Low, &[120, i64::MAX]);
/// assert!(column.rows().eq([Ok("一百二十"), Err(NumberToChineseError::Overflow)]));
/// ```
#[must_use]
pub fn numbers_to_chinese<T: Integer>(
    chinese_variant: ChineseVariant,
    chinese_case: ChineseCase,
    way: impl Into<Way>,
    numbers: &[T],
) -> Column<NumberToChineseError> {
    Column::new(abi::print_numbers(chinese_variant, chinese_case, way.into(), numbers))
}

/// Writes amounts of money, in fen, each as
/// [`signed_amount_to_chinese`](crate::signed_amount_to_chinese) does.
///
/// Amounts of 10^18 fen or more, and of -10^18 fen or less, are refused.
///
/// ```rust
/// use chinese_number::{
///     signed_amounts_to_chinese, AmountForm, AmountToChineseError, ChineseVariant,
/// };
///
/// let (form, fen) = (AmountForm::PLAIN, [-1_500, i64::MIN]);
/// let column = signed_amounts_to_chinese(ChineseVariant::Simple, form, &fen);
/// assert!(column.rows().eq([Ok("负壹拾伍元整"), Err(AmountToChineseError::Underflow)]));
/// ```
#[must_use]
pub fn signed_amounts_to_chinese(
    chinese_variant: ChineseVariant,
    form: AmountForm,
    fen: &[i64],
) -> Column<AmountToChineseError> {
    Column::new(abi::print_amounts(chinese_variant, form.code(), fen))
}

/// Writes dates, each as [`date_to_chinese`](crate::date_to_chinese) does.
///
/// A date that is not a day of the Gregorian calendar from year 1 to 9999 is refused.
///
/// ```rust
/// use chinese_number::{dates_to_chinese, BillDate, ChineseVariant, DateToChineseError};
///
/// let date = BillDate { year: 2026, month: 1, day: 15 };
/// let column = dates_to_chinese(ChineseVariant::Simple, &[date, BillDate { day: 32, ..date }]);
/// let texts = [Ok("贰零贰陆年零壹月壹拾伍日"), Err(DateToChineseError::NotADate)];
/// assert!(column.rows().eq(texts));
/// ```
#[must_use]
pub fn dates_to_chinese(
    chinese_variant: ChineseVariant,
    dates: &[BillDate],
) -> Column<DateToChineseError> {
    Column::new(abi::print_dates(chinese_variant, dates))
}
