//! Exact quantities.

use crate::QuantityForm;

/// An exact quantity, as written and not reduced: 12.5% is 125/1000.
///
/// Two quantities are equal if their numerators, denominators and forms are: 3.10 and 3.1 differ.
#[derive(Debug, Copy, Clone, Eq, PartialEq, Hash)]
pub struct Quantity {
    /// The numerator, with the sign.
    pub numerator: i128,
    /// The denominator, above 0.
    pub denominator: u128,
    /// How the quantity is written.
    pub form: QuantityForm,
}

impl Quantity {
    /// Makes a number with this many decimals, or a whole number for 0 decimals. Returns `None` for
    /// 39 decimals or more.
    ///
    /// ```rust
    /// use chinese_number::{Quantity, QuantityForm};
    ///
    /// let form = QuantityForm::Decimal;
    /// let quantity = Quantity { numerator: 314, denominator: 100, form };
    /// assert_eq!(Quantity::decimal(314, 2), Some(quantity));
    /// ```
    #[must_use]
    pub fn decimal(numerator: i128, decimals: u32) -> Option<Self> {
        let form = if decimals == 0 { QuantityForm::Whole } else { QuantityForm::Decimal };
        Some(Self { numerator, denominator: 10u128.checked_pow(decimals)?, form })
    }

    /// Makes a percentage with this many decimals. Returns `None` for 37 decimals or more.
    ///
    /// ```rust
    /// use chinese_number::{Quantity, QuantityForm};
    ///
    /// let form = QuantityForm::Percent;
    /// let quantity = Quantity { numerator: 125, denominator: 1_000, form };
    /// assert_eq!(Quantity::percent(125, 1), Some(quantity));
    /// ```
    #[must_use]
    pub fn percent(numerator: i128, decimals: u32) -> Option<Self> {
        let denominator = 10u128.checked_pow(decimals.checked_add(2)?)?;
        Some(Self { numerator, denominator, form: QuantityForm::Percent })
    }

    /// Makes a fraction. Returns `None` if the denominator is 0.
    ///
    /// ```rust
    /// use chinese_number::{Quantity, QuantityForm};
    ///
    /// let form = QuantityForm::Fraction;
    /// let quantity = Quantity { numerator: 1, denominator: 3, form };
    /// assert_eq!(Quantity::fraction(1, 3), Some(quantity));
    /// ```
    #[must_use]
    pub fn fraction(numerator: i128, denominator: u128) -> Option<Self> {
        let form = QuantityForm::Fraction;
        (denominator > 0).then_some(Self { numerator, denominator, form })
    }

    /// The same quantity without the zeros at the end of its decimals: 3.1 for 3.10, the whole
    /// number 35000 for 3.5万, 12.5% for 12.50%. A fraction stays the same, and so does a quantity
    /// whose denominator does not match its form.
    ///
    /// ```rust
    /// use chinese_number::Quantity;
    ///
    /// let trimmed = Quantity::decimal(350_000, 1).map(Quantity::trimmed);
    /// assert_eq!(trimmed, Quantity::decimal(35_000, 0));
    /// ```
    #[must_use]
    pub fn trimmed(self) -> Self {
        let Self { mut numerator, mut denominator, mut form } = self;
        let least = match form {
            QuantityForm::Decimal => 1,
            QuantityForm::Percent => 100,
            QuantityForm::Whole | QuantityForm::Fraction => return self,
        };
        let power = denominator.checked_ilog10().map(|exponent| 10u128.pow(exponent));
        if power != Some(denominator) || denominator <= least {
            return self;
        }
        while denominator > least && numerator % 10 == 0 {
            numerator /= 10;
            denominator /= 10;
        }
        if denominator == 1 {
            form = QuantityForm::Whole;
        }
        Self { numerator, denominator, form }
    }

    /// The value as an integer, if it is a whole number and the type holds it: 35000 for 3.5万,
    /// which is 350000/10, and `None` for 3.5.
    #[must_use]
    pub fn to_whole<T: TryFrom<i128>>(self) -> Option<T> {
        let magnitude = self.numerator.unsigned_abs();
        if magnitude.checked_rem(self.denominator)? != 0 {
            return None;
        }
        let whole = magnitude / self.denominator;
        let whole = if self.numerator < 0 {
            0i128.checked_sub_unsigned(whole)?
        } else {
            whole.try_into().ok()?
        };
        whole.try_into().ok()
    }
}
