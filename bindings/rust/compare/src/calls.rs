//! The calls of both crates, side by side.

use std::fmt::{Debug, Display};

/// The ways of the first readers and printers of a type, in their order.
pub const WAYS: [&str; 5] = ["naive", "Low", "TenThousand", "Middle", "High"];

/// Why a call refuses, in either crate.
#[derive(Debug, Copy, Clone, Eq, PartialEq)]
pub enum Refusal {
    Empty,
    Incorrect(usize),
    Overflow,
    Underflow,
}

macro_rules! refusals {
    ($($one:ident)+) => { $(
        impl From<$one::ChineseToNumberError> for Refusal {
            fn from(error: $one::ChineseToNumberError) -> Self {
                use $one::ChineseToNumberError::*;
                match error {
                    ChineseNumberEmpty => Self::Empty,
                    ChineseNumberIncorrect { char_index } => Self::Incorrect(char_index),
                    Overflow => Self::Overflow,
                    Underflow => Self::Underflow,
                }
            }
        }

        impl From<$one::NumberToChineseError> for Refusal {
            fn from(error: $one::NumberToChineseError) -> Self {
                match error {
                    $one::NumberToChineseError::Overflow => Self::Overflow,
                    $one::NumberToChineseError::Underflow => Self::Underflow,
                }
            }
        }
    )+ };
}

refusals! { upstream proved }

pub type Told<T> = Result<T, Refusal>;

/// A reader of both crates.
pub struct Reader<T> {
    pub name: &'static str,
    pub upstream: fn(&str) -> Told<T>,
    pub proved: fn(&str) -> Told<T>,
}

/// A printer of both crates.
pub struct Printer<T> {
    pub name: &'static str,
    pub upstream: fn(Style, T) -> Told<String>,
    pub proved: fn(Style, T) -> Told<String>,
}

/// The script and the case of a printed numeral.
#[derive(Debug, Copy, Clone)]
pub struct Style {
    pub simple: bool,
    pub upper: bool,
}

macro_rules! scripts_and_cases {
    ($($one:ident)+) => { $(
        impl From<Style> for $one::ChineseVariant {
            fn from(style: Style) -> Self {
                if style.simple { Self::Simple } else { Self::Traditional }
            }
        }

        impl From<Style> for $one::ChineseCase {
            fn from(style: Style) -> Self {
                if style.upper { Self::Upper } else { Self::Lower }
            }
        }
    )+ };
}

scripts_and_cases! { upstream proved }

/// What a printer returns: a text, or a text or an error.
trait Printed {
    fn told(self) -> Told<String>;
}

impl Printed for String {
    fn told(self) -> Told<String> {
        Ok(self)
    }
}

impl<E: Into<Refusal>> Printed for Result<String, E> {
    fn told(self) -> Told<String> {
        self.map_err(Into::into)
    }
}

/// One of the twelve integer types, with its calls in both crates.
pub trait Integer: Copy + Debug + Display + Eq + TryFrom<Self::Wide> + 'static {
    /// `u128` or `i128`.
    type Wide: Integer;
    const NAME: &'static str;
    const BITS: u32;
    /// Those of the trait, by `WAYS`, and then those by name.
    const READERS: &'static [Reader<Self>];
    /// Those of the trait, by `WAYS`, and then those by name.
    const PRINTERS: &'static [Printer<Self>];

    /// The lowest bits as a number; of their negation, if the type has a sign.
    fn cut(bits: u128, negated: bool) -> Self;
}

macro_rules! reader {
    ($call:ident($($way:tt)*)) => {
        Reader {
            name: stringify!($call $($way)*),
            upstream: |text| Ok(reader!(upstream text $call $($way)*)?),
            proved: |text| Ok(reader!(proved text $call $($way)*)?),
        }
    };
    ($one:ident $text:ident $call:ident) => { $one::$call($text) };
    ($one:ident $text:ident $call:ident $t:ident) => {
        $one::ChineseToNumber::<$t>::$call(&$text)
    };
    ($one:ident $text:ident $call:ident $t:ident $method:ident) => {
        $one::ChineseToNumber::<$t>::$call(&$text, $one::ChineseCountMethod::$method)
    };
}

macro_rules! printer {
    ($call:ident($($way:tt)*)) => {
        Printer {
            name: stringify!($call $($way)*),
            upstream: |style, value| printer!(upstream style value $call $($way)*).told(),
            proved: |style, value| printer!(proved style value $call $($way)*).told(),
        }
    };
    ($one:ident $style:ident $value:ident $call:ident) => {
        $one::$call($style.into(), $style.into(), $value)
    };
    ($one:ident $style:ident $value:ident $call:ident $t:ident) => {
        <$t as $one::NumberToChinese>::$call($value, $style.into(), $style.into())
    };
    ($one:ident $style:ident $value:ident $call:ident $t:ident $method:ident) => {{
        let method = $one::ChineseCountMethod::$method;
        <$t as $one::NumberToChinese>::$call($value, $style.into(), $style.into(), method)
    }};
}

macro_rules! integers {
    ($($t:ident $wide:ident: $($reader:ident)+, $($printer:ident)+;)+) => { $(
        impl Integer for $t {
            type Wide = $wide;
            const NAME: &'static str = stringify!($t);
            const BITS: u32 = <$t>::BITS;
            const READERS: &'static [Reader<Self>] = &[
                reader!(to_number_naive($t)),
                reader!(to_number($t Low)),
                reader!(to_number($t TenThousand)),
                reader!(to_number($t Middle)),
                reader!(to_number($t High)),
                $(reader!($reader()),)+
            ];
            const PRINTERS: &'static [Printer<Self>] = &[
                printer!(to_chinese_naive($t)),
                printer!(to_chinese($t Low)),
                printer!(to_chinese($t TenThousand)),
                printer!(to_chinese($t Middle)),
                printer!(to_chinese($t High)),
                $(printer!($printer()),)+
            ];

            fn cut(bits: u128, negated: bool) -> Self {
                let has_sign = <$t>::MIN != 0;
                (if negated && has_sign { bits.wrapping_neg() } else { bits }) as $t
            }
        }
    )+ };
}

integers! {
    u8 u128: from_chinese_to_u8_naive from_chinese_to_u8,
        from_u8_to_chinese_naive from_u8_to_chinese;
    u16 u128: from_chinese_to_u16_naive from_chinese_to_u16,
        from_u16_to_chinese_naive from_u16_to_chinese;
    u32 u128: from_chinese_to_u32_naive from_chinese_to_u32_low
        from_chinese_to_u32_ten_thousand from_chinese_to_u32_middle from_chinese_to_u32_high,
        from_u32_to_chinese_naive from_u32_to_chinese_low
        from_u32_to_chinese_ten_thousand from_u32_to_chinese_middle from_u32_to_chinese_high;
    u64 u128: from_chinese_to_u64_naive from_chinese_to_u64_low
        from_chinese_to_u64_ten_thousand from_chinese_to_u64_middle from_chinese_to_u64_high,
        from_u64_to_chinese_naive from_u64_to_chinese_low
        from_u64_to_chinese_ten_thousand from_u64_to_chinese_middle from_u64_to_chinese_high;
    u128 u128: from_chinese_to_u128_naive from_chinese_to_u128_low
        from_chinese_to_u128_ten_thousand from_chinese_to_u128_middle from_chinese_to_u128_high,
        from_u128_to_chinese_naive from_u128_to_chinese_low
        from_u128_to_chinese_ten_thousand from_u128_to_chinese_middle from_u128_to_chinese_high;
    usize u128: from_chinese_to_usize_naive from_chinese_to_usize_low
        from_chinese_to_usize_ten_thousand from_chinese_to_usize_middle from_chinese_to_usize_high,
        from_usize_to_chinese_naive from_usize_to_chinese_low
        from_usize_to_chinese_ten_thousand from_usize_to_chinese_middle from_usize_to_chinese_high;
    i8 i128: from_chinese_to_i8_naive from_chinese_to_i8,
        from_i8_to_chinese_naive from_i8_to_chinese;
    i16 i128: from_chinese_to_i16_naive from_chinese_to_i16,
        from_i16_to_chinese_naive from_i16_to_chinese;
    i32 i128: from_chinese_to_i32_naive from_chinese_to_i32_low
        from_chinese_to_i32_ten_thousand from_chinese_to_i32_middle from_chinese_to_i32_high,
        from_i32_to_chinese_naive from_i32_to_chinese_low
        from_i32_to_chinese_ten_thousand from_i32_to_chinese_middle from_i32_to_chinese_high;
    i64 i128: from_chinese_to_i64_naive from_chinese_to_i64_low
        from_chinese_to_i64_ten_thousand from_chinese_to_i64_middle from_chinese_to_i64_high,
        from_i64_to_chinese_naive from_i64_to_chinese_low
        from_i64_to_chinese_ten_thousand from_i64_to_chinese_middle from_i64_to_chinese_high;
    i128 i128: from_chinese_to_i128_naive from_chinese_to_i128_low
        from_chinese_to_i128_ten_thousand from_chinese_to_i128_middle from_chinese_to_i128_high,
        from_i128_to_chinese_naive from_i128_to_chinese_low
        from_i128_to_chinese_ten_thousand from_i128_to_chinese_middle from_i128_to_chinese_high;
    isize i128: from_chinese_to_isize_naive from_chinese_to_isize_low
        from_chinese_to_isize_ten_thousand from_chinese_to_isize_middle from_chinese_to_isize_high,
        from_isize_to_chinese_naive from_isize_to_chinese_low
        from_isize_to_chinese_ten_thousand from_isize_to_chinese_middle from_isize_to_chinese_high;
}

/// Evaluates an expression once for each of the twelve types, which it calls by the first name.
#[macro_export]
macro_rules! for_each_integer {
    ($t:ident => $each:expr) => {
        for_each_integer!($t $each; u8 u16 u32 u64 u128 usize i8 i16 i32 i64 i128 isize)
    };
    ($t:ident $each:expr; $($integer:ident)+) => {
        $({
            type $t = $integer;
            $each;
        })+
    };
}
