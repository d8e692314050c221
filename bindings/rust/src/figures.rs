//! Amounts of money in figures, which every feature has.

use core::fmt::{self, Display, Formatter};

use crate::abi;
use crate::codes::{status, text};

/// Why a text is not an amount in figures. For a person, [`input_message`](crate::input_message)
/// says it in a language.
#[non_exhaustive]
#[derive(Debug, Copy, Clone, Eq, PartialEq)]
pub enum FiguresError {
    /// A digit is missing at the end. The empty text is unfinished too.
    Unfinished,
    /// No figures begin with the text up to and including this character.
    Incorrect {
        /// How many characters of the text come before it.
        char_index: usize,
    },
    /// The amount is 10^18 fen or more, or -10^18 or less.
    Overflow,
}

impl Display for FiguresError {
    fn fmt(&self, f: &mut Formatter<'_>) -> fmt::Result {
        match self {
            Self::Unfinished => f.write_str(text::AMOUNT_UNFINISHED),
            Self::Incorrect { char_index } => {
                write!(f, "{} (position: {char_index})", text::AMOUNT_INCORRECT)
            }
            Self::Overflow => f.write_str(text::TOO_LARGE),
        }
    }
}

impl core::error::Error for FiguresError {}

/// Reads an amount of money in figures, such as `-1,409.50`, in fen, and never rounds. The figures
/// may have the prefix - or −, then ¥, and commas between groups of three digits. Digits, commas,
/// points and ¥ may be full-width. This call needs no feature.
///
/// # Errors
///
/// Returns a [`FiguresError`] if the text is refused.
///
/// ```rust
/// use chinese_number::{yuan_to_fen, FiguresError};
///
/// assert_eq!(yuan_to_fen("¥1,409.50"), Ok(140_950));
/// assert_eq!(yuan_to_fen("-15"), Ok(-1_500));
/// assert_eq!(yuan_to_fen("15."), Err(FiguresError::Unfinished));
/// assert_eq!(yuan_to_fen("15.005"), Err(FiguresError::Incorrect { char_index: 5 }));
/// ```
#[inline]
pub fn yuan_to_fen(figures: &str) -> Result<i64, FiguresError> {
    abi::read_figures(figures).map_err(|(status, char_index)| match status {
        status::UNFINISHED => FiguresError::Unfinished,
        status::INCORRECT => FiguresError::Incorrect { char_index },
        status::TOO_LARGE => FiguresError::Overflow,
        _ => unreachable!("a `str` is UTF-8"),
    })
}
