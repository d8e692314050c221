//! What may come next in a text, a change that repairs it, and why it is refused.

use core::fmt::{self, Debug, Formatter};

use alloc::string::String;

use crate::abi;
use crate::codes::{change, MOST_EXPECTED};
use crate::{ChineseCountMethod, Fault, Input, Integer, Language, Way};

/// What may come next in a text, after its longest part, from the start, that begins an input.
#[derive(Debug, Copy, Clone, Eq, PartialEq)]
pub struct Expected {
    /// How many characters this part has: all of the text, or those before the wrong character.
    pub char_index: usize,
    /// How many bytes it has.
    pub byte_index: usize,
    /// Whether this part is complete, so that the text may end there.
    pub may_end: bool,
    /// Whether white space may come next, in addition to the characters.
    pub white_space: bool,
    characters: Characters,
}

impl Expected {
    /// The characters that may come next, without white space.
    #[inline]
    #[must_use]
    pub fn characters(&self) -> &[char] {
        self.characters.as_slice()
    }
}

// Characters at the start of a buffer.
#[derive(Copy, Clone, Eq, PartialEq)]
struct Characters {
    count: usize,
    buffer: [char; MOST_EXPECTED],
}

impl Characters {
    fn as_slice(&self) -> &[char] {
        &self.buffer[..self.count]
    }
}

impl Debug for Characters {
    fn fmt(&self, f: &mut Formatter<'_>) -> fmt::Result {
        self.as_slice().fmt(f)
    }
}

// The character of a code point of the library.
#[inline]
fn character(code: u32) -> char {
    char::from_u32(code).unwrap_or_default()
}

/// Says what may come next in a text that is meant to be such an input, for example to list keys.
/// If the reader of the input returns `Incorrect`, `char_index` is the same.
///
/// ```rust
/// use chinese_number::{input_expected, Input};
///
/// let expected = input_expected("壹佰贰元整", Input::Amount);
/// assert_eq!((expected.char_index, expected.byte_index), (3, 9));
/// assert_eq!(expected.characters(), ['拾']);
/// assert!(!expected.may_end && !expected.white_space);
/// assert!(input_expected("壹佰元整", Input::Amount).may_end);
/// ```
#[must_use]
pub fn input_expected(text: &str, input: Input) -> Expected {
    let abi::Expected { char_index, byte_index, may_end, white_space, count, characters } =
        abi::input_expected(text, input);
    Expected {
        char_index,
        byte_index,
        may_end: may_end != 0,
        white_space: white_space != 0,
        characters: Characters { count: count as usize, buffer: characters.map(character) },
    }
}

/// One change of a text.
#[derive(Debug, Copy, Clone, Eq, PartialEq, Hash)]
pub enum Repair {
    /// This character is inserted at the place.
    Insert(char),
    /// This character replaces the one at the place.
    Replace(char),
    /// The character at the place is deleted.
    Delete,
}

/// One change of a text, and its place.
#[derive(Debug, Copy, Clone, Eq, PartialEq, Hash)]
pub struct Hint {
    /// How many characters of the text come before the place.
    pub char_index: usize,
    /// How many bytes of the text come before it.
    pub byte_index: usize,
    /// What is changed there.
    pub repair: Repair,
}

/// Finds one change after which a text that is not such an input goes on past its wrong character.
/// A text that is only unfinished becomes such an input. Returns `None` if the text is right, or if
/// no change is found.
///
/// There may be another fault further on, and only a person can say that the change is what was
/// meant.
///
/// ```rust
/// use chinese_number::{input_repair, Input, Repair};
///
/// let hint = input_repair("壹佰贰元整", Input::Amount).unwrap();
/// assert_eq!((hint.char_index, hint.repair), (2, Repair::Insert('零')));
/// assert_eq!(input_repair("壹佰零贰元整", Input::Amount), None);
/// ```
#[must_use]
pub fn input_repair(text: &str, input: Input) -> Option<Hint> {
    let abi::Repair { char_index, byte_index, change, character: code } =
        abi::input_repair(text, input);
    let repair = match change {
        change::INSERT => Repair::Insert(character(code)),
        change::REPLACE => Repair::Replace(character(code)),
        change::DELETE => Repair::Delete,
        _ => return None,
    };
    Some(Hint { char_index, byte_index, repair })
}

fn fault(code: u32) -> Option<Fault> {
    Fault::ALL.into_iter().find(|fault| *fault as u32 == code)
}

/// Says why a text is not a number of an integer type when it is read in a way. If a character is
/// wrong, it is the rule that the text from there on breaks first. Returns `None` if the text is
/// read.
///
/// ```rust
/// use chinese_number::{explain_number, ChineseCountMethod, Fault, Way};
///
/// assert_eq!(explain_number::<i64>("一百十", Way::Any), Some(Fault::Units));
/// let by_units = explain_number::<i64>("一二三", ChineseCountMethod::TenThousand);
/// assert_eq!(by_units, Some(Fault::Digits));
/// assert_eq!(explain_number::<i64>("一二三", Way::Digits), None);
/// assert_eq!(explain_number::<u8>("三百", Way::Any), Some(Fault::TooLarge));
/// ```
#[must_use]
pub fn explain_number<T: Integer>(text: &str, way: impl Into<Way>) -> Option<Fault> {
    fault(abi::explain::<T>(text, way.into()))
}

/// Says why a text is not a quantity, as [`explain_number`] does for a number.
///
/// ```rust
/// use chinese_number::{explain_quantity, ChineseCountMethod, Fault};
///
/// let method = ChineseCountMethod::TenThousand;
/// assert_eq!(explain_quantity("零分之一", method), Some(Fault::Denominator));
/// assert_eq!(explain_quantity("一亿二千", method), Some(Fault::LeftOutZero));
/// assert_eq!(explain_quantity("三分之一", method), None);
/// ```
#[must_use]
pub fn explain_quantity(text: &str, method: ChineseCountMethod) -> Option<Fault> {
    fault(abi::explain_quantity(text, method.into()))
}

/// Writes a message for the person who typed a text: why it is not such an input, with the wrong
/// character, its position counted from 1, and the repair, if there is one. The message is empty if
/// the text is right.
///
/// ```rust
/// use chinese_number::{input_message, Input, Language};
///
/// let message = input_message("壹佰贰元整", Input::Amount, Language::SimplifiedChinese);
/// assert_eq!(message, "第3个字“贰”前缺“零”。");
/// assert_eq!(input_message("壹佰元整", Input::Amount, Language::English), "");
/// ```
#[must_use]
pub fn input_message(text: &str, input: Input, language: Language) -> String {
    abi::input_message(text, input, language)
}

/// Writes a message for the person who typed a text: why it is not a number of an integer type when
/// it is read in a way. The message is empty if the text is read.
///
/// ```rust
/// use chinese_number::{number_message, Language, Way};
///
/// let message = number_message::<u8>("一百角", Way::Any, Language::SimplifiedChinese);
/// assert_eq!(message, "第3个字“角”不是数字用字。");
/// let message = number_message::<u8>("三百", Way::Any, Language::English);
/// assert_eq!(message, "The number is too large.");
/// assert_eq!(number_message::<u16>("三百", Way::Any, Language::English), "");
/// ```
#[must_use]
pub fn number_message<T: Integer>(text: &str, way: impl Into<Way>, language: Language) -> String {
    abi::number_message::<T>(text, way.into(), language)
}

/// Writes a message for the person who typed a text: why it is not a quantity. The message is empty
/// if the text is read.
///
/// ```rust
/// use chinese_number::{quantity_message, ChineseCountMethod, Language};
///
/// let method = ChineseCountMethod::TenThousand;
/// let message = quantity_message("零分之一", method, Language::English);
/// assert_eq!(message, "The denominator must be a whole number above 0.");
/// assert_eq!(quantity_message("三分之一", method, Language::English), "");
/// ```
#[must_use]
pub fn quantity_message(text: &str, method: ChineseCountMethod, language: Language) -> String {
    abi::quantity_message(text, method.into(), language)
}
