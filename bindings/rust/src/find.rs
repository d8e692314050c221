//! The numbers and the expressions in running text.

use core::iter::FusedIterator;
use core::ops::Range;

use crate::abi::{self, Sought};
use crate::codes::flag;
use crate::{
    chinese_to_quantity, ChineseCountMethod, ChineseToNumber, ChineseToNumberError, Doubt,
    Quantity, Unit,
};

/// Which characters a search looks for: the digits and the units up to the greatest one, with or
/// without the forms that only cheques use, such as 參 and 陸, which mean other things in sentences.
#[derive(Debug, Copy, Clone, Eq, PartialEq, Hash)]
pub struct Wanted {
    /// Whether to look for the forms of the upper case too.
    pub upper: bool,
    /// The greatest unit to look for.
    pub greatest: Unit,
}

impl Wanted {
    /// The characters of everyday sentences: the lower case, and units up to 兆.
    pub const EVERYDAY: Self = Self { upper: false, greatest: Unit::Zhao };
    /// All characters that the readers accept.
    pub const ALL: Self = Self { upper: true, greatest: Unit::Ji };
}

/// A run of numeral characters in its text.
#[derive(Debug, Copy, Clone, Eq, PartialEq)]
pub struct Found<'a> {
    /// The text before it.
    pub before: &'a str,
    /// The run itself.
    pub text: &'a str,
    /// The text after it.
    pub after: &'a str,
    pub(crate) flags: u32,
}

impl<'a> Found<'a> {
    /// How many bytes come before it.
    #[inline]
    #[must_use]
    pub fn start(self) -> usize {
        self.before.len()
    }

    /// How many bytes come before its end.
    #[inline]
    #[must_use]
    pub fn end(self) -> usize {
        self.start() + self.text.len()
    }

    /// Its place in the whole text, in bytes.
    #[inline]
    #[must_use]
    pub fn range(self) -> Range<usize> {
        self.start()..self.end()
    }

    /// Whether it is plain digits: a single digit is, 十 is not.
    #[inline]
    #[must_use]
    pub fn is_plain(self) -> bool {
        self.flags & flag::PLAIN_DIGITS != 0
    }

    /// Whether it stands alone: no ASCII letter, digit of any kind, `_`, 廿, 卅, 卌 or 幺 touches it,
    /// and no `.`, `,`, `-`, 点 or 點 links it to one of them or to a unit. So neither part of 3.5萬
    /// or 1,280 stands alone, nor does 三 in 廿三.
    #[inline]
    #[must_use]
    pub fn stands_alone(self) -> bool {
        self.flags & flag::STANDS_ALONE != 0
    }

    /// Whether it is approximate: 十 in 几十, 十几 and 十多 is, and so are 五六, 三五 and 兩三百; 二零二五
    /// is not.
    #[inline]
    #[must_use]
    pub fn is_about(self) -> bool {
        self.flags & flag::ABOUT != 0
    }

    /// Whether it is one character and no figure, such as 一 in 一般 and 十 in 十分.
    #[inline]
    #[must_use]
    pub fn is_one_character(self) -> bool {
        self.flags & flag::ONE_CHARACTER != 0
    }

    /// Why a reader may understand an expression as something other than its quantity, if anything
    /// suggests that. A number has no doubt.
    ///
    /// ```rust
    /// use chinese_number::{find_quantities, Doubt, Wanted};
    ///
    /// let doubts: Vec<Option<Doubt>> = find_quantities("五一假期，三十六计，二十人", Wanted::EVERYDAY)
    ///     .map(|found| found.doubt())
    ///     .collect();
    /// assert_eq!(doubts, [Some(Doubt::Digits), Some(Doubt::Word), None]);
    /// ```
    #[inline]
    #[must_use]
    pub fn doubt(self) -> Option<Doubt> {
        let code = self.flags / 16;
        Doubt::ALL.into_iter().find(|doubt| *doubt as u32 == code)
    }

    /// Reads the run as a number: plain digits as such, otherwise with units.
    ///
    /// # Errors
    ///
    /// Refuses a run that is not a numeral, such as 五六十, and a number that the type does not hold.
    /// A `char_index` counts within the run.
    #[inline]
    pub fn number<T>(self, method: ChineseCountMethod) -> Result<T, ChineseToNumberError>
    where
        &'a str: ChineseToNumber<T>,
    {
        if self.is_plain() {
            self.text.to_number_naive()
        } else {
            self.text.to_number(method)
        }
    }

    /// Its number by [`ChineseCountMethod::TenThousand`], or `None` if [`Self::number`] refuses
    /// it.
    #[inline]
    #[must_use]
    pub fn value<T>(self) -> Option<T>
    where
        &'a str: ChineseToNumber<T>,
    {
        self.number(ChineseCountMethod::TenThousand).ok()
    }

    /// Reads the run as an exact quantity; for the results of [`find_quantities`].
    ///
    /// # Errors
    ///
    /// Returns a [`ChineseToNumberError`] if the text is refused; a `char_index` counts within the
    /// run.
    #[inline]
    pub fn quantity(self, method: ChineseCountMethod) -> Result<Quantity, ChineseToNumberError> {
        chinese_to_quantity(self.text, method)
    }
}

// How many places are searched for at once after the first one, which is the only one many callers
// want.
const AT_ONCE: usize = 8;

// A search of a text that finds several places at once.
#[derive(Debug, Clone)]
pub(crate) struct Search<'a, T> {
    wanted: Wanted,
    pub(crate) whole: &'a str,
    // Where the rest begins that is not yet searched.
    next: usize,
    // The places that were found last, how many they are, and how many of them were returned.
    places: [T; AT_ONCE],
    found: usize,
    given: usize,
}

impl<'a, T: abi::Place> Search<'a, T> {
    #[inline]
    pub(crate) fn of(whole: &'a str, wanted: Wanted) -> Self {
        Self { wanted, whole, next: 0, places: [T::default(); AT_ONCE], found: 0, given: 0 }
    }

    fn search(&mut self, find: impl FnOnce(&str, usize, (bool, Unit), &mut [T]) -> usize) {
        let places = if self.next == 0 { &mut self.places[..1] } else { &mut self.places[..] };
        self.given = 0;
        let Wanted { upper, greatest } = self.wanted;
        self.found = find(self.whole, self.next, (upper, greatest), places);
        let is_filled = self.found == places.len();
        self.next = if is_filled { places[self.found - 1].end() } else { self.whole.len() };
    }

    // The next place, found by a call if none is left.
    #[inline]
    pub(crate) fn next(
        &mut self,
        find: impl FnOnce(&str, usize, (bool, Unit), &mut [T]) -> usize,
    ) -> Option<T> {
        if self.given == self.found {
            self.search(find);
        }
        let place = self.places[..self.found].get(self.given)?;
        self.given += 1;
        Some(*place)
    }
}

// The text before a place, the text there, and the text after it.
#[inline]
pub(crate) fn split_at_place(whole: &str, start: usize, end: usize) -> (&str, &str, &str) {
    let (before, rest) = whole.split_at(start);
    let (text, after) = rest.split_at(end - start);
    (before, text, after)
}

/// The runs of a text, as [`find_numbers`] and [`find_quantities`] return them.
#[derive(Debug, Clone)]
#[must_use = "the text is searched lazily, as the iterator is advanced"]
pub struct Numbers<'a> {
    sought: Sought,
    search: Search<'a, abi::Span>,
}

impl<'a> Numbers<'a> {
    #[inline]
    fn of(whole: &'a str, sought: Sought, wanted: Wanted) -> Self {
        Self { sought, search: Search::of(whole, wanted) }
    }
}

/// Finds the numbers of a text, in order: its longest runs of the wanted characters. A run ends
/// between an ASCII digit and another digit. 個 belongs to a run only directly before 萬 or a greater
/// unit, and 兆 belongs to no run before a measure, as in 8兆字节.
///
/// It does not understand sentences: 一起 contains a 1, 兩三個 is 23, and 3.5萬 is two numbers.
///
/// ```rust
/// use chinese_number::{find_numbers, Wanted};
///
/// let numbers: Vec<u32> = find_numbers("二零二五年十一月，百分之五十的人", Wanted::EVERYDAY)
///     .filter_map(|found| found.value())
///     .collect();
/// assert_eq!(numbers, [2025, 11, 50]);
/// ```
#[inline]
pub fn find_numbers(text: &str, wanted: Wanted) -> Numbers<'_> {
    Numbers::of(text, Sought::Numbers, wanted)
}

/// Finds the expressions of a text, in order: numbers with their sign, figures, point and units,
/// percentages and fractions.
///
/// ```rust
/// use chinese_number::{find_quantities, ChineseCountMethod, Wanted};
///
/// let whole: Vec<Option<u32>> = find_quantities("增长12.5%，共3.5万人", Wanted::EVERYDAY)
///     .filter_map(|found| found.quantity(ChineseCountMethod::TenThousand).ok())
///     .map(|quantity| quantity.to_whole())
///     .collect();
/// assert_eq!(whole, [None, Some(35_000)]);
/// ```
#[inline]
pub fn find_quantities(text: &str, wanted: Wanted) -> Numbers<'_> {
    Numbers::of(text, Sought::Quantities, wanted)
}

impl<'a> Iterator for Numbers<'a> {
    type Item = Found<'a>;

    fn next(&mut self) -> Option<Found<'a>> {
        let sought = self.sought;
        let abi::Span { start, end, flags } = self
            .search
            .next(|text, from, wanted, spans| abi::find(sought, text, from, wanted, spans))?;
        let (before, text, after) = split_at_place(self.search.whole, start, end);
        Some(Found { before, text, after, flags })
    }
}

impl FusedIterator for Numbers<'_> {}
