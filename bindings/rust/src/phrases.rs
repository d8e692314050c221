//! The phrases in running text.

use core::iter::FusedIterator;
use core::ops::Range;
use core::time::Duration;

use crate::abi;
use crate::find::{split_at_place, Search};
use crate::{BillDate, Found, PhraseKind, PhraseState, Quantity, Wanted};

/// A date, as far as it is given. Its year may have two digits, or be one of an era.
#[derive(Debug, Copy, Clone, Eq, PartialEq, Hash)]
pub struct PartialDate {
    /// As it is written, if it is given.
    pub year: Option<u16>,
    /// From 1 (January) to 12, if it is given.
    pub month: Option<u8>,
    /// From 1 to 31, if it is given.
    pub day: Option<u8>,
}

/// A time of day, from 0:00:00 to 24:00:00.
#[derive(Debug, Copy, Clone, Eq, PartialEq, Hash)]
pub struct ClockTime {
    /// As it is written: 3 in 下午三点半.
    pub hour: u8,
    /// From 0 to 59.
    pub minute: u8,
    /// From 0 to 59.
    pub second: u8,
    /// The hour of the 24-hour clock, if it is known: 15 in 下午三点半, `None` in 三点半.
    pub hour_of_day: Option<u8>,
}

/// The value of a phrase.
#[non_exhaustive]
#[derive(Debug, Copy, Clone, Eq, PartialEq, Hash)]
pub enum PhraseValue {
    /// A date with a year of four digits, a month and a day.
    Date(BillDate),
    /// Any other date.
    PartialDate(PartialDate),
    /// From a year to another one.
    Years(u32, u32),
    /// From a month to another one of the same year.
    Months(u32, u32),
    /// From a day to another one of the same month.
    Days(u32, u32),
    /// A time of day.
    Time(ClockTime),
    /// Hours, minutes and seconds.
    Duration(Duration),
    /// A number and a half: 15/10 for 一个半小时.
    Half(Quantity),
    /// A number with decimals: 175/100 for 一米七五.
    Length(Quantity),
    /// Two numbers that are compared.
    Score(u32, u32),
    /// From a quantity to another one.
    Range(Quantity, Quantity),
    /// A sum of money, in yuan: 350/100 for 三块五.
    Money(Quantity),
}

/// A phrase in its text.
#[derive(Debug, Copy, Clone, Eq, PartialEq)]
pub struct Phrase<'a> {
    /// The text before it.
    pub before: &'a str,
    /// The phrase itself.
    pub text: &'a str,
    /// The text after it.
    pub after: &'a str,
    /// What it is; never [`PhraseKind::Expression`].
    pub kind: PhraseKind,
    /// What is known of it.
    pub state: PhraseState,
    /// What it means, or `None` if it is refused, as 二月三十日 is, or a sum of money that is no whole number of
    /// fen below 10^18.
    pub value: Option<PhraseValue>,
}

impl Phrase<'_> {
    /// How many bytes come before it.
    #[inline]
    #[must_use]
    pub fn start(self) -> usize {
        self.before.len()
    }

    /// How many bytes come before its end.
    #[inline]
    #[must_use]
    pub fn end(self) -> usize {
        self.start() + self.text.len()
    }

    /// Its place in the whole text, in bytes.
    #[inline]
    #[must_use]
    pub fn range(self) -> Range<usize> {
        self.start()..self.end()
    }
}

/// What [`find_phrases`] finds.
#[derive(Debug, Copy, Clone, Eq, PartialEq)]
pub enum Item<'a> {
    /// An expression that is in no phrase, as [`find_quantities`](crate::find_quantities) finds it.
    Expression(Found<'a>),
    /// A phrase.
    Phrase(Phrase<'a>),
}

impl<'a> Item<'a> {
    /// The phrase, or `None` for an expression.
    #[inline]
    #[must_use]
    pub fn phrase(self) -> Option<Phrase<'a>> {
        match self {
            Self::Phrase(phrase) => Some(phrase),
            Self::Expression(_) => None,
        }
    }
}

// A part of a date or a time, which the library returns in 32 bits.
#[inline]
#[allow(clippy::cast_possible_truncation, reason = "the greatest part is the hour 255")]
fn part(number: u32) -> u8 {
    number as u8
}

#[inline]
#[allow(clippy::cast_possible_truncation, reason = "a year is at most 9999")]
fn date(read: &abi::Phrase) -> PhraseValue {
    let (year, month, day) = (read.first as u16, part(read.second), part(read.third));
    let is_given = |flag| read.fourth & flag != 0;
    if is_given(1) && is_given(2) && is_given(4) && year >= 1000 {
        return PhraseValue::Date(BillDate { year, month, day });
    }
    PhraseValue::PartialDate(PartialDate {
        year: is_given(1).then_some(year),
        month: is_given(2).then_some(month),
        day: is_given(4).then_some(day),
    })
}

#[inline]
fn time(read: &abi::Phrase) -> PhraseValue {
    PhraseValue::Time(ClockTime {
        hour: part(read.first),
        minute: part(read.second),
        second: part(read.third),
        hour_of_day: Some(part(read.fourth)).filter(|hour| *hour != 255),
    })
}

#[inline]
fn duration(read: &abi::Phrase) -> PhraseValue {
    let minutes = u64::from(read.first) * 60 + u64::from(read.second);
    PhraseValue::Duration(Duration::from_secs(minutes * 60 + u64::from(read.third)))
}

// A number with decimals.
#[inline]
fn decimal(whole: u32, decimals: u32, places: u32) -> Option<Quantity> {
    let numerator = i128::from(whole) * 10i128.pow(places) + i128::from(decimals);
    Quantity::decimal(numerator, places)
}

// A sum of money, if its fen are known.
#[inline]
fn money(read: &abi::Phrase) -> Option<PhraseValue> {
    let fen = (i128::from(read.second) << 32) + i128::from(read.first);
    let yuan = if read.third == 1 { Quantity::decimal(fen, 2) } else { None };
    yuan.map(PhraseValue::Money)
}

// The ends of a range; its link is one character.
#[inline]
fn range(text: &str, split: usize) -> Option<PhraseValue> {
    let (first, rest) = text.split_at(split);
    let mut second = rest.chars();
    second.next();
    let (low, high) = abi::read_range(first, second.as_str())?;
    Some(PhraseValue::Range(low, high))
}

// The value of a phrase that is not refused.
fn value(read: &abi::Phrase, kind: PhraseKind, text: &str) -> Option<PhraseValue> {
    let (first, second) = (read.first, read.second);
    match kind {
        PhraseKind::Expression => None,
        PhraseKind::Date => Some(date(read)),
        PhraseKind::Years => Some(PhraseValue::Years(first, second)),
        PhraseKind::Months => Some(PhraseValue::Months(first, second)),
        PhraseKind::Days => Some(PhraseValue::Days(first, second)),
        PhraseKind::Time => Some(time(read)),
        PhraseKind::Duration => Some(duration(read)),
        PhraseKind::Half => decimal(first, 5, 1).map(PhraseValue::Half),
        PhraseKind::Length => decimal(first, second, read.third).map(PhraseValue::Length),
        PhraseKind::Score => Some(PhraseValue::Score(first, second)),
        PhraseKind::Range => range(text, read.split),
        PhraseKind::Money => money(read),
    }
}

/// The items of a text, as [`find_phrases`] returns them.
#[derive(Debug, Clone)]
#[must_use = "the text is searched lazily, as the iterator is advanced"]
pub struct Phrases<'a> {
    search: Search<'a, abi::Phrase>,
}

/// Finds the phrases of a text, in order, and the expressions that are in no phrase: dates, times of
/// day, durations, ranges, scores, halves, lengths and sums of money.
///
/// ```rust
/// use chinese_number::{find_phrases, PhraseKind, PhraseValue, Quantity, Wanted};
///
/// let text = "一月五日下午三点半，三到五万元，二十人";
/// let items: Vec<_> = find_phrases(text, Wanted::EVERYDAY).collect();
/// let phrases: Vec<_> = items.iter().filter_map(|item| item.phrase()).collect();
/// assert_eq!((items.len(), phrases.len()), (4, 3));
/// assert_eq!((phrases[0].text, phrases[0].kind), ("一月五日", PhraseKind::Date));
/// let Some(PhraseValue::Time(time)) = phrases[1].value else { panic!() };
/// assert_eq!((time.hour_of_day, time.minute), (Some(15), 30));
/// let ends = [30_000, 50_000].map(|end| Quantity::decimal(end, 0).unwrap());
/// assert_eq!(phrases[2].value, Some(PhraseValue::Range(ends[0], ends[1])));
/// ```
#[inline]
pub fn find_phrases(text: &str, wanted: Wanted) -> Phrases<'_> {
    Phrases { search: Search::of(text, wanted) }
}

impl<'a> Iterator for Phrases<'a> {
    type Item = Item<'a>;

    fn next(&mut self) -> Option<Item<'a>> {
        let read = self.search.next(abi::find_phrases)?;
        let (before, text, after) = split_at_place(self.search.whole, read.start, read.end);
        let (kind, state) =
            (PhraseKind::ALL[read.kind as usize], PhraseState::ALL[read.state as usize]);
        if kind == PhraseKind::Expression {
            return Some(Item::Expression(Found { before, text, after, flags: read.flags }));
        }
        let value = match state {
            PhraseState::Refused => None,
            _ => value(&read, kind, text),
        };
        Some(Item::Phrase(Phrase { before, text, after, kind, state, value }))
    }
}

impl FusedIterator for Phrases<'_> {}
