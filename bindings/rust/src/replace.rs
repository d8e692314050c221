//! Replaces the quantities of running text, and rewrites it in figures or as it is spoken.

use alloc::string::String;
use alloc::vec::Vec;

use crate::abi;
use crate::codes::{flag, option, speech_option};
use crate::find::split_at_place;
use crate::{find_quantities, ChineseCountMethod, ChineseVariant, Doubt, Found, Wanted};

/// Which quantities of a text are replaced that otherwise stay.
#[derive(Debug, Default, Copy, Clone, Eq, PartialEq, Hash)]
pub struct Included {
    /// Approximate ones, such as 300 in 300多.
    pub about: bool,
    /// Those of one Chinese character, such as 一 in 一般.
    pub one_character: bool,
    /// Doubtful ones, such as 五一. Those with [`Doubt::Part`] always stay.
    pub doubtful: bool,
}

impl Included {
    /// None of them.
    pub const NONE: Self = Self { about: false, one_character: false, doubtful: false };

    #[inline]
    fn options(self) -> u32 {
        u32::from(self.about) * flag::ABOUT
            + u32::from(self.one_character) * flag::ONE_CHARACTER
            + u32::from(self.doubtful) * option::DOUBTFUL
    }

    #[inline]
    fn has(self, found: Found<'_>) -> bool {
        let is_left = match found.doubt() {
            None => false,
            Some(Doubt::Part) => true,
            Some(_) => !self.doubtful,
        };
        let is_counted =
            (self.about || !found.is_about()) && (self.one_character || !found.is_one_character());
        is_counted && !is_left
    }
}

/// How a number in numerals is written in figures.
#[derive(Debug, Default, Copy, Clone, Eq, PartialEq, Hash)]
pub enum Style {
    /// 万, 亿 and so on stay: 三千五百亿 becomes 3500亿.
    #[default]
    Kept,
    /// They are written out, also after figures: 三千五百亿 and 3500亿 become 350000000000.
    Expanded,
}

/// How the quantities and the phrases of a text are written in figures.
#[derive(Debug, Default, Copy, Clone, Eq, PartialEq, Hash)]
pub struct Figures {
    /// Which quantities are written in figures that otherwise stay.
    pub included: Included,
    /// How numerals are written.
    pub style: Style,
    /// Whether what is only figures is rewritten in ASCII, without commas and leading zeros.
    pub canonical: bool,
    /// Whether [`text_to_figures`] writes dates, times, halves and sums of money as short as possible:
    /// 2026-01-05, 15:30, 1.5小时, 3.5元.
    pub compact: bool,
    /// Whether [`text_to_figures`] also writes codes, such as telephone numbers: 打幺幺零 becomes 打110.
    pub codes: bool,
}

impl Figures {
    /// Great units, figures and doubtful quantities stay.
    pub const DEFAULT: Self = Self {
        included: Included::NONE,
        style: Style::Kept,
        canonical: false,
        compact: false,
        codes: false,
    };

    #[inline]
    fn options(self) -> u32 {
        self.included.options()
            + u32::from(self.style == Style::Expanded) * option::EXPANDED
            + u32::from(self.canonical) * option::CANONICAL
            + u32::from(self.compact) * option::COMPACT
            + u32::from(self.codes) * option::CODES
    }
}

/// Replaces the quantities of a text. `new` returns the new text of each, or `None` to keep it.
///
/// Calls `new`, in order, for each expression of [`find_quantities`] that has a quantity by the
/// method, except those that are not included. The rest of the text stays as it is.
///
/// ```rust
/// use chinese_number::{replace_quantities, ChineseCountMethod, Found, Included, Wanted};
///
/// let in_brackets = |found: Found<'_>| Some(format!("[{}]", found.text));
/// let (wanted, method) = (Wanted::EVERYDAY, ChineseCountMethod::TenThousand);
/// let text = replace_quantities("一般占12.5%", wanted, method, Included::NONE, in_brackets);
/// assert_eq!(text, "一般占[12.5%]");
/// ```
pub fn replace_quantities<T: AsRef<str>>(
    text: &str,
    wanted: Wanted,
    method: ChineseCountMethod,
    included: Included,
    mut new: impl FnMut(Found<'_>) -> Option<T>,
) -> String {
    let (mut done, mut at) = (String::with_capacity(text.len()), 0);
    for found in find_quantities(text, wanted) {
        if !included.has(found) || found.quantity(method).is_err() {
            continue;
        }
        if let Some(new) = new(found) {
            done.push_str(&text[at..found.start()]);
            done.push_str(new.as_ref());
            at = found.end();
        }
    }
    done.push_str(&text[at..]);
    done
}

/// Rewrites the numerals of a text in figures, as an editor does.
///
/// These stay: figures; what [`replace_quantities`] does not replace; a part of a name, an address
/// or another number; 千分之五 and 二又五分之三; and all of a date, a time, a length, an amount or a range of
/// which one part stays.
///
/// ```rust
/// use chinese_number::{quantities_to_figures, ChineseCountMethod, Figures, Style, Wanted};
///
/// let (wanted, method) = (Wanted::EVERYDAY, ChineseCountMethod::TenThousand);
/// let text = "市值三点五亿元，占百分之十二点五";
/// let usual = quantities_to_figures(text, wanted, method, Figures::DEFAULT);
/// assert_eq!(usual, "市值3.5亿元，占12.5%");
/// let expanded = Figures { style: Style::Expanded, ..Figures::DEFAULT };
/// let plain = quantities_to_figures(text, wanted, method, expanded);
/// assert_eq!(plain, "市值350000000元，占12.5%");
/// ```
#[must_use]
pub fn quantities_to_figures(
    text: &str,
    wanted: Wanted,
    method: ChineseCountMethod,
    figures: Figures,
) -> String {
    let Wanted { upper, greatest } = wanted;
    abi::quantities_to_figures(text, (upper, greatest), method.into(), figures.options())
}

/// Rewrites a text in figures, as an editor does, with its dates, times, durations, ranges, scores,
/// lengths, sums of money and quantities. The words of a phrase stay.
///
/// These stay too: what [`quantities_to_figures`] does not rewrite; phrases that are refused, such as
/// 二月三十日; and doubtful phrases, and halves after one character, such as 一个半小时, unless they are
/// included.
///
/// ```rust
/// use chinese_number::{text_to_figures, ChineseCountMethod, Figures, Wanted};
///
/// let (wanted, method) = (Wanted::EVERYDAY, ChineseCountMethod::TenThousand);
/// let text = "二零二六年一月五日下午三点半，三到五万元";
/// let new = text_to_figures(text, wanted, method, Figures::DEFAULT);
/// assert_eq!(new, "2026年1月5日下午3点半，3万到5万元");
/// ```
#[must_use]
pub fn text_to_figures(
    text: &str,
    wanted: Wanted,
    method: ChineseCountMethod,
    figures: Figures,
) -> String {
    let Wanted { upper, greatest } = wanted;
    abi::text_to_figures(text, (upper, greatest), method.into(), figures.options())
}

/// How a text is spoken.
#[derive(Debug, Copy, Clone, Eq, PartialEq, Hash)]
pub struct Voice {
    /// The script of the new characters.
    pub script: ChineseVariant,
    /// How large numbers are written.
    pub method: ChineseCountMethod,
    /// Whether 1 is 幺 in codes, such as telephone numbers; otherwise it is 一.
    pub yao: bool,
}

impl Voice {
    /// In simplified script, with 一 for 1.
    pub const DEFAULT: Self = Self {
        script: ChineseVariant::Simple,
        method: ChineseCountMethod::TenThousand,
        yao: false,
    };
}

impl Default for Voice {
    fn default() -> Self {
        Self::DEFAULT
    }
}

/// Rewrites a text as it is spoken: its figures, signs and measures in Chinese characters. The rest of
/// the text stays, and so does what no rule covers, such as x86, whose 86 [`find_unspoken`] finds.
///
/// ```rust
/// use chinese_number::{text_to_speech, Voice};
///
/// let new = text_to_speech("2026年1月5日15:30，共2.5kg", Voice::DEFAULT);
/// assert_eq!(new, "二零二六年一月五日十五点三十分，共二点五千克");
/// let new = text_to_speech("请拨打110", Voice { yao: true, ..Voice::DEFAULT });
/// assert_eq!(new, "请拨打幺幺零");
/// ```
#[must_use]
pub fn text_to_speech(text: &str, voice: Voice) -> String {
    let Voice { script, method, yao } = voice;
    abi::text_to_speech(text, method.into(), script, u32::from(yao) * speech_option::YAO)
}

/// Finds the parts with figures that [`text_to_speech`] leaves as they are, in order. Not all of them
/// are quantities.
///
/// ```rust
/// use chinese_number::find_unspoken;
///
/// let left: Vec<&str> = find_unspoken("共3人，x86，2026.1.15").iter().map(|it| it.text).collect();
/// assert_eq!(left, ["86", "2026.1.15"]);
/// ```
#[must_use]
pub fn find_unspoken(text: &str) -> Vec<Found<'_>> {
    let found = |abi::Span { start, end, flags }| {
        let (before, text, after) = split_at_place(text, start, end);
        Found { before, text, after, flags }
    };
    abi::find_unspoken(text).into_iter().map(found).collect()
}
