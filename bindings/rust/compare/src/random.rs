//! Random numbers and texts.

use crate::calls::{Integer, Style};

const OF_NUMERALS: &str = "零〇0一壹1二貳贰貮兩两2三參叁叄参3四肆4五伍5六陸陆6七柒7八捌8九玖9\
                           十拾個个百佰千仟萬万億亿兆京垓秭穰溝沟澗涧正載载極极負负";
// White space, and at the end two characters that only look like it.
const BLANKS: &str = " \t\n\u{b}\r\u{85}\u{a0}\u{1680}\u{2003}\u{2028}\u{202f}\u{205f}\u{3000}\
                      \u{200b}\u{feff}";
const OTHERS: &str = "角分點点元整年卌廿卅半仨百千-+.,x１壱";

/// A generator of random numbers (xorshift64*). Equal seeds give equal numbers.
pub struct Random(u64);

impl Random {
    pub fn new(seed: u64) -> Self {
        let mut random = Self(seed.wrapping_mul(0x9e37_79b9_7f4a_7c15) | 1);
        random.next();
        random
    }

    fn next(&mut self) -> u64 {
        self.0 ^= self.0 >> 12;
        self.0 ^= self.0 << 25;
        self.0 ^= self.0 >> 27;
        self.0.wrapping_mul(0x2545_f491_4f6c_dd1d)
    }

    /// A number below `limit`, which is not 0.
    pub fn below(&mut self, limit: usize) -> usize {
        let limit = limit as u128;
        ((u128::from(self.next()) * limit) >> 64) as usize
    }

    pub fn style(&mut self) -> Style {
        Style { simple: self.below(2) == 0, upper: self.below(2) == 0 }
    }

    /// A magnitude with any number of bits up to `most`.
    pub fn bits(&mut self, most: u32) -> u128 {
        let all = (u128::from(self.next()) << 64) | u128::from(self.next());
        all >> (128 - most) >> self.below(most as usize)
    }

    /// A magnitude: any, with many zeros, or near a power of ten or of two.
    pub fn magnitude(&mut self) -> u128 {
        let near = self.below(5) as u128;
        match self.below(4) {
            0 => self.bits(128),
            1 => 10u128.pow(self.below(39) as u32).wrapping_add(near).wrapping_sub(2),
            2 => (1u128 << self.below(128)).wrapping_add(near).wrapping_sub(2),
            _ => (0..=self.below(5)).fold(0u128, |sum, _| {
                let digit = 1 + self.below(9) as u128;
                sum.wrapping_add(digit.wrapping_mul(10u128.pow(self.below(39) as u32)))
            }),
        }
    }

    fn of(&mut self, characters: &str) -> char {
        let count = characters.chars().count();
        characters.chars().nth(self.below(count)).expect("a character")
    }

    fn character(&mut self) -> char {
        match self.below(16) {
            0 => self.of(BLANKS),
            1 => self.of(OTHERS),
            2 => char::from_u32(self.below(0x11_0000) as u32).unwrap_or('\u{fffd}'),
            _ => self.of(OF_NUMERALS),
        }
    }

    /// A numeral of a random number, edited in up to four places, or random characters.
    pub fn text(&mut self) -> String {
        if self.below(4) == 0 {
            return (0..self.below(13)).map(|_| self.character()).collect();
        }
        let number = i128::cut(self.magnitude(), self.below(4) == 0);
        let printers = i128::PRINTERS;
        let printer = &printers[self.below(printers.len())];
        let printed = (printer.proved)(self.style(), number).unwrap_or_default();
        let mut text: Vec<char> = printed.chars().collect();
        for _ in 0..self.below(5) {
            self.edit(&mut text);
        }
        text.into_iter().collect()
    }

    fn edit(&mut self, text: &mut Vec<char>) {
        let at = self.below(text.len() + 1);
        match self.below(5) {
            0 | 1 => text.insert(at, self.character()),
            _ if at == text.len() => text.truncate(at / 2),
            2 => text[at] = self.character(),
            3 => text.swap(at, 0),
            _ => drop(text.remove(at)),
        }
    }
}
