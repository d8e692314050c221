//! A printer and a reader with `TenThousand` in plain Rust, with which docs/SPEED.md compares the
//! library, as well as with the upstream crate. They do what `bench` does, over the same numbers,
//! and print the same sum:
//!
//!     rustc --edition 2021 -O checks/lean.rs -o lean && time ./lean print u64 1000
//!
//! The printer starts at the highest group of four digits. The reader accepts what the printer
//! writes and colloquial endings, and refuses units that do not decrease.

const DIGITS: [char; 10] = ['零', '一', '二', '三', '四', '五', '六', '七', '八', '九'];
const UNITS: [char; 4] = [' ', '十', '百', '千'];
const GROUPS: [char; 10] = [' ', '萬', '億', '兆', '京', '垓', '秭', '穰', '溝', '澗'];
const PART: u128 = 10_u128.pow(16);

/// Appends a group of four digits.
fn push_group(text: &mut String, group: u16) {
    let mut divisor = 1000;
    let mut gap = false;
    for power in (0..4).rev() {
        let digit = group / divisor % 10;
        divisor = (divisor / 10).max(1);
        if digit == 0 {
            gap = true;
            continue;
        }
        if gap && !text.is_empty() {
            text.push('零');
        }
        gap = false;
        if !(text.is_empty() && digit == 1 && power == 1) {
            text.push(DIGITS[digit as usize]);
        }
        if power > 0 {
            text.push(UNITS[power]);
        }
    }
}

fn print(number: u128) -> String {
    let mut groups = [0; 10];
    let mut count = 0;
    let mut left = number;
    while left > 0 {
        let mut part = (left % PART) as u64;
        left /= PART;
        let end = count + 4;
        while part > 0 || (left > 0 && count < end) {
            groups[count] = (part % 10_000) as u16;
            part /= 10_000;
            count += 1;
        }
    }
    let mut text = String::with_capacity(128);
    let mut gap = false;
    for index in (0..count).rev() {
        if groups[index] == 0 {
            gap = true;
            continue;
        }
        if gap && groups[index] >= 1000 {
            text.push('零');
        }
        gap = false;
        push_group(&mut text, groups[index]);
        if index > 0 {
            text.push(GROUPS[index]);
        }
    }
    if text.is_empty() {
        text.push('零');
    }
    text
}

/// The value of a digit, or the power of ten of a unit.
enum Mark {
    Digit(u128),
    Unit(u32),
}

fn mark(character: char) -> Option<Mark> {
    Some(match character {
        '零' | '〇' => Mark::Digit(0),
        '一' | '壹' => Mark::Digit(1),
        '二' | '贰' | '貳' | '两' | '兩' => Mark::Digit(2),
        '三' | '叁' | '參' => Mark::Digit(3),
        '四' | '肆' => Mark::Digit(4),
        '五' | '伍' => Mark::Digit(5),
        '六' | '陆' | '陸' => Mark::Digit(6),
        '七' | '柒' => Mark::Digit(7),
        '八' | '捌' => Mark::Digit(8),
        '九' | '玖' => Mark::Digit(9),
        '十' | '拾' => Mark::Unit(1),
        '百' | '佰' => Mark::Unit(2),
        '千' | '仟' => Mark::Unit(3),
        '万' | '萬' => Mark::Unit(4),
        '亿' | '億' => Mark::Unit(8),
        '兆' => Mark::Unit(12),
        '京' => Mark::Unit(16),
        '垓' => Mark::Unit(20),
        '秭' => Mark::Unit(24),
        '穰' => Mark::Unit(28),
        '溝' | '沟' => Mark::Unit(32),
        '澗' | '涧' => Mark::Unit(36),
        _ => return None,
    })
}

fn read(text: &str) -> Option<u128> {
    let (mut total, mut group, mut digit) = (0_u128, 0_u128, None);
    let (mut last, mut last_group, mut last_unit) = (4, 40, 0);
    for (place, character) in text.chars().enumerate() {
        match mark(character)? {
            Mark::Digit(0) => last_unit = 0,
            Mark::Digit(_) if digit.is_some() => return None,
            Mark::Digit(value) => digit = Some(value),
            Mark::Unit(power) if power < 4 => {
                let value = digit.take().or((power == 1 && place == 0).then_some(1))?;
                if power >= last {
                    return None;
                }
                group += value * 10_u128.pow(power);
                (last, last_unit) = (power, power);
            }
            Mark::Unit(power) => {
                group += digit.take().unwrap_or(0);
                if group == 0 || power >= last_group {
                    return None;
                }
                total = total.checked_add(group.checked_mul(10_u128.pow(power))?)?;
                (group, last, last_group, last_unit) = (0, 4, power, power);
            }
        }
    }
    let ending = digit.unwrap_or(0) * 10_u128.pow(if last_unit > 1 { last_unit - 1 } else { 0 });
    (!text.is_empty()).then_some(())?;
    total.checked_add(group + ending)
}

fn next(state: &mut u64) -> u64 {
    *state ^= *state << 13;
    *state ^= *state >> 7;
    *state ^= *state << 17;
    *state
}

/// The numbers of `bench`: for `u64` of one to twenty digits, else of one to thirty-nine.
fn numbers(narrow: bool) -> Vec<u128> {
    let state = &mut 0x9e37_79b9_7f4a_7c15;
    let wide = |i: u32, state: &mut u64| {
        let number = u128::from(next(state)) << 64 | u128::from(next(state));
        10_u128.checked_pow(i % 39 + 1).map_or(number, |limit| number % limit)
    };
    let one = |i: u32| if narrow { u128::from(next(state) >> (i % 64)) } else { wide(i, state) };
    (0..10_000).map(one).collect()
}

fn main() {
    let words: Vec<String> = std::env::args().skip(1).collect();
    let words: Vec<&str> = words.iter().map(String::as_str).collect();
    let (reads, narrow, passes) = match words[..] {
        [call @ ("print" | "read"), kind @ ("u64" | "u128"), passes] => {
            (call == "read", kind == "u64", passes.parse().unwrap_or(1))
        }
        _ => return println!("usage: lean print|read u64|u128 PASSES"),
    };
    let numbers = numbers(narrow);
    let texts: Vec<String> = numbers.iter().copied().map(print).collect();
    let mut sum = 0_u64;
    for _ in 0..passes {
        if reads {
            texts.iter().for_each(|text| sum = sum.wrapping_add(read(text).unwrap_or(0) as u64));
        } else {
            numbers.iter().for_each(|it| sum = sum.wrapping_add(print(*it).len() as u64));
        }
    }
    println!("{sum}");
}
