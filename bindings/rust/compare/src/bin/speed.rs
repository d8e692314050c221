//! speed [ROUNDS]: how many times as fast `chinese-number-proved` is as `chinese-number`.
//!
//! Each call of the traits is timed in 15 or ROUNDS rounds over 10,000 numbers, or their numerals.
//! A ratio above 1 means that `chinese-number-proved` is faster.

use std::env;
use std::hint::black_box;
use std::time::{Duration, Instant};

use chinese_number_compare::calls::{Integer, Printer, Reader, Style, Told, WAYS};
use chinese_number_compare::random::Random;
use chinese_number_compare::{for_each_integer, require_release};

const NUMBERS: usize = 10_000;
const BLOCK: usize = 500;
const STYLE: Style = Style { simple: false, upper: false };
// `Low` refuses this number and greater ones.
const LIMIT_OF_LOW: u128 = 10_000_000_000_000_000;

fn numbers<T: Integer>(way: &str) -> Vec<T> {
    let mut random = Random::new(1);
    let mut number = |_| {
        let bits = random.bits(T::BITS);
        T::cut(if way == "Low" { bits % LIMIT_OF_LOW } else { bits }, random.below(2) == 0)
    };
    (0..NUMBERS).map(&mut number).collect()
}

fn time<A>(block: &[A], call: impl Fn(&A)) -> Duration {
    let start = Instant::now();
    block.iter().for_each(call);
    start.elapsed()
}

/// How many times as long the first call takes as the second. They take turns at each block, and
/// the fastest round of each block counts.
fn ratio<A>(rounds: usize, all: &[A], upstream: impl Fn(&A), proved: impl Fn(&A)) -> f64 {
    let mut least = vec![[Duration::MAX; 2]; all.len().div_ceil(BLOCK)];
    for _ in 0..rounds {
        for (block, least) in all.chunks(BLOCK).zip(&mut least) {
            least[0] = least[0].min(time(block, &upstream));
            least[1] = least[1].min(time(block, &proved));
        }
    }
    let total = |which: usize| least.iter().map(|it| it[which]).sum::<Duration>();
    total(0).as_secs_f64() / total(1).as_secs_f64()
}

fn printing<T: Integer>(rounds: usize, printer: &Printer<T>, numbers: &[T]) -> f64 {
    let with = |call: fn(Style, T) -> Told<String>| {
        move |number: &T| drop(black_box(call(black_box(STYLE), black_box(*number))))
    };
    ratio(rounds, numbers, with(printer.upstream), with(printer.proved))
}

fn reading<T: Integer>(rounds: usize, reader: &Reader<T>, texts: &[String]) -> f64 {
    let with = |call: fn(&str) -> Told<T>| {
        move |text: &String| {
            let _ = black_box(call(black_box(text)));
        }
    };
    ratio(rounds, texts, with(reader.upstream), with(reader.proved))
}

/// The ratios of printing and of reading, by `WAYS`.
fn column<T: Integer>(rounds: usize) -> [Vec<f64>; 2] {
    let mut ratios = [Vec::new(), Vec::new()];
    for ((way, printer), reader) in WAYS.iter().zip(T::PRINTERS).zip(T::READERS) {
        let numbers = numbers::<T>(way);
        let text = |number: &T| (printer.proved)(STYLE, *number).expect("small enough");
        let texts: Vec<String> = numbers.iter().map(text).collect();
        ratios[0].push(printing(rounds, printer, &numbers));
        ratios[1].push(reading(rounds, reader, &texts));
    }
    ratios
}

type Column = (&'static str, [Vec<f64>; 2]);

fn show(what: &str, columns: &[Column], which: usize) {
    let names: Vec<&str> = columns.iter().map(|(name, _)| *name).collect();
    println!("\n| {what} | {} |", names.join(" | "));
    println!("|---|{}", "---|".repeat(names.len()));
    for (at, way) in WAYS.iter().enumerate() {
        let ratios = columns.iter().map(|(_, ratios)| format!("{:.1}", ratios[which][at]));
        println!("| {way} | {} |", ratios.collect::<Vec<_>>().join(" | "));
    }
}

fn main() {
    require_release();
    let rounds = env::args().nth(1).map_or(15, |word| word.parse().expect("a number of rounds"));
    let mut columns = Vec::new();
    for_each_integer!(T => columns.push((T::NAME, column::<T>(rounds))));
    show("print", &columns, 0);
    show("read", &columns, 1);
}
