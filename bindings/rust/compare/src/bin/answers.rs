//! answers SEED COUNT: compares the answers of `chinese-number` and `chinese-number-proved`.
//!
//! COUNT random numbers are printed, and COUNT random texts read, by every call of every type. The
//! readers may differ only as docs/DIFFERENCES.md says: from upstream's answers this program works
//! out what the answer must be. It counts each kind of difference, with its shortest example, and
//! fails at any other, or if a kind does not occur.

use std::env;
use std::fmt::Debug;
use std::process::ExitCode;

use chinese_number_compare::calls::{Integer, Reader, Refusal, Told, WAYS};
use chinese_number_compare::random::Random;
use chinese_number_compare::{for_each_integer, require_release};

const MOST_SHOWN: u64 = 10;

/// The least is the best example: how many kinds of difference it has, whether upstream refuses,
/// and the length of the text.
type Rank = (usize, bool, usize);

/// A kind of difference that is known.
struct Kind {
    what: &'static str,
    count: u64,
    example: Option<(Rank, String)>,
}

impl Kind {
    const fn new(what: &'static str) -> Self {
        Self { what, count: 0, example: None }
    }

    fn add(&mut self, rank: Rank, example: impl FnOnce() -> String) {
        self.count += 1;
        if self.example.as_ref().is_none_or(|(least, _)| rank < *least) {
            self.example = Some((rank, example()));
        }
    }
}

struct Tally {
    printed: u64,
    read: u64,
    differing: u64,
    unknown: u64,
    kinds: [Kind; 3],
}

impl Tally {
    fn new() -> Self {
        let kinds = [
            Kind::new("角 and 分 are refused, as any other character"),
            Kind::new("`to_number` of 8 and 16 bits follows its method"),
            Kind::new("`char_index` counts white space"),
        ];
        Self { printed: 0, read: 0, differing: 0, unknown: 0, kinds }
    }

    fn add_unknown(&mut self, difference: impl FnOnce() -> String) {
        self.unknown += 1;
        if self.unknown <= MOST_SHOWN {
            println!("UNKNOWN {}", difference());
        }
    }

    fn print<T: Integer>(&mut self, random: &mut Random) {
        let (value, style) = (T::cut(random.magnitude(), random.below(2) == 0), random.style());
        for printer in T::PRINTERS {
            let (upstream, proved) =
                ((printer.upstream)(style, value), (printer.proved)(style, value));
            self.printed += 1;
            if upstream != proved {
                self.add_unknown(|| described(printer.name, &value, &upstream, &proved));
            }
        }
    }

    fn read<T: Integer>(&mut self, text: &Text) {
        for (at, reader) in T::READERS.iter().enumerate() {
            let stages = stages(reader, at, text);
            let (upstream, wanted) = (stages[0], stages[3]);
            let proved = (reader.proved)(&text.own);
            let difference = || described(reader.name, &text.own, &upstream, &proved);
            self.read += 1;
            if proved != wanted {
                self.add_unknown(difference);
            } else if proved != upstream {
                self.differing += 1;
                let is_of = |kind: usize| stages[kind] != stages[kind + 1];
                let kinds = (0..self.kinds.len()).filter(|kind| is_of(*kind));
                let rank = (kinds.clone().count(), upstream.is_err(), text.own.chars().count());
                kinds.for_each(|kind| self.kinds[kind].add(rank, difference));
            }
        }
    }

    /// Prints what was counted, too.
    fn is_as_documented(&self) -> bool {
        let Self { printed, read, differing, unknown, kinds } = self;
        println!("printers: {printed} answers");
        println!("readers: {read} answers, of which {differing} differ");
        for Kind { what, count, example } in kinds {
            println!("  {what}: {count}");
            println!("    {}", example.as_ref().map_or("does not occur", |(_, shown)| shown));
        }
        println!("unknown differences: {unknown}");
        *unknown == 0 && kinds.iter().all(|kind| kind.count > 0)
    }
}

fn described<T: Debug>(
    call: &str,
    from: &impl Debug,
    upstream: &Told<T>,
    proved: &Told<T>,
) -> String {
    format!("{call} of {from:?}: upstream {upstream:?}, proved {proved:?}")
}

/// A text to read.
struct Text {
    own: String,
    /// The text with x instead of 角 and 分, if it has any.
    without_fractions: Option<String>,
    /// The positions of the characters that are not white space.
    places: Vec<usize>,
}

impl Text {
    fn new(own: String) -> Self {
        let without_fractions = own.contains(['角', '分']).then(|| own.replace(['角', '分'], "x"));
        let not_white = own.chars().enumerate().filter(|(_, it)| !it.is_whitespace());
        let places = not_white.map(|(at, _)| at).collect();
        Self { own, without_fractions, places }
    }
}

/// Upstream's answer, and this with each kind of difference in turn.
fn stages<T: Integer>(reader: &Reader<T>, at: usize, text: &Text) -> [Told<T>; 4] {
    let upstream = (reader.upstream)(&text.own);
    let judged = text.without_fractions.as_ref().unwrap_or(&text.own);
    let refusing = match &text.without_fractions {
        None => upstream,
        Some(other) => (reader.upstream)(other),
    };
    let ignores_method = T::BITS <= 16 && at < WAYS.len();
    let by_method = match <T::Wide as Integer>::READERS.get(at) {
        Some(wide) if ignores_method => (wide.upstream)(judged).and_then(narrowed),
        _ => refusing,
    };
    let placed = by_method.map_err(|refusal| match refusal {
        Refusal::Incorrect(place) => Refusal::Incorrect(text.places[place]),
        other => other,
    });
    [upstream, refusing, by_method, placed]
}

fn narrowed<T: Integer>(wide: T::Wide) -> Told<T> {
    let is_negative = || wide.to_string().starts_with('-');
    let refusal = |_| if is_negative() { Refusal::Underflow } else { Refusal::Overflow };
    T::try_from(wide).map_err(refusal)
}

/// Whether the errors of both crates have the same texts.
fn errors_read_alike() -> bool {
    macro_rules! texts {
        ($one:ident) => {
            [
                $one::ChineseToNumberError::ChineseNumberEmpty.to_string(),
                $one::ChineseToNumberError::ChineseNumberIncorrect { char_index: 12 }.to_string(),
                $one::ChineseToNumberError::Overflow.to_string(),
                $one::ChineseToNumberError::Underflow.to_string(),
                $one::NumberToChineseError::Overflow.to_string(),
                $one::NumberToChineseError::Underflow.to_string(),
            ]
        };
    }
    texts!(upstream) == texts!(proved)
}

fn main() -> ExitCode {
    require_release();
    let words: Vec<u64> = env::args().skip(1).map_while(|word| word.parse().ok()).collect();
    let [seed, count] = words[..] else {
        eprintln!("usage: answers SEED COUNT");
        return ExitCode::from(2);
    };
    let (mut random, mut tally) = (Random::new(seed), Tally::new());
    for _ in 0..count {
        for_each_integer!(T => tally.print::<T>(&mut random));
        let text = Text::new(random.text());
        for_each_integer!(T => tally.read::<T>(&text));
    }
    println!("seed {seed}: {count} numbers of each type, {count} texts");
    if tally.is_as_documented() && errors_read_alike() {
        return ExitCode::SUCCESS;
    }
    println!("The crates differ otherwise than docs/DIFFERENCES.md says.");
    ExitCode::FAILURE
}
