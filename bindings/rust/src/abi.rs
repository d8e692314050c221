//! The calls of the library. `bindings/c/chinese_number.h` documents what each returns.

#![cfg_attr(
    not(all(feature = "number-to-chinese", feature = "chinese-to-number")),
    allow(dead_code, reason = "each feature has its own calls")
)]

use core::mem::MaybeUninit;

use alloc::string::String;
use alloc::vec;
use alloc::vec::Vec;

use crate::codes::{
    status, Kind, MOST_AMOUNT_BYTES, MOST_BYTES, MOST_DATE_BYTES, MOST_EXPECTED,
    MOST_FIGURES_BYTES, MOST_MESSAGE_BYTES, MOST_QUANTITY_BYTES, MOST_SIGNED_AMOUNT_BYTES,
    TOO_LONG,
};
use crate::{
    BillDate, ChineseCase, ChineseVariant, Input, Language, Quantity, QuantityForm, Unit, Way,
};

// A printed text has at most as many bytes as that of a quantity.
const _: () = assert!(MOST_BYTES < MOST_QUANTITY_BYTES && MOST_FIGURES_BYTES < MOST_BYTES);
const _: () = assert!(MOST_AMOUNT_BYTES < MOST_BYTES && MOST_DATE_BYTES < MOST_BYTES);
const _: () = assert!(MOST_SIGNED_AMOUNT_BYTES < MOST_BYTES);

/// The bytes of a buffer for one printed text.
pub type Bytes = [MaybeUninit<u8>; MOST_QUANTITY_BYTES];

/// The bits of an integer, sign-extended to 128.
#[derive(Debug, Copy, Clone, Default)]
#[repr(C)]
pub struct Number {
    low: u64,
    high: u64,
}

#[derive(Default)]
#[repr(C)]
struct Date {
    year: u32,
    month: u32,
    day: u32,
}

// The value that is read from a text, and the place of the wrong character. In the header the three
// numbers of a date are separate fields before the place, which is the same layout.
#[derive(Default)]
#[repr(C)]
struct Reading<T> {
    value: T,
    char_index: usize,
    _byte_index: usize,
}

// A quantity as the library represents it, or the place of the wrong character.
#[derive(Default)]
#[repr(C)]
struct QuantityReading {
    numerator: Number,
    denominator: Number,
    form: u32,
    char_index: usize,
    _byte_index: usize,
}

impl From<Quantity> for QuantityReading {
    #[inline]
    fn from(Quantity { numerator, denominator, form }: Quantity) -> Self {
        let (numerator, denominator) = (numerator.number(), denominator.number());
        Self { numerator, denominator, form: form as u32, char_index: 0, _byte_index: 0 }
    }
}

impl From<QuantityReading> for Quantity {
    #[inline]
    fn from(read: QuantityReading) -> Self {
        Self {
            numerator: i128::of_number(read.numerator),
            denominator: u128::of_number(read.denominator),
            form: QuantityForm::ALL[read.form as usize],
        }
    }
}

/// What may come next in a text: the first `count` characters, as code points.
#[repr(C)]
pub struct Expected {
    pub char_index: usize,
    pub byte_index: usize,
    pub may_end: u32,
    pub white_space: u32,
    pub count: u32,
    pub characters: [u32; MOST_EXPECTED],
}

impl Default for Expected {
    #[inline]
    fn default() -> Self {
        let characters = [0; MOST_EXPECTED];
        Self { char_index: 0, byte_index: 0, may_end: 0, white_space: 0, count: 0, characters }
    }
}

/// A change of a text and its place, with the code point of the new character, if it has one.
#[derive(Default)]
#[repr(C)]
pub struct Repair {
    pub char_index: usize,
    pub byte_index: usize,
    pub change: u32,
    pub character: u32,
}

/// What a search looks for.
#[derive(Debug, Copy, Clone)]
pub enum Sought {
    Numbers,
    Quantities,
}

/// A run in a text: where it begins and ends, in bytes, and the sum of its flags and 16 times the
/// code of its doubt.
#[derive(Debug, Copy, Clone, Default)]
#[repr(C)]
pub struct Span {
    pub start: usize,
    pub end: usize,
    pub flags: u32,
}

/// A phrase, or an expression that is in none: where it begins and ends, in bytes; how many bytes the
/// first end of a range has; the codes of its kind and its state; its flags, as those of a run; and
/// its numbers.
#[derive(Debug, Copy, Clone, Default)]
#[repr(C)]
pub struct Phrase {
    pub start: usize,
    pub end: usize,
    pub split: usize,
    pub kind: u32,
    pub state: u32,
    pub flags: u32,
    pub first: u32,
    pub second: u32,
    pub third: u32,
    pub fourth: u32,
}

/// What a search finds in a text.
pub trait Place: Copy + Default {
    fn end(&self) -> usize;
}

impl Place for Span {
    #[inline]
    fn end(&self) -> usize {
        self.end
    }
}

impl Place for Phrase {
    #[inline]
    fn end(&self) -> usize {
        self.end
    }
}

// A call that searches a text.
type Search<T> =
    unsafe extern "C" fn(*const u8, usize, usize, u32, u32, *mut T, usize, *mut usize) -> u32;

unsafe extern "C" {
    fn chinese_number_read_utf8(
        text: *const u8,
        text_length: usize,
        kind: u32,
        way: u32,
        reading: *mut Reading<Number>,
    ) -> u32;

    fn chinese_number_print(
        low: u64,
        high: u64,
        kind: u32,
        way: u32,
        script: u32,
        letter_case: u32,
        room: *mut u8,
        room_length: usize,
        length: *mut usize,
    ) -> u32;

    fn chinese_amount_read(text: *const u8, text_length: usize, reading: *mut Reading<u64>) -> u32;

    fn chinese_amount_print(
        fen: u64,
        script: u32,
        form: u32,
        room: *mut u8,
        room_length: usize,
        length: *mut usize,
    ) -> u32;

    fn chinese_signed_amount_read(
        text: *const u8,
        text_length: usize,
        reading: *mut Reading<i64>,
    ) -> u32;

    fn chinese_signed_amount_print(
        fen: i64,
        script: u32,
        form: u32,
        room: *mut u8,
        room_length: usize,
        length: *mut usize,
    ) -> u32;

    fn chinese_typed_amount_read(
        text: *const u8,
        text_length: usize,
        reading: *mut Reading<u64>,
    ) -> u32;

    fn chinese_typed_signed_amount_read(
        text: *const u8,
        text_length: usize,
        reading: *mut Reading<i64>,
    ) -> u32;

    fn chinese_figures_read(text: *const u8, text_length: usize, reading: *mut Reading<i64>)
        -> u32;

    fn chinese_date_read(text: *const u8, text_length: usize, reading: *mut Reading<Date>) -> u32;

    fn chinese_date_print(
        year: u32,
        month: u32,
        day: u32,
        script: u32,
        room: *mut u8,
        room_length: usize,
        length: *mut usize,
    ) -> u32;

    fn chinese_wide_numbers_print_column(
        values: *const Number,
        values_length: usize,
        bitmap: *const u8,
        bitmap_length: usize,
        first: usize,
        kind: u32,
        way: u32,
        script: u32,
        letter_case: u32,
        offsets: *mut u64,
        offsets_length: usize,
        room: *mut u8,
        room_length: usize,
        statuses: *mut u32,
        statuses_length: usize,
        done: *mut usize,
    ) -> u32;

    fn chinese_amounts_print_column(
        values: *const i64,
        values_length: usize,
        bitmap: *const u8,
        bitmap_length: usize,
        first: usize,
        script: u32,
        form: u32,
        offsets: *mut u64,
        offsets_length: usize,
        room: *mut u8,
        room_length: usize,
        statuses: *mut u32,
        statuses_length: usize,
        done: *mut usize,
    ) -> u32;

    fn chinese_dates_print_column(
        values: *const Date,
        values_length: usize,
        bitmap: *const u8,
        bitmap_length: usize,
        first: usize,
        script: u32,
        offsets: *mut u64,
        offsets_length: usize,
        room: *mut u8,
        room_length: usize,
        statuses: *mut u32,
        statuses_length: usize,
        done: *mut usize,
    ) -> u32;

    fn chinese_number_find_utf8(
        text: *const u8,
        text_length: usize,
        from: usize,
        upper: u32,
        greatest: u32,
        spans: *mut Span,
        most: usize,
        count: *mut usize,
    ) -> u32;

    fn chinese_quantity_find_utf8(
        text: *const u8,
        text_length: usize,
        from: usize,
        upper: u32,
        greatest: u32,
        spans: *mut Span,
        most: usize,
        count: *mut usize,
    ) -> u32;

    fn chinese_phrase_find_utf8(
        text: *const u8,
        text_length: usize,
        from: usize,
        upper: u32,
        greatest: u32,
        phrases: *mut Phrase,
        most: usize,
        count: *mut usize,
    ) -> u32;

    fn chinese_range_read(
        first: *const u8,
        first_length: usize,
        second: *const u8,
        second_length: usize,
        low: *mut QuantityReading,
        high: *mut QuantityReading,
    ) -> u32;

    fn chinese_quantity_read(
        text: *const u8,
        text_length: usize,
        method: u32,
        quantity: *mut QuantityReading,
    ) -> u32;

    fn chinese_quantity_print(
        quantity: *const QuantityReading,
        method: u32,
        script: u32,
        letter_case: u32,
        room: *mut u8,
        room_length: usize,
        length: *mut usize,
    ) -> u32;

    fn chinese_quantity_figures(
        quantity: *const QuantityReading,
        room: *mut u8,
        room_length: usize,
        length: *mut usize,
    ) -> u32;

    fn chinese_quantities_to_figures(
        text: *const u8,
        text_length: usize,
        upper: u32,
        greatest: u32,
        method: u32,
        options: u32,
        room: *mut u8,
        room_length: usize,
        length: *mut usize,
    ) -> u32;

    fn chinese_text_to_figures(
        text: *const u8,
        text_length: usize,
        upper: u32,
        greatest: u32,
        method: u32,
        options: u32,
        room: *mut u8,
        room_length: usize,
        length: *mut usize,
    ) -> u32;

    fn chinese_text_to_speech(
        text: *const u8,
        text_length: usize,
        upper: u32,
        greatest: u32,
        method: u32,
        script: u32,
        options: u32,
        meant: *mut u8,
        meant_length: usize,
        room: *mut u8,
        room_length: usize,
        length: *mut usize,
    ) -> u32;

    fn chinese_speech_left(
        text: *const u8,
        text_length: usize,
        from: usize,
        upper: u32,
        greatest: u32,
        meant: *mut u8,
        meant_length: usize,
        spans: *mut Span,
        most: usize,
        count: *mut usize,
    ) -> u32;

    fn chinese_input_expected(
        text: *const u8,
        text_length: usize,
        input: u32,
        expected: *mut Expected,
    ) -> u32;

    fn chinese_input_repair(
        text: *const u8,
        text_length: usize,
        input: u32,
        repair: *mut Repair,
    ) -> u32;

    fn chinese_number_explain(
        text: *const u8,
        text_length: usize,
        kind: u32,
        way: u32,
        fault: *mut u32,
    ) -> u32;

    fn chinese_quantity_explain(
        text: *const u8,
        text_length: usize,
        method: u32,
        fault: *mut u32,
    ) -> u32;

    fn chinese_input_message(
        text: *const u8,
        text_length: usize,
        input: u32,
        language: u32,
        room: *mut u8,
        room_length: usize,
        length: *mut usize,
    ) -> u32;

    fn chinese_number_message(
        text: *const u8,
        text_length: usize,
        kind: u32,
        way: u32,
        language: u32,
        room: *mut u8,
        room_length: usize,
        length: *mut usize,
    ) -> u32;

    fn chinese_quantity_message(
        text: *const u8,
        text_length: usize,
        method: u32,
        language: u32,
        room: *mut u8,
        room_length: usize,
        length: *mut usize,
    ) -> u32;

    fn chinese_status_message(
        status: u32,
        language: u32,
        room: *mut u8,
        room_length: usize,
        length: *mut usize,
    ) -> u32;
}

/// An integer type: its code, and its values as the library represents them.
pub trait Whole: Copy {
    const KIND: Kind;

    fn number(self) -> Number;

    fn of_number(number: Number) -> Self;
}

macro_rules! whole {
    ($($t:ty: $kind:ident;)*) => {
        $(
            #[allow(
                clippy::cast_lossless,
                clippy::cast_possible_truncation,
                clippy::cast_possible_wrap,
                clippy::cast_sign_loss,
                reason = "the bits of all twelve types cross in the same way, sign-extended"
            )]
            impl Whole for $t {
                const KIND: Kind = Kind::$kind;

                #[inline]
                fn number(self) -> Number {
                    let high = (self as i128 >> 64) as u64;
                    Number { low: self as u64, high }
                }

                #[inline]
                fn of_number(Number { low, high }: Number) -> Self {
                    ((high as u128) << 64 | low as u128) as Self
                }
            }
        )*
    };
}

whole! {
    u8: U8; u16: U16; u32: U32; u64: U64; u128: U128;
    i8: I8; i16: I16; i32: I32; i64: I64; i128: I128;
}

#[cfg(target_pointer_width = "64")]
whole! { usize: U64; isize: I64; }

#[cfg(target_pointer_width = "32")]
whole! { usize: U32; isize: I32; }

// The result of a call for a text, and its status. The interface has no error for a text that is
// too long for the C source.
#[inline]
fn answered<A: Default>(call: impl FnOnce(*mut A) -> u32) -> (A, u32) {
    let mut answer = A::default();
    let status = call(&raw mut answer);
    assert!(status != TOO_LONG, "the text is too long: it has more than 4,293,918,720 bytes");
    (answer, status)
}

// The value read, or the status and the place.
#[inline]
fn read_by<T: Default>(call: impl FnOnce(*mut Reading<T>) -> u32) -> Result<T, (u32, usize)> {
    let (reading, status) = answered(call);
    if status == status::DONE {
        Ok(reading.value)
    } else {
        Err((status, reading.char_index))
    }
}

/// The number of a text, or the status and the place.
#[inline]
pub fn read<T: Whole>(text: &str, way: Way) -> Result<T, (u32, usize)> {
    let (kind, way) = (T::KIND as u32, way as u32);
    // SAFETY: the declaration is that of the header. The pointer and the length are those of one
    // `str`, which is borrowed until the call returns, is UTF-8, and never has a null pointer. The
    // reading overlaps nothing else.
    let number = read_by(|reading| unsafe {
        chinese_number_read_utf8(text.as_ptr(), text.len(), kind, way, reading)
    });
    number.map(T::of_number)
}

/// The quantity of a text, or the status and the place.
#[inline]
pub fn read_quantity(text: &str, method: Way) -> Result<Quantity, (u32, usize)> {
    // SAFETY: as for a number.
    let (read, status) = answered(|quantity| unsafe {
        chinese_quantity_read(text.as_ptr(), text.len(), method as u32, quantity)
    });
    if status != status::DONE {
        return Err((status, read.char_index));
    }
    Ok(read.into())
}

/// The two ends of a range, which are the text before its link and the text after it.
#[inline]
pub fn read_range(first: &str, second: &str) -> Option<(Quantity, Quantity)> {
    let (start, after) = (first.as_ptr(), second.as_ptr());
    // SAFETY: as for a number, with two texts; the quantities are two, and overlap nothing else.
    let ((low, high), status) = answered(|ends: *mut (QuantityReading, QuantityReading)| unsafe {
        let (low, high) = (&raw mut (*ends).0, &raw mut (*ends).1);
        chinese_range_read(start, first.len(), after, second.len(), low, high)
    });
    (status == status::DONE).then(|| (low.into(), high.into()))
}

/// The amount of a text, or the status and the place.
#[inline]
pub fn read_amount(text: &str) -> Result<u64, (u32, usize)> {
    // SAFETY: as for a number.
    read_by(|reading| unsafe { chinese_amount_read(text.as_ptr(), text.len(), reading) })
}

/// The amount of a text, possibly negative, or the status and the place.
#[inline]
pub fn read_signed_amount(text: &str) -> Result<i64, (u32, usize)> {
    // SAFETY: as for a number.
    read_by(|reading| unsafe { chinese_signed_amount_read(text.as_ptr(), text.len(), reading) })
}

/// The amount of a text as it is typed, or the status and the place.
#[inline]
pub fn read_typed_amount(text: &str) -> Result<u64, (u32, usize)> {
    // SAFETY: as for a number.
    read_by(|reading| unsafe { chinese_typed_amount_read(text.as_ptr(), text.len(), reading) })
}

/// The amount of a text as it is typed, possibly negative, or the status and the place.
#[inline]
pub fn read_typed_signed_amount(text: &str) -> Result<i64, (u32, usize)> {
    // SAFETY: as for a number.
    read_by(|reading| unsafe {
        chinese_typed_signed_amount_read(text.as_ptr(), text.len(), reading)
    })
}

/// The amount in figures, or the status and the place.
#[inline]
pub fn read_figures(text: &str) -> Result<i64, (u32, usize)> {
    // SAFETY: as for a number.
    read_by(|reading| unsafe { chinese_figures_read(text.as_ptr(), text.len(), reading) })
}

/// The date of a text, or the status and the place.
#[inline]
#[allow(
    clippy::cast_possible_truncation,
    reason = "the year of a date read is below 10,000, its month at most 12, its day at most 31"
)]
pub fn read_date(text: &str) -> Result<BillDate, (u32, usize)> {
    // SAFETY: as for a number.
    let date: Result<Date, _> =
        read_by(|reading| unsafe { chinese_date_read(text.as_ptr(), text.len(), reading) });
    date.map(|Date { year, month, day }| BillDate {
        year: year as u16,
        month: month as u8,
        day: day as u8,
    })
}

/// What may come next in a text that is meant to be an input.
#[inline]
pub fn input_expected(text: &str, input: Input) -> Expected {
    // SAFETY: as for a number.
    let (expected, _) = answered(|expected| unsafe {
        chinese_input_expected(text.as_ptr(), text.len(), input as u32, expected)
    });
    expected
}

/// One change that repairs a text that is meant to be an input.
#[inline]
pub fn input_repair(text: &str, input: Input) -> Repair {
    // SAFETY: as for a number.
    let (repair, _) = answered(|repair| unsafe {
        chinese_input_repair(text.as_ptr(), text.len(), input as u32, repair)
    });
    repair
}

/// The code of the reason why a text is not a number, or 0.
#[inline]
pub fn explain<T: Whole>(text: &str, way: Way) -> u32 {
    let (kind, way) = (T::KIND as u32, way as u32);
    // SAFETY: as for a number.
    let (fault, _) = answered(|fault| unsafe {
        chinese_number_explain(text.as_ptr(), text.len(), kind, way, fault)
    });
    fault
}

/// The code of the reason why a text is not a quantity, or 0.
#[inline]
pub fn explain_quantity(text: &str, method: Way) -> u32 {
    // SAFETY: as for a number.
    let (fault, _) = answered(|fault| unsafe {
        chinese_quantity_explain(text.as_ptr(), text.len(), method as u32, fault)
    });
    fault
}

// Finds what a call searches for from a byte on, at most as many as there are places, and returns
// how many; none if no character begins at that byte.
//
// SAFETY: the call must be one of this library's.
#[inline]
unsafe fn found_by<T>(
    search: Search<T>,
    text: &str,
    from: usize,
    (upper, greatest): (bool, Unit),
    places: &mut [T],
) -> usize {
    // SAFETY: as for a number; the places are those of one slice, and the count overlaps nothing
    // else.
    let (count, _) = answered(|count| unsafe {
        let (upper, greatest) = (u32::from(upper), greatest as u32);
        let (places, most) = (places.as_mut_ptr(), places.len());
        search(text.as_ptr(), text.len(), from, upper, greatest, places, most, count)
    });
    count
}

/// Finds the runs of a text from a byte on, at most as many as there are spans, and returns how
/// many; none if no character begins at that byte.
#[inline]
pub fn find(
    sought: Sought,
    text: &str,
    from: usize,
    wanted: (bool, Unit),
    spans: &mut [Span],
) -> usize {
    let search = match sought {
        Sought::Numbers => chinese_number_find_utf8,
        Sought::Quantities => chinese_quantity_find_utf8,
    };
    // SAFETY: both are calls of the library.
    unsafe { found_by(search, text, from, wanted, spans) }
}

/// Finds the phrases of a text, and the expressions that are in none, likewise.
#[inline]
pub fn find_phrases(
    text: &str,
    from: usize,
    wanted: (bool, Unit),
    phrases: &mut [Phrase],
) -> usize {
    // SAFETY: it is a call of the library.
    unsafe { found_by(chinese_phrase_find_utf8, text, from, wanted, phrases) }
}

/// Rewrites the quantities of a text in figures, with these options.
pub fn quantities_to_figures(
    text: &str,
    wanted: (bool, Unit),
    method: Way,
    options: u32,
) -> String {
    let (upper, greatest, method) = (u32::from(wanted.0), wanted.1 as u32, method as u32);
    let (start, end) = (text.as_ptr(), text.len());
    // SAFETY: it is a call of the library, for a text and a buffer that `rewritten` gives it.
    unsafe {
        rewritten(end, |room, most, length| {
            chinese_quantities_to_figures(
                start, end, upper, greatest, method, options, room, most, length,
            )
        })
    }
}

/// Rewrites the phrases and the quantities of a text in figures, with these options.
pub fn text_to_figures(text: &str, wanted: (bool, Unit), method: Way, options: u32) -> String {
    let (upper, greatest, method) = (u32::from(wanted.0), wanted.1 as u32, method as u32);
    let (start, end) = (text.as_ptr(), text.len());
    // SAFETY: as for quantities.
    unsafe {
        rewritten(end, |room, most, length| {
            chinese_text_to_figures(
                start, end, upper, greatest, method, options, room, most, length,
            )
        })
    }
}

/// Rewrites a text as it is spoken, with these options.
pub fn text_to_speech(text: &str, method: Way, script: ChineseVariant, options: u32) -> String {
    let (greatest, method, script) = (Unit::Zhao as u32, method as u32, script as u32);
    let (start, end) = (text.as_ptr(), text.len());
    let mut work = vec![0; end];
    let meant = work.as_mut_ptr();
    // SAFETY: as for quantities; the other buffer is the vector's own, has as many bytes as the text,
    // and overlaps nothing else.
    unsafe {
        rewritten(end, |room, most, length| {
            chinese_text_to_speech(
                start, end, 0, greatest, method, script, options, meant, end, room, most, length,
            )
        })
    }
}

/// All parts with figures that speech leaves. Each call goes through the whole text, so each one finds
/// twice as many as the one before.
pub fn find_unspoken(text: &str) -> Vec<Span> {
    let (start, end) = (text.as_ptr(), text.len());
    let (mut work, mut all, mut most) = (vec![0; end], Vec::new(), 32);
    loop {
        let from = all.last().map_or(0, |span: &Span| span.end);
        let mut spans = vec![Span::default(); most];
        let (meant, places) = (work.as_mut_ptr(), spans.as_mut_ptr());
        // SAFETY: as for a number; the buffer has as many bytes as the text, the spans are those of one
        // vector, and neither they nor the count overlap anything else.
        let (count, _) = answered(|count| unsafe {
            let greatest = Unit::Zhao as u32;
            chinese_speech_left(start, end, from, 0, greatest, meant, end, places, most, count)
        });
        all.extend_from_slice(&spans[..count]);
        if count < most {
            return all;
        }
        most *= 2;
    }
}

// The text that a call writes into a buffer, which is larger if it asks for that.
//
// SAFETY: the call must be one of this library's that writes a text into the buffer that it is given.
unsafe fn rewritten(capacity: usize, call: impl Fn(*mut u8, usize, *mut usize) -> u32) -> String {
    let mut bytes: Vec<u8> = Vec::with_capacity(capacity);
    loop {
        let (room, most) = (bytes.as_mut_ptr(), bytes.capacity());
        // The buffer is the vector's own and has this capacity; the library writes to it and does not
        // read it; and the length overlaps nothing else.
        let (length, status) = answered(|length| call(room, most, length));
        if status == status::DONE {
            debug_assert!(length <= most);
            // SAFETY: at `DONE` the library has written this many bytes at the start of the buffer,
            // no more than fit, and they are UTF-8 as the text is.
            return unsafe {
                bytes.set_len(length);
                String::from_utf8_unchecked(bytes)
            };
        }
        bytes.reserve_exact(length);
    }
}

// The text that a call prints into a buffer, or its status.
//
// SAFETY: the call gets this buffer and a length that overlaps nothing else, and may write to both
// until it returns. At `DONE` it must have written `length` bytes, no more than the buffer has, at
// the start of the buffer, and they must be UTF-8.
#[inline]
unsafe fn printed(
    room: &mut [MaybeUninit<u8>],
    call: impl FnOnce(*mut u8, *mut usize) -> u32,
) -> Result<&str, u32> {
    let (length, status) = answered(|length| call(room.as_mut_ptr().cast(), length));
    if status != status::DONE {
        return Err(status);
    }
    debug_assert!(length <= room.len());
    let bytes = core::slice::from_raw_parts(room.as_ptr().cast(), length);
    Ok(core::str::from_utf8_unchecked(bytes))
}

/// The text of a number, or the status.
#[inline]
pub fn print<T: Whole>(
    room: &mut Bytes,
    script: ChineseVariant,
    case: ChineseCase,
    way: Way,
    value: T,
) -> Result<&str, u32> {
    let Number { low, high } = value.number();
    let (kind, way, script, case) = (T::KIND as u32, way as u32, script as u32, case as u32);
    // SAFETY: the declaration is that of the header. The library writes to the buffer, which has at
    // least this many bytes, and does not read it. No text of a number has more bytes.
    unsafe {
        printed(room, |room, length| {
            chinese_number_print(low, high, kind, way, script, case, room, MOST_BYTES, length)
        })
    }
}

/// The text of a quantity, or the status.
#[inline]
pub fn print_quantity(
    room: &mut Bytes,
    script: ChineseVariant,
    case: ChineseCase,
    method: Way,
    quantity: Quantity,
) -> Result<&str, u32> {
    let quantity = &QuantityReading::from(quantity);
    let (method, script, case) = (method as u32, script as u32, case as u32);
    // SAFETY: as for a number; the quantity is borrowed until the call returns.
    unsafe {
        printed(room, |room, length| {
            let most = MOST_QUANTITY_BYTES;
            chinese_quantity_print(quantity, method, script, case, room, most, length)
        })
    }
}

/// The figures of a quantity, or the status.
#[inline]
pub fn print_figures(room: &mut Bytes, quantity: Quantity) -> Result<&str, u32> {
    let quantity = &QuantityReading::from(quantity);
    // SAFETY: as for a quantity.
    unsafe {
        printed(room, |room, length| {
            chinese_quantity_figures(quantity, room, MOST_FIGURES_BYTES, length)
        })
    }
}

/// The text of an amount, or the status.
#[inline]
pub fn print_amount(
    room: &mut Bytes,
    script: ChineseVariant,
    form: u32,
    fen: u64,
) -> Result<&str, u32> {
    // SAFETY: as for a number; and no text of an amount has more bytes than this buffer.
    unsafe {
        printed(room, |room, length| {
            chinese_amount_print(fen, script as u32, form, room, MOST_AMOUNT_BYTES, length)
        })
    }
}

/// The text of an amount, possibly negative, or the status.
#[inline]
pub fn print_signed_amount(
    room: &mut Bytes,
    script: ChineseVariant,
    form: u32,
    fen: i64,
) -> Result<&str, u32> {
    // SAFETY: as for an amount.
    unsafe {
        printed(room, |room, length| {
            chinese_signed_amount_print(
                fen,
                script as u32,
                form,
                room,
                MOST_SIGNED_AMOUNT_BYTES,
                length,
            )
        })
    }
}

/// The text of a date, or the status.
#[inline]
pub fn print_date(room: &mut Bytes, script: ChineseVariant, date: BillDate) -> Result<&str, u32> {
    let (year, month, day) = (date.year.into(), date.month.into(), date.day.into());
    // SAFETY: as for a number; and no text of a date has more bytes than this buffer.
    unsafe {
        printed(room, |room, length| {
            chinese_date_print(year, month, day, script as u32, room, MOST_DATE_BYTES, length)
        })
    }
}

/// The texts of rows, one after another: that of row i begins at offset i and ends at offset i + 1.
#[derive(Debug, Clone)]
pub struct Texts {
    pub text: String,
    pub offsets: Vec<u64>,
    pub statuses: Vec<u32>,
}

// How many rows a call prints: so few that the memory for their longest texts is small.
const ROWS: usize = 256;

// The arrays of a call that prints rows: their texts go on at the first offset.
struct Printing {
    offsets: *mut u64,
    room: *mut u8,
    room_length: usize,
    statuses: *mut u32,
    done: *mut usize,
}

impl Texts {
    // SAFETY: the call gets the rows of a piece, as many statuses, one offset more, and room for as
    // many bytes as `most` for each row, none of which overlaps anything else. It may write to these
    // until it returns. It must have written all offsets, all statuses, and, up to the last offset,
    // the texts in UTF-8.
    #[allow(clippy::cast_possible_truncation, reason = "the offset is within the buffer")]
    unsafe fn print<V, R>(
        values: &[V],
        most: usize,
        row: impl Fn(&V) -> R,
        call: impl Fn(&[R], &Printing) -> u32,
    ) -> Self {
        let mut bytes = Vec::new();
        let mut offsets = alloc::vec![0; values.len() + 1];
        let mut statuses = alloc::vec![0; values.len()];
        let mut rows = Vec::with_capacity(values.len().min(ROWS));
        for (piece, values) in values.chunks(ROWS).enumerate() {
            rows.clear();
            rows.extend(values.iter().map(&row));
            bytes.reserve(most * rows.len());
            let (first, mut done) = (piece * ROWS, 0);
            let status = call(
                &rows,
                &Printing {
                    offsets: offsets[first..].as_mut_ptr(),
                    room: bytes.as_mut_ptr(),
                    room_length: bytes.capacity(),
                    statuses: statuses[first..].as_mut_ptr(),
                    done: &raw mut done,
                },
            );
            assert!(status == status::DONE && done == rows.len(), "the codes are the library's");
            bytes.set_len(offsets[first + done] as usize);
        }
        Self { text: String::from_utf8_unchecked(bytes), offsets, statuses }
    }
}

/// The texts of numbers.
pub fn print_numbers<T: Whole>(
    script: ChineseVariant,
    case: ChineseCase,
    way: Way,
    values: &[T],
) -> Texts {
    let (kind, way, script, case) = (T::KIND as u32, way as u32, script as u32, case as u32);
    // SAFETY: the declaration is that of the header. The library writes to the buffer, and does not
    // read it. No text of a number has more bytes. An empty bitmap is not read.
    unsafe {
        Texts::print(
            values,
            MOST_BYTES,
            |value| value.number(),
            |rows, to| {
                let (count, none) = (rows.len(), [].as_ptr());
                chinese_wide_numbers_print_column(
                    rows.as_ptr(),
                    count,
                    none,
                    0,
                    0,
                    kind,
                    way,
                    script,
                    case,
                    to.offsets,
                    count + 1,
                    to.room,
                    to.room_length,
                    to.statuses,
                    count,
                    to.done,
                )
            },
        )
    }
}

/// The texts of amounts, possibly negative.
pub fn print_amounts(script: ChineseVariant, form: u32, fen: &[i64]) -> Texts {
    // SAFETY: as for numbers; and no text of an amount has more bytes.
    unsafe {
        Texts::print(
            fen,
            MOST_SIGNED_AMOUNT_BYTES,
            |fen| *fen,
            |rows, to| {
                let (count, none) = (rows.len(), [].as_ptr());
                chinese_amounts_print_column(
                    rows.as_ptr(),
                    count,
                    none,
                    0,
                    0,
                    script as u32,
                    form,
                    to.offsets,
                    count + 1,
                    to.room,
                    to.room_length,
                    to.statuses,
                    count,
                    to.done,
                )
            },
        )
    }
}

/// The texts of dates.
pub fn print_dates(script: ChineseVariant, dates: &[BillDate]) -> Texts {
    let row =
        |it: &BillDate| Date { year: it.year.into(), month: it.month.into(), day: it.day.into() };
    // SAFETY: as for numbers; and no text of a date has more bytes.
    unsafe {
        Texts::print(dates, MOST_DATE_BYTES, row, |rows, to| {
            let (count, none) = (rows.len(), [].as_ptr());
            chinese_dates_print_column(
                rows.as_ptr(),
                count,
                none,
                0,
                0,
                script as u32,
                to.offsets,
                count + 1,
                to.room,
                to.room_length,
                to.statuses,
                count,
                to.done,
            )
        })
    }
}

// The message that a call prints.
//
// SAFETY: as for `printed`; the buffer has as many bytes as the call gets.
unsafe fn message(call: impl FnOnce(*mut u8, usize, *mut usize) -> u32) -> String {
    let mut room = [MaybeUninit::uninit(); MOST_MESSAGE_BYTES];
    let text = printed(&mut room, |room, length| call(room, MOST_MESSAGE_BYTES, length));
    text.unwrap_or_else(|_| unreachable!("the codes are the library's")).into()
}

/// The message that says why a text is not such an input.
pub fn input_message(text: &str, input: Input, language: Language) -> String {
    let (start, end, input, language) = (text.as_ptr(), text.len(), input as u32, language as u32);
    // SAFETY: as for reading and printing a number; and no message has more bytes than the buffer.
    unsafe {
        message(|room, most, length| {
            chinese_input_message(start, end, input, language, room, most, length)
        })
    }
}

/// The message that says why a text is not a number.
pub fn number_message<T: Whole>(text: &str, way: Way, language: Language) -> String {
    let (start, end, way, language) = (text.as_ptr(), text.len(), way as u32, language as u32);
    // SAFETY: as for an input.
    unsafe {
        message(|room, most, length| {
            chinese_number_message(start, end, T::KIND as u32, way, language, room, most, length)
        })
    }
}

/// The message that says why a text is not a quantity.
pub fn quantity_message(text: &str, way: Way, language: Language) -> String {
    let (start, end, method, language) = (text.as_ptr(), text.len(), way as u32, language as u32);
    // SAFETY: as for an input.
    unsafe {
        message(|room, most, length| {
            chinese_quantity_message(start, end, method, language, room, most, length)
        })
    }
}

/// The message that says what a status means.
pub fn status_message(status: u32, language: Language) -> String {
    // SAFETY: as for an input.
    unsafe {
        message(|room, most, length| {
            chinese_status_message(status, language as u32, room, most, length)
        })
    }
}
