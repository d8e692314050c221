//! What the Rust crate answers where there is no operating system, as a text with a zero byte at its
//! end. test_freestanding.py builds it: node asks the module for the text, a Cortex-M4 hands it to qemu.
//! For test_windows.py it writes the text by the C library of Windows.

#![no_std]
#![no_main]

extern crate alloc;

use core::alloc::{GlobalAlloc, Layout};
use core::panic::PanicInfo;
use core::ptr::{addr_of_mut, null_mut};
use core::sync::atomic::{AtomicUsize, Ordering::Relaxed};

use alloc::format;
use alloc::string::String;

use chinese_number::{
    amount_to_chinese, chinese_to_amount, chinese_to_date, date_to_chinese, find_numbers,
    from_chinese_to_i128_ten_thousand, from_chinese_to_i64_ten_thousand, from_chinese_to_i8,
    BillDate, ChineseCase, ChineseCountMethod, ChineseVariant, NumberToChinese, Wanted,
};

const METHOD: ChineseCountMethod = ChineseCountMethod::TenThousand;

fn number() -> String {
    // Both of its words have bits, and other ones.
    let number = -170141183460469231731687303715884105727i128;
    let text = number
        .to_chinese(ChineseVariant::Traditional, ChineseCase::Lower, METHOD)
        .unwrap();
    let read = from_chinese_to_i128_ten_thousand(&text).unwrap();
    format!("{text}\n{read}\n")
}

fn amount() -> String {
    let text = amount_to_chinese(ChineseVariant::Simple, 140_950).unwrap();
    let fen = chinese_to_amount(&text).unwrap();
    format!("{text}\n{fen}\n")
}

fn date() -> String {
    let date = BillDate {
        year: 2026,
        month: 10,
        day: 20,
    };
    let text = date_to_chinese(ChineseVariant::Simple, date).unwrap();
    let BillDate { year, month, day } = chinese_to_date(&text).unwrap();
    format!("{text}\n{year}-{month}-{day}\n")
}

fn found() -> String {
    let chapter = find_numbers("第二十三回", Wanted::EVERYDAY).next().unwrap();
    let number: u16 = chapter.number(METHOD).unwrap();
    format!(
        "{} {} {} {number}\n",
        chapter.before, chapter.text, chapter.after
    )
}

fn refusals() -> String {
    let incorrect = from_chinese_to_i64_ten_thousand(" 負 二十十").unwrap_err();
    let too_small = from_chinese_to_i8("負一百二十九").unwrap_err();
    format!("{incorrect}\n{too_small}\n")
}

#[no_mangle]
extern "C" fn answers() -> *const u8 {
    let text = [number(), amount(), date(), found(), refusals()].concat() + "\0";
    text.leak().as_ptr()
}

/// Memory that is given once, and never taken back.
struct Memory;

static mut ROOM: [u64; 2048] = [0; 2048];
static GIVEN: AtomicUsize = AtomicUsize::new(0);

#[global_allocator]
static MEMORY: Memory = Memory;

// SAFETY: each request has bytes of its own, in a room that is aligned for all types of this program.
unsafe impl GlobalAlloc for Memory {
    unsafe fn alloc(&self, layout: Layout) -> *mut u8 {
        let from = GIVEN.load(Relaxed).next_multiple_of(layout.align());
        GIVEN.store(from + layout.size(), Relaxed);
        if from + layout.size() > size_of::<[u64; 2048]>() {
            return null_mut();
        }
        addr_of_mut!(ROOM).cast::<u8>().add(from)
    }

    unsafe fn dealloc(&self, _: *mut u8, _: Layout) {}
}

#[panic_handler]
fn panic(_: &PanicInfo) -> ! {
    machine::fail()
}

#[cfg(target_arch = "wasm32")]
mod machine {
    pub fn fail() -> ! {
        core::arch::wasm32::unreachable()
    }
}

#[cfg(windows)]
mod machine {
    use core::ffi::{c_int, c_uint, CStr};

    extern "C" {
        fn _write(file: c_int, bytes: *const u8, count: c_uint) -> c_int;
        fn abort() -> !;
    }

    #[no_mangle]
    extern "C" fn main() -> c_int {
        // SAFETY: the text ends in a zero byte.
        let text = unsafe { CStr::from_ptr(super::answers().cast()) }.to_bytes();
        // SAFETY: it has so many bytes.
        let written = unsafe { _write(1, text.as_ptr(), text.len() as c_uint) };
        c_int::from(written < 0)
    }

    pub fn fail() -> ! {
        // SAFETY: it asks for nothing.
        unsafe { abort() }
    }
}

#[cfg(target_arch = "arm")]
mod machine {
    use core::arch::asm;

    const WRITE: usize = 4;
    const EXIT: usize = 24;
    const DONE: usize = 0x20026;
    const FAILED: usize = 0x20023;

    /// Asks the machine's host by semihosting.
    fn ask(operation: usize, of: usize) {
        // SAFETY: the host reads the text that it is to write, and changes nothing.
        unsafe { asm!("bkpt 0xab", inout("r0") operation => _, in("r1") of) }
    }

    #[no_mangle]
    extern "C" fn start() -> ! {
        ask(WRITE, super::answers() as usize);
        end(DONE)
    }

    #[no_mangle]
    pub extern "C" fn fail() -> ! {
        end(FAILED)
    }

    fn end(reason: usize) -> ! {
        ask(EXIT, reason);
        loop {}
    }
}
