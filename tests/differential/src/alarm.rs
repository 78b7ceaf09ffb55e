//! A crash, a panic, and a call that does not end, name their sequence before the process ends.

use std::sync::atomic::{AtomicU64, Ordering};

const SECONDS: u32 = 120;
const SIGNALS: [i32; 6] = [4, 6, 7, 8, 11, 14]; // SIGILL, SIGABRT, SIGBUS, SIGFPE, SIGSEGV, SIGALRM
const SIGALRM: i32 = 14;

static SEQUENCE: AtomicU64 = AtomicU64::new(0);

extern "C" {
    fn signal(number: i32, handler: extern "C" fn(i32)) -> usize;
    fn alarm(seconds: u32) -> u32;
    fn write(file: i32, bytes: *const u8, length: usize) -> isize;
    fn _exit(status: i32) -> !;
}

/// The number that stands for the documents' numbers.
const CASES: u64 = u64::MAX;

extern "C" fn ended(number: i32) {
    let what: &[u8] = if number == SIGALRM { b"failed: no end in " } else { b"failed: a crash in " };
    let sequence = SEQUENCE.load(Ordering::Relaxed);
    let place: &[u8] = if sequence == CASES { b"the documents' numbers\n" } else { b"sequence " };
    // SAFETY: write and _exit may be called in a handler; the bytes outlive the calls.
    unsafe {
        write(1, what.as_ptr(), what.len());
        write(1, place.as_ptr(), place.len());
        if sequence == CASES {
            _exit(3)
        }
    }
    let mut digits = [b'0'; 21];
    let mut place = digits.len() - 1;
    digits[place] = b'\n';
    let mut rest = sequence;
    loop {
        place -= 1;
        digits[place] = b'0' + (rest % 10) as u8;
        rest /= 10;
        if rest == 0 {
            break;
        }
    }
    // SAFETY: as above.
    unsafe {
        write(1, digits[place..].as_ptr(), digits.len() - place);
        _exit(3)
    }
}

pub fn install() {
    let usual = std::panic::take_hook();
    std::panic::set_hook(Box::new(move |what| {
        usual(what);
        println!("failed: a panic of the driver in sequence {}", SEQUENCE.load(Ordering::Relaxed));
    }));
    for number in SIGNALS {
        // SAFETY: the handler calls only what a handler may call.
        unsafe { signal(number, ended) };
    }
}

/// The documents' numbers begin.
pub fn set_cases() {
    set(CASES);
}

/// A sequence begins: it has two minutes.
pub fn set(sequence: u64) {
    SEQUENCE.store(sequence, Ordering::Relaxed);
    // SAFETY: alarm has no precondition.
    unsafe { alarm(SECONDS) };
}
