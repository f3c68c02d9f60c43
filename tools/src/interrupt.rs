//! What Ctrl-C, or the end of a batch job, does to a long call: it says how far it got, and leaves
//! no process behind.

// The standard library has no word for signals. Each call says why it is sound.
#![allow(unsafe_code)]

use std::ffi::c_int;
use std::io;
use std::process::Child;
use std::sync::atomic::{AtomicI32, AtomicUsize, Ordering::SeqCst};

const SIGINT: c_int = 2;
const SIGKILL: c_int = 9;
const SIGTERM: c_int = 15;
const SIGNALS: [c_int; 2] = [SIGINT, SIGTERM];

/// What a signal does if it is ignored, as in a job behind 'nohup'.
const IGNORED: usize = 1;

extern "C" {
    fn signal(number: c_int, action: usize) -> usize;
    fn kill(process: c_int, number: c_int) -> c_int;
    fn write(file: c_int, bytes: *const u8, count: usize) -> isize;
    fn _exit(status: c_int) -> !;
}

/// The process that ends with this one: 0 for none, below it for one that is being started.
static CHILD: AtomicI32 = AtomicI32::new(0);
const STARTING: i32 = -1;

/// The signal that has come, 0 for none.
static COME: AtomicI32 = AtomicI32::new(0);

/// The runs of Solve so far.
static RUNS: AtomicUsize = AtomicUsize::new(0);

/// Starts a process that is to end with this one. A signal that comes meanwhile waits until its
/// number is known.
pub fn started(start: impl FnOnce() -> io::Result<Child>) -> io::Result<Child> {
    CHILD.store(STARTING, SeqCst);
    let child = start();
    let number = child.as_ref().map_or(0, |child| child.id().try_into().unwrap_or(0));
    CHILD.store(number, SeqCst);
    let signal = COME.load(SeqCst);
    if signal != 0 {
        interrupted(signal);
    }
    child
}

/// The process is to be waited for, and its number may be another one's then.
pub fn without_child() {
    CHILD.store(0, SeqCst);
}

/// How many runs are to be told.
pub fn with_runs(runs: usize) {
    RUNS.store(runs, SeqCst);
}

/// While it is there, a signal that ends this process says how far it got and ends its child.
pub struct Watch([usize; 2]);

impl Watch {
    pub fn new() -> Watch {
        let action = interrupted as extern "C" fn(c_int) as usize;
        Watch(SIGNALS.map(|number| {
            // SAFETY: the action does only what may be done at any point of the program.
            let before = unsafe { signal(number, action) };
            if before == IGNORED {
                // SAFETY: the signal is ignored as it was.
                unsafe { signal(number, IGNORED) };
            }
            before
        }))
    }
}

impl Drop for Watch {
    fn drop(&mut self) {
        for (number, before) in SIGNALS.into_iter().zip(self.0) {
            // SAFETY: the signal does what it did.
            unsafe { signal(number, before) };
        }
    }
}

/// The action: it reads and writes whole numbers, makes system calls that may be made here
/// (signal-safety(7)), and allocates nothing. It returns only if a process is being started, and
/// then what starts it does the same again.
extern "C" fn interrupted(number: c_int) {
    COME.store(number, SeqCst);
    let child = CHILD.load(SeqCst);
    if child == STARTING {
        return;
    }
    if child > 0 {
        // SAFETY: the number is that of a child that isn't waited for yet, so no other process has it.
        unsafe { kill(child, SIGKILL) };
    }
    let mut digits = [0; 20];
    let runs = decimal(RUNS.load(SeqCst), &mut digits);
    for part in [b"\nplumanchor: interrupted without a verdict; runs of Solve: ", runs, b"\n"] {
        // SAFETY: the pointer and the length are those of a slice. What can't be written is lost.
        unsafe { write(2, part.as_ptr(), part.len()) };
    }
    // SAFETY: the process ends here, with a shell's status for the signal.
    unsafe { _exit(128 + number) }
}

/// A number in decimal digits, at the end of a buffer.
fn decimal(mut number: usize, digits: &mut [u8; 20]) -> &[u8] {
    let mut from = digits.len();
    while number > 0 || from == digits.len() {
        from -= 1;
        digits[from] = b'0' + (number % 10) as u8;
        number /= 10;
    }
    &digits[from..]
}

#[cfg(test)]
mod tests {
    use super::decimal;

    #[test]
    fn numbers_in_digits() {
        for number in [0, 7, 10, 4096, usize::MAX] {
            assert_eq!(decimal(number, &mut [0; 20]), number.to_string().as_bytes());
        }
    }
}
