//! The tool `rcm` over the proved library (feature `librcm`); without it only `asm` and `dis` are
//! there.

use reference::compare::Interface;
use reference::tool::{run, Session, BAD_INPUT};
use std::ffi::OsString;
use std::io::IsTerminal;
use std::process::ExitCode;
use std::sync::atomic::{AtomicI32, Ordering};
use std::sync::Once;

#[cfg(feature = "librcm")]
fn machine() -> Option<impl Interface> {
    Some(reference::library::Library)
}

#[cfg(not(feature = "librcm"))]
fn machine() -> Option<impl Interface> {
    None::<reference::compare::Reference>
}

const SIGHUP: i32 = 1;
const SIGINT: i32 = 2;
const SIGTERM: i32 = 15;
/// Actions of a signal: the default one, and none.
const DEFAULT: usize = 0;
const IGNORE: usize = 1;
/// What a shell adds to the number of the signal that ended a program.
const BY_SIGNAL: i32 = 128;

extern "C" {
    fn signal(number: i32, action: usize) -> usize;
}

/// The last signal that asked to end, or 0.
static RECEIVED: AtomicI32 = AtomicI32::new(0);

/// Keeps the signal for the run; a second one ends the program at once.
extern "C" fn receive(number: i32) {
    RECEIVED.store(number, Ordering::Relaxed);
    // SAFETY: `signal` may be called in a handler.
    unsafe { signal(number, DEFAULT) };
}

/// From its first call on, signals that ask to end are kept for the run to see.
fn interrupted() -> Option<u8> {
    static WATCH: Once = Once::new();
    WATCH.call_once(|| {
        for number in [SIGHUP, SIGINT, SIGTERM] {
            // SAFETY: the handler does an atomic store and sets an action, no more. A signal that
            // whoever started the program ignores stays ignored.
            unsafe {
                if signal(number, receive as extern "C" fn(i32) as usize) == IGNORE {
                    signal(number, IGNORE);
                }
            }
        }
    });
    match RECEIVED.load(Ordering::Relaxed) {
        0 => None,
        number => Some((BY_SIGNAL + number) as u8),
    }
}

fn main() -> ExitCode {
    let words: Result<Vec<String>, _> =
        std::env::args_os().skip(1).map(OsString::into_string).collect();
    let Ok(words) = words else {
        eprintln!("rcm: expected words in UTF-8");
        return ExitCode::from(BAD_INPUT);
    };
    let mut machine = machine();
    let mut session = Session {
        machine: machine.as_mut().map(|machine| machine as &mut dyn Interface),
        out: &mut std::io::stdout().lock(),
        error: &mut std::io::stderr(),
        terminal: std::io::stderr().is_terminal(),
        interrupted,
    };
    ExitCode::from(run(&words, &mut session))
}
