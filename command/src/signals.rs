//! Signals: one that would end the command waits until no file is half written.

use signal_hook::consts::{SIGHUP, SIGINT, SIGPIPE, SIGTERM};
use signal_hook::iterator::Signals;
use signal_hook::low_level::emulate_default_handler;
use std::sync::{Once, PoisonError, RwLock, RwLockReadGuard};
use std::{process, ptr, thread};

/// Lent for reading while there is a temporary file.
static HALF_WRITTEN: RwLock<()> = RwLock::new(());

/// While the guard lives no signal of [`ENDING`] ends the command.
pub fn hold() -> RwLockReadGuard<'static, ()> {
    static WATCHED: Once = Once::new();
    WATCHED.call_once(watch);
    HALF_WRITTEN.read().unwrap_or_else(PoisonError::into_inner)
}

const ENDING: [i32; 3] = [SIGHUP, SIGINT, SIGTERM];

/// Without the watch a signal ends the command at once, and may leave a temporary file.
fn watch() {
    let asked = ENDING.into_iter().filter(|signal| !is_ignored(*signal));
    if let Ok(mut signals) = Signals::new(asked) {
        thread::spawn(move || {
            for signal in signals.forever() {
                let _none = HALF_WRITTEN.write();
                let _ = emulate_default_handler(signal);
            }
        });
    }
}

/// Whoever started the command may have said that a signal does not concern it, as `nohup` does.
fn is_ignored(signal: i32) -> bool {
    // SAFETY: a structure of numbers, for which zeros are right.
    let mut now: libc::sigaction = unsafe { std::mem::zeroed() };
    // SAFETY: nothing is set, and what is said goes to a structure that is there.
    let said = unsafe { libc::sigaction(signal, ptr::null(), &raw mut now) };
    said == 0 && now.sa_sigaction == libc::SIG_IGN
}

/// Ends the command as the system ends one that writes where nobody reads.
pub fn end_by_closed_pipe() -> ! {
    let _ = emulate_default_handler(SIGPIPE);
    process::exit(128 + SIGPIPE)
}
