//! A stretch of work that an interruption does not cut in two: signals wait, and are delivered behind it.

use std::ffi::c_void;
use std::ptr;

/// The signals by which a person or the system asks a command to end: hang-up, Ctrl-C and a plain `kill`.
const SIGNALS: [i32; 3] = [1, 2, 15];

const SIG_BLOCK: i32 = 0;
const SIG_SETMASK: i32 = 2;

/// C's `sigset_t` on Linux: a bit for each signal, counted from 1, and room for more.
#[repr(C)]
#[derive(Clone, Copy)]
struct SignalSet([u64; 16]);

/// C's `struct sigaction` on Linux has the handler first; there is room for the rest of it.
type Action = [usize; 32];

/// The handler of a signal that is ignored, as `nohup` has it.
const SIG_IGN: usize = 1;

extern "C" {
    fn sigaction(signal: i32, action: *const c_void, old: *mut Action) -> i32;
    fn pthread_sigmask(how: i32, set: *const SignalSet, old: *mut SignalSet) -> i32;
    fn sigpending(set: *mut SignalSet) -> i32;
}

impl SignalSet {
    const EMPTY: SignalSet = SignalSet([0; 16]);

    /// The signals that would end the command.
    fn asking_to_end() -> SignalSet {
        let mut set = SignalSet::EMPTY;
        for signal in SIGNALS {
            let mut action: Action = [0; 32];
            // SAFETY: nothing is set, and what is written during the call has room.
            unsafe { sigaction(signal, ptr::null(), &mut action) };
            if action[0] != SIG_IGN {
                set.0[0] |= 1 << (signal - 1);
            }
        }
        set
    }
}

/// While it lives, those signals wait. When it is dropped they are as they were, and one that waited ends the command.
pub struct Held {
    held: SignalSet,
    before: SignalSet,
}

impl Held {
    pub fn new() -> Held {
        let (held, mut before) = (SignalSet::asking_to_end(), SignalSet::EMPTY);
        // SAFETY: both are sets of C's own size, of which the first is read and the second written during the call.
        unsafe { pthread_sigmask(SIG_BLOCK, &held, &mut before) };
        Held { held, before }
    }

    /// Whether one of the signals waits.
    pub fn is_asked_to_end(&self) -> bool {
        let mut waiting = SignalSet::EMPTY;
        // SAFETY: the set is of C's own size, and written during the call.
        unsafe { sigpending(&mut waiting) };
        waiting.0[0] & self.held.0[0] & !self.before.0[0] != 0
    }
}

impl Drop for Held {
    fn drop(&mut self) {
        // SAFETY: the set is the one that C gave, and read during the call.
        unsafe { pthread_sigmask(SIG_SETMASK, &self.before, ptr::null_mut()) };
    }
}
