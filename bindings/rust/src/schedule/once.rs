use super::atomic::{AtomicBool, Ordering};
use super::mutex::Mutex;
use std::fmt;

/// [`std::sync::Once`], whose calls are steps of a schedule.
pub struct Once {
    done: AtomicBool,
    // poisoned where a closure has panicked
    first: Mutex<()>,
}

/// [`std::sync::OnceState`]: whether an earlier closure has panicked.
#[derive(Debug)]
pub struct OnceState(bool);

impl OnceState {
    /// Whether an earlier closure has panicked.
    #[must_use]
    pub fn is_poisoned(&self) -> bool {
        self.0
    }
}

impl Default for Once {
    fn default() -> Once {
        Once::new()
    }
}

impl Once {
    /// Nothing is done yet.
    #[must_use]
    pub const fn new() -> Once {
        Once {
            done: AtomicBool::new(false),
            first: Mutex::new(()),
        }
    }

    /// Makes the call where no call is done yet, and waits for one that another thread makes.
    ///
    /// # Panics
    ///
    /// Where an earlier call has panicked.
    #[track_caller]
    pub fn call_once(&self, call: impl FnOnce()) {
        if self.is_completed() {
            return;
        }
        let Ok(_first) = self.first.lock() else {
            panic!("Once instance has previously been poisoned");
        };
        if !self.done.load(Ordering::Acquire) {
            call();
            self.done.store(true, Ordering::Release);
        }
    }

    /// As `call_once`, also where an earlier call has panicked.
    #[track_caller]
    pub fn call_once_force(&self, call: impl FnOnce(&OnceState)) {
        if self.is_completed() {
            return;
        }
        let (_first, state) = match self.first.lock() {
            Ok(first) => (first, OnceState(false)),
            Err(poisoned) => (poisoned.into_inner(), OnceState(true)),
        };
        if !self.done.load(Ordering::Acquire) {
            call(&state);
            self.first.clear_poison();
            self.done.store(true, Ordering::Release);
        }
    }

    /// Whether a call is done.
    #[track_caller]
    pub fn is_completed(&self) -> bool {
        self.done.load(Ordering::Acquire)
    }
}

impl fmt::Debug for Once {
    fn fmt(&self, f: &mut fmt::Formatter<'_>) -> fmt::Result {
        f.debug_struct("Once").finish_non_exhaustive()
    }
}
