//! The turn of one thread: whoever has it gives it to another one, and waits until it comes back.

use std::sync::{Condvar, Mutex, PoisonError};

#[derive(Debug)]
pub(crate) struct Parker {
    turn: Mutex<bool>,
    given: Condvar,
}

impl Parker {
    pub(crate) fn new() -> Parker {
        Parker {
            turn: Mutex::new(false),
            given: Condvar::new(),
        }
    }

    pub(crate) fn give(&self) {
        *self.turn.lock().unwrap_or_else(PoisonError::into_inner) = true;
        self.given.notify_one();
    }

    pub(crate) fn wait(&self) {
        let mut turn = self.turn.lock().unwrap_or_else(PoisonError::into_inner);
        while !*turn {
            turn = (self.given.wait(turn)).unwrap_or_else(PoisonError::into_inner);
        }
        *turn = false;
    }

    pub(crate) fn take_back(&self) {
        *self.turn.lock().unwrap_or_else(PoisonError::into_inner) = false;
    }
}
