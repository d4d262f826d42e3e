//! A queue whose dequeue waits where there is nothing. Wrong where it gives the lock back between
//! its look and its wait.

use selfcheck::QueueObject;
use selfcheck::schedule::sync::{Condvar, Mutex};
use std::collections::VecDeque;

#[derive(Default)]
pub struct MissedNotification<const HOLDS: bool> {
    values: Mutex<VecDeque<u32>>,
    put: Condvar,
}

impl<const HOLDS: bool> QueueObject for MissedNotification<HOLDS> {
    fn enq(&self, value: u32) {
        self.values.lock().unwrap().push_back(value);
        self.put.notify_one();
    }

    fn deq(&self) -> Option<u32> {
        let mut values = self.values.lock().unwrap();
        while values.is_empty() {
            if !HOLDS {
                drop(values);
                values = self.values.lock().unwrap();
            }
            values = self.put.wait(values).unwrap();
        }
        values.pop_front()
    }
}
