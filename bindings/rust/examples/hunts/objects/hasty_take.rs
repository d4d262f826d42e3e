//! A queue that panics where it is wrong: it looks whether there is a value, and takes one under
//! another lock.

use selfcheck::QueueObject;
use selfcheck::schedule::sync::Mutex;
use std::collections::VecDeque;

#[derive(Default)]
pub struct HastyTake<const AT_ONCE: bool>(Mutex<VecDeque<u32>>);

impl<const AT_ONCE: bool> QueueObject for HastyTake<AT_ONCE> {
    fn enq(&self, value: u32) {
        self.0.lock().unwrap().push_back(value);
    }

    fn deq(&self) -> Option<u32> {
        if AT_ONCE {
            return self.0.lock().unwrap().pop_front();
        }
        if self.0.lock().unwrap().is_empty() {
            return None;
        }
        Some(
            self.0
                .lock()
                .unwrap()
                .pop_front()
                .expect("there is a value"),
        )
    }
}
