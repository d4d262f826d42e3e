//! A priority queue behind a lock. Wrong where it takes the least value that it saw before.

use selfcheck::PriorityQueueObject;
use selfcheck::schedule::sync::Mutex;
use std::collections::BTreeSet;

#[derive(Default)]
pub struct SeenLeast<const AT_ONCE: bool>(Mutex<BTreeSet<u32>>);

impl<const AT_ONCE: bool> PriorityQueueObject for SeenLeast<AT_ONCE> {
    fn insert(&self, value: u32) {
        self.0.lock().unwrap().insert(value);
    }

    fn min(&self) -> Option<u32> {
        if AT_ONCE {
            return self.0.lock().unwrap().pop_first();
        }
        let least = self.0.lock().unwrap().first().copied();
        least.inspect(|it| {
            self.0.lock().unwrap().remove(it);
        })
    }
}
