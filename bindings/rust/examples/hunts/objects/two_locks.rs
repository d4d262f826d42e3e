//! A stack with a lock for its height and one for its values. Wrong where they are held one after
//! the other: a value may be taken before it is there.

use selfcheck::StackObject;
use selfcheck::schedule::sync::Mutex;

#[derive(Default)]
pub struct TwoLocks<const BOTH: bool> {
    height: Mutex<usize>,
    values: Mutex<Vec<u32>>,
}

impl<const BOTH: bool> StackObject for TwoLocks<BOTH> {
    fn push(&self, value: u32) {
        let mut height = self.height.lock().unwrap();
        let place = *height;
        *height += 1;
        let _held = BOTH.then_some(height);
        let mut values = self.values.lock().unwrap();
        if values.len() <= place {
            values.resize(place + 1, 0);
        }
        values[place] = value;
    }

    fn pop(&self) -> Option<u32> {
        let mut height = self.height.lock().unwrap();
        let place = height.checked_sub(1)?;
        *height = place;
        let _held = BOTH.then_some(height);
        Some(self.values.lock().unwrap().get(place).copied().unwrap_or(0))
    }
}
