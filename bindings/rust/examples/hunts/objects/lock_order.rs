//! A register that is there twice, each behind a lock. Wrong where the reader takes the locks in
//! another order than the writer: both wait for ever.

use selfcheck::RegisterObject;
use selfcheck::schedule::sync::{Mutex, RwLock};

#[derive(Default)]
pub struct LockOrder<const SAME: bool> {
    first: Mutex<u32>,
    second: RwLock<u32>,
}

impl<const SAME: bool> RegisterObject for LockOrder<SAME> {
    fn write(&self, value: u32) {
        let mut first = self.first.lock().unwrap();
        *self.second.write().unwrap() = value;
        *first = value;
    }

    fn read(&self) -> u32 {
        if SAME {
            let first = self.first.lock().unwrap();
            assert_eq!(*first, *self.second.read().unwrap());
            return *first;
        }
        let second = self.second.read().unwrap();
        assert_eq!(*self.first.lock().unwrap(), *second);
        *second
    }
}
