//! A counter that is made when it is used first, by a look without a lock and one with it. Wrong
//! where the second is missing: it may be made twice.

use selfcheck::CounterObject;
use selfcheck::schedule::sync::Mutex;
use selfcheck::schedule::sync::atomic::{AtomicBool, AtomicU32, Ordering::SeqCst};

#[derive(Default)]
pub struct LazyCounter<const LOOKS_TWICE: bool> {
    is_made: AtomicBool,
    making: Mutex<()>,
    number: AtomicU32,
}

impl<const LOOKS_TWICE: bool> CounterObject for LazyCounter<LOOKS_TWICE> {
    fn inc(&self) -> u32 {
        if !self.is_made.load(SeqCst) {
            let _making = self.making.lock().unwrap();
            if !LOOKS_TWICE || !self.is_made.load(SeqCst) {
                self.number.store(0, SeqCst);
                self.is_made.store(true, SeqCst);
            }
        }
        self.number.fetch_add(1, SeqCst)
    }
}
