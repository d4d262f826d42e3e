//! A register with compare-and-set. Wrong where that is a load and a store.

use selfcheck::CasRegisterObject;
use selfcheck::schedule::sync::atomic::{AtomicU32, Ordering::SeqCst};

#[derive(Default)]
pub struct LoadedCas<const AT_ONCE: bool>(AtomicU32);

impl<const AT_ONCE: bool> CasRegisterObject for LoadedCas<AT_ONCE> {
    fn write(&self, value: u32) {
        self.0.store(value, SeqCst);
    }

    fn read(&self) -> u32 {
        self.0.load(SeqCst)
    }

    fn cas(&self, from: u32, to: u32) -> bool {
        if AT_ONCE {
            return self.0.compare_exchange(from, to, SeqCst, SeqCst).is_ok();
        }
        let is_so = self.0.load(SeqCst) == from;
        if is_so {
            self.0.store(to, SeqCst);
        }
        is_so
    }
}
