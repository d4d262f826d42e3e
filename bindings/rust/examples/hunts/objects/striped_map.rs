//! A map in stripes, each behind a lock. Wrong where it looks under the lock, gives it back, and
//! acts under it again.

use selfcheck::MapObject;
use selfcheck::schedule::sync::Mutex;
use std::collections::BTreeMap;

pub struct StripedMap<const AT_ONCE: bool>([Mutex<BTreeMap<u32, u32>>; 2]);

impl<const AT_ONCE: bool> StripedMap<AT_ONCE> {
    pub fn new() -> Self {
        StripedMap(Default::default())
    }

    fn stripe(&self, key: u32) -> &Mutex<BTreeMap<u32, u32>> {
        &self.0[key as usize % 2]
    }
}

impl<const AT_ONCE: bool> MapObject for StripedMap<AT_ONCE> {
    fn put(&self, key: u32, value: u32) -> Option<u32> {
        let mut stripe = self.stripe(key).lock().unwrap();
        if AT_ONCE {
            return stripe.insert(key, value);
        }
        let old = stripe.get(&key).copied();
        drop(stripe);
        self.stripe(key).lock().unwrap().insert(key, value);
        old
    }

    fn get(&self, key: u32) -> Option<u32> {
        self.stripe(key).lock().unwrap().get(&key).copied()
    }

    fn del(&self, key: u32) -> Option<u32> {
        self.stripe(key).lock().unwrap().remove(&key)
    }
}
