//! A ring of three slots, whose enqueue waits where it is full. Wrong where a slot says only
//! whether it is empty: once the ring has wrapped around, a slot that isn't emptied yet is taken
//! for a new one.

use selfcheck::QueueObject;
use selfcheck::schedule::sync::atomic::{AtomicU32, AtomicU64, Ordering::SeqCst};
use selfcheck::schedule::thread;

const SLOTS: u32 = 3;

pub struct WrappedRing<const HAS_LAPS: bool> {
    // a lap and a value, 0 where the slot is empty
    slots: [AtomicU64; SLOTS as usize],
    head: AtomicU32,
    tail: AtomicU32,
}

impl<const HAS_LAPS: bool> WrappedRing<HAS_LAPS> {
    pub fn new() -> Self {
        WrappedRing {
            slots: Default::default(),
            head: AtomicU32::new(0),
            tail: AtomicU32::new(0),
        }
    }

    fn slot(&self, ticket: u32) -> &AtomicU64 {
        &self.slots[(ticket % SLOTS) as usize]
    }

    // What a slot has in the lap of this ticket.
    fn word(ticket: u32, value: u32) -> u64 {
        let lap = if HAS_LAPS { ticket / SLOTS } else { 0 };
        (u64::from(lap) << 32) | u64::from(value)
    }
}

impl<const HAS_LAPS: bool> QueueObject for WrappedRing<HAS_LAPS> {
    fn enq(&self, value: u32) {
        let ticket = self.tail.fetch_add(1, SeqCst);
        while self.slot(ticket).load(SeqCst) != Self::word(ticket, 0) {
            thread::yield_now();
        }
        self.slot(ticket).store(Self::word(ticket, value), SeqCst);
    }

    fn deq(&self) -> Option<u32> {
        loop {
            let ticket = self.head.load(SeqCst);
            if self.tail.load(SeqCst) == ticket {
                return None;
            }
            let word = self.slot(ticket).load(SeqCst);
            let value = word as u32;
            if value == 0 || word != Self::word(ticket, value) {
                thread::yield_now();
            } else if (self
                .head
                .compare_exchange(ticket, ticket + 1, SeqCst, SeqCst))
            .is_ok()
            {
                self.slot(ticket)
                    .store(Self::word(ticket + SLOTS, 0), SeqCst);
                return Some(value);
            }
        }
    }
}
