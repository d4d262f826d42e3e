//! The one way to an object that has a table beside it.

use std::sync::Arc;
use std::sync::atomic::{Ordering, fence};

/// An object that is asked between two fences. Nothing else here reaches it.
///
/// That call A ended before call B began is known by a load of A's view that found B's old count.
/// Such a load orders no other access, though it is sequentially consistent itself. What A stored
/// in the object by `Release` may still lie in the store buffer of A's processor while the loads of
/// A's view pass it. Then B announces itself, asks the object, misses that store, and a right
/// object is judged wrong. So the fence after the asking puts what A did to the object before A's
/// view, and the fence before it puts what B does after B's announcement. With the table's own
/// steps, which are all sequentially consistent, the fences have one order.
pub(crate) struct Asked<O>(Arc<O>);

impl<O> Asked<O> {
    pub(crate) fn new(object: O) -> Asked<O> {
        Asked(Arc::new(object))
    }

    pub(crate) fn share(&self) -> Asked<O> {
        Asked(Arc::clone(&self.0))
    }

    pub(crate) fn ask<R>(&self, ask: impl FnOnce(&O) -> R) -> R {
        fence(Ordering::SeqCst);
        let reply = ask(&self.0);
        fence(Ordering::SeqCst);
        reply
    }
}

/// The shape in which a processor shows that a store may pass a later load: each of two threads
/// stores to a word of its own, and loads the other's. Without a fence between the two both loads
/// may find nothing. One of the two steps is what an object does, and the other one is what the
/// table does before it or after it, with no order of its own.
#[cfg(test)]
mod tests {
    use super::Asked;
    use std::hint::spin_loop;
    use std::sync::atomic::{AtomicU32, Ordering};
    use std::thread;

    const ROUNDS: u32 = 100_000;

    #[derive(Default)]
    #[repr(align(128))]
    struct Word(AtomicU32);

    impl Word {
        fn store(&self, round: u32) {
            self.0.store(round, Ordering::Relaxed);
        }

        fn load(&self) -> u32 {
            self.0.load(Ordering::Relaxed)
        }
    }

    // Waits until both threads have come to this round.
    fn meet(arrived: &AtomicU32, round: u32) {
        arrived.fetch_add(1, Ordering::AcqRel);
        let mut spins = 0;
        while arrived.load(Ordering::Acquire) < 2 * round {
            spin_loop();
            spins += 1;
            // the other thread may wait for this one's processor
            if spins % 1000 == 0 {
                thread::yield_now();
            }
        }
    }

    // In how many rounds neither thread has found what the other one stored. A step is given the
    // thread's own word, the other's, and the round, which it stores; it gives what it loaded.
    fn missed_by_both(step: impl Fn(&Word, &Word, u32) -> u32 + Sync) -> usize {
        let (words, arrived) = ([Word::default(), Word::default()], Word::default());
        let (words, arrived, step) = (&words, &arrived.0, &step);
        let missed = thread::scope(|scope| {
            let made = [0, 1].map(|own| {
                scope.spawn(move || {
                    let rounds = (1..=ROUNDS).map(|round| {
                        meet(arrived, round);
                        step(&words[own], &words[1 - own], round) < round
                    });
                    rounds.collect::<Vec<_>>()
                })
            });
            made.map(|it| it.join().unwrap())
        });
        let both = missed[0].iter().zip(&missed[1]);
        both.filter(|(one, other)| **one && **other).count()
    }

    #[test]
    fn what_an_object_stores_is_seen_by_whom_the_view_misses() {
        let object = Asked::new(());
        let missed = missed_by_both(|own, other, round| {
            object.ask(|()| own.store(round));
            other.load()
        });
        assert_eq!(missed, 0);
    }

    #[test]
    fn an_object_is_asked_after_the_announcement() {
        let object = Asked::new(());
        let missed = missed_by_both(|own, other, round| {
            own.store(round);
            object.ask(|()| other.load())
        });
        assert_eq!(missed, 0);
    }
}
