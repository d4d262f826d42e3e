//! A ring for one producer and one consumer, which orders its steps by `Release` and `Acquire`
//! alone, as such rings do. It is a right queue, and no run of it has an error. The fences that
//! this rests on have their own test in `src/asked.rs`.

use selfcheck::{Enforced, Monitored, Queue, QueueObject};
use std::sync::Barrier;
use std::sync::atomic::{AtomicU32, AtomicUsize, Ordering};
use std::{env, hint, thread};

const VALUES: u32 = 200;
const TAKES: u32 = 250;
/// So many that a value takes some time to become visible.
const WORDS: usize = 40;

/// On cache lines of its own.
#[derive(Default)]
#[repr(align(128))]
struct Apart<T>(T);

/// A value is written many times over, as a message of many words.
struct Ring {
    messages: Vec<[Apart<AtomicU32>; WORDS]>,
    first: Apart<AtomicUsize>,
    end: Apart<AtomicUsize>,
}

impl Ring {
    /// It has room for all values, so that it never has to ask whether it is full.
    fn new() -> Ring {
        let message = |_| std::array::from_fn(|_| Apart::default());
        Ring {
            messages: (0..VALUES).map(message).collect(),
            first: Apart::default(),
            end: Apart::default(),
        }
    }
}

impl QueueObject for Ring {
    fn enq(&self, value: u32) {
        let end = self.end.0.load(Ordering::Relaxed);
        for word in &self.messages[end] {
            word.0.store(value, Ordering::Relaxed);
        }
        self.end.0.store(end + 1, Ordering::Release);
    }

    fn deq(&self) -> Option<u32> {
        let first = self.first.0.load(Ordering::Relaxed);
        if first == self.end.0.load(Ordering::Acquire) {
            return None;
        }
        let [word, ..] = &self.messages[first];
        self.first.0.store(first + 1, Ordering::Release);
        Some(word.0.load(Ordering::Relaxed))
    }
}

/// A producer and a consumer that begin at once.
fn run_pair(mut enq: impl FnMut(u32) + Send, mut deq: impl FnMut() -> Option<u32> + Send) {
    let start = Barrier::new(2);
    thread::scope(|scope| {
        scope.spawn(|| {
            start.wait();
            for value in 1..=VALUES {
                enq(value);
                // the consumer comes to an empty ring now and then
                (0..value * 7 % 64).for_each(|_| hint::spin_loop());
            }
        });
        scope.spawn(|| {
            start.wait();
            let taken: Vec<_> = (0..TAKES).filter_map(|_| deq()).collect();
            assert!(taken.iter().copied().eq(1..=taken.len() as u32));
        });
    });
}

fn pairs() -> usize {
    env::var("SELFCHECK_PAIRS").map_or(50, |count| count.parse().expect("a number"))
}

#[test]
fn right_rings_are_delivered() {
    for _ in 0..pairs() {
        let ring = Enforced::<Queue, _>::new(Ring::new(), 2, 256).unwrap();
        let (mut producer, mut consumer) = (ring.caller().unwrap(), ring.caller().unwrap());
        run_pair(
            |value| producer.enq(value).unwrap(),
            || consumer.deq().unwrap(),
        );
    }
}

#[test]
fn right_rings_are_legal_to_a_monitor() {
    for _ in 0..pairs() {
        let ring = Monitored::<Queue, _>::new(Ring::new(), 2, 1, 256).unwrap();
        let (mut producer, mut consumer) = (ring.caller().unwrap(), ring.caller().unwrap());
        run_pair(
            |value| producer.enq(value).unwrap(),
            || consumer.deq().unwrap(),
        );
        assert_eq!(ring.monitor().unwrap().judge(), Ok(()));
    }
}
