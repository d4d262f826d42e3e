//! A queue that a monitor judges: a ring of four places, which forgets to ask whether it is full. Its callers only publish
//! what they do, and the monitor finds the error beside them.

mod common;

use common::show;
use selfcheck::{JudgeError, Monitored, Queue, QueueObject};
use std::error::Error;
use std::sync::Mutex;
use std::sync::atomic::{AtomicBool, Ordering::SeqCst};
use std::thread;

#[derive(Default)]
struct Ring(Mutex<Places>);

#[derive(Default)]
struct Places {
    values: [u32; 4],
    first: usize,
    count: usize,
}

impl QueueObject for Ring {
    fn enq(&self, value: u32) {
        let mut ring = self.0.lock().unwrap();
        let end = (ring.first + ring.count) % 4;
        ring.values[end] = value;
        ring.count += 1;
    }

    fn deq(&self) -> Option<u32> {
        let mut ring = self.0.lock().unwrap();
        ring.count = ring.count.checked_sub(1)?;
        let first = ring.first;
        ring.first = (first + 1) % 4;
        Some(ring.values[first])
    }
}

fn main() -> Result<(), Box<dyn Error>> {
    let queue = Monitored::<Queue, _>::new(Ring::default(), 2, 1, 8)?;
    let (mut producer, mut consumer, mut monitor) =
        (queue.caller()?, queue.caller()?, queue.monitor()?);
    let ended = AtomicBool::new(false);
    let found = thread::scope(|scope| {
        let watching = scope.spawn(|| {
            loop {
                // a round that begins after all calls have ended is the last one
                let is_last = ended.load(SeqCst);
                match monitor.judge() {
                    Ok(()) if is_last => return Ok(()),
                    Ok(()) => thread::yield_now(),
                    error => return error,
                }
            }
        });
        let made = (1..=5).try_for_each(|value| producer.enq(value));
        let made = made.and_then(|()| consumer.deq());
        ended.store(true, SeqCst);
        made.map(|_| watching.join().expect("the monitor doesn't panic"))
    })?;
    match found {
        Ok(()) => println!("legal"),
        Err(JudgeError::Illegal(book)) => show(&book)?,
        Err(other) => return Err(other.into()),
    }
    Ok(())
}
