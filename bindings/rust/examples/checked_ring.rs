//! A queue that checks itself: a ring of four places, which forgets to ask whether it is full. The fifth value goes over
//! the first one, and the call that takes it is the error.

mod common;

use common::show;
use selfcheck::{CallError, Enforced, Queue, QueueObject};
use std::error::Error;
use std::sync::Mutex;
use std::thread;

#[derive(Default)]
struct Ring(Mutex<Places>);

#[derive(Default)]
struct Places {
    values: [u32; 4],
    first: usize,
    count: usize,
}

impl QueueObject for Ring {
    fn enq(&self, value: u32) {
        let mut ring = self.0.lock().unwrap();
        let end = (ring.first + ring.count) % 4;
        ring.values[end] = value;
        ring.count += 1;
    }

    fn deq(&self) -> Option<u32> {
        let mut ring = self.0.lock().unwrap();
        ring.count = ring.count.checked_sub(1)?;
        let first = ring.first;
        ring.first = (first + 1) % 4;
        Some(ring.values[first])
    }
}

fn main() -> Result<(), Box<dyn Error>> {
    let queue = Enforced::<Queue, _>::new(Ring::default(), 2, 8)?;
    let mut producer = queue.caller()?;
    thread::spawn(move || (1..=5).try_for_each(|value| producer.enq(value)))
        .join()
        .unwrap()?;
    let mut consumer = queue.caller()?;
    match consumer.deq() {
        Ok(reply) => println!("delivered: {reply:?}"),
        Err(CallError::Illegal(book)) => show(&book)?,
        Err(other) => return Err(other.into()),
    }
    Ok(())
}
