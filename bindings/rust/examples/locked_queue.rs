//! A deque behind a lock is a queue: its book is legal, and has a certificate.

mod common;

use common::show;
use selfcheck::{Queue, Recorder};
use std::collections::VecDeque;
use std::error::Error;
use std::sync::Mutex;
use std::thread;

fn main() -> Result<(), Box<dyn Error>> {
    let queue = Mutex::new(VecDeque::new());
    let recorder = Recorder::<Queue>::new();
    thread::scope(|scope| {
        for t in 0..2 {
            let (queue, mut me) = (&queue, recorder.caller());
            scope.spawn(move || {
                me.enq(t, || queue.lock().unwrap().push_back(t));
                me.deq(|| queue.lock().unwrap().pop_front());
            });
        }
    });
    let book = recorder.book()?;
    show(&book)?;
    if let Some(certificate) = book.certify()? {
        print!("\n{certificate}");
    }
    Ok(())
}
