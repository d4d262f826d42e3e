//! A deque that looks at its first value and takes it under two locks: two callers may get one value, and then another
//! is lost.

mod common;

use common::show;
use selfcheck::{Queue, Recorder, Verdict};
use std::collections::VecDeque;
use std::error::Error;
use std::sync::Mutex;
use std::thread;

fn main() -> Result<(), Box<dyn Error>> {
    for _ in 0..100_000 {
        let queue = Mutex::new(VecDeque::new());
        let recorder = Recorder::<Queue>::new();
        thread::scope(|scope| {
            for t in 0..2 {
                let (queue, mut me) = (&queue, recorder.caller());
                scope.spawn(move || {
                    me.enq(t, || queue.lock().unwrap().push_back(t));
                    me.deq(|| {
                        let first = queue.lock().unwrap().front().copied();
                        thread::yield_now();
                        queue.lock().unwrap().pop_front();
                        first
                    });
                });
            }
        });
        let book = recorder.book()?;
        if book.verify()? == Verdict::Illegal {
            return show(&book);
        }
    }
    println!("no run was caught");
    Ok(())
}
