//! A counter that adds by a load and a store: two callers that meet between the two get one number.

mod common;

use common::show;
use selfcheck::{Counter, Recorder};
use std::error::Error;
use std::sync::Barrier;
use std::sync::atomic::{AtomicU32, Ordering::SeqCst};
use std::thread;

fn main() -> Result<(), Box<dyn Error>> {
    let counter = AtomicU32::new(0);
    let between = Barrier::new(2);
    let recorder = Recorder::<Counter>::new();
    thread::scope(|scope| {
        for _ in 0..2 {
            let (counter, between, mut me) = (&counter, &between, recorder.caller());
            scope.spawn(move || {
                me.inc(|| {
                    let number = counter.load(SeqCst);
                    // what a scheduler may do at any time
                    between.wait();
                    counter.store(number + 1, SeqCst);
                    number
                });
            });
        }
    });
    show(&recorder.book()?)
}
