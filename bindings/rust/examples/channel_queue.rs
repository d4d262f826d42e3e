//! A channel of the standard library as a queue: any thread sends, and whoever has the receiver's lock takes what is
//! there. Its books are legal.

mod common;

use common::show;
use selfcheck::{Queue, Recorder};
use std::error::Error;
use std::sync::{Mutex, mpsc};
use std::thread;

fn main() -> Result<(), Box<dyn Error>> {
    let (sender, receiver) = mpsc::channel();
    let receiver = Mutex::new(receiver);
    let recorder = Recorder::<Queue>::new();
    thread::scope(|scope| {
        for t in 0..3 {
            let (sender, receiver, mut me) = (sender.clone(), &receiver, recorder.caller());
            scope.spawn(move || {
                for i in 0..2 {
                    me.enq(10 * t + i, || sender.send(10 * t + i).unwrap());
                    me.deq(|| receiver.lock().unwrap().try_recv().ok());
                }
            });
        }
    });
    show(&recorder.book()?)
}
