//! Calls that check themselves, of a counter on one word or of a queue under a lock, each caller in a thread, over and over:
//! `cargo run --release --example timed_calls counter|queue CALLERS CALLS RUNS`. `scripts/time-enforce` times it.

use selfcheck::{Counter, CounterObject, Enforced, Queue, QueueObject};
use std::collections::VecDeque;
use std::error::Error;
use std::hint::black_box;
use std::sync::Mutex;
use std::sync::atomic::{AtomicU32, Ordering::SeqCst};
use std::{env, thread};

#[derive(Default)]
struct Word(AtomicU32);

impl CounterObject for Word {
    fn inc(&self) -> u32 {
        self.0.fetch_add(1, SeqCst)
    }
}

#[derive(Default)]
struct Locked(Mutex<VecDeque<u32>>);

impl QueueObject for Locked {
    fn enq(&self, value: u32) {
        self.0.lock().unwrap().push_back(value);
    }

    fn deq(&self) -> Option<u32> {
        self.0.lock().unwrap().pop_front()
    }
}

/// Each caller makes its calls, in a thread of its own.
fn call_all<C: Send>(callers: Vec<C>, calls: u32, call: impl Fn(&mut C, u32) + Sync) {
    thread::scope(|scope| {
        for mut me in callers {
            let call = &call;
            scope.spawn(move || (0..calls).for_each(|number| call(&mut me, number)));
        }
    });
}

fn count(callers: usize, calls: u32) -> Result<(), Box<dyn Error>> {
    let counter = Enforced::<Counter, _>::new(Word::default(), callers, calls as usize)?;
    let all = (0..callers)
        .map(|_| counter.caller())
        .collect::<Result<Vec<_>, _>>()?;
    call_all(all, calls, |me, _| {
        black_box(me.inc().unwrap());
    });
    Ok(())
}

fn put_and_take(callers: usize, calls: u32) -> Result<(), Box<dyn Error>> {
    let queue = Enforced::<Queue, _>::new(Locked::default(), callers, calls as usize)?;
    let all = (0..callers).map(|who| Ok((who as u32, queue.caller()?)));
    let all = all.collect::<Result<Vec<_>, Box<dyn Error>>>()?;
    call_all(all, calls, |(who, me), number| {
        if number % 2 == 0 {
            me.enq(*who * 256 + number).unwrap();
        } else {
            black_box(me.deq().unwrap());
        }
    });
    Ok(())
}

fn main() -> Result<(), Box<dyn Error>> {
    let words: Vec<String> = env::args().skip(1).collect();
    let [object, callers, calls, runs] = &words[..] else {
        return Err("the words are counter or queue, CALLERS, CALLS and RUNS".into());
    };
    let (callers, calls) = (callers.parse()?, calls.parse()?);
    for _ in 0..runs.parse::<u32>()? {
        match object.as_str() {
            "counter" => count(callers, calls)?,
            "queue" => put_and_take(callers, calls)?,
            _ => return Err("the object is counter or queue".into()),
        }
    }
    Ok(())
}
