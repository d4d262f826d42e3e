//! A stack after Treiber (1986) whose `pop` forgets a check: it looks at the top, and then takes it away without asking
//! whether it is still the top. Two callers then get one value, or a pushed value is lost.

mod common;

use common::show;
use selfcheck::{Recorder, Stack, Verdict};
use std::error::Error;
use std::sync::atomic::{AtomicU32, AtomicUsize, Ordering::SeqCst};
use std::thread;

/// Nodes by their place, counted from 1; 0 is no node. A node is used once.
struct Treiber {
    top: AtomicUsize,
    used: AtomicUsize,
    nodes: [Node; 8],
}

#[derive(Default)]
struct Node {
    value: AtomicU32,
    next: AtomicUsize,
}

impl Treiber {
    fn new() -> Treiber {
        Treiber {
            top: AtomicUsize::new(0),
            used: AtomicUsize::new(0),
            nodes: Default::default(),
        }
    }

    fn push(&self, value: u32) {
        let place = self.used.fetch_add(1, SeqCst) + 1;
        let node = &self.nodes[place - 1];
        node.value.store(value, SeqCst);
        let mut top = self.top.load(SeqCst);
        loop {
            node.next.store(top, SeqCst);
            match self.top.compare_exchange(top, place, SeqCst, SeqCst) {
                Ok(_) => return,
                Err(now) => top = now,
            }
        }
    }

    fn pop(&self) -> Option<u32> {
        let top = self.top.load(SeqCst);
        let node = self.nodes.get(top.checked_sub(1)?)?;
        let next = node.next.load(SeqCst);
        thread::yield_now();
        // the missing check: another call may have changed the top
        self.top.store(next, SeqCst);
        Some(node.value.load(SeqCst))
    }
}

fn main() -> Result<(), Box<dyn Error>> {
    for round in 1..=100_000 {
        let stack = Treiber::new();
        let recorder = Recorder::<Stack>::new();
        thread::scope(|scope| {
            for t in 0..2 {
                let (stack, mut me) = (&stack, recorder.caller());
                scope.spawn(move || {
                    me.push(t, || stack.push(t));
                    me.pop(|| stack.pop());
                });
            }
        });
        let book = recorder.book()?;
        if book.verify()? == Verdict::Illegal {
            println!("run {round}:");
            return show(&book);
        }
    }
    println!("no run was caught");
    Ok(())
}
