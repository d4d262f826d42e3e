//! A set as a sorted list of linked nodes (Harris 2001). A removal marks the node's next pointer
//! before it takes the node out. Wrong where it doesn't: what is added after the node at the same
//! time is lost.

use selfcheck::SetObject;
use selfcheck::schedule::sync::atomic::{AtomicU32, AtomicUsize, Ordering::SeqCst};
use std::sync::OnceLock;

pub struct ListSet<const MARKS: bool> {
    nodes: Vec<Node>,
    used: AtomicUsize,
}

struct Node {
    value: OnceLock<u32>,
    // twice a node, and 1 where this one is taken out
    next: AtomicU32,
}

// the second node
const END: u32 = 2;

impl<const MARKS: bool> ListSet<MARKS> {
    pub fn new() -> Self {
        let node = |value, next| Node {
            value,
            next: AtomicU32::new(next),
        };
        let mut nodes = vec![node(0.into(), END), node(u32::MAX.into(), END)];
        nodes.extend((0..64).map(|_| node(OnceLock::new(), END)));
        ListSet {
            nodes,
            used: AtomicUsize::new(2),
        }
    }

    fn value(&self, pointer: u32) -> u32 {
        let value = self.nodes[pointer as usize / 2].value.get();
        *value.expect("a node in the list has a value")
    }

    fn next(&self, pointer: u32) -> &AtomicU32 {
        &self.nodes[pointer as usize / 2].next
    }

    #[track_caller]
    fn swings(&self, pointer: u32, from: u32, to: u32) -> bool {
        (self
            .next(pointer)
            .compare_exchange(from, to, SeqCst, SeqCst))
        .is_ok()
    }

    // The last node before the value, and the one after that; marked ones between them are taken
    // out.
    fn find(&self, value: u32) -> (u32, u32) {
        'again: loop {
            let mut last = 0;
            let mut this = self.next(last).load(SeqCst);
            loop {
                let next = self.next(this).load(SeqCst);
                if next % 2 == 1 {
                    if !self.swings(last, this, next - 1) {
                        continue 'again;
                    }
                    this = next - 1;
                } else if self.value(this) >= value {
                    return (last, this);
                } else {
                    (last, this) = (this, next);
                }
            }
        }
    }
}

impl<const MARKS: bool> SetObject for ListSet<MARKS> {
    fn add(&self, value: u32) -> bool {
        let mut new = None;
        loop {
            let (last, this) = self.find(value);
            if self.value(this) == value {
                return false;
            }
            let new = *new.get_or_insert_with(|| 2 * self.used.fetch_add(1, SeqCst) as u32);
            self.nodes[new as usize / 2].value.get_or_init(|| value);
            self.next(new).store(this, SeqCst);
            if self.swings(last, this, new) {
                return true;
            }
        }
    }

    fn remove(&self, value: u32) -> bool {
        loop {
            let (last, this) = self.find(value);
            if self.value(this) != value {
                return false;
            }
            let next = self.next(this).load(SeqCst);
            if MARKS {
                if next % 2 == 1 || !self.swings(this, next, next + 1) {
                    continue;
                }
                self.swings(last, this, next);
                return true;
            }
            if self.swings(last, this, next) {
                return true;
            }
        }
    }

    fn has(&self, value: u32) -> bool {
        let (_, this) = self.find(value);
        self.value(this) == value
    }
}
