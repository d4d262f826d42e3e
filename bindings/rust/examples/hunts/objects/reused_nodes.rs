//! A queue of linked nodes that are used again (Michael and Scott 1996), each pointer with a count
//! of its changes. Wrong where an enqueue doesn't look at the tail again once it has the tail's
//! next node: the node may be in use elsewhere.

use selfcheck::QueueObject;
use selfcheck::schedule::sync::Mutex;
use selfcheck::schedule::sync::atomic::{AtomicU32, AtomicU64, Ordering::SeqCst};

pub struct ReusedNodes<const LOOKS_AGAIN: bool> {
    nodes: Vec<Node>,
    free: Mutex<Vec<u32>>,
    head: AtomicU64,
    tail: AtomicU64,
}

struct Node {
    value: AtomicU32,
    next: AtomicU64,
}

const NONE: u32 = u32::MAX;

// A pointer is a node and a count.
fn node(pointer: u64) -> u32 {
    pointer as u32
}

fn changed(pointer: u64, to: u32) -> u64 {
    ((pointer >> 32).wrapping_add(1) << 32) | u64::from(to)
}

#[track_caller]
fn swings(place: &AtomicU64, from: u64, to: u32) -> bool {
    (place.compare_exchange(from, changed(from, to), SeqCst, SeqCst)).is_ok()
}

impl<const LOOKS_AGAIN: bool> ReusedNodes<LOOKS_AGAIN> {
    pub fn new() -> Self {
        let free_node = |_| Node {
            value: AtomicU32::new(0),
            next: AtomicU64::new(NONE.into()),
        };
        ReusedNodes {
            nodes: (0..64).map(free_node).collect(),
            free: Mutex::new((1..64).rev().collect()),
            head: AtomicU64::new(0),
            tail: AtomicU64::new(0),
        }
    }

    fn next(&self, pointer: u64) -> &AtomicU64 {
        &self.nodes[node(pointer) as usize].next
    }
}

impl<const LOOKS_AGAIN: bool> QueueObject for ReusedNodes<LOOKS_AGAIN> {
    fn enq(&self, value: u32) {
        let new = self
            .free
            .lock()
            .unwrap()
            .pop()
            .expect("there are nodes enough");
        let own = &self.nodes[new as usize];
        own.value.store(value, SeqCst);
        let old = own.next.load(SeqCst);
        own.next.store(changed(old, NONE), SeqCst);
        loop {
            let tail = self.tail.load(SeqCst);
            let next = self.next(tail).load(SeqCst);
            if LOOKS_AGAIN && self.tail.load(SeqCst) != tail {
                continue;
            }
            if node(next) != NONE {
                swings(&self.tail, tail, node(next));
            } else if swings(self.next(tail), next, new) {
                swings(&self.tail, tail, new);
                return;
            }
        }
    }

    fn deq(&self) -> Option<u32> {
        loop {
            let head = self.head.load(SeqCst);
            let tail = self.tail.load(SeqCst);
            let next = self.next(head).load(SeqCst);
            if self.head.load(SeqCst) != head {
                continue;
            }
            if node(next) == NONE {
                return None;
            }
            if node(head) == node(tail) {
                swings(&self.tail, tail, node(next));
                continue;
            }
            let value = self.nodes[node(next) as usize].value.load(SeqCst);
            if swings(&self.head, head, node(next)) {
                self.free.lock().unwrap().push(node(head));
                return Some(value);
            }
        }
    }
}
