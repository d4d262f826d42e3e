use selfcheck::Model;
use std::collections::VecDeque;

/// A queue with so many places, which refuses what it has no place for.
pub struct BoundedQueue {
    pub places: usize,
}

#[derive(Clone, Debug, PartialEq, Eq, Hash)]
pub enum Op {
    Put(u32),
    Take,
}

#[derive(Clone, Debug, PartialEq, Eq, Hash)]
pub enum Reply {
    IsPut(bool),
    Taken(Option<u32>),
}

impl Model for BoundedQueue {
    type State = VecDeque<u32>;
    type Op = Op;
    type Reply = Reply;

    fn initial(&self) -> VecDeque<u32> {
        VecDeque::new()
    }

    fn step(&self, items: &VecDeque<u32>, op: &Op) -> (VecDeque<u32>, Reply) {
        let mut items = items.clone();
        let reply = match op {
            Op::Put(_) if items.len() == self.places => Reply::IsPut(false),
            Op::Put(item) => {
                items.push_back(*item);
                Reply::IsPut(true)
            }
            Op::Take => Reply::Taken(items.pop_front()),
        };
        (items, reply)
    }

    fn leaves(&self, _: &Op, reply: &Reply) -> bool {
        matches!(reply, Reply::IsPut(false) | Reply::Taken(None))
    }
}
