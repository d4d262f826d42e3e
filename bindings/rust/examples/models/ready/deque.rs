use selfcheck::Model;
use std::collections::VecDeque;

/// A deque, empty at first.
pub struct Deque;

#[derive(Clone, Debug, PartialEq, Eq, Hash)]
pub enum Op {
    PushFront(u32),
    PushBack(u32),
    PopFront,
    PopBack,
}

#[derive(Clone, Debug, PartialEq, Eq, Hash)]
pub enum Reply {
    Pushed,
    Popped(Option<u32>),
}

impl Model for Deque {
    type State = VecDeque<u32>;
    type Op = Op;
    type Reply = Reply;

    fn initial(&self) -> VecDeque<u32> {
        VecDeque::new()
    }

    fn step(&self, items: &VecDeque<u32>, op: &Op) -> (VecDeque<u32>, Reply) {
        let mut items = items.clone();
        let reply = match op {
            Op::PushFront(item) => {
                items.push_front(*item);
                Reply::Pushed
            }
            Op::PushBack(item) => {
                items.push_back(*item);
                Reply::Pushed
            }
            Op::PopFront => Reply::Popped(items.pop_front()),
            Op::PopBack => Reply::Popped(items.pop_back()),
        };
        (items, reply)
    }

    fn leaves(&self, _: &Op, reply: &Reply) -> bool {
        *reply == Reply::Popped(None)
    }
}
