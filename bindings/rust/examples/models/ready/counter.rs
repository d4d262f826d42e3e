use selfcheck::Model;

/// A number, 0 at first.
pub struct Counter;

#[derive(Clone, Debug, PartialEq, Eq, Hash)]
pub enum Op {
    Add(i64),
    Read,
}

#[derive(Clone, Debug, PartialEq, Eq, Hash)]
pub enum Reply {
    Added,
    Number(i64),
}

impl Model for Counter {
    type State = i64;
    type Op = Op;
    type Reply = Reply;

    fn initial(&self) -> i64 {
        0
    }

    fn step(&self, number: &i64, op: &Op) -> (i64, Reply) {
        match op {
            Op::Add(more) => (number + more, Reply::Added),
            Op::Read => (*number, Reply::Number(*number)),
        }
    }

    fn leaves(&self, op: &Op, _: &Reply) -> bool {
        *op == Op::Read
    }
}
