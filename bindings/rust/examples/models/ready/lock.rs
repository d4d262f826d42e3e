use selfcheck::Model;

/// A lock that knows its owner, and has none at first.
pub struct Lock;

#[derive(Clone, Debug, PartialEq, Eq, Hash)]
pub enum Op {
    TryAcquire { by: u32 },
    Release { by: u32 },
    Owner,
}

#[derive(Clone, Debug, PartialEq, Eq, Hash)]
pub enum Reply {
    IsDone(bool),
    Owner(Option<u32>),
}

impl Model for Lock {
    type State = Option<u32>;
    type Op = Op;
    type Reply = Reply;

    fn initial(&self) -> Option<u32> {
        None
    }

    fn step(&self, owner: &Option<u32>, op: &Op) -> (Option<u32>, Reply) {
        match op {
            Op::TryAcquire { by } if owner.is_none() => (Some(*by), Reply::IsDone(true)),
            Op::Release { by } if *owner == Some(*by) => (None, Reply::IsDone(true)),
            Op::TryAcquire { .. } | Op::Release { .. } => (*owner, Reply::IsDone(false)),
            Op::Owner => (*owner, Reply::Owner(*owner)),
        }
    }

    fn leaves(&self, _: &Op, reply: &Reply) -> bool {
        *reply != Reply::IsDone(true)
    }
}
