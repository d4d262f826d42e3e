use selfcheck::Model;

/// A semaphore with so many permits. It refuses a release of more than were acquired.
pub struct Semaphore {
    pub permits: u32,
}

#[derive(Clone, Debug, PartialEq, Eq, Hash)]
pub enum Op {
    TryAcquire,
    Release,
}

impl Model for Semaphore {
    type State = u32;
    type Op = Op;
    /// Whether it is done.
    type Reply = bool;

    fn initial(&self) -> u32 {
        self.permits
    }

    fn step(&self, free: &u32, op: &Op) -> (u32, bool) {
        match op {
            Op::TryAcquire if *free > 0 => (free - 1, true),
            Op::Release if *free < self.permits => (free + 1, true),
            Op::TryAcquire | Op::Release => (*free, false),
        }
    }

    fn leaves(&self, _: &Op, is_done: &bool) -> bool {
        !is_done
    }
}
