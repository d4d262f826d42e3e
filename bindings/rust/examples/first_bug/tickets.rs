use shared::sync::Mutex;
use std::collections::VecDeque;

mod shared {
    #[cfg(test)]
    pub use selfcheck::schedule::sync;
    #[cfg(not(test))]
    pub use std::sync;
}

#[derive(Default)]
pub struct Tickets {
    waiting: Mutex<VecDeque<u32>>,
}

impl Tickets {
    pub fn put(&self, ticket: u32) {
        self.waiting.lock().unwrap().push_back(ticket);
    }

    pub fn take(&self) -> Option<u32> {
        let first = self.waiting.lock().unwrap().front().copied();
        self.waiting.lock().unwrap().pop_front();
        first
    }
}

#[cfg(test)]
mod tests {
    use super::Tickets;
    use selfcheck::hunt::{Settings, hunt};
    use selfcheck::{Queue, QueueOp, Reply};

    fn call(tickets: &Tickets, op: QueueOp) -> Reply {
        match op {
            QueueOp::Enq(ticket) => {
                tickets.put(ticket);
                Reply::Done
            }
            QueueOp::Deq => tickets.take().into(),
        }
    }

    #[test]
    fn tickets_are_a_queue() {
        let settings = Settings::<Queue>::new().folder("findings");
        let hunted = hunt(&settings, Tickets::default, call).unwrap();
        assert!(hunted.finding().is_none(), "{hunted}");
    }
}
