use selfcheck::hunt::{Settings, hunt};
use selfcheck::schedule::sync::Mutex;
use selfcheck::{Queue, QueueObject};
use std::collections::VecDeque;

#[derive(Default)]
struct MyQueue(Mutex<VecDeque<u32>>);

impl QueueObject for MyQueue {
    fn enq(&self, value: u32) {
        self.0.lock().unwrap().push_back(value);
    }

    fn deq(&self) -> Option<u32> {
        let first = self.0.lock().unwrap().front().copied();
        self.0.lock().unwrap().pop_front();
        first
    }
}

fn main() -> Result<(), Box<dyn std::error::Error>> {
    let settings = Settings::<Queue>::new().seed(1);
    let hunted = hunt(&settings, MyQueue::default, |queue, op| op.call_on(queue))?;
    print!("{}", hunted.finding().ok_or("no run was wrong")?);
    Ok(())
}
