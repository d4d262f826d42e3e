//! Models of common objects.

pub mod bank;
pub mod bounded_queue;
pub mod counter;
pub mod deque;
pub mod lock;
pub mod semaphore;
pub mod store;
