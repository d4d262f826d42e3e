//! Objects whose calls check themselves: what an object of each kind has to do. Each method may be called by many
//! threads at once.

/// A queue, empty at first.
pub trait QueueObject {
    /// Puts a value at the end.
    fn enq(&self, value: u32);

    /// Takes the first value.
    fn deq(&self) -> Option<u32>;
}

/// A stack, empty at first.
pub trait StackObject {
    /// Puts a value on top.
    fn push(&self, value: u32);

    /// Takes the top value.
    fn pop(&self) -> Option<u32>;
}

/// A register, 0 at first.
pub trait RegisterObject {
    /// Sets the value.
    fn write(&self, value: u32);

    /// Reads the value.
    fn read(&self) -> u32;
}

/// A counter modulo 2^32, 0 at first.
pub trait CounterObject {
    /// Adds 1, and gives the number before.
    fn inc(&self) -> u32;
}

/// A set, empty at first.
pub trait SetObject {
    /// Puts a value in: whether it wasn't in the set.
    fn add(&self, value: u32) -> bool;

    /// Takes a value out: whether it was in the set.
    fn remove(&self, value: u32) -> bool;

    /// Whether a value is in the set.
    fn has(&self, value: u32) -> bool;
}

/// A priority queue, empty at first.
pub trait PriorityQueueObject {
    /// Puts a value in.
    fn insert(&self, value: u32);

    /// Takes the least value.
    fn min(&self) -> Option<u32>;
}

/// A register with compare-and-swap, 0 at first.
pub trait CasRegisterObject {
    /// Sets the value.
    fn write(&self, value: u32);

    /// Reads the value.
    fn read(&self) -> u32;

    /// Sets the value to `to` where it is `from`: whether it was.
    fn cas(&self, from: u32, to: u32) -> bool;
}

/// A map, empty at first.
pub trait MapObject {
    /// Sets a key's value, and gives the old one.
    fn put(&self, key: u32, value: u32) -> Option<u32>;

    /// A key's value.
    fn get(&self, key: u32) -> Option<u32>;

    /// Takes a key out, and gives its value.
    fn del(&self, key: u32) -> Option<u32>;
}
