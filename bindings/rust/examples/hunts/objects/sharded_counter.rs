//! A counter. Wrong where it is in shards that are summed one by one.

use selfcheck::CounterObject;
use selfcheck::schedule::sync::atomic::{AtomicU32, Ordering::SeqCst};

#[derive(Default)]
pub struct ShardedCounter {
    shards: [AtomicU32; 2],
    turn: AtomicU32,
}

impl CounterObject for ShardedCounter {
    fn inc(&self) -> u32 {
        let shard = self.turn.fetch_add(1, SeqCst) as usize % 2;
        let own = self.shards[shard].fetch_add(1, SeqCst);
        own + self.shards[1 - shard].load(SeqCst)
    }
}

#[derive(Default)]
pub struct OneNumber(AtomicU32);

impl CounterObject for OneNumber {
    fn inc(&self) -> u32 {
        self.0.fetch_add(1, SeqCst)
    }
}
