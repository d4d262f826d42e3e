//! Increments of an atomic word, or of a number under a lock, by some threads together: `bare|lock THREADS INCREMENTS`.

use std::sync::Mutex;
use std::sync::atomic::{AtomicU64, Ordering};

fn main() {
    let words: Vec<String> = std::env::args().collect();
    let (threads, all): (u64, u64) = (words[2].parse().unwrap(), words[3].parse().unwrap());
    let (word, locked) = (AtomicU64::new(0), Mutex::new(0u64));
    std::thread::scope(|scope| {
        for _ in 0..threads {
            scope.spawn(|| {
                for _ in 0..all / threads {
                    if words[1] == "bare" {
                        word.fetch_add(1, Ordering::SeqCst);
                    } else {
                        *locked.lock().unwrap() += 1;
                    }
                }
            });
        }
    });
    assert_eq!(word.into_inner() + locked.into_inner().unwrap(), all);
}
