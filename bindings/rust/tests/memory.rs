//! Tables, callers and monitors that are dropped give their memory back. `bindings/try` runs this
//! under valgrind too.

use selfcheck::{
    CallError, Enforced, EnforcedCaller, JudgeError, Monitored, Queue, QueueObject, QueueOp,
};
use std::panic::{AssertUnwindSafe, catch_unwind, resume_unwind};
use std::{env, fs};

/// A queue that gives what was never put in.
struct Inventive;

impl QueueObject for Inventive {
    fn enq(&self, _value: u32) {}

    fn deq(&self) -> Option<u32> {
        Some(6)
    }
}

/// Panics amid a call, which stays announced.
fn give_up(me: &mut EnforcedCaller<Queue, Inventive>) {
    let ended = catch_unwind(AssertUnwindSafe(|| {
        me.call(QueueOp::Deq, |_| -> Option<u32> {
            resume_unwind(Box::new(()))
        })
    }));
    assert!(ended.is_err());
}

/// Callers between two calls, amid one and after an error, and monitors before and after one. What
/// is dropped first is one thing in even rounds and another in odd ones.
fn use_handles(round: usize) {
    let queue = Enforced::<Queue, _>::new(Inventive, 3, 2).unwrap();
    let mut callers = [(); 3].map(|()| queue.caller().unwrap());
    callers[0].enq(5).unwrap();
    give_up(&mut callers[1]);
    let Err(CallError::Illegal(book)) = callers[2].deq() else {
        panic!("6 was never put in");
    };
    assert!(book.smaller().unwrap().is_some());
    assert!(book.certify().unwrap().is_none());
    if round % 2 == 0 {
        drop(queue);
    }
    drop(callers);

    let queue = Monitored::<Queue, _>::new(Inventive, 1, 2, 2).unwrap();
    let mut caller = queue.caller().unwrap();
    let mut monitors = [(); 2].map(|()| queue.monitor().unwrap());
    caller.enq(5).unwrap();
    monitors[0].judge().unwrap();
    caller.deq().unwrap();
    assert!(matches!(monitors[1].judge(), Err(JudgeError::Illegal(_))));
    if round % 2 == 0 {
        drop(caller);
    }
    drop(monitors);
}

/// The pages of memory that the process has, from the system's file on it.
fn pages() -> usize {
    let told = fs::read_to_string("/proc/self/statm").unwrap();
    told.split(' ').nth(1).unwrap().parse().unwrap()
}

/// After the first rounds, further ones take no more memory than what wavers: less than half a
/// kilobyte a round, where each handle that is left keeps its whole table. SELFCHECK_WATCHED says that
/// valgrind counts, which has pages of its own.
#[test]
fn dropped_handles_give_their_memory_back() {
    let is_watched = env::var_os("SELFCHECK_WATCHED").is_some();
    let rounds = if is_watched { 100 } else { 2000 };
    (0..rounds / 2).for_each(use_handles);
    let before = pages();
    (0..rounds).for_each(use_handles);
    assert!(is_watched || pages() < before + rounds / 8);
}
