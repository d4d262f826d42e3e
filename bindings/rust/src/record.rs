//! What recorders share: each call is written down with two moments, and one atomic counter gives these.

use crate::history::History;
use crate::recorder::{Incomplete, MAX_CALLS};
use std::array;
use std::num::NonZero;
use std::sync::atomic::{AtomicU64, AtomicUsize, Ordering};
use std::sync::{Arc, Condvar, Mutex, MutexGuard, PoisonError};

// A call isn't recorded from this moment on, so that a recorder takes some 100 MB at the most.
const LAST_MOMENT: u64 = 1 << 21;
// More of these than threads that run at once: each thread has one of them for its calls.
const SHARDS: usize = 32;

/// A call, with the moment of its invocation, with that of its return and its reply where it is
/// answered, and with the caller that made it, if one that stays with a thread has.
#[derive(Clone, Copy, Debug)]
pub(crate) struct Call<O, R> {
    pub op: O,
    pub invoked: u64,
    pub answer: Option<(u64, R)>,
    pub own: Option<usize>,
}

impl<O, R> Call<O, R> {
    pub(crate) fn precedes(&self, other: &Call<O, R>) -> bool {
        (self.answer.as_ref()).is_some_and(|(returned, _)| *returned < other.invoked)
    }
}

/// The calls of all threads.
#[derive(Debug)]
pub(crate) struct Record<O, R> {
    clock: Clock,
    // of each caller that stays with a thread, once it is handed in
    callers: Mutex<Vec<Option<Log<O, R>>>>,
    shards: [Shard<O, R>; SHARDS],
    open: Option<Semaphore>,
}

/// A caller that stays with a thread. Its calls are handed in where it is dropped.
#[derive(Debug)]
pub(crate) struct Own<O, R> {
    record: Arc<Record<O, R>>,
    number: usize,
    log: Log<O, R>,
}

/// A call of a caller that stays with a thread, which hasn't returned.
#[derive(Debug)]
pub(crate) struct Begun<'a, O, R> {
    clock: &'a Clock,
    // None where the call isn't recorded
    call: Option<&'a mut Call<O, R>>,
}

/// Where any other call is written down, if it is: its shard, and its number there.
#[derive(Clone, Copy, Debug)]
pub(crate) struct Line {
    shard: usize,
    number: Option<usize>,
}

// Apart from what lies beside it, since every call steps it twice.
#[derive(Debug)]
#[repr(align(128))]
struct Clock(AtomicU64);

impl Clock {
    // The next moment. All steps of the clock are read-modify-writes that acquire and release, so
    // each one synchronizes with every later one. So what a call did before it returned happens
    // before what a later call does: a weakly ordered object needs no fence here, unlike beside a
    // table, whose looks only load.
    fn tick(&self) -> u64 {
        self.0.fetch_add(1, Ordering::SeqCst)
    }
}

#[derive(Debug)]
struct Log<O, R> {
    calls: Vec<Call<O, R>>,
    // how many further ones aren't recorded
    beyond: usize,
}

#[derive(Debug)]
#[repr(align(128))]
struct Shard<O, R>(Mutex<Log<O, R>>);

// What is under these locks is whole after a panic.
fn lock<T>(mutex: &Mutex<T>) -> MutexGuard<'_, T> {
    mutex.lock().unwrap_or_else(PoisonError::into_inner)
}

impl<O, R> Log<O, R> {
    fn new(calls: usize) -> Log<O, R> {
        Log {
            calls: Vec::with_capacity(calls),
            beyond: 0,
        }
    }

    // The number of a call that is invoked, if it is recorded.
    fn begin(&mut self, clock: &Clock, op: O, own: Option<usize>) -> Option<usize> {
        self.calls.reserve(1);
        let invoked = clock.tick();
        if invoked >= LAST_MOMENT {
            self.beyond += 1;
            return None;
        }
        self.calls.push(Call {
            op,
            invoked,
            answer: None,
            own,
        });
        Some(self.calls.len() - 1)
    }
}

impl<O, R> Record<O, R> {
    /// With a number, so many calls have a permit at once at the most.
    pub(crate) fn new(open: Option<NonZero<usize>>) -> Arc<Record<O, R>> {
        Arc::new(Record {
            clock: Clock(AtomicU64::new(0)),
            callers: Mutex::new(Vec::new()),
            shards: array::from_fn(|_| Shard(Mutex::new(Log::new(0)))),
            open: open.map(|most| Semaphore {
                free: Mutex::new(most.get()),
                freed: Condvar::new(),
            }),
        })
    }

    pub(crate) fn caller(self: &Arc<Self>) -> Own<O, R> {
        let mut callers = lock(&self.callers);
        callers.push(None);
        Own {
            record: Arc::clone(self),
            number: callers.len() - 1,
            log: Log::new(MAX_CALLS),
        }
    }

    pub(crate) fn permit(&self) -> Option<Permit<'_>> {
        self.open.as_ref().map(Semaphore::enter)
    }

    /// A call's interval lies inside this step and the next one, also where its answer is written
    /// down by another thread.
    pub(crate) fn begin(&self, op: O) -> Line {
        let shard = shard_of_thread();
        let number = lock(&self.shards[shard].0).begin(&self.clock, op, None);
        Line { shard, number }
    }

    /// The reply is made after the moment of the return.
    pub(crate) fn end(&self, line: Line, reply: impl FnOnce(&mut O) -> R) {
        if let Some(number) = line.number {
            let returned = self.clock.tick();
            let call = &mut lock(&self.shards[line.shard].0).calls[number];
            call.answer = Some((returned, reply(&mut call.op)));
        }
    }

    /// What is known now. A call whose moment is later was invoked after all that is known here had
    /// returned.
    pub(crate) fn history(&self, is_read_only: fn(&O) -> bool) -> Result<History<O, R>, Incomplete>
    where
        O: Clone,
        R: Clone,
    {
        let moment = self.clock.tick().min(LAST_MOMENT);
        let (mut calls, mut beyond) = (Vec::new(), 0);
        let mut take = |log: &Log<O, R>| {
            calls.extend_from_slice(&log.calls);
            beyond += log.beyond;
        };
        let callers = lock(&self.callers);
        for (caller, log) in callers.iter().enumerate() {
            take(log.as_ref().ok_or(Incomplete::InUse { caller })?);
        }
        for shard in &self.shards {
            take(&lock(&shard.0));
        }
        let known = History::new(calls, callers.len(), beyond, is_read_only);
        Ok(known.at(moment))
    }
}

fn shard_of_thread() -> usize {
    static THREADS: AtomicUsize = AtomicUsize::new(0);
    thread_local! {
        static SHARD: usize = THREADS.fetch_add(1, Ordering::Relaxed) % SHARDS;
    }
    SHARD.with(|shard| *shard)
}

impl<O, R> Own<O, R> {
    pub(crate) fn invoke(&mut self, op: O) -> Begun<'_, O, R> {
        let clock = &self.record.clock;
        let number = self.log.begin(clock, op, Some(self.number));
        let call = number.map(|number| &mut self.log.calls[number]);
        Begun { clock, call }
    }
}

impl<O, R> Begun<'_, O, R> {
    /// Returns. The reply is made after the moment of it.
    pub(crate) fn ret(self, reply: impl FnOnce(&mut O) -> R) {
        if let Some(call) = self.call {
            let returned = self.clock.tick();
            call.answer = Some((returned, reply(&mut call.op)));
        }
    }
}

impl<O, R> Drop for Own<O, R> {
    fn drop(&mut self) {
        let log = std::mem::replace(&mut self.log, Log::new(0));
        lock(&self.record.callers)[self.number] = Some(log);
    }
}

// Lets so many calls in at once.
#[derive(Debug)]
struct Semaphore {
    free: Mutex<usize>,
    freed: Condvar,
}

pub(crate) struct Permit<'a>(&'a Semaphore);

impl Semaphore {
    fn enter(&self) -> Permit<'_> {
        let free = self.freed.wait_while(lock(&self.free), |free| *free == 0);
        *free.unwrap_or_else(PoisonError::into_inner) -= 1;
        Permit(self)
    }
}

impl Drop for Permit<'_> {
    fn drop(&mut self) {
        *lock(&self.0.free) += 1;
        self.0.freed.notify_one();
    }
}
