//! Runs on real threads.

use super::script::Script;
use super::trial::{Maker, Object, Trial, recorder_of};
use crate::fault::Fault;
use crate::kind::Kind;
use crate::recorder::Caller;
use crate::schedule::pool::{Job, Worker};
use crate::schedule::{Ending, Operated, Panic, Ran, Waiter, Who, seat};
use std::panic::{AssertUnwindSafe, catch_unwind};
use std::sync::atomic::{AtomicUsize, Ordering};
use std::sync::{Arc, Condvar, Mutex, PoisonError};
use std::time::Duration;

// What the callers of a run tell whoever waits for them.
#[derive(Debug)]
struct Board {
    // how many calls each caller has begun
    begun: Vec<AtomicUsize>,
    come: AtomicUsize,
    ends: Mutex<Ends>,
    ended: Condvar,
}

#[derive(Debug, Default)]
struct Ends {
    callers: Vec<usize>,
    panic: Option<Panic>,
}

impl Board {
    fn call_of(&self, caller: usize) -> Option<usize> {
        self.begun[caller].load(Ordering::SeqCst).checked_sub(1)
    }

    // Makes the calls of one caller, once all callers have come.
    fn lives<K: Kind>(
        &self,
        number: usize,
        mut caller: Caller<K>,
        calls: &[(usize, K::Op)],
        object: &Object<K>,
    ) {
        self.come.fetch_add(1, Ordering::SeqCst);
        while self.come.load(Ordering::SeqCst) < self.begun.len() {
            std::thread::yield_now();
        }
        for (_, op) in calls {
            self.begun[number].fetch_add(1, Ordering::SeqCst);
            caller.call(*op, || object(*op));
        }
    }

    fn ends(&self, number: usize, panicked: bool) {
        let panic = panicked.then(|| panic_of(Who::Caller(number), self.call_of(number)));
        let mut ends = self.ends.lock().unwrap_or_else(PoisonError::into_inner);
        ends.callers.push(number);
        ends.panic = ends.panic.take().or(panic);
        self.ended.notify_all();
    }

    // Waits until all callers have ended, or none has begun a call for so long.
    fn ending(&self, patience: Duration) -> Ending {
        let progress = || {
            self.begun
                .iter()
                .map(|it| it.load(Ordering::SeqCst))
                .sum::<usize>()
        };
        let mut seen = 0;
        let mut ends = self.ends.lock().unwrap_or_else(PoisonError::into_inner);
        while ends.callers.len() < self.begun.len() {
            let waited = self.ended.wait_timeout(ends, patience);
            let (again, result) = waited.unwrap_or_else(PoisonError::into_inner);
            ends = again;
            if result.timed_out() && progress() == seen {
                let left = (0..self.begun.len()).find(|it| !ends.callers.contains(it));
                return left.map_or(Ending::Finished, |caller| {
                    Ending::Stuck(self.waiter(caller))
                });
            }
            seen = progress();
        }
        (ends.panic.take()).map_or(Ending::Finished, Ending::Panicked)
    }

    fn waiter(&self, caller: usize) -> Waiter {
        Waiter {
            who: Who::Caller(caller),
            call: self.call_of(caller),
            operated: Operated::on_none("a call that hasn't returned"),
            at: None,
            awaits: None,
            held_by: Vec::new(),
        }
    }
}

fn panic_of(who: Who, call: Option<usize>) -> Panic {
    let (place, message) = seat::last_panic();
    Panic {
        who,
        call,
        place,
        message,
    }
}

/// Runs a script on real threads.
pub(crate) fn try_real<K: Kind<Op: Send + Sync + 'static>>(
    script: &Script<K>,
    maker: &Maker<K>,
    patience: Duration,
    keeps_threads: bool,
) -> Result<Trial<K>, Fault> {
    seat::listen_to_panics();
    let (recorder, callers) = recorder_of(script);
    seat::hear_panics(true);
    let object = catch_unwind(AssertUnwindSafe(|| maker()));
    seat::hear_panics(false);
    let ending = match object {
        Err(_) => Ending::Panicked(panic_of(Who::Main, None)),
        Ok(object) => {
            let board = Arc::new(Board {
                begun: callers.iter().map(|_| AtomicUsize::new(0)).collect(),
                come: AtomicUsize::new(0),
                ends: Mutex::default(),
                ended: Condvar::new(),
            });
            for (number, (caller, calls)) in
                callers.into_iter().zip(script.callers.clone()).enumerate()
            {
                let (board, object) = (Arc::clone(&board), Arc::clone(&object));
                let worker = if keeps_threads {
                    Worker::free()
                } else {
                    Worker::once()
                };
                let own = keeps_threads.then(|| Arc::clone(&worker));
                let job: Job = Box::new(move || {
                    seat::hear_panics(true);
                    let life = AssertUnwindSafe(|| board.lives(number, caller, &calls, &object));
                    let panicked = catch_unwind(life).is_err();
                    drop(object);
                    seat::hear_panics(false);
                    own.into_iter().for_each(Worker::hand_back);
                    board.ends(number, panicked);
                });
                worker.set_job(job);
                worker.parker.give();
            }
            board.ending(patience)
        }
    };
    let ran = Ran {
        ending,
        steps: Vec::new(),
        turns: Vec::new(),
        threads: Vec::new(),
        switches: 0,
        all_left: true,
    };
    Trial::judged(script.clone(), ran, &recorder)
}
