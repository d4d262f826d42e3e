use super::condvar::Condvar;
use super::mutex::Mutex;
use std::fmt;
use std::sync::PoisonError;

/// [`std::sync::Barrier`], whose waits are steps of a schedule.
pub struct Barrier {
    threads: usize,
    // how many have come, and how often all have
    come: Mutex<(usize, usize)>,
    all: Condvar,
}

/// [`std::sync::BarrierWaitResult`]: whether the thread is the one that came last.
#[derive(Debug)]
pub struct BarrierWaitResult(bool);

impl BarrierWaitResult {
    /// Whether this is the one of the threads that is told so.
    #[must_use]
    pub fn is_leader(&self) -> bool {
        self.0
    }
}

impl Barrier {
    /// A barrier for so many threads.
    #[must_use]
    pub const fn new(threads: usize) -> Barrier {
        Barrier {
            threads,
            come: Mutex::new((0, 0)),
            all: Condvar::new(),
        }
    }

    /// Waits until all threads have come.
    #[track_caller]
    pub fn wait(&self) -> BarrierWaitResult {
        let mut come = self.come.lock().unwrap_or_else(PoisonError::into_inner);
        let time = come.1;
        come.0 += 1;
        if come.0 >= self.threads {
            *come = (0, time.wrapping_add(1));
            self.all.notify_all();
            return BarrierWaitResult(true);
        }
        let waited = self.all.wait_while(come, |come| come.1 == time);
        drop(waited.unwrap_or_else(PoisonError::into_inner));
        BarrierWaitResult(false)
    }
}

impl fmt::Debug for Barrier {
    fn fmt(&self, f: &mut fmt::Formatter<'_>) -> fmt::Result {
        f.debug_struct("Barrier").finish_non_exhaustive()
    }
}
