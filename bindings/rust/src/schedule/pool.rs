//! The threads of runs, which are kept from run to run.

use super::parker::Parker;
use std::fmt;
use std::sync::{Arc, Mutex, PoisonError};
use std::thread;

pub(crate) type Job = Box<dyn FnOnce() + Send>;

/// A thread that makes its job once it has the turn.
pub(crate) struct Worker {
    pub(crate) parker: Arc<Parker>,
    job: Mutex<Option<Job>>,
}

static FREE: Mutex<Vec<Arc<Worker>>> = Mutex::new(Vec::new());

impl fmt::Debug for Worker {
    fn fmt(&self, f: &mut fmt::Formatter<'_>) -> fmt::Result {
        f.debug_struct("Worker").finish_non_exhaustive()
    }
}

impl Worker {
    /// A kept thread that has no job.
    pub(crate) fn free() -> Arc<Worker> {
        let free = FREE.lock().unwrap_or_else(PoisonError::into_inner).pop();
        free.unwrap_or_else(|| Worker::started(Worker::work))
    }

    /// A thread for one job.
    pub(crate) fn once() -> Arc<Worker> {
        Worker::started(Worker::make_job)
    }

    fn started(work: fn(&Worker)) -> Arc<Worker> {
        let worker = Arc::new(Worker {
            parker: Arc::new(Parker::new()),
            job: Mutex::new(None),
        });
        let own = Arc::clone(&worker);
        thread::Builder::new()
            .name("selfcheck".to_owned())
            .spawn(move || work(&own))
            .expect("the system gives a thread");
        worker
    }

    /// The job of a kept thread has to hand it back as the last that it does.
    pub(crate) fn set_job(&self, job: Job) {
        *self.job.lock().unwrap_or_else(PoisonError::into_inner) = Some(job);
    }

    pub(crate) fn hand_back(worker: Arc<Worker>) {
        FREE.lock()
            .unwrap_or_else(PoisonError::into_inner)
            .push(worker);
    }

    fn work(&self) {
        loop {
            self.make_job();
        }
    }

    fn make_job(&self) {
        self.parker.wait();
        let job = (self.job.lock())
            .unwrap_or_else(PoisonError::into_inner)
            .take();
        if let Some(job) = job {
            job();
        }
    }
}
