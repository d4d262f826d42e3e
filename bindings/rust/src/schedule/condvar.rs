use super::ending::Awaited;
use super::mutex::{MutexGuard, mapped};
use super::run::{Key, Woken};
use super::seat::{Seat, Tag};
use super::step::{At, Operated};
use std::fmt;
use std::panic::Location;
use std::sync::{self, LockResult};
use std::time::Duration;

/// [`std::sync::Condvar`], whose waits and notifications are steps of a schedule. Under a schedule
/// the thread that has waited longest is notified, nobody wakes without a notification, and a time
/// is over where otherwise no thread could go on.
#[derive(Default)]
pub struct Condvar {
    tag: Tag,
    inner: sync::Condvar,
}

/// [`std::sync::WaitTimeoutResult`]: whether the time was over.
#[derive(Clone, Copy, Debug, PartialEq, Eq)]
pub struct WaitTimeoutResult(bool);

impl WaitTimeoutResult {
    /// Whether the time was over.
    #[must_use]
    pub fn timed_out(&self) -> bool {
        self.0
    }
}

impl Condvar {
    /// A condition variable that nobody waits for.
    #[must_use]
    pub const fn new() -> Condvar {
        Condvar {
            tag: Tag::new(),
            inner: sync::Condvar::new(),
        }
    }

    fn key(&self) -> Key {
        Key::Object((&raw const self.tag).addr())
    }

    // Gives the mutex back, waits, and takes the mutex again.
    fn waits<'a, T>(
        &self,
        guard: MutexGuard<'a, T>,
        time: Option<Duration>,
        name: &'static str,
        at: At,
    ) -> LockResult<(MutexGuard<'a, T>, WaitTimeoutResult)> {
        let mutex = guard.mutex();
        if let Some(seat) = Seat::current() {
            let number = seat.number_of(&self.tag);
            seat.step(Operated::on(name, number), at);
            guard.give_back(&seat);
            let woken = seat.wait(self.key(), Awaited::Notification(number), at, time);
            let result = WaitTimeoutResult(woken == Woken::TimedOut);
            return mapped(mutex.acquire(Some(&seat), at), |guard| (guard, result));
        }
        let inner = guard.into_std();
        let waited = match time {
            None => mapped(self.inner.wait(inner), |inner| (inner, false)),
            Some(time) => mapped(self.inner.wait_timeout(inner, time), |(inner, result)| {
                (inner, result.timed_out())
            }),
        };
        mapped(waited, |(inner, result)| {
            (
                MutexGuard::from_std(mutex, inner, at),
                WaitTimeoutResult(result),
            )
        })
    }

    /// Waits for a notification.
    ///
    /// # Errors
    ///
    /// Where a thread that held the mutex has panicked.
    #[track_caller]
    pub fn wait<'a, T>(&self, guard: MutexGuard<'a, T>) -> LockResult<MutexGuard<'a, T>> {
        let waited = self.waits(guard, None, "Condvar::wait", Location::caller());
        mapped(waited, |(guard, _)| guard)
    }

    /// Waits until the condition is false.
    ///
    /// # Errors
    ///
    /// Where a thread that held the mutex has panicked.
    #[track_caller]
    pub fn wait_while<'a, T>(
        &self,
        mut guard: MutexGuard<'a, T>,
        mut condition: impl FnMut(&mut T) -> bool,
    ) -> LockResult<MutexGuard<'a, T>> {
        let at = Location::caller();
        while condition(&mut guard) {
            let waited = self.waits(guard, None, "Condvar::wait_while", at);
            guard = mapped(waited, |(guard, _)| guard)?;
        }
        Ok(guard)
    }

    /// Waits for a notification, or for the time.
    ///
    /// # Errors
    ///
    /// Where a thread that held the mutex has panicked.
    #[track_caller]
    pub fn wait_timeout<'a, T>(
        &self,
        guard: MutexGuard<'a, T>,
        time: Duration,
    ) -> LockResult<(MutexGuard<'a, T>, WaitTimeoutResult)> {
        self.waits(
            guard,
            Some(time),
            "Condvar::wait_timeout",
            Location::caller(),
        )
    }

    /// Waits until the condition is false, or for the time.
    ///
    /// # Errors
    ///
    /// Where a thread that held the mutex has panicked.
    #[track_caller]
    pub fn wait_timeout_while<'a, T>(
        &self,
        mut guard: MutexGuard<'a, T>,
        time: Duration,
        mut condition: impl FnMut(&mut T) -> bool,
    ) -> LockResult<(MutexGuard<'a, T>, WaitTimeoutResult)> {
        let at = Location::caller();
        let began = std::time::Instant::now();
        let mut left = time;
        while condition(&mut guard) {
            let waited = self.waits(guard, Some(left), "Condvar::wait_timeout_while", at);
            let (again, result) = waited?;
            guard = again;
            if result.timed_out() {
                let result = WaitTimeoutResult(condition(&mut guard));
                return Ok((guard, result));
            }
            if Seat::current().is_none() {
                left = time.saturating_sub(began.elapsed());
            }
        }
        Ok((guard, WaitTimeoutResult(false)))
    }

    /// Wakes one of the threads that wait.
    #[track_caller]
    pub fn notify_one(&self) {
        if let Some(seat) = Seat::current() {
            let number = seat.number_of(&self.tag);
            seat.step(
                Operated::on("Condvar::notify_one", number),
                Location::caller(),
            );
            if seat.wake_one(self.key()) {
                return seat.changes();
            }
        }
        self.inner.notify_one();
    }

    /// Wakes all threads that wait.
    #[track_caller]
    pub fn notify_all(&self) {
        if let Some(seat) = Seat::current() {
            let number = seat.number_of(&self.tag);
            seat.step(
                Operated::on("Condvar::notify_all", number),
                Location::caller(),
            );
            seat.wake_all(self.key());
            seat.changes();
        }
        self.inner.notify_all();
    }
}

impl fmt::Debug for Condvar {
    fn fmt(&self, f: &mut fmt::Formatter<'_>) -> fmt::Result {
        self.inner.fmt(f)
    }
}
