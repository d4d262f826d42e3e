use super::ending::Awaited;
use super::mutex::{mapped, tried, tried_or_held};
use super::run::{Key, Woken};
use super::seat::{Seat, Tag};
use super::step::{At, Operated};
use std::fmt;
use std::ops::{Deref, DerefMut};
use std::panic::Location;
use std::sync::{self, LockResult, TryLockResult};

/// [`std::sync::RwLock`], whose locks and unlocks are steps of a schedule. Under a schedule a
/// reader doesn't wait for a writer that waits.
pub struct RwLock<T: ?Sized> {
    tag: Tag,
    inner: sync::RwLock<T>,
}

/// [`std::sync::RwLockReadGuard`] of an [`RwLock`].
#[must_use = "if unused the RwLock will immediately unlock"]
pub struct RwLockReadGuard<'a, T: ?Sized> {
    lock: &'a RwLock<T>,
    inner: Option<sync::RwLockReadGuard<'a, T>>,
    at: At,
}

/// [`std::sync::RwLockWriteGuard`] of an [`RwLock`].
#[must_use = "if unused the RwLock will immediately unlock"]
pub struct RwLockWriteGuard<'a, T: ?Sized> {
    lock: &'a RwLock<T>,
    inner: Option<sync::RwLockWriteGuard<'a, T>>,
    at: At,
}

impl<T> RwLock<T> {
    /// A lock with this value.
    pub const fn new(value: T) -> RwLock<T> {
        RwLock {
            tag: Tag::new(),
            inner: sync::RwLock::new(value),
        }
    }

    /// The value.
    ///
    /// # Errors
    ///
    /// Where a thread that wrote has panicked.
    pub fn into_inner(self) -> LockResult<T> {
        self.inner.into_inner()
    }
}

impl<T: ?Sized> RwLock<T> {
    fn key(&self) -> Key {
        Key::Object((&raw const self.tag).addr())
    }

    // Takes the lock by `take` once it can be had, and by `wait` outside of a schedule.
    fn acquire<'a, G>(
        &'a self,
        (name, awaited): (&'static str, fn(u32) -> Awaited),
        take: impl Fn(&'a sync::RwLock<T>) -> TryLockResult<G>,
        wait: impl FnOnce(&'a sync::RwLock<T>) -> LockResult<G>,
        at: At,
    ) -> LockResult<G> {
        if let Some(seat) = Seat::current() {
            let number = seat.number_of(&self.tag);
            seat.step(Operated::on(name, number), at);
            loop {
                if let Some(result) = tried(take(&self.inner)) {
                    seat.holds(self.key(), at);
                    return result;
                }
                if seat.wait(self.key(), awaited(number), at, None) == Woken::Over {
                    break;
                }
            }
        }
        wait(&self.inner)
    }

    fn acquire_now<'a, G>(
        &'a self,
        name: &'static str,
        take: impl FnOnce(&'a sync::RwLock<T>) -> TryLockResult<G>,
        at: At,
    ) -> Option<LockResult<G>> {
        let seat = Seat::current();
        if let Some(seat) = &seat {
            seat.step(Operated::on(name, seat.number_of(&self.tag)), at);
        }
        let result = tried(take(&self.inner));
        if let (Some(seat), Some(_)) = (&seat, &result) {
            seat.holds(self.key(), at);
        }
        result
    }

    // Gives a guard back in a step.
    fn give_back(&self, name: &'static str, guard: impl FnOnce(), at: At) {
        if let Some(seat) = Seat::current() {
            seat.step(Operated::on(name, seat.number_of(&self.tag)), at);
            guard();
            seat.gives_back(self.key());
        }
    }

    /// Waits until nobody writes.
    ///
    /// # Errors
    ///
    /// Where a thread that wrote has panicked.
    #[track_caller]
    pub fn read(&self) -> LockResult<RwLockReadGuard<'_, T>> {
        let at = Location::caller();
        let what = ("RwLock::read", Awaited::Read as fn(u32) -> Awaited);
        let result = self.acquire(what, sync::RwLock::try_read, sync::RwLock::read, at);
        mapped(result, |inner| RwLockReadGuard {
            lock: self,
            inner: Some(inner),
            at,
        })
    }

    /// Waits until nobody reads or writes.
    ///
    /// # Errors
    ///
    /// Where a thread that wrote has panicked.
    #[track_caller]
    pub fn write(&self) -> LockResult<RwLockWriteGuard<'_, T>> {
        let at = Location::caller();
        let what = ("RwLock::write", Awaited::Write as fn(u32) -> Awaited);
        let result = self.acquire(what, sync::RwLock::try_write, sync::RwLock::write, at);
        mapped(result, |inner| RwLockWriteGuard {
            lock: self,
            inner: Some(inner),
            at,
        })
    }

    /// Reads where nobody writes.
    ///
    /// # Errors
    ///
    /// Where a thread writes, or one that wrote has panicked.
    #[track_caller]
    pub fn try_read(&self) -> TryLockResult<RwLockReadGuard<'_, T>> {
        let at = Location::caller();
        let result = self.acquire_now("RwLock::try_read", sync::RwLock::try_read, at);
        tried_or_held(result.map(|it| {
            mapped(it, |inner| RwLockReadGuard {
                lock: self,
                inner: Some(inner),
                at,
            })
        }))
    }

    /// Writes where nobody reads or writes.
    ///
    /// # Errors
    ///
    /// Where a thread reads or writes, or one that wrote has panicked.
    #[track_caller]
    pub fn try_write(&self) -> TryLockResult<RwLockWriteGuard<'_, T>> {
        let at = Location::caller();
        let result = self.acquire_now("RwLock::try_write", sync::RwLock::try_write, at);
        tried_or_held(result.map(|it| {
            mapped(it, |inner| RwLockWriteGuard {
                lock: self,
                inner: Some(inner),
                at,
            })
        }))
    }

    /// Whether a thread that wrote has panicked.
    pub fn is_poisoned(&self) -> bool {
        self.inner.is_poisoned()
    }

    /// Forgets that a thread that wrote has panicked.
    pub fn clear_poison(&self) {
        self.inner.clear_poison();
    }

    /// The value, which nobody else has.
    ///
    /// # Errors
    ///
    /// Where a thread that wrote has panicked.
    pub fn get_mut(&mut self) -> LockResult<&mut T> {
        self.inner.get_mut()
    }
}

impl<T: ?Sized> Drop for RwLockReadGuard<'_, T> {
    fn drop(&mut self) {
        let guard = &mut self.inner;
        (self.lock).give_back("unlock of RwLock::read", || drop(guard.take()), self.at);
    }
}

impl<T: ?Sized> Drop for RwLockWriteGuard<'_, T> {
    fn drop(&mut self) {
        let guard = &mut self.inner;
        (self.lock).give_back("unlock of RwLock::write", || drop(guard.take()), self.at);
    }
}

impl<T: ?Sized> Deref for RwLockReadGuard<'_, T> {
    type Target = T;

    fn deref(&self) -> &T {
        self.inner.as_ref().expect("the guard has its lock")
    }
}

impl<T: ?Sized> Deref for RwLockWriteGuard<'_, T> {
    type Target = T;

    fn deref(&self) -> &T {
        self.inner.as_ref().expect("the guard has its lock")
    }
}

impl<T: ?Sized> DerefMut for RwLockWriteGuard<'_, T> {
    fn deref_mut(&mut self) -> &mut T {
        self.inner.as_mut().expect("the guard has its lock")
    }
}

impl<T: ?Sized + fmt::Debug> fmt::Debug for RwLock<T> {
    fn fmt(&self, f: &mut fmt::Formatter<'_>) -> fmt::Result {
        self.inner.fmt(f)
    }
}

impl<T: ?Sized + fmt::Debug> fmt::Debug for RwLockReadGuard<'_, T> {
    fn fmt(&self, f: &mut fmt::Formatter<'_>) -> fmt::Result {
        (**self).fmt(f)
    }
}

impl<T: ?Sized + fmt::Debug> fmt::Debug for RwLockWriteGuard<'_, T> {
    fn fmt(&self, f: &mut fmt::Formatter<'_>) -> fmt::Result {
        (**self).fmt(f)
    }
}

impl<T: ?Sized + fmt::Display> fmt::Display for RwLockReadGuard<'_, T> {
    fn fmt(&self, f: &mut fmt::Formatter<'_>) -> fmt::Result {
        (**self).fmt(f)
    }
}

impl<T: ?Sized + fmt::Display> fmt::Display for RwLockWriteGuard<'_, T> {
    fn fmt(&self, f: &mut fmt::Formatter<'_>) -> fmt::Result {
        (**self).fmt(f)
    }
}

impl<T: Default> Default for RwLock<T> {
    fn default() -> RwLock<T> {
        RwLock::new(T::default())
    }
}

impl<T> From<T> for RwLock<T> {
    fn from(value: T) -> RwLock<T> {
        RwLock::new(value)
    }
}
