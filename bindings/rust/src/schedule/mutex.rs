use super::ending::Awaited;
use super::run::{Key, Woken};
use super::seat::{Seat, Tag};
use super::step::{At, Operated};
use std::fmt;
use std::ops::{Deref, DerefMut};
use std::panic::Location;
use std::sync::{self, LockResult, PoisonError, TryLockError, TryLockResult};

/// [`std::sync::Mutex`], whose `lock`, `try_lock` and unlock are steps of a schedule.
pub struct Mutex<T: ?Sized> {
    tag: Tag,
    inner: sync::Mutex<T>,
}

/// [`std::sync::MutexGuard`] of a [`Mutex`].
#[must_use = "if unused the Mutex will immediately unlock"]
pub struct MutexGuard<'a, T: ?Sized> {
    lock: &'a Mutex<T>,
    // None where it is given back
    inner: Option<sync::MutexGuard<'a, T>>,
    at: At,
}

// What a lock gives, of what the lock below gives.
pub(crate) fn mapped<A, B>(result: LockResult<A>, map: impl FnOnce(A) -> B) -> LockResult<B> {
    match result {
        Ok(it) => Ok(map(it)),
        Err(poisoned) => Err(PoisonError::new(map(poisoned.into_inner()))),
    }
}

// `None` where the lock is held.
pub(crate) fn tried<G>(result: TryLockResult<G>) -> Option<LockResult<G>> {
    match result {
        Ok(guard) => Some(Ok(guard)),
        Err(TryLockError::Poisoned(poisoned)) => Some(Err(poisoned)),
        Err(TryLockError::WouldBlock) => None,
    }
}

pub(crate) fn tried_or_held<G>(result: Option<LockResult<G>>) -> TryLockResult<G> {
    match result {
        Some(Ok(guard)) => Ok(guard),
        Some(Err(poisoned)) => Err(TryLockError::Poisoned(poisoned)),
        None => Err(TryLockError::WouldBlock),
    }
}

impl<T> Mutex<T> {
    /// A mutex with this value.
    pub const fn new(value: T) -> Mutex<T> {
        Mutex {
            tag: Tag::new(),
            inner: sync::Mutex::new(value),
        }
    }

    /// The value.
    ///
    /// # Errors
    ///
    /// Where a thread that held the mutex has panicked.
    pub fn into_inner(self) -> LockResult<T> {
        self.inner.into_inner()
    }
}

impl<T: ?Sized> Mutex<T> {
    fn key(&self) -> Key {
        Key::Object((&raw const self.tag).addr())
    }

    fn guard<'a>(&'a self, inner: sync::MutexGuard<'a, T>, at: At) -> MutexGuard<'a, T> {
        MutexGuard {
            lock: self,
            inner: Some(inner),
            at,
        }
    }

    // Waits for the mutex, with no step before.
    pub(crate) fn acquire(&self, seat: Option<&Seat>, at: At) -> LockResult<MutexGuard<'_, T>> {
        if let Some(seat) = seat {
            loop {
                if let Some(result) = tried(self.inner.try_lock()) {
                    seat.holds(self.key(), at);
                    return mapped(result, |inner| self.guard(inner, at));
                }
                let awaited = Awaited::Mutex(seat.number_of(&self.tag));
                if seat.wait(self.key(), awaited, at, None) == Woken::Over {
                    break;
                }
            }
        }
        mapped(self.inner.lock(), |inner| self.guard(inner, at))
    }

    /// Waits for the mutex.
    ///
    /// # Errors
    ///
    /// Where a thread that held the mutex has panicked.
    #[track_caller]
    pub fn lock(&self) -> LockResult<MutexGuard<'_, T>> {
        let at = Location::caller();
        let seat = Seat::current();
        if let Some(seat) = &seat {
            seat.step(Operated::on("Mutex::lock", seat.number_of(&self.tag)), at);
        }
        self.acquire(seat.as_ref(), at)
    }

    /// Takes the mutex where nobody holds it.
    ///
    /// # Errors
    ///
    /// Where it is held, or a thread that held it has panicked.
    #[track_caller]
    pub fn try_lock(&self) -> TryLockResult<MutexGuard<'_, T>> {
        let at = Location::caller();
        let seat = Seat::current();
        if let Some(seat) = &seat {
            seat.step(
                Operated::on("Mutex::try_lock", seat.number_of(&self.tag)),
                at,
            );
        }
        let result = tried(self.inner.try_lock());
        if let (Some(seat), Some(_)) = (&seat, &result) {
            seat.holds(self.key(), at);
        }
        tried_or_held(result.map(|it| mapped(it, |inner| self.guard(inner, at))))
    }

    /// Whether a thread that held the mutex has panicked.
    pub fn is_poisoned(&self) -> bool {
        self.inner.is_poisoned()
    }

    /// Forgets that a thread that held the mutex has panicked.
    pub fn clear_poison(&self) {
        self.inner.clear_poison();
    }

    /// The value, which nobody else has.
    ///
    /// # Errors
    ///
    /// Where a thread that held the mutex has panicked.
    pub fn get_mut(&mut self) -> LockResult<&mut T> {
        self.inner.get_mut()
    }
}

impl<'a, T: ?Sized> MutexGuard<'a, T> {
    pub(crate) fn mutex(&self) -> &'a Mutex<T> {
        self.lock
    }

    // The guard below, of a mutex that stays locked.
    pub(crate) fn into_std(mut self) -> sync::MutexGuard<'a, T> {
        self.inner.take().expect("the guard has its mutex")
    }

    pub(crate) fn from_std(lock: &'a Mutex<T>, inner: sync::MutexGuard<'a, T>, at: At) -> Self {
        lock.guard(inner, at)
    }

    // Unlocks with no step before.
    pub(crate) fn give_back(mut self, seat: &Seat) {
        drop(self.inner.take());
        seat.gives_back(self.lock.key());
    }
}

impl<T: ?Sized> Drop for MutexGuard<'_, T> {
    fn drop(&mut self) {
        if self.inner.is_none() {
            return;
        }
        if let Some(seat) = Seat::current() {
            let number = seat.number_of(&self.lock.tag);
            seat.step(Operated::on("unlock of Mutex::lock", number), self.at);
            drop(self.inner.take());
            seat.gives_back(self.lock.key());
        }
    }
}

impl<T: ?Sized> Deref for MutexGuard<'_, T> {
    type Target = T;

    fn deref(&self) -> &T {
        self.inner.as_ref().expect("the guard has its mutex")
    }
}

impl<T: ?Sized> DerefMut for MutexGuard<'_, T> {
    fn deref_mut(&mut self) -> &mut T {
        self.inner.as_mut().expect("the guard has its mutex")
    }
}

impl<T: ?Sized + fmt::Debug> fmt::Debug for Mutex<T> {
    fn fmt(&self, f: &mut fmt::Formatter<'_>) -> fmt::Result {
        self.inner.fmt(f)
    }
}

impl<T: ?Sized + fmt::Debug> fmt::Debug for MutexGuard<'_, T> {
    fn fmt(&self, f: &mut fmt::Formatter<'_>) -> fmt::Result {
        (**self).fmt(f)
    }
}

impl<T: ?Sized + fmt::Display> fmt::Display for MutexGuard<'_, T> {
    fn fmt(&self, f: &mut fmt::Formatter<'_>) -> fmt::Result {
        (**self).fmt(f)
    }
}

impl<T: Default> Default for Mutex<T> {
    fn default() -> Mutex<T> {
        Mutex::new(T::default())
    }
}

impl<T> From<T> for Mutex<T> {
    fn from(value: T) -> Mutex<T> {
        Mutex::new(value)
    }
}
