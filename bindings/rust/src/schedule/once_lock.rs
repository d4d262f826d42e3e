use super::mutex::Mutex;
use super::seat;
use std::fmt;
use std::sync::{self, PoisonError};

/// [`std::sync::OnceLock`], whose calls are steps of a schedule.
pub struct OnceLock<T> {
    inner: sync::OnceLock<T>,
    // held by whoever makes the value
    first: Mutex<()>,
}

impl<T> OnceLock<T> {
    /// A cell with no value.
    #[must_use]
    pub const fn new() -> OnceLock<T> {
        OnceLock {
            inner: sync::OnceLock::new(),
            first: Mutex::new(()),
        }
    }

    /// The value, if there is one.
    #[track_caller]
    pub fn get(&self) -> Option<&T> {
        seat::step("OnceLock::get");
        self.inner.get()
    }

    /// The value, if there is one; nobody else has it.
    pub fn get_mut(&mut self) -> Option<&mut T> {
        self.inner.get_mut()
    }

    /// Sets the value.
    ///
    /// # Errors
    ///
    /// The given value, where there is one already.
    #[track_caller]
    pub fn set(&self, value: T) -> Result<(), T> {
        let _first = self.first.lock().unwrap_or_else(PoisonError::into_inner);
        self.inner.set(value)
    }

    /// The value; where there is none, `make` makes it, and all others wait for it.
    #[track_caller]
    pub fn get_or_init(&self, make: impl FnOnce() -> T) -> &T {
        if let Some(value) = self.get() {
            return value;
        }
        let first = self.first.lock().unwrap_or_else(PoisonError::into_inner);
        if self.inner.get().is_none() {
            let value = make();
            seat::step("OnceLock::set");
            let _ = self.inner.set(value);
        }
        drop(first);
        self.inner.get().expect("the value is set")
    }

    /// The value, if there is one.
    pub fn into_inner(self) -> Option<T> {
        self.inner.into_inner()
    }

    /// The value, if there is one, which is taken out.
    pub fn take(&mut self) -> Option<T> {
        self.inner.take()
    }
}

impl<T> Default for OnceLock<T> {
    fn default() -> OnceLock<T> {
        OnceLock::new()
    }
}

impl<T: fmt::Debug> fmt::Debug for OnceLock<T> {
    fn fmt(&self, f: &mut fmt::Formatter<'_>) -> fmt::Result {
        self.inner.fmt(f)
    }
}

impl<T: Clone> Clone for OnceLock<T> {
    fn clone(&self) -> OnceLock<T> {
        let cell = OnceLock::new();
        if let Some(value) = self.inner.get() {
            let _ = cell.inner.set(value.clone());
        }
        cell
    }
}

impl<T> From<T> for OnceLock<T> {
    fn from(value: T) -> OnceLock<T> {
        OnceLock {
            inner: sync::OnceLock::from(value),
            first: Mutex::new(()),
        }
    }
}

impl<T: PartialEq> PartialEq for OnceLock<T> {
    fn eq(&self, other: &OnceLock<T>) -> bool {
        self.inner == other.inner
    }
}

impl<T: Eq> Eq for OnceLock<T> {}
