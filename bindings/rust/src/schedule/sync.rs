//! [`std::sync`], whose types take part in a schedule. `Arc`, `Weak` and the errors are those of
//! the standard library.

pub use super::barrier::{Barrier, BarrierWaitResult};
pub use super::condvar::{Condvar, WaitTimeoutResult};
pub use super::lazy_lock::LazyLock;
pub use super::mutex::{Mutex, MutexGuard};
pub use super::once::{Once, OnceState};
pub use super::once_lock::OnceLock;
pub use super::rw_lock::{RwLock, RwLockReadGuard, RwLockWriteGuard};
pub use super::{atomic, mpsc};
pub use std::sync::{Arc, LockResult, PoisonError, TryLockError, TryLockResult, Weak};
