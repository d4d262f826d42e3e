use super::ending::Awaited;
use super::parker::Parker;
use super::run::Key;
use super::seat::{self, Abandon, Seat};
use super::step::{At, Operated, Who};
use super::thread::{Builder, Thread, joins};
use std::io;
use std::panic::{AssertUnwindSafe, Location, catch_unwind, resume_unwind};
use std::sync::Arc;
use std::sync::atomic::{AtomicUsize, Ordering};
use std::thread as plain;

/// [`std::thread::Scope`]. Under a schedule its threads are new ones.
#[derive(Debug)]
pub struct Scope<'scope, 'env: 'scope> {
    inner: &'scope plain::Scope<'scope, 'env>,
    number: usize,
}

/// [`std::thread::ScopedJoinHandle`].
#[derive(Debug)]
pub struct ScopedJoinHandle<'scope, T> {
    inner: plain::ScopedJoinHandle<'scope, T>,
    thread: Thread,
    // its number in the run
    number: Option<usize>,
}

/// [`std::thread::scope`].
///
/// Each call leaks a few bytes: the scope that the closure sees has to live as long as its threads
/// may.
#[track_caller]
pub fn scope<'env, F, T>(body: F) -> T
where
    F: for<'scope> FnOnce(&'scope Scope<'scope, 'env>) -> T,
{
    static SCOPES: AtomicUsize = AtomicUsize::new(0);
    let at = Location::caller();
    let number = SCOPES.fetch_add(1, Ordering::Relaxed);
    plain::scope(|inner| {
        let scope = Box::leak(Box::new(Scope { inner, number }));
        if Seat::current().is_none() {
            return body(scope);
        }
        let result = catch_unwind(AssertUnwindSafe(|| body(scope)));
        if let Some(seat) = Seat::current() {
            while !seat.scope_has_ended(number) && !seat.run.is_over() {
                seat.wait(Key::Scope(number), Awaited::Scope, at, None);
            }
        }
        result.unwrap_or_else(|payload| resume_unwind(payload))
    })
}

impl<'scope, 'env> Scope<'scope, 'env> {
    /// Spawns a thread that ends before the scope does.
    ///
    /// # Panics
    ///
    /// Where the system gives no thread.
    #[track_caller]
    pub fn spawn<F, T>(&'scope self, body: F) -> ScopedJoinHandle<'scope, T>
    where
        F: FnOnce() -> T + Send + 'scope,
        T: Send + 'scope,
    {
        let spawned = self.spawn_by(Builder::new(), body, Location::caller());
        spawned.expect("failed to spawn thread")
    }

    pub(crate) fn spawn_by<F, T>(
        &'scope self,
        builder: Builder,
        body: F,
        at: At,
    ) -> io::Result<ScopedJoinHandle<'scope, T>>
    where
        F: FnOnce() -> T + Send + 'scope,
        T: Send + 'scope,
    {
        let Some(seat) = Seat::current() else {
            let inner = builder.into_std().spawn_scoped(self.inner, body)?;
            let thread = Thread::plain(inner.thread().clone());
            return Ok(ScopedJoinHandle {
                inner,
                thread,
                number: None,
            });
        };
        seat.step(Operated::on_none("Scope::spawn"), at);
        let name = builder.name_or_none();
        let named = name.clone();
        let who = |number| Who::Thread(number, named);
        let its = seat
            .run
            .add(who, Arc::new(Parker::new()), Some(self.number));
        let number = its.me;
        let thread = Thread::of(&seat.run, number, name.as_deref());
        let spawned = builder
            .into_std()
            .spawn_scoped(self.inner, move || lives(its, body));
        if spawned.is_err() {
            seat.run.finish(number, None, None);
        }
        seat.changes();
        Ok(ScopedJoinHandle {
            inner: spawned?,
            thread,
            number: Some(number),
        })
    }
}

// The life of a thread of a scope: it begins with its first turn.
fn lives<T>(its: Seat, body: impl FnOnce() -> T) -> T {
    let (run, me) = (Arc::clone(&its.run), its.me);
    its.parker.wait();
    seat::enter(its);
    let result = if run.is_over() {
        drop(body);
        Err(Box::new(Abandon) as Box<_>)
    } else {
        catch_unwind(AssertUnwindSafe(body))
    };
    let panic = match &result {
        Err(payload) if !payload.is::<Abandon>() => Some(seat::last_panic()),
        _ => None,
    };
    seat::leave();
    run.finish(me, panic, None);
    result.unwrap_or_else(|payload| resume_unwind(payload))
}

impl<T> ScopedJoinHandle<'_, T> {
    /// The thread.
    #[must_use]
    pub fn thread(&self) -> &Thread {
        &self.thread
    }

    /// Waits until the thread has ended, and gives what it gave.
    ///
    /// # Errors
    ///
    /// What it panicked with.
    #[track_caller]
    pub fn join(self) -> plain::Result<T> {
        if let (Some(seat), Some(number)) = (Seat::current(), self.number) {
            let at = Location::caller();
            seat.step(Operated::on_none("ScopedJoinHandle::join"), at);
            joins(&seat, number, at);
        }
        self.inner.join()
    }

    /// Whether the thread has ended.
    #[track_caller]
    pub fn is_finished(&self) -> bool {
        match (Seat::current(), self.number) {
            (Some(seat), Some(number)) => {
                let at = Location::caller();
                seat.step(Operated::on_none("ScopedJoinHandle::is_finished"), at);
                seat.has_ended(number)
            }
            _ => self.inner.is_finished(),
        }
    }
}
