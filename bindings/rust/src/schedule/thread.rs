//! [`std::thread`], whose operations are steps of a schedule.
//!
//! Under a schedule `sleep` and `yield_now` give way: the thread doesn't go on before another one has
//! moved, where one can.

use super::ending::Awaited;
use super::pool::Job;
use super::run::{Key, Run};
use super::seat::{Abandon, Seat};
use super::step::{Operated, Who};
use std::io;
use std::panic::{AssertUnwindSafe, Location, catch_unwind, resume_unwind};
use std::sync::{Arc, Mutex, PoisonError};
use std::thread as plain;
use std::time::Duration;

pub use super::scope::{Scope, ScopedJoinHandle, scope};
pub use std::thread::{AccessError, LocalKey, Result, available_parallelism, panicking};

/// [`std::thread::JoinHandle`].
#[derive(Debug)]
pub struct JoinHandle<T>(Handle<T>);

#[derive(Debug)]
enum Handle<T> {
    Plain(plain::JoinHandle<T>, Thread),
    Of(Thread, Arc<Mutex<Option<Result<T>>>>),
}

/// [`std::thread::Thread`].
#[derive(Clone, Debug)]
pub struct Thread(Inner);

#[derive(Clone, Debug)]
enum Inner {
    Plain(plain::Thread),
    Of(Arc<Run>, usize, Option<Arc<str>>),
}

/// [`std::thread::ThreadId`].
#[derive(Clone, Copy, Debug, PartialEq, Eq, Hash)]
pub struct ThreadId(Id);

#[derive(Clone, Copy, Debug, PartialEq, Eq, Hash)]
enum Id {
    Plain(plain::ThreadId),
    // no number of the run, so that what is chosen by it is the same in each run
    Of(usize),
}

/// [`std::thread::Builder`]. Under a schedule the size of the stack is that of the kept threads.
#[derive(Debug, Default)]
pub struct Builder {
    name: Option<String>,
    stack_size: Option<usize>,
}

impl Thread {
    pub(crate) fn plain(thread: plain::Thread) -> Thread {
        Thread(Inner::Plain(thread))
    }

    pub(crate) fn of(run: &Arc<Run>, number: usize, name: Option<&str>) -> Thread {
        Thread(Inner::Of(Arc::clone(run), number, name.map(Arc::from)))
    }

    /// Its name, if it has one.
    #[must_use]
    pub fn name(&self) -> Option<&str> {
        match &self.0 {
            Inner::Plain(thread) => thread.name(),
            Inner::Of(_, _, name) => name.as_deref(),
        }
    }

    /// What no other thread of the process has; under a schedule, no other thread of the run.
    #[must_use]
    pub fn id(&self) -> ThreadId {
        ThreadId(match &self.0 {
            Inner::Plain(thread) => Id::Plain(thread.id()),
            Inner::Of(_, number, _) => Id::Of(*number),
        })
    }

    /// Lets the thread go on where it parks, or when it parks next.
    #[track_caller]
    pub fn unpark(&self) {
        match &self.0 {
            Inner::Plain(thread) => thread.unpark(),
            Inner::Of(run, number, _) => {
                // a handle may outlive its run
                if let Some(seat) = Seat::current().filter(|it| Arc::ptr_eq(run, &it.run)) {
                    seat.step(Operated::on_none("Thread::unpark"), Location::caller());
                    seat.unparks(*number);
                }
            }
        }
    }
}

impl<T> JoinHandle<T> {
    /// The thread.
    #[must_use]
    pub fn thread(&self) -> &Thread {
        match &self.0 {
            Handle::Plain(_, thread) | Handle::Of(thread, _) => thread,
        }
    }

    /// Waits until the thread has ended, and gives what it gave.
    ///
    /// # Errors
    ///
    /// What it panicked with.
    #[track_caller]
    pub fn join(self) -> Result<T> {
        let at = Location::caller();
        match self.0 {
            Handle::Plain(handle, _) => handle.join(),
            Handle::Of(thread, given) => {
                if let (Some(seat), Inner::Of(_, number, _)) = (Seat::current(), &thread.0) {
                    seat.step(Operated::on_none("JoinHandle::join"), at);
                    joins(&seat, *number, at);
                }
                let given = given.lock().unwrap_or_else(PoisonError::into_inner).take();
                given.unwrap_or_else(|| Err(Box::new(Abandon)))
            }
        }
    }

    /// Whether the thread has ended.
    #[track_caller]
    pub fn is_finished(&self) -> bool {
        match &self.0 {
            Handle::Plain(handle, _) => handle.is_finished(),
            Handle::Of(thread, given) => match (Seat::current(), &thread.0) {
                (Some(seat), Inner::Of(_, number, _)) => {
                    seat.step(
                        Operated::on_none("JoinHandle::is_finished"),
                        Location::caller(),
                    );
                    seat.has_ended(*number)
                }
                _ => given
                    .lock()
                    .unwrap_or_else(PoisonError::into_inner)
                    .is_some(),
            },
        }
    }
}

// Waits for the end of a thread, whose panic is told by that.
pub(crate) fn joins(seat: &Seat, number: usize, at: &'static Location<'static>) {
    while !seat.has_ended(number) && !seat.run.is_over() {
        let awaited = Awaited::End(seat.name_of(number));
        seat.wait(Key::End(number), awaited, at, None);
    }
    seat.joined(number);
}

impl Builder {
    /// A thread as `spawn` makes it.
    #[must_use]
    pub fn new() -> Builder {
        Builder::default()
    }

    /// Sets its name.
    #[must_use]
    pub fn name(mut self, name: String) -> Builder {
        self.name = Some(name);
        self
    }

    /// Sets the size of its stack in bytes.
    #[must_use]
    pub fn stack_size(mut self, size: usize) -> Builder {
        self.stack_size = Some(size);
        self
    }

    pub(crate) fn into_std(self) -> plain::Builder {
        let mut builder = plain::Builder::new();
        if let Some(name) = self.name {
            builder = builder.name(name);
        }
        if let Some(size) = self.stack_size {
            builder = builder.stack_size(size);
        }
        builder
    }

    pub(crate) fn name_or_none(&self) -> Option<String> {
        self.name.clone()
    }

    /// Spawns a thread.
    ///
    /// # Errors
    ///
    /// Where the system gives none.
    #[track_caller]
    pub fn spawn<F, T>(self, body: F) -> io::Result<JoinHandle<T>>
    where
        F: FnOnce() -> T + Send + 'static,
        T: Send + 'static,
    {
        let Some(seat) = Seat::current() else {
            let handle = self.into_std().spawn(body)?;
            let thread = Thread::plain(handle.thread().clone());
            return Ok(JoinHandle(Handle::Plain(handle, thread)));
        };
        seat.step(Operated::on_none("thread::spawn"), Location::caller());
        let given = Arc::new(Mutex::new(None));
        let place = Arc::clone(&given);
        let job: Job = Box::new(move || {
            let result = catch_unwind(AssertUnwindSafe(body));
            let panic = match &result {
                Err(payload) if payload.is::<Abandon>() => resume_unwind(Box::new(Abandon)),
                result => result.is_err(),
            };
            *place.lock().unwrap_or_else(PoisonError::into_inner) = Some(result);
            if panic {
                resume_unwind(Box::new("the panic that the handle has"));
            }
        });
        let name = self.name;
        let named = name.clone();
        let number = seat
            .run
            .spawn(move |number| Who::Thread(number, named), job);
        seat.changes();
        let thread = Thread::of(&seat.run, number, name.as_deref());
        Ok(JoinHandle(Handle::Of(thread, given)))
    }

    /// Spawns a thread of a scope.
    ///
    /// # Errors
    ///
    /// Where the system gives none.
    #[track_caller]
    pub fn spawn_scoped<'scope, 'env, F, T>(
        self,
        scope: &'scope Scope<'scope, 'env>,
        body: F,
    ) -> io::Result<ScopedJoinHandle<'scope, T>>
    where
        F: FnOnce() -> T + Send + 'scope,
        T: Send + 'scope,
    {
        scope.spawn_by(self, body, Location::caller())
    }
}

/// [`std::thread::spawn`].
///
/// # Panics
///
/// Where the system gives no thread.
#[track_caller]
pub fn spawn<F, T>(body: F) -> JoinHandle<T>
where
    F: FnOnce() -> T + Send + 'static,
    T: Send + 'static,
{
    Builder::new().spawn(body).expect("failed to spawn thread")
}

/// [`std::thread::current`].
#[must_use]
pub fn current() -> Thread {
    let Some(seat) = Seat::current() else {
        return Thread::plain(plain::current());
    };
    let name = match seat.who() {
        Who::Main => Some("main".to_owned()),
        Who::Caller(_) => None,
        Who::Thread(_, name) => name,
    };
    Thread::of(&seat.run, seat.me, name.as_deref())
}

#[track_caller]
fn parks(name: &'static str, time: Option<Duration>) {
    let Some(seat) = Seat::current() else {
        return time.map_or_else(plain::park, plain::park_timeout);
    };
    let at = Location::caller();
    seat.step(Operated::on_none(name), at);
    if !seat.takes_permit() {
        seat.wait(Key::Unpark(seat.me), Awaited::Unpark, at, time);
        seat.takes_permit();
    }
}

/// [`std::thread::park`].
#[track_caller]
pub fn park() {
    parks("park", None);
}

/// [`std::thread::park_timeout`].
#[track_caller]
pub fn park_timeout(time: Duration) {
    parks("park_timeout", Some(time));
}

/// [`std::thread::sleep`].
#[track_caller]
pub fn sleep(time: Duration) {
    match Seat::current() {
        Some(seat) => {
            seat.give_way(Operated::on_none("sleep"), Location::caller(), Some(time));
        }
        None => plain::sleep(time),
    }
}

/// [`std::thread::yield_now`].
#[track_caller]
pub fn yield_now() {
    match Seat::current() {
        Some(seat) => {
            seat.give_way(Operated::on_none("yield_now"), Location::caller(), None);
        }
        None => plain::yield_now(),
    }
}
