//! Types of the standard library under a schedule: one thread runs at a time, and at each operation
//! on them the turn may go to another thread, as a seed says. So a run comes again by its seed.
//!
//! The modules [`sync`], [`thread`] and [`hint`] have the names of the standard library's. A crate
//! names them in one place, and has the standard library's own types where it isn't tested, so that
//! nothing is paid there and `selfcheck` stays among its `dev-dependencies`:
//!
//! ```
//! // in lib.rs; the rest of the crate says `use crate::shared::sync::Mutex;`
//! mod shared {
//!     #[cfg(test)]
//!     pub use selfcheck::schedule::{hint, sync, thread};
//!     #[cfg(not(test))]
//!     pub use std::{hint, sync, thread};
//! }
//! # use shared::sync::Mutex;
//! # assert_eq!(*Mutex::new(5).lock().unwrap(), 5);
//! ```
//!
//! An alias was taken and not a feature of this crate: features are united over all that a program
//! is built of, so that a test's feature could reach a release, while the alias is decided where
//! the code stands. For tests in a folder of their own, name a feature of your crate in place of
//! `test`.
//!
//! [`run`] runs a closure under the schedule of a seed, and [`hunt`](mod@crate::hunt) runs random
//! calls of an object, and judges them. Where a thread is in no run, the types do as the standard
//! library's do.
//!
//! ```
//! use selfcheck::schedule::{self, Ending, sync::{Arc, Mutex}, thread};
//!
//! // takes two locks in one order or in the other
//! let deadlocks = |seed| {
//!     let ran = schedule::run(seed, || {
//!         let locks = Arc::new([Mutex::new(0), Mutex::new(0)]);
//!         let other = Arc::clone(&locks);
//!         let thread = thread::spawn(move || {
//!             let _second = other[1].lock();
//!             *other[0].lock().unwrap() += 1;
//!         });
//!         let _first = locks[0].lock();
//!         *locks[1].lock().unwrap() += 1;
//!         drop(_first);
//!         thread.join().unwrap();
//!     });
//!     matches!(ran.ending(), Ending::Deadlock(_))
//! };
//! let seed = (0..1000).find(|seed| deadlocks(*seed)).expect("some seed shows it");
//! assert!(deadlocks(seed));
//! ```
//!
//! # What a schedule is
//!
//! By half of the seeds it is a random walk, and by half of them it has priorities with a few
//! points at which they change (Burckhardt and others 2010). It isn't exhaustive. All operations
//! are sequentially consistent, whatever their orderings, so that a missing fence is never found.
//! `yield_now`, `sleep` and `spin_loop` give way to other threads. No time passes while a thread
//! can go on, and so a wait with a time ends only where all others wait or give way.
//!
//! # What breaks repetition
//!
//! A run comes again by its seed where its steps depend on nothing else. They do where the code
//! uses the random seeds of `HashMap` and `HashSet`, the clock, addresses (as keys, or for hashing),
//! values in statics that outlive the run, threads of its own that aren't of [`thread`], or random
//! numbers of the system. Thread-local values outlive a run too, since threads are kept from run to
//! run; a hunt with [`new_threads`](crate::hunt::Settings::new_threads) keeps none.
//!
//! A thread that waits for something else than these types, as a lock of the standard library or a
//! file, keeps the turn, and after a time the run is given up as [`Ending::Stuck`].
//!
//! A run that is given up unwinds its threads, and a panic is told after unwinding; where a program
//! is built to abort at panics, it ends with the first of them.

pub mod atomic;
mod barrier;
pub(crate) mod chooser;
mod condvar;
pub(crate) mod draw;
mod ending;
pub mod hint;
mod lazy_lock;
pub(crate) mod legs;
pub mod mpsc;
mod mutex;
mod once;
mod once_lock;
mod parker;
pub(crate) mod pool;
pub(crate) mod run;
mod rw_lock;
mod scope;
pub(crate) mod seat;
mod step;
pub mod sync;
pub mod thread;

pub use ending::{Ending, Panic, Waiter};
pub use run::Ran;
pub use step::{Operated, Step, Who};

use chooser::Chooser;
use draw::Draw;
use run::Plan;
use std::time::Duration;

/// How many steps a run has at the most, where nothing else is said.
pub(crate) const STEPS: usize = 10_000;
/// How long a thread may make no step, where nothing else is said.
pub(crate) const PATIENCE: Duration = Duration::from_secs(5);

/// Runs a closure under the schedule of a seed. The threads that it spawns by [`thread`] take part.
///
/// The run ends when the threads have ended. Where the closure's own thread has ended and the
/// others wait, they are given up. Panics are kept, and not printed.
pub fn run(seed: u64, body: impl FnOnce() + Send + 'static) -> Ran {
    let mut draw = Draw::of_run(seed, 0);
    let chooser = if seed % 2 == 0 {
        Chooser::walk(draw)
    } else {
        // how many steps the run has isn't known
        let steps = 16 << (2 * draw.place(4));
        let points = 1 + draw.place(3);
        Chooser::priorities(draw, points, steps)
    };
    let plan = Plan {
        chooser,
        limit: STEPS,
        patience: PATIENCE,
        keeps_threads: true,
    };
    run::run(plan, Box::new(body))
}

/// A step of one's own, for what is shared by other means than these types. Outside of a schedule
/// it does nothing.
#[track_caller]
pub fn point() {
    seat::step("point");
}
