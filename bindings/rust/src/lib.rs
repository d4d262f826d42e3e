//! Records what threads do to a concurrent object, and judges by a proved check whether it is linearizable
//! (Herlihy and Wing 1990).
//!
//! A [`Recorder`] makes the object's calls in your closures, on any threads and tasks, and writes them down. The
//! [`Book`] of all calls is then judged: [`Book::verify`] says whether the calls have a legal order, and
//! [`Book::certify`] gives one, in a text that anyone can check again. A [`Caller`] of a recorder stays with one
//! thread, whose calls it shows as those of one caller.
//!
//! ```
//! use selfcheck::{Queue, Recorder, Verdict};
//! use std::{collections::VecDeque, sync::Mutex, thread};
//!
//! let queue = Mutex::new(VecDeque::new());
//! let recorder = Recorder::<Queue>::new();
//! thread::scope(|scope| {
//!     for t in 0..4 {
//!         let (queue, recorder) = (&queue, &recorder);
//!         scope.spawn(move || {
//!             recorder.enq(t, || queue.lock().unwrap().push_back(t));
//!             recorder.deq(|| queue.lock().unwrap().pop_front());
//!         });
//!     }
//! });
//! assert_eq!(recorder.book()?.verify()?, Verdict::Legal);
//! # Ok::<_, Box<dyn std::error::Error>>(())
//! ```
//!
//! An [`Enforced`] object checks itself: each call is judged when it has its reply, which is delivered, or is an error
//! with a book that has no legal order. The calls of a [`Monitored`] object are only published, and a [`Monitor`] judges
//! them in rounds. An illegal book is made small by [`Book::smaller`], explained by [`Book::explanation`], and
//! drawn by [`Book::picture`].
//!
//! Code that uses the types of [`schedule`] in place of the standard library's runs one thread at a time, by a seed, and
//! [`hunt()`] makes random calls of an object under such schedules, until one is wrong; what it finds comes again.
//!
//! The log of another tool, such as Jepsen's `history.edn`, is read by [`logs`] as books, one for each key.
//!
//! An object that is of no [`Kind`] is judged by a [`Model`], a sequential object in plain Rust: see [`model`].
//!
//! ```
//! use selfcheck::{Model, Recorder, model::verify};
//!
//! /// A queue with two places. An operation puts a number, or takes one. It replies the number, or `None` where it
//! /// refuses: it is full, or empty.
//! struct Bounded;
//!
//! impl Model for Bounded {
//!     type State = Vec<u32>;
//!     type Op = Option<u32>;
//!     type Reply = Option<u32>;
//!
//!     fn initial(&self) -> Vec<u32> {
//!         Vec::new()
//!     }
//!
//!     fn step(&self, items: &Vec<u32>, op: &Option<u32>) -> (Vec<u32>, Option<u32>) {
//!         match (op, items.split_first()) {
//!             (Some(item), _) if items.len() < 2 => ([&items[..], &[*item]].concat(), *op),
//!             (None, Some((first, rest))) => (rest.to_vec(), Some(*first)),
//!             _ => (items.clone(), None),
//!         }
//!     }
//! }
//!
//! let (sender, receiver) = std::sync::mpsc::sync_channel(2);
//! let recorder = Recorder::<Bounded>::new();
//! for item in 1..=3 {
//!     recorder.call(Some(item), || sender.try_send(item).ok().map(|()| item));
//! }
//! recorder.call(None, || receiver.try_recv().ok());
//! assert!(verify(&Bounded, &recorder.history()?)?.is_legal());
//! # Ok::<_, Box<dyn std::error::Error>>(())
//! ```
//!
//! **What it says.** The verdict on a book is proved, and so is that on a history by a model. The recorder is tested: a book that it makes is always a
//! text of a book, and where the book has no legal order, the recorded run wasn't linearizable. A run of a wrong
//! object may be legal all the same: the threads didn't meet in the wrong way, or the recorded intervals, which
//! are a little wider than the calls, hide it. Nothing is promised of schedules, so record many short runs, or hunt.
#![deny(unsafe_code)]
#![warn(missing_docs)]

#[forbid(unsafe_code)]
mod asked;
#[forbid(unsafe_code)]
mod book;
#[forbid(unsafe_code)]
mod calls;
#[forbid(unsafe_code)]
mod enforced;
#[forbid(unsafe_code)]
mod fault;
#[forbid(unsafe_code)]
mod history;
#[forbid(unsafe_code)]
pub mod hunt;
#[forbid(unsafe_code)]
mod kind;
#[allow(unsafe_code)]
mod library;
#[forbid(unsafe_code)]
pub mod logs;
#[forbid(unsafe_code)]
pub mod model;
#[forbid(unsafe_code)]
mod monitored;
#[forbid(unsafe_code)]
mod objects;
#[forbid(unsafe_code)]
mod places;
#[forbid(unsafe_code)]
mod record;
#[forbid(unsafe_code)]
mod recorder;
#[forbid(unsafe_code)]
mod reply;
#[forbid(unsafe_code)]
pub mod schedule;

pub use book::Book;
pub use enforced::{CallError, Enforced, EnforcedCaller, OpenError};
pub use fault::{Fault, Verdict, What};
pub use history::History;
pub use hunt::hunt;
pub use kind::{
    CasRegister, CasRegisterOp, Counter, CounterOp, Keyed, Kind, Map, MapOp, Operation,
    PriorityQueue, PriorityQueueOp, Queue, QueueOp, Register, RegisterOp, Set, SetOp, Stack,
    StackOp,
};
pub use library::{certify, explain, order, picture, smaller, verify, verify_within};
pub use model::Model;
pub use monitored::{JudgeError, Monitor, Monitored, MonitoredCaller};
pub use objects::{
    CasRegisterObject, CounterObject, MapObject, PriorityQueueObject, QueueObject, RegisterObject,
    SetObject, StackObject,
};
pub use places::{CallerError, NotMade};
pub use recorder::{
    Caller, Incomplete, MAX_CALLERS, MAX_CALLS, Pending, PendingCall, Prefix, Recorded, Recorder,
};
pub use reply::Reply;
