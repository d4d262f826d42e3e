//! Models: sequential objects of one's own, by which histories are judged.
//!
//! ```
//! use selfcheck::model::{Model, verify};
//! use selfcheck::Recorder;
//! use std::{collections::VecDeque, sync::Mutex, thread};
//!
//! /// A queue with so many places, which refuses what it has no place for.
//! struct BoundedQueue {
//!     places: usize,
//! }
//!
//! #[derive(Clone, Debug, PartialEq, Eq, Hash)]
//! enum Op {
//!     Put(String),
//!     Take,
//! }
//!
//! #[derive(Clone, Debug, PartialEq, Eq, Hash)]
//! enum Reply {
//!     IsPut(bool),
//!     Taken(Option<String>),
//! }
//!
//! impl Model for BoundedQueue {
//!     type State = VecDeque<String>;
//!     type Op = Op;
//!     type Reply = Reply;
//!
//!     fn initial(&self) -> VecDeque<String> {
//!         VecDeque::new()
//!     }
//!
//!     fn step(&self, items: &VecDeque<String>, op: &Op) -> (VecDeque<String>, Reply) {
//!         let mut items = items.clone();
//!         let reply = match op {
//!             Op::Put(_) if items.len() == self.places => Reply::IsPut(false),
//!             Op::Put(item) => {
//!                 items.push_back(item.clone());
//!                 Reply::IsPut(true)
//!             }
//!             Op::Take => Reply::Taken(items.pop_front()),
//!         };
//!         (items, reply)
//!     }
//! }
//!
//! let queue = Mutex::new(VecDeque::new());
//! let recorder = Recorder::<BoundedQueue>::new();
//! thread::scope(|scope| {
//!     for thread in 0..3 {
//!         let (queue, recorder) = (&queue, &recorder);
//!         scope.spawn(move || {
//!             let item = format!("of {thread}");
//!             recorder.call(Op::Put(item.clone()), || {
//!                 let mut queue = queue.lock().unwrap();
//!                 let has_place = queue.len() < 2;
//!                 if has_place {
//!                     queue.push_back(item);
//!                 }
//!                 Reply::IsPut(has_place)
//!             });
//!             recorder.call(Op::Take, || Reply::Taken(queue.lock().unwrap().pop_front()));
//!         });
//!     }
//! });
//! let history = recorder.history()?;
//! assert!(verify(&BoundedQueue { places: 2 }, &history)?.is_legal(), "{history}");
//! # Ok::<_, Box<dyn std::error::Error>>(())
//! ```
//!
//! The check knows nothing of the model. It asks what an operation does at a state, by numbers that
//! stand for both, and is told the next state and the reply. What it says is proved for each
//! sequential object that does what was told. That a state, an operation and a reply have one
//! number each is up to their `Eq` and `Hash`, and that the model is a function is up to
//! [`Model::step`]: see [`recheck`].
//!
//! **What runs away.** A history with as many as sixteen calls at once of a container, whose values
//! are all different, may take more time than anyone has, as with any search for an order by a model
//! (Wing and Gong 1993). Where there is a [`Kind`](crate::Kind) for the object, take that. Few
//! callers, few values, [`Model::leaves`] and [`Model::key`] help, and [`verify_within`] ends.

mod dialogue;
mod enforced;
mod hunts;
mod relation;
mod verdict;

pub use crate::schedule::draw::Draw;
pub use enforced::{CallError, CallErrorOf, Enforced, EnforcedCaller, WrongCalls};
pub use hunts::{ModelFinding, Runs, hunt, replay};
pub use relation::{ByReply, Relation};
pub use verdict::{Evidence, ModelError, ModelVerdict, Placed};

use crate::history::History;
use crate::recorder::Recorded;
use dialogue::Dialogue;
use std::collections::BTreeMap;
use std::fmt;
use std::hash::Hash;

/// A sequential object: what each operation does where no other one comes between.
///
/// A method has to give the same for the same arguments, always, and so depends on nothing that
/// changes. Two states are one where they are equal, and so are operations and replies.
pub trait Model {
    /// What the object holds.
    type State: Clone + Eq + Hash + fmt::Debug;

    /// The operations, with their arguments.
    type Op: Clone + Eq + Hash + fmt::Debug;

    /// What they reply.
    type Reply: Clone + Eq + Hash + fmt::Debug;

    /// The state at first.
    fn initial(&self) -> Self::State;

    /// The state after the operation, and its reply.
    fn step(&self, state: &Self::State, op: &Self::Op) -> (Self::State, Self::Reply);

    /// A promise: the operation changes no state at which it has this reply, as a read does, or a
    /// compare-and-swap that fails. It makes checks faster, most of all those of locks, registers
    /// and maps. Each step that is told is held against it, and no other one.
    fn leaves(&self, _op: &Self::Op, _reply: &Self::Reply) -> bool {
        false
    }

    /// The part of the object that the operation sees and changes, where the object is made of
    /// independent ones. Where all operations of a history have keys, the calls of each key are
    /// judged by themselves, each from [`initial`](Model::initial) on: so limits hold for each key,
    /// and a check takes less time. Nothing tests that the parts are independent.
    fn key(&self, _op: &Self::Op) -> Option<String> {
        None
    }
}

impl<M: Model> Recorded for M {
    type Op = M::Op;
    type Reply = M::Reply;
}

/// A history for a model.
pub type HistoryOf<M> = History<<M as Model>::Op, <M as Model>::Reply>;

/// What the check says of such a history.
pub type VerdictOf<M> = ModelVerdict<<M as Model>::Op, <M as Model>::Reply>;

/// What a hunt finds of an object with such histories.
pub type FindingOf<M> = ModelFinding<<M as Model>::Op, <M as Model>::Reply>;

/// Whether the calls of a history have an order that is legal for the model.
///
/// A call precedes another one where it returned before the other was invoked. A call that never
/// returned may be in the order or not. The calls of each key have the limits of a book,
/// [`MAX_CALLERS`](crate::MAX_CALLERS) callers with [`MAX_CALLS`](crate::MAX_CALLS) calls, each of
/// which takes calls as in the book of a [`Recorder`](crate::Recorder). Where they don't fit, the
/// first calls are judged, as by [`Recorder::prefix`](crate::Recorder::prefix): if these have no
/// legal order, all have none.
///
/// That the calls of all keys together have a legal order where those of each key have one is a
/// theorem of Herlihy and Wing (1990).
///
/// # Errors
///
/// Where the model breaks a promise, where the first calls alone fit and are legal, and for want of
/// memory.
pub fn verify<M: Model>(model: &M, history: &HistoryOf<M>) -> Result<VerdictOf<M>, ModelError> {
    judge(model, history, None, false)
}

/// As [`verify`], but unknown where the search takes more steps, for some key. They are made in
/// portions of 16, of which each question to the model uses up one.
///
/// # Errors
///
/// As [`verify`].
pub fn verify_within<M: Model>(
    model: &M,
    history: &HistoryOf<M>,
    steps: u64,
) -> Result<VerdictOf<M>, ModelError> {
    judge(model, history, Some(steps), false)
}

/// As [`verify`], and then the model is called again for each step that it was asked for.
///
/// # Errors
///
/// As [`verify`], and where the model now says something else.
pub fn recheck<M: Model>(model: &M, history: &HistoryOf<M>) -> Result<VerdictOf<M>, ModelError> {
    judge(model, history, None, true)
}

/// As [`verify`], with what shows the verdict to whoever doesn't have the model: of an illegal
/// history the evidence of the key whose calls have no legal order, and of a legal one that of each
/// key; an unknown one has none.
///
/// # Errors
///
/// As [`verify_within`].
pub fn evidence<M: Model>(
    model: &M,
    history: &HistoryOf<M>,
    steps: Option<u64>,
) -> Result<Vec<Evidence>, ModelError> {
    let mut all = Vec::new();
    for (key, part) in parts(model, history) {
        let (pages, left_out) = part.prefix();
        let mut dialogue = Dialogue::new(model, &pages)?;
        let Some(is_legal) = dialogue.judge(steps)? else {
            return Ok(Vec::new());
        };
        if is_legal && left_out > 0 {
            let kept = pages.iter().map(Vec::len).sum();
            return Err(ModelError::TooLong {
                key,
                kept,
                left_out,
            });
        }
        let (text, names) = dialogue.evidence()?;
        let evidence = Evidence {
            key,
            is_legal,
            text,
            names,
        };
        if !is_legal {
            return Ok(vec![evidence]);
        }
        all.push(evidence);
    }
    Ok(all)
}

fn judge<M: Model>(
    model: &M,
    history: &HistoryOf<M>,
    steps: Option<u64>,
    again: bool,
) -> Result<VerdictOf<M>, ModelError> {
    let (mut orders, mut undecided) = (Vec::new(), None);
    for (key, part) in parts(model, history) {
        let (pages, left_out) = part.prefix();
        let mut dialogue = Dialogue::new(model, &pages)?;
        let is_legal = dialogue.judge(steps)?;
        if again {
            dialogue.tell_again()?;
        }
        match is_legal {
            Some(false) => return Ok(ModelVerdict::Illegal { key }),
            Some(true) if left_out == 0 => orders.push(dialogue.order()?),
            Some(true) => {
                let kept = pages.iter().map(Vec::len).sum();
                undecided.get_or_insert(Err(ModelError::TooLong {
                    key,
                    kept,
                    left_out,
                }));
            }
            None => {
                undecided.get_or_insert(Ok(ModelVerdict::Unknown { key }));
            }
        }
    }
    undecided.unwrap_or_else(|| Ok(ModelVerdict::Legal(merged(history, orders))))
}

// The history of each key. An operation without a key is one on all of the object.
fn parts<M: Model>(model: &M, history: &HistoryOf<M>) -> BTreeMap<Option<String>, HistoryOf<M>> {
    let parts = history.clone().by_key(|op| model.key(op));
    if parts.contains_key(&None) {
        return BTreeMap::from([(None, history.clone())]);
    }
    parts
}

/// An order of a part's calls: for each the moment of its invocation, its operation and its reply.
type Order<O, R> = Vec<(u64, O, R)>;

// One order of the parts' calls, by moments: that of a call is the latest invocation among the calls
// up to it in its part's order. None of these was invoked after the call returned, which would
// precede it. So what was invoked after the return has a later moment, in whatever part.
fn merged<O, R>(history: &History<O, R>, orders: Vec<Order<O, R>>) -> Vec<Placed<O, R>> {
    let mut all = Vec::new();
    for order in orders {
        let mut moment = 0;
        for (invoked, op, reply) in order {
            moment = moment.max(invoked);
            let call = history.number_at(invoked);
            all.push((moment, Placed { call, op, reply }));
        }
    }
    // those of a part stay in their order
    all.sort_by_key(|(moment, _)| *moment);
    all.into_iter().map(|(_, placed)| placed).collect()
}
