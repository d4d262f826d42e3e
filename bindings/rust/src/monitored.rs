//! Objects whose calls are published in a table beside them, and monitors that judge what is published.

use crate::asked::Asked;
use crate::book::Book;
use crate::enforced::{OpenError, open};
use crate::kind::{Kind, Operation};
use crate::library::{Idle, Judged, Watching, Wrong};
use crate::places::{CallerError, NotMade, Places, announce};
use crate::reply::Reply;
use std::convert::Infallible;
use std::error::Error;
use std::fmt;
use std::marker::PhantomData;
use std::mem::discriminant;

/// An object whose calls are published, and that monitors judge.
///
/// Each of its callers announces a call in a table beside the object, asks the object, and publishes the reply with what
/// it has seen of the others, without judging it: so a reply is delivered at once, right or wrong. A [`Monitor`] is a
/// further caller of the table that makes no calls: each of its rounds judges all that is published by then. An error is
/// final: once a round has found one, the object is wrong, whatever comes later.
///
/// ```
/// use selfcheck::{JudgeError, Monitored, Queue, QueueObject};
/// use std::sync::Mutex;
///
/// /// A queue that takes the wrong end.
/// struct Hasty(Mutex<Vec<u32>>);
///
/// impl QueueObject for Hasty {
///     fn enq(&self, value: u32) {
///         self.0.lock().unwrap().push(value);
///     }
///
///     fn deq(&self) -> Option<u32> {
///         self.0.lock().unwrap().pop()
///     }
/// }
///
/// let queue = Monitored::<Queue, _>::new(Hasty(Mutex::default()), 2, 1, 8)?;
/// let (mut first, mut second, mut monitor) = (queue.caller()?, queue.caller()?, queue.monitor()?);
/// first.enq(5)?;
/// first.enq(6)?;
/// monitor.judge()?;
/// assert_eq!(second.deq()?, Some(6));
/// let Err(JudgeError::Illegal(book)) = monitor.judge() else {
///     panic!("a queue gives 5 first");
/// };
/// assert!(book.to_string().ends_with("\n1 0 deq =6 view 0:2 1:1\nend\n"));
/// # Ok::<_, Box<dyn std::error::Error>>(())
/// ```
///
/// The object is to be as its kind is at first, and to be called through its callers alone. Where it panics, the call
/// stays unanswered, and the others go on.
///
/// **What it says.** That a round finds an error exactly where the calls that are published at its cut have no legal
/// order, and that an error's book has none, is proved, of the table and of the judgement; so is that a published call
/// has the reply that was handed in. That the object was asked between announcement and reply is for this crate, which is
/// tested. Wrong replies whose calls overlap may be right in some order, as with [`Enforced`](crate::Enforced). Nothing
/// is promised of when a monitor makes its rounds: a last one after all callers have ended judges every call.
pub struct Monitored<K: Kind, O> {
    object: Asked<O>,
    places: Places,
    kind: PhantomData<K>,
}

/// One caller of an object that monitors judge, for one thread at a time. Its place in the table isn't given again where
/// it is dropped.
pub struct MonitoredCaller<K: Kind, O> {
    object: Asked<O>,
    // None where it makes no further call
    idle: Option<Idle>,
    kind: PhantomData<fn() -> K>,
}

/// A monitor of an object, for one thread at a time.
pub struct Monitor<K: Kind> {
    // None while a round is made
    stage: Option<Stage>,
    kind: PhantomData<fn() -> K>,
}

enum Stage {
    Watching(Watching),
    Found(Wrong),
}

/// Why a round of a monitor isn't legal.
#[derive(Clone, Debug)]
#[non_exhaustive]
pub enum JudgeError<K: Kind> {
    /// The object is wrong: the calls that were published at this round's cut, or at an earlier one's, have no legal
    /// order. They are this book. Each later round tells it again.
    Illegal(Book<K>),
    /// The object is wrong, and memory was refused for the book. A later round may tell it.
    IllegalUntold,
    /// Memory was refused for the judgement: nothing is said of what is published. A later round may say it.
    NoMemory,
}

impl<K: Kind> fmt::Display for JudgeError<K> {
    fn fmt(&self, f: &mut fmt::Formatter<'_>) -> fmt::Result {
        match self {
            JudgeError::Illegal(book) => write!(f, "these calls have no legal order:\n{book}"),
            JudgeError::IllegalUntold => f.write_str("the calls have no legal order"),
            JudgeError::NoMemory => f.write_str("out of memory: nothing is judged"),
        }
    }
}

impl<K: Kind> Error for JudgeError<K> {}

// Written out for the reason that it is for a book.
impl<K: Kind> PartialEq for JudgeError<K> {
    fn eq(&self, other: &JudgeError<K>) -> bool {
        match (self, other) {
            (JudgeError::Illegal(one), JudgeError::Illegal(other)) => one == other,
            _ => discriminant(self) == discriminant(other),
        }
    }
}

impl<K: Kind> Eq for JudgeError<K> {}

impl<K: Kind, O> Monitored<K, O> {
    /// The object with a table for so many callers, with so many calls each, and so many monitors.
    ///
    /// # Errors
    ///
    /// Where there is no such table, of which callers and monitors together have 1 to
    /// [`MAX_CALLERS`](crate::MAX_CALLERS) places, and for want of memory.
    pub fn new(
        object: O,
        callers: usize,
        monitors: usize,
        calls: usize,
    ) -> Result<Monitored<K, O>, OpenError> {
        let all = callers
            .checked_add(monitors)
            .ok_or(OpenError::NoSuchTable)?;
        let table = open::<K>(all, calls)?;
        Ok(Monitored {
            object: Asked::new(object),
            places: Places::of(table, callers, monitors),
            kind: PhantomData,
        })
    }

    /// The next caller, which stays with a thread. The calls of others don't take it.
    ///
    /// # Errors
    ///
    /// Where the table has given all its callers, and for want of memory.
    pub fn caller(&self) -> Result<MonitoredCaller<K, O>, CallerError> {
        Ok(MonitoredCaller {
            object: self.object.share(),
            idle: Some(self.places.caller()?),
            kind: PhantomData,
        })
    }

    /// The next monitor.
    ///
    /// # Errors
    ///
    /// Where the table has given all its monitors, and for want of memory.
    pub fn monitor(&self) -> Result<Monitor<K>, CallerError> {
        Ok(Monitor {
            stage: Some(Stage::Watching(self.places.monitor()?)),
            kind: PhantomData,
        })
    }

    /// Makes a call of any caller of the table that is in none: asks the object by this closure, publishes its reply and
    /// gives it. The calls of each kind, below, are made of it.
    ///
    /// Waits while all callers are in calls. So a call that is made amid another of the same thread may wait for itself.
    /// Where a caller has made all its calls, another takes its place. Where the closure panics, the call stays unanswered,
    /// and its caller makes no further call.
    ///
    /// # Errors
    ///
    /// See [`NotMade`].
    pub fn call<R: Copy + Into<Reply>>(
        &self,
        op: K::Op,
        ask: impl FnOnce(&O) -> R,
    ) -> Result<R, NotMade> {
        let Ok(reply) = self.try_call(op, |object| Ok::<_, Infallible>(ask(object)))?;
        Ok(reply)
    }

    /// Makes a call of which it may stay unknown whether it had its effect, as after a timeout: as
    /// [`call`](Monitored::call), but that with an error of the closure the call stays unanswered, and its caller makes no
    /// further call.
    ///
    /// # Errors
    ///
    /// See [`NotMade`]; within, those of the closure.
    pub fn try_call<R: Copy + Into<Reply>, E>(
        &self,
        op: K::Op,
        ask: impl FnOnce(&O) -> Result<R, E>,
    ) -> Result<Result<R, E>, NotMade> {
        let (borrowed, announced) = self.places.announce(op.word())?;
        let reply = self.object.ask(ask);
        if let Ok(reply) = reply {
            borrowed.hand_back(announced.publish(reply.into().word()));
        }
        Ok(reply)
    }
}

impl<K: Kind, O> MonitoredCaller<K, O> {
    /// Makes a call: asks the object by this closure, publishes its reply and gives it. The calls of each kind, below, are
    /// made of it.
    ///
    /// Where the closure panics, the call stays unanswered, and the caller makes no further call.
    ///
    /// # Errors
    ///
    /// See [`NotMade`].
    pub fn call<R: Copy + Into<Reply>>(
        &mut self,
        op: K::Op,
        ask: impl FnOnce(&O) -> R,
    ) -> Result<R, NotMade> {
        let announced = announce(&mut self.idle, op.word())?;
        let reply = self.object.ask(ask);
        self.idle = Some(announced.publish(reply.into().word()));
        Ok(reply)
    }

    /// A monitor in the place of this caller, whose calls stay published. So a table whose places are all those of callers
    /// has a monitor too, as soon as one of them has made its calls. `None` where a call of the caller stayed unanswered.
    #[must_use]
    pub fn into_monitor(self) -> Option<Monitor<K>> {
        let watching = self.idle?.watch();
        Some(Monitor {
            stage: Some(Stage::Watching(watching)),
            kind: PhantomData,
        })
    }
}

impl<K: Kind> Monitor<K> {
    /// Makes a round: looks at what is published, and judges it.
    ///
    /// # Errors
    ///
    /// See [`JudgeError`].
    pub fn judge(&mut self) -> Result<(), JudgeError<K>> {
        let stage = self
            .stage
            .take()
            .expect("a monitor stands between two rounds");
        let (stage, judged) = match stage {
            Stage::Found(found) => told(found),
            Stage::Watching(watching) => match watching.judge() {
                Judged::Legal(watching) => (Stage::Watching(watching), Ok(())),
                Judged::Illegal(found) => told(found),
                Judged::Unjudged(watching) => {
                    (Stage::Watching(watching), Err(JudgeError::NoMemory))
                }
            },
        };
        self.stage = Some(stage);
        judged
    }
}

// What a monitor tells of the error that it has found.
fn told<K: Kind>(mut found: Wrong) -> (Stage, Result<(), JudgeError<K>>) {
    let error = match found.witness() {
        Some(text) => JudgeError::Illegal(Book::of_text(text)),
        None => JudgeError::IllegalUntold,
    };
    (Stage::Found(found), Err(error))
}

impl<K: Kind, O> fmt::Debug for Monitored<K, O> {
    fn fmt(&self, f: &mut fmt::Formatter<'_>) -> fmt::Result {
        f.debug_struct("Monitored")
            .field("kind", &K::NAME)
            .finish_non_exhaustive()
    }
}

impl<K: Kind, O> fmt::Debug for MonitoredCaller<K, O> {
    fn fmt(&self, f: &mut fmt::Formatter<'_>) -> fmt::Result {
        f.debug_struct("MonitoredCaller")
            .field("kind", &K::NAME)
            .field("halted", &self.idle.is_none())
            .finish_non_exhaustive()
    }
}

impl<K: Kind> fmt::Debug for Monitor<K> {
    fn fmt(&self, f: &mut fmt::Formatter<'_>) -> fmt::Result {
        f.debug_struct("Monitor")
            .field("kind", &K::NAME)
            .field("found", &matches!(self.stage, Some(Stage::Found(_))))
            .finish()
    }
}
