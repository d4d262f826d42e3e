//! Calls that check themselves: an object with a table beside it, in which each call is announced and judged.

use crate::asked::Asked;
use crate::book::Book;
use crate::kind::{Kind, Operation};
use crate::library::{Announced, Answer, Idle, Lack, Table};
use crate::places::{CallerError, NotMade, Places, announce};
use crate::reply::Reply;
use std::convert::Infallible;
use std::error::Error;
use std::fmt;
use std::marker::PhantomData;
use std::mem::discriminant;

/// An object whose calls check themselves.
///
/// Each of its callers announces a call in a table beside the object, asks the object, hands in the reply, looks at
/// what the others have announced and published, and judges it. So an error comes at the very call that shows it, with
/// a [`Book`] that has no legal order.
///
/// ```
/// use selfcheck::{CallError, Enforced, Queue, QueueObject};
/// use std::sync::Mutex;
///
/// /// A queue that takes the wrong end.
/// struct Hasty(Mutex<Vec<u32>>);
///
/// impl QueueObject for Hasty {
///     fn enq(&self, value: u32) {
///         self.0.lock().unwrap().push(value);
///     }
///
///     fn deq(&self) -> Option<u32> {
///         self.0.lock().unwrap().pop()
///     }
/// }
///
/// let queue = Enforced::<Queue, _>::new(Hasty(Mutex::default()), 2, 8)?;
/// let (mut first, mut second) = (queue.caller()?, queue.caller()?);
/// first.enq(5)?;
/// first.enq(6)?;
/// let Err(CallError::Illegal(book)) = second.deq() else {
///     panic!("a queue gives 5 first");
/// };
/// assert!(book.to_string().ends_with("\n1 0 deq =6 view 0:2 1:1\nend\n"));
/// # Ok::<_, Box<dyn std::error::Error>>(())
/// ```
///
/// The object is to be as its kind is at first, and to be called through its callers alone. It may
/// use any memory order that is right for it: each of its calls stands between two fences. A call
/// of an unknown end isn't waited for: where the object panics, the call stays unanswered, and the
/// others go on.
///
/// **What it says.** That a reply is delivered only where the published calls that its caller has seen have a legal
/// order, and that an error's book has none, is proved, of the table and of the judgement. That the object was asked
/// between announcement and reply, and that the reply is the one that was handed in, is for this crate, which is
/// tested. Wrong replies whose calls overlap may be delivered, as [`Recorder`](crate::Recorder) may miss them, and here
/// the intervals are wider, since a call ends with its look at the table.
///
/// **What it costs.** A call looks at all callers of the table several times, and judges: some
/// microseconds, more the more callers and calls there are. A table is full after its calls, 16
/// callers by 256 at the most. A recorder costs less, and fewer wrong replies pass it; what is here
/// is an error at the call itself, and a reply that is held back. Each caller judges its own calls;
/// of a [`Monitored`](crate::Monitored) object the calls are only published, and monitors judge
/// them.
pub struct Enforced<K: Kind, O> {
    object: Asked<O>,
    places: Places,
    kind: PhantomData<K>,
}

/// One caller of an object, for one thread at a time. Its place in the table isn't given again where it is dropped.
///
/// A caller makes one call at a time, which its type rules:
///
/// ```compile_fail,E0499
/// # use selfcheck::{Counter, CounterObject, EnforcedCaller};
/// fn at_once<O: CounterObject + Send + Sync>(mut me: EnforcedCaller<Counter, O>) {
///     std::thread::scope(|scope| {
///         scope.spawn(|| me.inc());
///         scope.spawn(|| me.inc());
///     });
/// }
/// ```
pub struct EnforcedCaller<K: Kind, O> {
    object: Asked<O>,
    // None where it makes no further call
    idle: Option<Idle>,
    kind: PhantomData<fn() -> K>,
}

/// Why there is no table.
#[derive(Clone, Copy, Debug, PartialEq, Eq)]
#[non_exhaustive]
pub enum OpenError {
    /// There are 1 to [`MAX_CALLERS`](crate::MAX_CALLERS) callers, with 1 to [`MAX_CALLS`](crate::MAX_CALLS) calls each.
    NoSuchTable,
    /// Want of memory.
    NoMemory,
}

impl fmt::Display for OpenError {
    fn fmt(&self, f: &mut fmt::Formatter<'_>) -> fmt::Result {
        f.write_str(match self {
            OpenError::NoSuchTable => "a table has 1 to 16 callers, with 1 to 256 calls each",
            OpenError::NoMemory => "out of memory",
        })
    }
}

impl Error for OpenError {}

/// Why a call gave no reply.
#[derive(Clone, Debug)]
#[non_exhaustive]
pub enum CallError<K: Kind> {
    /// The object is wrong: the published calls that the caller has seen, its own among them, have no legal order. They
    /// are this book. The caller makes no further call.
    Illegal(Book<K>),
    /// The object is wrong, and memory was refused for the book. The caller makes no further call.
    IllegalUntold,
    /// Memory was refused for the judgement: this is the object's reply, which nobody has checked. The caller makes no
    /// further call; others go on, and judge this reply with theirs.
    Unjudged(Reply),
    /// See [`NotMade::NoCallLeft`].
    NoCallLeft,
    /// See [`NotMade::Halted`].
    Halted,
    /// See [`NotMade::NoMemory`].
    NoMemory,
}

impl<K: Kind> fmt::Display for CallError<K> {
    fn fmt(&self, f: &mut fmt::Formatter<'_>) -> fmt::Result {
        match self {
            CallError::Illegal(book) => write!(f, "these calls have no legal order:\n{book}"),
            CallError::IllegalUntold => f.write_str("the calls have no legal order"),
            CallError::Unjudged(reply) => write!(f, "out of memory: {reply} isn't checked"),
            CallError::NoCallLeft => NotMade::NoCallLeft.fmt(f),
            CallError::Halted => NotMade::Halted.fmt(f),
            CallError::NoMemory => NotMade::NoMemory.fmt(f),
        }
    }
}

impl<K: Kind> Error for CallError<K> {}

// Written out for the reason that it is for a book.
impl<K: Kind> PartialEq for CallError<K> {
    fn eq(&self, other: &CallError<K>) -> bool {
        match (self, other) {
            (CallError::Illegal(one), CallError::Illegal(other)) => one == other,
            (CallError::Unjudged(one), CallError::Unjudged(other)) => one == other,
            _ => discriminant(self) == discriminant(other),
        }
    }
}

impl<K: Kind> Eq for CallError<K> {}

impl<K: Kind> From<NotMade> for CallError<K> {
    fn from(not_made: NotMade) -> CallError<K> {
        match not_made {
            NotMade::NoCallLeft => CallError::NoCallLeft,
            NotMade::Halted => CallError::Halted,
            NotMade::NoMemory => CallError::NoMemory,
        }
    }
}

impl From<Lack> for OpenError {
    fn from(lack: Lack) -> OpenError {
        match lack {
            Lack::Unfit => OpenError::NoSuchTable,
            Lack::Memory => OpenError::NoMemory,
        }
    }
}

// A table for so many callers, with so many calls each.
pub(crate) fn open<K: Kind>(callers: usize, calls: usize) -> Result<Table, OpenError> {
    let (Ok(callers), Ok(calls)) = (u32::try_from(callers), u64::try_from(calls)) else {
        return Err(OpenError::NoSuchTable);
    };
    Ok(Table::open(K::NAME, callers, calls)?)
}

impl<K: Kind, O> Enforced<K, O> {
    /// The object with a table for so many callers, with so many calls each.
    ///
    /// # Errors
    ///
    /// Where there is no such table, and for want of memory.
    pub fn new(object: O, callers: usize, calls: usize) -> Result<Enforced<K, O>, OpenError> {
        let table = open::<K>(callers, calls)?;
        Ok(Enforced {
            object: Asked::new(object),
            places: Places::of(table, callers, 0),
            kind: PhantomData,
        })
    }

    /// The next caller, which stays with a thread. The calls of others don't take it.
    ///
    /// # Errors
    ///
    /// Where the table has given all its callers, and for want of memory.
    pub fn caller(&self) -> Result<EnforcedCaller<K, O>, CallerError> {
        Ok(EnforcedCaller {
            object: self.object.share(),
            idle: Some(self.places.caller()?),
            kind: PhantomData,
        })
    }

    /// Makes a call of any caller of the table that is in none: asks the object by this closure, and
    /// gives its reply where the call is delivered. The calls of each kind, below, are made of it.
    ///
    /// Waits while all callers are in calls. So a call that is made amid another of the same thread
    /// may wait for itself. Where a caller has made all its calls, another takes its place.
    /// Where the closure panics, the call stays unanswered, and its caller makes no further call.
    ///
    /// # Errors
    ///
    /// See [`CallError`].
    pub fn call<R: Copy + Into<Reply>>(
        &self,
        op: K::Op,
        ask: impl FnOnce(&O) -> R,
    ) -> Result<R, CallError<K>> {
        let Ok(reply) = self.try_call(op, |object| Ok::<_, Infallible>(ask(object)))?;
        Ok(reply)
    }

    /// Makes a call of which it may stay unknown whether it had its effect, as after a timeout: as
    /// [`call`](Enforced::call), but that with an error of the closure the call stays unanswered, and
    /// its caller makes no further call.
    ///
    /// # Errors
    ///
    /// See [`CallError`]; within, those of the closure.
    pub fn try_call<R: Copy + Into<Reply>, E>(
        &self,
        op: K::Op,
        ask: impl FnOnce(&O) -> Result<R, E>,
    ) -> Result<Result<R, E>, CallError<K>> {
        let (borrowed, announced) = self.places.announce(op.word())?;
        let reply = self.object.ask(ask);
        if let Ok(reply) = reply {
            borrowed.hand_back(answered(announced, reply.into())?);
        }
        Ok(reply)
    }
}

impl<K: Kind, O> EnforcedCaller<K, O> {
    /// Makes a call: asks the object by this closure, and gives its reply where the call is delivered. The calls of each
    /// kind, below, are made of it.
    ///
    /// Where the closure panics, the call stays unanswered, and the caller makes no further call.
    ///
    /// # Errors
    ///
    /// See [`CallError`].
    pub fn call<R: Copy + Into<Reply>>(
        &mut self,
        op: K::Op,
        ask: impl FnOnce(&O) -> R,
    ) -> Result<R, CallError<K>> {
        let announced = announce(&mut self.idle, op.word())?;
        let reply = self.object.ask(ask);
        self.idle = Some(answered(announced, reply.into())?);
        Ok(reply)
    }
}

// The caller whose call is delivered.
fn answered<K: Kind>(announced: Announced, reply: Reply) -> Result<Idle, CallError<K>> {
    match announced.answered(reply.word()) {
        Answer::Delivered(idle) => Ok(idle),
        Answer::Illegal(mut wrong) => Err(match wrong.witness() {
            Some(text) => CallError::Illegal(Book::of_text(text)),
            None => CallError::IllegalUntold,
        }),
        Answer::Unjudged => Err(CallError::Unjudged(reply)),
    }
}

impl<K: Kind, O> fmt::Debug for Enforced<K, O> {
    fn fmt(&self, f: &mut fmt::Formatter<'_>) -> fmt::Result {
        f.debug_struct("Enforced")
            .field("kind", &K::NAME)
            .finish_non_exhaustive()
    }
}

impl<K: Kind, O> fmt::Debug for EnforcedCaller<K, O> {
    fn fmt(&self, f: &mut fmt::Formatter<'_>) -> fmt::Result {
        f.debug_struct("EnforcedCaller")
            .field("kind", &K::NAME)
            .field("halted", &self.idle.is_none())
            .finish_non_exhaustive()
    }
}
