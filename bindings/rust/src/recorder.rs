//! Recorders of objects.

use crate::book::Book;
use crate::history::History;
use crate::kind::{Keyed, Kind};
use crate::record::{Begun, Line, Own, Record};
use crate::reply::Reply;
use std::collections::BTreeMap;
use std::convert::Infallible;
use std::error::Error;
use std::fmt;
use std::num::NonZero;
use std::sync::Arc;

/// How many callers a book, or a table, may have.
pub const MAX_CALLERS: usize = 16;
/// How many calls each of them may have.
pub const MAX_CALLS: usize = 256;

/// What a recorder records calls of: a [`Kind`], or a [`Model`](crate::Model).
pub trait Recorded {
    /// Its operations.
    type Op;

    /// What it replies to them.
    type Reply;

    /// Whether the operation changes no object, whatever its reply is.
    fn is_read_only(_op: &Self::Op) -> bool {
        false
    }
}

/// Records the calls that threads make to one object.
///
/// A call is made on the recorder itself, by any thread or task, or by a [`Caller`] that stays with
/// a thread. A call that is made on the recorder locks a log that few other threads use, and one
/// that is made by a caller locks none. A clone of a recorder records into the same.
///
/// The object is to be as its kind is at first. One that isn't is filled before: by calls that are
/// made before the threads start, with closures that do nothing.
///
/// **Callers of a book.** A book has [`MAX_CALLERS`] callers, with [`MAX_CALLS`] calls each. Which
/// caller has which call is settled when the book is made, and changes no verdict: what counts is
/// which calls ended before which others began. A [`Caller`] is a caller of the book, in the order
/// in which they were made, where there are no more than a book has and as long as it is free. Any
/// other call has a caller that is free then: one that is in no call, and has had fewer calls than
/// [`MAX_CALLS`]; of these the one with the fewest calls. A call that never returns keeps its
/// caller, the one with the most. Where a call finds no free caller, the calls up to this one are
/// what fits a book: see [`Recorder::prefix`]. A recorder keeps the calls of its first two million
/// moments, of which a call has two.
///
/// **Calls that never return**, as after a panic or an error of a [`try_call`](Recorder::try_call),
/// may have had their effect or not, at any time since. The thread goes on with further calls. Such
/// a call that only reads is in no book.
///
/// A reply of a form that the kind never gives to the operation, such as `None` to a read of a
/// register, is found before an order is looked for, and makes the book illegal, whatever the other
/// calls are.
///
/// Calls that are to be judged by a [`Model`](crate::Model) have its operations and replies, and
/// their [`history`](Recorder::history) takes the place of the book.
#[derive(Debug)]
pub struct Recorder<T: Recorded> {
    record: Arc<Record<T::Op, T::Reply>>,
}

/// A caller that stays with one thread. Its calls are handed in where it is dropped.
#[derive(Debug)]
pub struct Caller<T: Recorded>(Own<T::Op, T::Reply>);

/// A call that was invoked by a [`Caller`] and hasn't returned. Where it is dropped, it never does.
#[derive(Debug)]
#[must_use = "a call that isn't told to return never does"]
pub struct Pending<'a, T: Recorded>(Begun<'a, T::Op, T::Reply>);

/// A call that was invoked on a [`Recorder`] and hasn't returned. Where it is dropped, it never
/// does. Any thread may have it.
#[derive(Debug)]
#[must_use = "a call that isn't told to return never does"]
pub struct PendingCall<T: Recorded> {
    record: Arc<Record<T::Op, T::Reply>>,
    line: Line,
}

/// The first calls of a history, as many as fit a book.
///
/// Where their book has no legal order, the whole history has none, since what was done before a
/// moment is linearizable wherever the whole is (Herlihy and Wing 1990). Where it has one, nothing
/// is said of the calls that were left out.
#[derive(Clone, Debug)]
#[non_exhaustive]
pub struct Prefix<K: Kind> {
    /// Their book.
    pub book: Book<K>,
    /// How many calls aren't in it: those that were invoked later, and reads that had no reply
    /// then.
    pub left_out: usize,
}

impl<K: Kind> Prefix<K> {
    fn of(history: &History<K::Op, Reply>) -> Prefix<K> {
        let (pages, left_out) = history.prefix();
        let book = Book::of_calls(&pages);
        Prefix { book, left_out }
    }
}

/// Why there is no book of all calls.
#[derive(Clone, Copy, Debug, PartialEq, Eq)]
#[non_exhaustive]
pub enum Incomplete {
    /// The [`Caller`] hasn't been dropped.
    InUse {
        /// The caller, counted from 0.
        caller: usize,
    },
    /// The calls don't fit a book: see [`Recorder::prefix`], which gives the first of them, and
    /// [`Recorder::by_key`].
    TooLong {
        /// How many it gives.
        kept: usize,
        /// How many it leaves out.
        left_out: usize,
    },
}

impl fmt::Display for Incomplete {
    fn fmt(&self, f: &mut fmt::Formatter<'_>) -> fmt::Result {
        match self {
            Incomplete::InUse { caller } => write!(f, "caller {caller} is still in use"),
            Incomplete::TooLong { kept, left_out } => write!(
                f,
                "a book has {MAX_CALLERS} callers with {MAX_CALLS} calls each: the first {kept} calls fit, whose \
                 book `prefix` gives, and {left_out} don't; of a set or a map `by_key` gives a book for each key"
            ),
        }
    }
}

impl Error for Incomplete {}

impl<T: Recorded> Default for Recorder<T> {
    fn default() -> Self {
        Recorder::new()
    }
}

// Written out, since what is derived would clone only where the kind or the model does.
impl<T: Recorded> Clone for Recorder<T> {
    fn clone(&self) -> Self {
        let record = Arc::clone(&self.record);
        Recorder { record }
    }
}

impl<T: Recorded> Recorder<T> {
    /// A recorder of no calls.
    #[must_use]
    pub fn new() -> Recorder<T> {
        let record = Record::new(None);
        Recorder { record }
    }

    /// A recorder of no calls whose [`call`](Recorder::call) and [`try_call`](Recorder::try_call)
    /// wait, so that so many are open at once at the most. Where more threads call than a book has
    /// callers, their calls fit it only so. A call that never returns lets the next one in.
    #[must_use]
    pub fn with_open_calls(most: NonZero<usize>) -> Recorder<T> {
        let record = Record::new(Some(most));
        Recorder { record }
    }

    /// A further caller that stays with a thread.
    #[must_use]
    pub fn caller(&self) -> Caller<T> {
        Caller(self.record.caller())
    }

    /// Makes a call and records it, with what it gives as the reply.
    ///
    /// Where the closure panics, the call never returns, which is what happened.
    pub fn call<R: Clone + Into<T::Reply>>(&self, op: T::Op, call: impl FnOnce() -> R) -> R {
        let Ok(value) = self.try_call(op, || Ok::<_, Infallible>(call()));
        value
    }

    /// Makes a call of which it may stay unknown whether it had its effect, as after a timeout, and
    /// records it: with an error it never returns.
    ///
    /// # Errors
    ///
    /// Those of the closure.
    pub fn try_call<R: Clone + Into<T::Reply>, E>(
        &self,
        op: T::Op,
        call: impl FnOnce() -> Result<R, E>,
    ) -> Result<R, E> {
        let _permit = self.record.permit();
        let line = self.record.begin(op);
        let value = call()?;
        self.record.end(line, |_| value.clone().into());
        Ok(value)
    }

    /// Invokes a call: to be written right before the object's own, for what doesn't fit a closure.
    pub fn invoke(&self, op: T::Op) -> PendingCall<T> {
        PendingCall {
            record: Arc::clone(&self.record),
            line: self.record.begin(op),
        }
    }

    /// Makes a call and records it, with what the future gives as the reply. The call begins where
    /// this is first polled, and so the future is to do nothing before. Where this is dropped amid
    /// it, the call never returns.
    pub async fn call_async<R: Clone + Into<T::Reply>>(
        &self,
        op: T::Op,
        call: impl Future<Output = R>,
    ) -> R {
        let line = self.record.begin(op);
        let value = call.await;
        self.record.end(line, |_| value.clone().into());
        value
    }

    /// All calls, to be judged by a model. What is called meanwhile is in it as far as it has come.
    ///
    /// # Errors
    ///
    /// Where a [`Caller`] is in use.
    pub fn history(&self) -> Result<History<T::Op, T::Reply>, Incomplete>
    where
        T::Op: Clone,
        T::Reply: Clone,
    {
        self.record.history(T::is_read_only)
    }
}

impl<K: Kind> Recorder<K> {
    /// The book of all calls. What is called meanwhile is in it as far as it has come.
    ///
    /// # Errors
    ///
    /// Where a [`Caller`] is in use, and where the calls don't fit a book.
    pub fn book(&self) -> Result<Book<K>, Incomplete> {
        let Prefix { book, left_out } = self.prefix()?;
        if left_out > 0 {
            let kept = book.calls();
            return Err(Incomplete::TooLong { kept, left_out });
        }
        Ok(book)
    }

    /// The book of all calls where they fit one, and else that of the first of them: those before
    /// the first that finds no caller. Of these it leaves out the last ones again where half of
    /// them at least come before a moment at which no call was open, but such as never return: so
    /// no call of the book lacks a reply for the cut alone.
    ///
    /// # Errors
    ///
    /// Where a [`Caller`] is in use.
    pub fn prefix(&self) -> Result<Prefix<K>, Incomplete> {
        Ok(Prefix::of(&self.history()?))
    }

    /// The [`prefix`](Recorder::prefix) of the calls with each key: so the limits of a book hold
    /// for each key.
    ///
    /// All calls together have a legal order exactly where those of each key have one (Herlihy and
    /// Wing 1990, theorem 1). It is so of any book each of whose views holds at most one unanswered
    /// call of each caller, and in a recorder's book a caller has at most one, its last. Calls that
    /// the recorder no longer keeps are left out of each key.
    ///
    /// # Errors
    ///
    /// Where a [`Caller`] is in use.
    pub fn by_key(&self) -> Result<BTreeMap<u32, Prefix<K>>, Incomplete>
    where
        K: Keyed,
    {
        let parts = self.history()?.by_key(|op| K::key(*op)).into_iter();
        Ok(parts.map(|(key, part)| (key, Prefix::of(&part))).collect())
    }
}

impl<T: Recorded> Caller<T> {
    /// Makes a call and records it, with what it gives as the reply.
    ///
    /// Where the closure panics, the call never returns, which is what happened.
    pub fn call<R: Clone + Into<T::Reply>>(&mut self, op: T::Op, call: impl FnOnce() -> R) -> R {
        let Ok(value) = self.try_call(op, || Ok::<_, Infallible>(call()));
        value
    }

    /// As [`Recorder::try_call`].
    ///
    /// # Errors
    ///
    /// Those of the closure.
    pub fn try_call<R: Clone + Into<T::Reply>, E>(
        &mut self,
        op: T::Op,
        call: impl FnOnce() -> Result<R, E>,
    ) -> Result<R, E> {
        let pending = self.invoke(op);
        let value = call()?;
        pending.0.ret(|_| value.clone().into());
        Ok(value)
    }

    /// Invokes a call: to be written right before the object's own, for what doesn't fit a closure.
    pub fn invoke(&mut self, op: T::Op) -> Pending<'_, T> {
        Pending(self.0.invoke(op))
    }
}

impl<T: Recorded> Pending<'_, T> {
    /// Returns with this reply: to be written right after the object's own call.
    pub fn ret(self, reply: impl Into<T::Reply>) {
        self.0.ret(|_| reply.into());
    }
}

impl<T: Recorded> PendingCall<T> {
    /// Returns with this reply: to be written right after the object's own call.
    pub fn ret(self, reply: impl Into<T::Reply>) {
        self.record.end(self.line, |_| reply.into());
    }
}
