use super::Model;
use crate::history::History;
use crate::recorder::Recorded;
use std::collections::BTreeSet;
use std::fmt::Debug;
use std::hash::Hash;

/// A sequential object that is given by what a call may do with the reply that it had, as a model of
/// Porcupine or of Knossos is. A state may have no next one, which refuses the reply; one; or
/// several, where the object isn't deterministic.
///
/// Its histories are recorded by a [`Recorder`](crate::Recorder) of the same name, and judged with
/// [`ByReply`]:
///
/// ```
/// use selfcheck::model::{ByReply, Relation, verify};
/// use selfcheck::{Recorded, Recorder};
/// use std::collections::BTreeSet;
///
/// /// Three connections, of which a call takes any that is free.
/// struct Pool;
///
/// impl Recorded for Pool {
///     type Op = ();
///     type Reply = Option<u32>;
/// }
///
/// impl Relation for Pool {
///     type State = BTreeSet<u32>;
///
///     fn initial(&self) -> BTreeSet<u32> {
///         BTreeSet::from([0, 1, 2])
///     }
///
///     fn step(
///         &self,
///         free: &BTreeSet<u32>,
///         _: &(),
///         reply: Option<&Option<u32>>,
///     ) -> impl IntoIterator<Item = BTreeSet<u32>> {
///         let takes = |taken: &Option<u32>| match taken {
///             None => free.is_empty().then(BTreeSet::new),
///             Some(taken) => free.contains(taken).then(|| &*free - &BTreeSet::from([*taken])),
///         };
///         match reply {
///             Some(taken) => takes(taken).into_iter().collect::<Vec<_>>(),
///             None => free.iter().filter_map(|it| takes(&Some(*it))).collect(),
///         }
///     }
/// }
///
/// let verdict_of = |replies: [Option<u32>; 3]| {
///     let recorder = Recorder::<Pool>::new();
///     for reply in replies {
///         recorder.call((), || reply);
///     }
///     verify(&ByReply(Pool), &recorder.history().expect("no caller is in use").with_replies())
/// };
/// assert!(verdict_of([Some(2), Some(0), Some(1)])?.is_legal());
/// assert!(verdict_of([Some(2), Some(0), Some(2)])?.is_illegal());
/// assert!(verdict_of([Some(2), Some(0), None])?.is_illegal());
/// # Ok::<_, Box<dyn std::error::Error>>(())
/// ```
pub trait Relation:
    Recorded<Op: Clone + Eq + Hash + Debug, Reply: Clone + Eq + Hash + Debug>
{
    /// What the object holds.
    type State: Clone + Ord + Hash + Debug;

    /// The state at first.
    fn initial(&self) -> Self::State;

    /// The states to which the operation may lead with this reply; where the call never returned,
    /// with any reply.
    fn step(
        &self,
        state: &Self::State,
        op: &Self::Op,
        reply: Option<&Self::Reply>,
    ) -> impl IntoIterator<Item = Self::State>;

    /// As [`Model::leaves`], for an object that has one next state at the most.
    fn leaves(&self, _op: &Self::Op, _reply: &Self::Reply) -> bool {
        false
    }

    /// As [`Model::key`].
    fn key(&self, _op: &Self::Op) -> Option<String> {
        None
    }
}

/// The model of a [`Relation`]. An operation is one with its reply, if it has one, and the model
/// replies whether that may be; a state is the set of those in which the object may be.
#[derive(Clone, Copy, Debug)]
pub struct ByReply<T>(pub T);

impl<T: Relation> Model for ByReply<T> {
    type State = BTreeSet<T::State>;
    type Op = (T::Op, Option<T::Reply>);
    type Reply = bool;

    fn initial(&self) -> Self::State {
        BTreeSet::from([self.0.initial()])
    }

    fn step(&self, states: &Self::State, (op, reply): &Self::Op) -> (Self::State, bool) {
        let next = states
            .iter()
            .flat_map(|it| self.0.step(it, op, reply.as_ref()));
        let next: BTreeSet<_> = next.collect();
        if next.is_empty() {
            return (states.clone(), false);
        }
        (next, true)
    }

    fn leaves(&self, (op, reply): &Self::Op, may_be: &bool) -> bool {
        !may_be || reply.as_ref().is_some_and(|reply| self.0.leaves(op, reply))
    }

    fn key(&self, (op, _): &Self::Op) -> Option<String> {
        self.0.key(op)
    }
}

impl<O: Clone, R: Clone> History<O, R> {
    /// The history as one that [`ByReply`] judges.
    #[must_use]
    pub fn with_replies(&self) -> History<(O, Option<R>), bool> {
        self.map(|op, reply| ((op.clone(), reply.cloned()), reply.map(|_| true)))
    }
}
