use crate::recorder::{MAX_CALLERS, MAX_CALLS};
use std::error::Error;
use std::fmt;

/// What the check says of a history.
#[derive(Clone, Debug, PartialEq, Eq)]
#[must_use]
pub enum ModelVerdict<O, R> {
    /// The calls have this order that is legal for the model; where it has keys, the calls of each
    /// key are legal for a model of their own. All that returned are in it, and of the others some.
    Legal(Vec<Placed<O, R>>),
    /// The calls have none, and the object isn't linearizable.
    Illegal {
        /// The key whose calls have none, where the model has keys.
        key: Option<String>,
    },
    /// The steps were used up, and no key's calls are known to be illegal.
    Unknown {
        /// The first key for which they were, where the model has keys.
        key: Option<String>,
    },
}

/// The calls of one key, and what the model does at the steps that the verdict needs, as a text:
/// `selfcheck-judge-model` judges it without the model.
#[derive(Clone, Debug, PartialEq, Eq)]
pub struct Evidence {
    /// The key, where the model has keys.
    pub key: Option<String>,
    /// The verdict on these calls.
    pub is_legal: bool,
    /// The text of the calls and the steps. Operations, replies and states are numbers in it.
    pub text: String,
    /// What these numbers stand for: lines of `op`, `reply` or `state`, a number, and its value.
    pub names: String,
}

/// A call in a legal order.
#[derive(Clone, Debug, PartialEq, Eq)]
pub struct Placed<O, R> {
    /// Its number in the history, where calls are in the order of their invocations.
    pub call: usize,
    /// Its operation.
    pub op: O,
    /// What the model replies to it there.
    pub reply: R,
}

impl<O, R> ModelVerdict<O, R> {
    /// Whether the calls are known to have a legal order.
    #[must_use]
    pub fn is_legal(&self) -> bool {
        matches!(self, ModelVerdict::Legal(_))
    }

    /// Whether the calls are known to have no legal order.
    #[must_use]
    pub fn is_illegal(&self) -> bool {
        matches!(self, ModelVerdict::Illegal { .. })
    }
}

fn of_key(f: &mut fmt::Formatter<'_>, key: Option<&String>) -> fmt::Result {
    key.map_or(Ok(()), |key| write!(f, ", of the key {key}"))
}

impl<O, R> fmt::Display for ModelVerdict<O, R> {
    fn fmt(&self, f: &mut fmt::Formatter<'_>) -> fmt::Result {
        let (name, key) = match self {
            ModelVerdict::Legal(_) => ("legal", &None),
            ModelVerdict::Illegal { key } => ("illegal", key),
            ModelVerdict::Unknown { key } => ("unknown", key),
        };
        f.write_str(name)?;
        of_key(f, key.as_ref())
    }
}

/// Why the check says nothing of a history. States, operations and replies are as their `Debug` has
/// them.
#[derive(Clone, Debug, PartialEq, Eq)]
#[non_exhaustive]
pub enum ModelError {
    /// Want of memory.
    NoMemory,
    /// Too many callers are in calls at once, or they make too many calls. The first calls fit, and
    /// have a legal order; of the others nothing is known.
    TooLong {
        /// The key, where the model has keys.
        key: Option<String>,
        /// How many calls fit.
        kept: usize,
        /// How many don't.
        left_out: usize,
    },
    /// The model promises by [`leaves`](super::Model::leaves) that the operation changes no state at
    /// which it has this reply, and here it does.
    LeavesNot {
        /// The state.
        state: String,
        /// The operation.
        op: String,
        /// The reply.
        reply: String,
        /// The state after it.
        next: String,
    },
    /// The model is no function: it was called twice with this state and operation.
    Contradicts {
        /// The state.
        state: String,
        /// The operation.
        op: String,
        /// The state after it, and the reply.
        first: String,
        /// The same, the second time.
        second: String,
    },
}

impl fmt::Display for ModelError {
    fn fmt(&self, f: &mut fmt::Formatter<'_>) -> fmt::Result {
        match self {
            ModelError::NoMemory => f.write_str("out of memory"),
            ModelError::TooLong {
                key,
                kept,
                left_out,
            } => {
                write!(
                    f,
                    "a check has {MAX_CALLERS} callers with {MAX_CALLS} calls each: the first {kept} \
                     calls fit, and are legal, and {left_out} don't fit"
                )?;
                of_key(f, key.as_ref())
            }
            ModelError::LeavesNot {
                state,
                op,
                reply,
                next,
            } => write!(
                f,
                "the model promises that {op} with the reply {reply} changes no state, and {state} \
                 becomes {next}"
            ),
            ModelError::Contradicts {
                state,
                op,
                first,
                second,
            } => write!(
                f,
                "the model is no function: at {state}, {op} gives {first}, and then {second}"
            ),
        }
    }
}

impl Error for ModelError {}
