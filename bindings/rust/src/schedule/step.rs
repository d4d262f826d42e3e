//! What threads do in a run: the steps, who makes them, and where.

use std::fmt;
use std::panic::Location;

pub(crate) type At = &'static Location<'static>;

// How the name of a step of C code begins, which has its line too.
pub(crate) const POINT_OF_C: &str = "selfcheck_point of ";

/// Who a thread of a run is.
#[derive(Clone, Debug, PartialEq, Eq, Hash)]
#[non_exhaustive]
pub enum Who {
    /// The thread that runs the body, or makes the object of a hunt.
    Main,
    /// A caller of a hunt, counted from 0.
    Caller(usize),
    /// A thread that was spawned: how many threads the run had before, and its name.
    Thread(usize, Option<String>),
}

impl fmt::Display for Who {
    fn fmt(&self, f: &mut fmt::Formatter<'_>) -> fmt::Result {
        match self {
            Who::Main => f.write_str("main"),
            Who::Caller(number) => write!(f, "caller {number}"),
            Who::Thread(number, None) => write!(f, "thread {number}"),
            Who::Thread(number, Some(name)) => write!(f, "thread {number} '{name}'"),
        }
    }
}

/// An operation on one of the types of [`schedule`](crate::schedule): its name, and of locks and
/// channels the number of the object, in the order in which the run has used them first.
#[derive(Clone, Copy, Debug, PartialEq, Eq, Hash)]
pub struct Operated {
    pub(crate) name: &'static str,
    pub(crate) object: Option<u32>,
}

impl Operated {
    pub(crate) const fn on_none(name: &'static str) -> Operated {
        Operated { name, object: None }
    }

    pub(crate) const fn on(name: &'static str, object: u32) -> Operated {
        Operated {
            name,
            object: Some(object),
        }
    }
}

impl fmt::Display for Operated {
    fn fmt(&self, f: &mut fmt::Formatter<'_>) -> fmt::Result {
        f.write_str(self.name)?;
        match self.object {
            Some(number) => write!(f, " #{number}"),
            None => Ok(()),
        }
    }
}

/// A step of a run: what a thread did when the schedule let it go on.
#[derive(Clone, Debug, PartialEq, Eq, Hash)]
pub struct Step {
    pub(crate) who: Who,
    pub(crate) call: Option<usize>,
    pub(crate) operated: Operated,
    pub(crate) at: At,
}

impl Step {
    /// The thread.
    #[must_use]
    pub fn who(&self) -> &Who {
        &self.who
    }

    /// The call of this caller's script in which it is, counted from 0.
    #[must_use]
    pub fn call(&self) -> Option<usize> {
        self.call
    }

    /// What it does.
    #[must_use]
    pub fn operated(&self) -> Operated {
        self.operated
    }

    /// The line of code that does it. Of a `selfcheck_point()` in C code that is the line of the thread's
    /// last step in Rust, and [`operated`](Step::operated) has its own.
    #[must_use]
    pub fn at(&self) -> &'static Location<'static> {
        self.at
    }
}

impl fmt::Display for Step {
    fn fmt(&self, f: &mut fmt::Formatter<'_>) -> fmt::Result {
        write!(f, "{}: {}", self.who, self.operated)?;
        if self.operated.name.starts_with(POINT_OF_C) {
            return Ok(());
        }
        write!(f, " at {}", self.at)
    }
}
