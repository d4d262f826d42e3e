//! What the check says of a text, and why it may say nothing.

use std::error::Error;
use std::fmt;

/// What the check says.
#[derive(Clone, Copy, Debug, PartialEq, Eq, Hash)]
#[must_use]
pub enum Verdict {
    /// The calls have a legal order; the list of a certificate is one.
    Legal,
    /// The calls have none, and the object isn't linearizable; the list of a certificate isn't one.
    Illegal,
    /// The steps were used up, and nothing is known of the calls. Only what takes a number of steps says this.
    Unknown,
}

impl fmt::Display for Verdict {
    fn fmt(&self, f: &mut fmt::Formatter<'_>) -> fmt::Result {
        f.write_str(match self {
            Verdict::Legal => "legal",
            Verdict::Illegal => "illegal",
            Verdict::Unknown => "unknown",
        })
    }
}

/// Why the check says nothing.
#[derive(Clone, Copy, Debug, PartialEq, Eq, Hash)]
#[non_exhaustive]
pub enum Fault {
    /// The bytes are no text of the wanted form: the first line that is wrong, counted from 1, and the first of its
    /// tests that it fails. Displayed as the program `selfcheck` writes it.
    Refused {
        /// The line.
        line: u64,
        /// What is wrong there.
        what: What,
    },
    /// Want of memory.
    NoMemory,
}

impl fmt::Display for Fault {
    fn fmt(&self, f: &mut fmt::Formatter<'_>) -> fmt::Result {
        match self {
            Fault::Refused { line, what } => write!(f, "refused {line} {what}"),
            Fault::NoMemory => f.write_str("out of memory"),
        }
    }
}

impl Error for Fault {}

// What may be wrong with a text, in the order of the library's numbers, from 0.
macro_rules! whats {
    ($($(#[$doc:meta])* $what:ident,)+) => {
        /// What is wrong with a text, by the name that the program `selfcheck` writes.
        #[derive(Clone, Copy, Debug, PartialEq, Eq, Hash)]
        #[non_exhaustive]
        pub enum What {
            $($(#[$doc])* $what,)+
        }

        impl What {
            const ALL: &[What] = &[$(What::$what),+];
        }

        impl fmt::Display for What {
            fn fmt(&self, f: &mut fmt::Formatter<'_>) -> fmt::Result {
                f.write_str(match self {
                    $(What::$what => stringify!($what),)+
                })
            }
        }
    };
}

whats! {
    /// The text is too long.
    Long,
    /// The line has no end.
    Cut,
    /// The title is wrong.
    Head,
    /// No object is named.
    Object,
    /// The number of callers is wrong.
    Callers,
    /// The numbers of calls are wrong.
    Calls,
    /// The line isn't that of the call that is due.
    Place,
    /// There is no such operation.
    Op,
    /// An earlier call of the caller is unanswered.
    Gap,
    /// There is no such reply.
    Reply,
    /// The view isn't written right.
    View,
    /// The view counts more calls of a caller than it made.
    ViewOutside,
    /// The view lacks its own call.
    ViewLacksOwn,
    /// The view has later calls of its caller.
    ViewHasLater,
    /// The view and an earlier one cross.
    ViewsCross,
    /// What follows the view isn't written right.
    Mark,
    /// The seen cut is wrong.
    Seen,
    /// The caller has a further line after one that is not ok.
    Last,
    /// The stop is wrong.
    Stop,
    /// The turns are wrong.
    Turns,
    /// The line isn't the end that is due.
    End,
    /// The text goes on after its end.
    Rest,
}

impl What {
    // What has this number in the library.
    pub(crate) fn from_number(number: u32) -> What {
        What::ALL[number as usize]
    }
}
