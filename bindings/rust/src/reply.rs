//! Replies.

use std::fmt;

/// What an object replied to a call. A `()` is `Done`, a `u32` a value, an `Option<u32>` a value or `None`, and a
/// `bool` yes or no.
#[derive(Clone, Copy, Debug, PartialEq, Eq, Hash)]
pub enum Reply {
    /// The call is done, and has no value to tell.
    Done,
    /// There is no value.
    None,
    /// This value.
    Value(u32),
    /// Yes.
    Yes,
    /// No.
    No,
    /// The object doesn't know the operation.
    Bad,
}

impl From<()> for Reply {
    fn from((): ()) -> Reply {
        Reply::Done
    }
}

impl From<u32> for Reply {
    fn from(value: u32) -> Reply {
        Reply::Value(value)
    }
}

impl From<Option<u32>> for Reply {
    fn from(value: Option<u32>) -> Reply {
        value.map_or(Reply::None, Reply::Value)
    }
}

impl From<bool> for Reply {
    fn from(is_so: bool) -> Reply {
        if is_so { Reply::Yes } else { Reply::No }
    }
}

impl Reply {
    // The word that stands for it in a table of callers.
    pub(crate) fn word(self) -> u64 {
        let (tag, value) = match self {
            Reply::Done => (0, 0),
            Reply::None => (1, 0),
            Reply::Value(value) => (2, value),
            Reply::No => (3, 0),
            Reply::Yes => (3, 1),
            Reply::Bad => (4, 0),
        };
        (tag << 32) + u64::from(value)
    }
}

/// As a book has it.
impl fmt::Display for Reply {
    fn fmt(&self, f: &mut fmt::Formatter<'_>) -> fmt::Result {
        match self {
            Reply::Done => f.write_str("done"),
            Reply::None => f.write_str("none"),
            Reply::Value(value) => write!(f, "={value}"),
            Reply::Yes => f.write_str("yes"),
            Reply::No => f.write_str("no"),
            Reply::Bad => f.write_str("bad"),
        }
    }
}
