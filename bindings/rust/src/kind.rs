//! The kinds of object, and the operations of each.

use crate::recorder::Recorded;
use crate::reply::Reply;
use std::fmt;

mod sealed {
    /// What the kinds of this crate and their operations have, and no other type can.
    pub trait Sealed {}
}

/// A kind of object, by whose sequential rules the calls are judged.
///
/// The kinds are those of this crate, since the library refuses a book of any other:
///
/// ```compile_fail,E0277
/// #[derive(Clone, Copy, Debug)]
/// struct Mine;
///
/// impl selfcheck::Recorded for Mine {
///     type Op = selfcheck::CounterOp;
///     type Reply = selfcheck::Reply;
/// }
///
/// impl selfcheck::Kind for Mine {
///     const NAME: &'static str = "mine";
/// }
/// ```
///
/// An object of any other kind is judged by a [`Model`](crate::Model).
pub trait Kind:
    Recorded<Op: Operation, Reply = Reply> + sealed::Sealed + Copy + fmt::Debug + 'static
{
    /// Its name in a book.
    const NAME: &'static str;
}

/// A kind that is made of one object for each key: a call sees and changes that of its key alone.
pub trait Keyed: Kind {
    /// The key of a call with this operation.
    fn key(op: Self::Op) -> u32;
}

impl Keyed for Set {
    fn key(op: SetOp) -> u32 {
        match op {
            SetOp::Add(value) | SetOp::Remove(value) | SetOp::Has(value) => value,
        }
    }
}

impl Keyed for Map {
    fn key(op: MapOp) -> u32 {
        match op {
            MapOp::Put(key, _) | MapOp::Get(key) | MapOp::Del(key) => key,
        }
    }
}

/// An operation of a kind. It is displayed as a book has it.
///
/// ```compile_fail,E0277
/// #[derive(Clone, Copy, Debug)]
/// struct Mine;
///
/// impl std::fmt::Display for Mine {
///     fn fmt(&self, f: &mut std::fmt::Formatter<'_>) -> std::fmt::Result {
///         f.write_str("mine")
///     }
/// }
///
/// impl selfcheck::Operation for Mine {
///     fn word(self) -> u128 {
///         1 << 32
///     }
///
///     fn is_read_only(self) -> bool {
///         true
///     }
/// }
/// ```
pub trait Operation: sealed::Sealed + Copy + fmt::Debug + fmt::Display + Send {
    /// The word that stands for it in a table of callers: its code, the first argument and the second, 32 bits each
    /// from bit 32, 0 and 64 on.
    fn word(self) -> u128;

    /// Whether it changes no object of its kind, whatever its reply is.
    fn is_read_only(self) -> bool;
}

// The word of a code and of an operation's arguments.
fn word<const N: usize>(code: u128, arguments: [u32; N]) -> u128 {
    let argument = |place| arguments.get(place).map_or(0, |it| u128::from(*it));
    (code << 32) + argument(0) + (argument(1) << 64)
}

// A kind with its operations: for each its code, its text, its arguments, and whether it only reads.
macro_rules! kinds {
    ($(
        $(#[$about:meta])*
        $kind:ident $name:literal $operations:ident {
            $($(#[$does:meta])*
            $op:ident $code:literal $text:literal $(($($argument:ident),+))? $(: $reads:ident)?;)+
        }
    )+) => {$(
        $(#[$about])*
        #[derive(Clone, Copy, Debug, PartialEq, Eq, Hash)]
        pub enum $kind {}

        impl sealed::Sealed for $kind {}

        impl Kind for $kind {
            const NAME: &'static str = $name;
        }

        impl Recorded for $kind {
            type Op = $operations;
            type Reply = Reply;

            fn is_read_only(op: &$operations) -> bool {
                Operation::is_read_only(*op)
            }
        }

        #[doc = concat!("An operation of a `", $name, "`.")]
        #[derive(Clone, Copy, Debug, PartialEq, Eq, Hash)]
        pub enum $operations {
            $($(#[$does])* $op $(($(kinds!(@value $argument)),+))?,)+
        }

        impl sealed::Sealed for $operations {}

        impl Operation for $operations {
            fn word(self) -> u128 {
                match self {
                    $($operations::$op $(($($argument),+))? => word($code, [$($($argument),+)?]),)+
                }
            }

            fn is_read_only(self) -> bool {
                match self {
                    $($operations::$op { .. } => kinds!(@is_read_only $($reads)?),)+
                }
            }
        }

        impl fmt::Display for $operations {
            fn fmt(&self, f: &mut fmt::Formatter<'_>) -> fmt::Result {
                match self {
                    $($operations::$op $(($($argument),+))? => {
                        f.write_str($text)?;
                        $($(write!(f, " {}", $argument)?;)+)?
                        Ok(())
                    })+
                }
            }
        }
    )+};
    (@value $argument:ident) => { u32 };
    (@is_read_only) => { false };
    (@is_read_only reads) => { true };
}

kinds! {
    /// First in, first out; empty at first.
    Queue "queue" QueueOp {
        /// Puts a value at the end; replies `Done`.
        Enq 1 "enq" (value);
        /// Takes the first value; replies it, or `None` where there is none.
        Deq 2 "deq";
    }
    /// Last in, first out; empty at first.
    Stack "stack" StackOp {
        /// Puts a value on top; replies `Done`.
        Push 1 "push" (value);
        /// Takes the top value; replies it, or `None` where there is none.
        Pop 2 "pop";
    }
    /// One value, 0 at first.
    Register "register" RegisterOp {
        /// Sets the value; replies `Done`.
        Write 1 "write" (value);
        /// Replies the value.
        Read 2 "read": reads;
    }
    /// A number modulo 2^32, 0 at first.
    Counter "counter" CounterOp {
        /// Adds 1; replies the number before.
        Inc 1 "inc";
    }
    /// A set of values, empty at first.
    Set "set" SetOp {
        /// Puts a value in; replies `Yes` where it wasn't in the set.
        Add 1 "add" (value);
        /// Takes a value out; replies `Yes` where it was in the set.
        Remove 2 "remove" (value);
        /// Replies `Yes` where the value is in the set.
        Has 3 "has" (value): reads;
    }
    /// The least value first; empty at first.
    PriorityQueue "pqueue" PriorityQueueOp {
        /// Puts a value in; replies `Done`.
        Insert 1 "insert" (value);
        /// Takes the least value; replies it, or `None` where there is none.
        Min 2 "min";
    }
    /// One value with compare-and-swap, 0 at first.
    CasRegister "casreg" CasRegisterOp {
        /// Sets the value; replies `Done`.
        Write 1 "write" (value);
        /// Replies the value.
        Read 2 "read": reads;
        /// Sets the value to the second where it is the first; replies `Yes` where it was.
        Cas 3 "cas" (from, to);
    }
    /// Values by keys, empty at first.
    Map "map" MapOp {
        /// Sets a key's value; replies the old one, or `None`.
        Put 1 "put" (key, value);
        /// Replies a key's value, or `None`.
        Get 2 "get" (key): reads;
        /// Takes a key out; replies its value, or `None`.
        Del 3 "del" (key);
    }
}
