//! The calls of each kind of object: of a recorder and of its callers, which make the call that they are given, and of an
//! object that checks itself or that monitors judge, which ask the object by its method of the same name.

use crate::enforced::{CallError, Enforced, EnforcedCaller};
use crate::kind::{
    CasRegister, CasRegisterOp, Counter, CounterOp, Map, MapOp, PriorityQueue, PriorityQueueOp,
    Queue, QueueOp, Register, RegisterOp, Set, SetOp, Stack, StackOp,
};
use crate::monitored::{Monitored, MonitoredCaller};
use crate::objects::{
    CasRegisterObject, CounterObject, MapObject, PriorityQueueObject, QueueObject, RegisterObject,
    SetObject, StackObject,
};
use crate::places::NotMade;
use crate::recorder::{Caller, Recorder};

macro_rules! calls {
    ($($kind:ident $object:ident $operations:ident {
        $($(#[$does:meta])* $op:ident $call:ident($($argument:ident),*) $(-> $reply:ty)?;)+
    })+) => {$(
        impl Recorder<$kind> {$(
            $(#[$does])*
            pub fn $call(&self, $($argument: u32,)* call: impl FnOnce() $(-> $reply)?) $(-> $reply)? {
                self.call(calls!(@op $operations $op $($argument)*), call)
            }
        )+}

        impl Caller<$kind> {$(
            $(#[$does])*
            pub fn $call(&mut self, $($argument: u32,)* call: impl FnOnce() $(-> $reply)?) $(-> $reply)? {
                self.call(calls!(@op $operations $op $($argument)*), call)
            }
        )+}

        impl<O: $object> Enforced<$kind, O> {$(
            $(#[$does])*
            ///
            /// # Errors
            ///
            /// See [`CallError`].
            pub fn $call(&self, $($argument: u32),*) -> Result<calls!(@reply $($reply)?), CallError<$kind>> {
                self.call(calls!(@op $operations $op $($argument)*), |object| object.$call($($argument),*))
            }
        )+}

        impl<O: $object> EnforcedCaller<$kind, O> {$(
            $(#[$does])*
            ///
            /// # Errors
            ///
            /// See [`CallError`].
            pub fn $call(&mut self, $($argument: u32),*) -> Result<calls!(@reply $($reply)?), CallError<$kind>> {
                self.call(calls!(@op $operations $op $($argument)*), |object| object.$call($($argument),*))
            }
        )+}

        impl<O: $object> Monitored<$kind, O> {$(
            $(#[$does])*
            ///
            /// # Errors
            ///
            /// See [`NotMade`].
            pub fn $call(&self, $($argument: u32),*) -> Result<calls!(@reply $($reply)?), NotMade> {
                self.call(calls!(@op $operations $op $($argument)*), |object| object.$call($($argument),*))
            }
        )+}

        impl<O: $object> MonitoredCaller<$kind, O> {$(
            $(#[$does])*
            ///
            /// # Errors
            ///
            /// See [`NotMade`].
            pub fn $call(&mut self, $($argument: u32),*) -> Result<calls!(@reply $($reply)?), NotMade> {
                self.call(calls!(@op $operations $op $($argument)*), |object| object.$call($($argument),*))
            }
        )+}
    )+};
    (@reply) => { () };
    (@reply $reply:ty) => { $reply };
    (@op $operations:ident $op:ident) => { $operations::$op };
    (@op $operations:ident $op:ident $($argument:ident)+) => { $operations::$op($($argument),+) };
}

calls! {
    Queue QueueObject QueueOp {
        /// Puts a value at the end.
        Enq enq(value);
        /// Takes the first value.
        Deq deq() -> Option<u32>;
    }
    Stack StackObject StackOp {
        /// Puts a value on top.
        Push push(value);
        /// Takes the top value.
        Pop pop() -> Option<u32>;
    }
    Register RegisterObject RegisterOp {
        /// Sets the value.
        Write write(value);
        /// Reads the value.
        Read read() -> u32;
    }
    Counter CounterObject CounterOp {
        /// Adds 1, and gives the number before.
        Inc inc() -> u32;
    }
    Set SetObject SetOp {
        /// Puts a value in: whether it wasn't in the set.
        Add add(value) -> bool;
        /// Takes a value out: whether it was in the set.
        Remove remove(value) -> bool;
        /// Whether a value is in the set.
        Has has(value) -> bool;
    }
    PriorityQueue PriorityQueueObject PriorityQueueOp {
        /// Puts a value in.
        Insert insert(value);
        /// Takes the least value.
        Min min() -> Option<u32>;
    }
    CasRegister CasRegisterObject CasRegisterOp {
        /// Sets the value.
        Write write(value);
        /// Reads the value.
        Read read() -> u32;
        /// Sets the value to `to` where it is `from`: whether it was.
        Cas cas(from, to) -> bool;
    }
    Map MapObject MapOp {
        /// Sets a key's value, and gives the old one.
        Put put(key, value) -> Option<u32>;
        /// A key's value.
        Get get(key) -> Option<u32>;
        /// Takes a key out, and gives its value.
        Del del(key) -> Option<u32>;
    }
}
