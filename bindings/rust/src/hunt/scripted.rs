use super::values::Values;
use crate::kind::{
    CasRegister, CasRegisterOp, Counter, CounterOp, Kind, Map, MapOp, PriorityQueue,
    PriorityQueueOp, Queue, QueueOp, Register, RegisterOp, Set, SetOp, Stack, StackOp,
};
use crate::objects::{
    CasRegisterObject, CounterObject, MapObject, PriorityQueueObject, QueueObject, RegisterObject,
    SetObject, StackObject,
};
use crate::reply::Reply;

/// Whether an operation puts something in, or takes something out.
#[derive(Clone, Copy, Debug, PartialEq, Eq, Hash)]
pub enum Effect {
    /// It puts a value in.
    Puts,
    /// It takes a value out.
    Takes,
    /// It does neither, or one of both by its reply.
    Other,
}

/// A kind of which a hunt makes random scripts.
pub trait Scripted: Kind<Op: Send + Sync + 'static> {
    /// The effects of its operations, in the order in which weights are given.
    const EFFECTS: &'static [Effect];

    /// How many different values its scripts have, where nothing else is said; none where all are
    /// different.
    const VALUES: Option<u32>;

    /// The operation with this number, with arguments from these values.
    fn operation(number: usize, values: &mut Values) -> Self::Op;
}

// The arguments of an operation have the names of the methods of `Values` that draw them.
macro_rules! scripted {
    ($($kind:ident $object:ident $values:expr, $operations:ident {
        $($number:literal $effect:ident $op:ident $(($($argument:ident),+))? $call:ident;)+
    })+) => {$(
        impl Scripted for $kind {
            const EFFECTS: &'static [Effect] = &[$(Effect::$effect),+];
            const VALUES: Option<u32> = $values;

            fn operation(number: usize, _values: &mut Values) -> $operations {
                match number {
                    $($number => $operations::$op $(($(_values.$argument()),+))?,)+
                    number => unreachable!("there is no operation {number}"),
                }
            }
        }

        impl $operations {
            /// Makes this call, by the object's method of its name.
            pub fn call_on(self, object: &impl $object) -> Reply {
                match self {
                    $($operations::$op $(($($argument),+))? => {
                        object.$call($($($argument),+)?).into()
                    })+
                }
            }
        }
    )+};
}

scripted! {
    Queue QueueObject None, QueueOp {
        0 Puts Enq(value) enq;
        1 Takes Deq deq;
    }
    Stack StackObject None, StackOp {
        0 Puts Push(value) push;
        1 Takes Pop pop;
    }
    Register RegisterObject None, RegisterOp {
        0 Other Write(value) write;
        1 Other Read read;
    }
    Counter CounterObject None, CounterOp {
        0 Other Inc inc;
    }
    Set SetObject Some(3), SetOp {
        0 Other Add(value) add;
        1 Other Remove(value) remove;
        2 Other Has(value) has;
    }
    PriorityQueue PriorityQueueObject None, PriorityQueueOp {
        0 Puts Insert(value) insert;
        1 Takes Min min;
    }
    CasRegister CasRegisterObject Some(3), CasRegisterOp {
        0 Other Write(value) write;
        1 Other Read read;
        2 Other Cas(from, to) cas;
    }
    Map MapObject None, MapOp {
        0 Other Put(key, value) put;
        1 Other Get(key) get;
        2 Other Del(key) del;
    }
}
