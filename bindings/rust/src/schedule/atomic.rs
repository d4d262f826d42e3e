//! [`std::sync::atomic`], whose operations are steps of a schedule.
//!
//! Under a schedule each operation is sequentially consistent, whatever its ordering, and
//! `compare_exchange_weak` fails only where the value isn't the wanted one.

use super::seat::Seat;
use super::step::{At, Operated};
use std::fmt;
use std::panic::Location;
use std::sync::atomic as plain;

pub use std::sync::atomic::{Ordering, compiler_fence};

// Makes an operation, in a step where there is a schedule; it says whether it has changed the
// value.
fn stepped<R>(name: &'static str, at: At, operation: impl FnOnce() -> (R, bool)) -> R {
    let Some(seat) = Seat::current() else {
        return operation().0;
    };
    seat.step(Operated::on_none(name), at);
    let (result, changed) = operation();
    if changed {
        seat.changes();
    }
    result
}

/// [`std::sync::atomic::fence`], a step of a schedule.
#[track_caller]
pub fn fence(order: Ordering) {
    stepped("fence", Location::caller(), || (plain::fence(order), false));
}

// An atomic type with what all of them have; `value` is what it holds.
macro_rules! atomic {
    ($(#[$about:meta])* $name:ident $(<$parameter:ident>)?, $value:ty) => {
        $(#[$about])*
        #[repr(transparent)]
        pub struct $name $(<$parameter>)? (plain::$name $(<$parameter>)?);

        impl $(<$parameter>)? $name $(<$parameter>)? {
            /// An atomic with this value.
            pub const fn new(value: $value) -> Self {
                $name(plain::$name::new(value))
            }

            /// The value.
            #[track_caller]
            pub fn load(&self, order: Ordering) -> $value {
                stepped(concat!(stringify!($name), "::load"), Location::caller(), || {
                    (self.0.load(order), false)
                })
            }

            /// Sets the value.
            #[track_caller]
            pub fn store(&self, value: $value, order: Ordering) {
                stepped(concat!(stringify!($name), "::store"), Location::caller(), || {
                    let old = self.0.load(Ordering::Relaxed);
                    (self.0.store(value, order), old != value)
                });
            }

            /// Sets the value, and gives the old one.
            #[track_caller]
            pub fn swap(&self, value: $value, order: Ordering) -> $value {
                stepped(concat!(stringify!($name), "::swap"), Location::caller(), || {
                    let old = self.0.swap(value, order);
                    (old, old != value)
                })
            }

            /// Sets the value to `new` where it is `current`, and gives the old one.
            ///
            /// # Errors
            ///
            /// The value, where it isn't `current`.
            #[track_caller]
            pub fn compare_exchange(
                &self,
                current: $value,
                new: $value,
                success: Ordering,
                failure: Ordering,
            ) -> Result<$value, $value> {
                stepped(concat!(stringify!($name), "::compare_exchange"), Location::caller(), || {
                    let result = self.0.compare_exchange(current, new, success, failure);
                    (result, result.is_ok() && current != new)
                })
            }

            /// As `compare_exchange`, and outside of a schedule it may fail all the same.
            ///
            /// # Errors
            ///
            /// The value, where it isn't `current`.
            #[track_caller]
            pub fn compare_exchange_weak(
                &self,
                current: $value,
                new: $value,
                success: Ordering,
                failure: Ordering,
            ) -> Result<$value, $value> {
                let name = concat!(stringify!($name), "::compare_exchange_weak");
                let Some(seat) = Seat::current() else {
                    return self.0.compare_exchange_weak(current, new, success, failure);
                };
                seat.step(Operated::on_none(name), Location::caller());
                let result = self.0.compare_exchange(current, new, success, failure);
                if result.is_ok() && current != new {
                    seat.changes();
                }
                result
            }

            /// Sets the value to what `update` makes of it, and gives the old one: a load, and then
            /// steps of `compare_exchange` until one succeeds.
            ///
            /// # Errors
            ///
            /// The value, where `update` gives `None` of it.
            #[track_caller]
            pub fn fetch_update(
                &self,
                set: Ordering,
                fetch: Ordering,
                mut update: impl FnMut($value) -> Option<$value>,
            ) -> Result<$value, $value> {
                let mut old = self.load(fetch);
                while let Some(new) = update(old) {
                    match self.compare_exchange_weak(old, new, set, fetch) {
                        Ok(old) => return Ok(old),
                        Err(other) => old = other,
                    }
                }
                Err(old)
            }

            /// The value, which nobody else has.
            pub fn get_mut(&mut self) -> &mut $value {
                self.0.get_mut()
            }

            /// The value.
            pub fn into_inner(self) -> $value {
                self.0.into_inner()
            }

            /// A pointer to the value. What is done by it is no step.
            pub const fn as_ptr(&self) -> *mut $value {
                self.0.as_ptr()
            }
        }

        impl $(<$parameter>)? fmt::Debug for $name $(<$parameter>)? {
            fn fmt(&self, f: &mut fmt::Formatter<'_>) -> fmt::Result {
                self.0.fmt(f)
            }
        }

        impl $(<$parameter>)? Default for $name $(<$parameter>)? {
            fn default() -> Self {
                $name(plain::$name::default())
            }
        }

        impl $(<$parameter>)? From<$value> for $name $(<$parameter>)? {
            fn from(value: $value) -> Self {
                $name::new(value)
            }
        }
    };
}

// Operations that give the old value, each a step.
macro_rules! fetches {
    ($name:ident, $value:ty: $($(#[$does:meta])* $fetch:ident;)+) => {
        impl $name {$(
            $(#[$does])*
            #[track_caller]
            pub fn $fetch(&self, value: $value, order: Ordering) -> $value {
                let name = concat!(stringify!($name), "::", stringify!($fetch));
                stepped(name, Location::caller(), || {
                    let old = self.0.$fetch(value, order);
                    (old, old != self.0.load(Ordering::Relaxed))
                })
            }
        )+}
    };
}

macro_rules! numbers {
    ($($name:ident $value:ty;)+) => {$(
        atomic! {
            #[doc = concat!("[`std::sync::atomic::", stringify!($name), "`],")]
            /// whose operations are steps of a schedule.
            $name, $value
        }

        fetches! { $name, $value:
            /// Adds, and gives the old value; it wraps.
            fetch_add;
            /// Subtracts, and gives the old value; it wraps.
            fetch_sub;
            /// Bitwise and, and gives the old value.
            fetch_and;
            /// Bitwise nand, and gives the old value.
            fetch_nand;
            /// Bitwise or, and gives the old value.
            fetch_or;
            /// Bitwise xor, and gives the old value.
            fetch_xor;
            /// The greater of both, and gives the old value.
            fetch_max;
            /// The lesser of both, and gives the old value.
            fetch_min;
        }
    )+};
}

numbers! {
    AtomicI8 i8;
    AtomicI16 i16;
    AtomicI32 i32;
    AtomicIsize isize;
    AtomicU8 u8;
    AtomicU16 u16;
    AtomicU32 u32;
    AtomicUsize usize;
}

#[cfg(target_has_atomic = "64")]
numbers! {
    AtomicI64 i64;
    AtomicU64 u64;
}

atomic! {
    /// [`std::sync::atomic::AtomicBool`], whose operations are steps of a schedule.
    AtomicBool, bool
}

fetches! { AtomicBool, bool:
    /// Logical and, and gives the old value.
    fetch_and;
    /// Logical nand, and gives the old value.
    fetch_nand;
    /// Logical or, and gives the old value.
    fetch_or;
    /// Logical xor, and gives the old value.
    fetch_xor;
}

impl AtomicBool {
    /// Turns the value, and gives the old one.
    #[track_caller]
    pub fn fetch_not(&self, order: Ordering) -> bool {
        stepped("AtomicBool::fetch_not", Location::caller(), || {
            (self.0.fetch_xor(true, order), true)
        })
    }
}

atomic! {
    /// [`std::sync::atomic::AtomicPtr`], whose operations are steps of a schedule.
    AtomicPtr<T>, *mut T
}
