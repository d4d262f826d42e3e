//! The places of a table: who takes which, and the callers that are free for any thread's next
//! call.

use crate::library::{Announced, Idle, Lack, Table, Watching};
use std::error::Error;
use std::fmt;
use std::sync::{Condvar, Mutex, MutexGuard, PoisonError};

/// Why there is no further caller.
#[derive(Clone, Copy, Debug, PartialEq, Eq)]
#[non_exhaustive]
pub enum CallerError {
    /// The table has given all its callers.
    NoneLeft,
    /// Want of memory.
    NoMemory,
}

impl fmt::Display for CallerError {
    fn fmt(&self, f: &mut fmt::Formatter<'_>) -> fmt::Result {
        f.write_str(match self {
            CallerError::NoneLeft => {
                "the table has given all its callers: open it for more, up to 16"
            }
            CallerError::NoMemory => "out of memory",
        })
    }
}

impl Error for CallerError {}

impl From<Lack> for CallerError {
    fn from(lack: Lack) -> CallerError {
        match lack {
            Lack::Unfit => CallerError::NoneLeft,
            Lack::Memory => CallerError::NoMemory,
        }
    }
}

/// Why a call wasn't made. The object wasn't asked.
#[derive(Clone, Copy, Debug, PartialEq, Eq)]
#[non_exhaustive]
pub enum NotMade {
    /// The caller has made all the calls that its table has for it; of a call on the object itself,
    /// each caller of the table has made its calls, or is given away, or halted.
    NoCallLeft,
    /// An earlier call of the caller panicked or stayed without a reply, or was an error.
    Halted,
    /// Memory was refused for a caller.
    NoMemory,
}

impl fmt::Display for NotMade {
    fn fmt(&self, f: &mut fmt::Formatter<'_>) -> fmt::Result {
        f.write_str(match self {
            NotMade::NoCallLeft => {
                "the table has no further call: open it for more callers, up to 16, or for more \
                 calls, up to 256 each"
            }
            NotMade::Halted => "the caller is halted",
            NotMade::NoMemory => "out of memory: no call is made",
        })
    }
}

impl Error for NotMade {}

/// A caller of a table, between two calls.
pub(crate) trait Seat: Sized {
    /// An operation, as the table has it.
    type Op: Copy;

    /// The caller in a call that is announced.
    type Announced;

    /// The table's next caller.
    fn next(table: &mut Table) -> Result<Self, Lack>;

    /// The caller as it is where it has no call left.
    fn announce(self, op: Self::Op) -> Result<Self::Announced, Self>;
}

impl Seat for Idle {
    type Op = u128;
    type Announced = Announced;

    fn next(table: &mut Table) -> Result<Idle, Lack> {
        table.caller()
    }

    fn announce(self, op: u128) -> Result<Announced, Idle> {
        Idle::announce(self, op)
    }
}

/// A table, and its callers that are free.
#[derive(Debug)]
pub(crate) struct Places<C = Idle> {
    taken: Mutex<Taken<C>>,
    freed: Condvar,
}

#[derive(Debug)]
struct Taken<C> {
    table: Table,
    callers_left: usize,
    monitors_left: usize,
    // the last one that has ended a call is the next one that makes one: so there are as few as can
    // be
    free: Vec<C>,
    // how many make a call, and may be free again
    calling: usize,
}

/// A caller that makes a call for whoever has asked. It is free again where it is handed back.
pub(crate) struct Borrowed<'a, C: Seat> {
    places: &'a Places<C>,
    idle: Option<C>,
}

impl<C: Seat> Places<C> {
    pub(crate) fn of(table: Table, callers: usize, monitors: usize) -> Places<C> {
        Places {
            taken: Mutex::new(Taken {
                table,
                callers_left: callers,
                monitors_left: monitors,
                free: Vec::new(),
                calling: 0,
            }),
            freed: Condvar::new(),
        }
    }

    fn taken(&self) -> MutexGuard<'_, Taken<C>> {
        // a caller that panics leaves the table whole
        self.taken.lock().unwrap_or_else(PoisonError::into_inner)
    }

    pub(crate) fn caller(&self) -> Result<C, CallerError> {
        self.taken().caller()
    }

    pub(crate) fn monitor(&self) -> Result<Watching, CallerError> {
        let mut taken = self.taken();
        let left = (taken.monitors_left.checked_sub(1)).ok_or(CallerError::NoneLeft)?;
        let watching = taken.table.monitor()?;
        taken.monitors_left = left;
        Ok(watching)
    }

    // A free caller: waits while all that are left make calls. The lock orders a caller's calls.
    fn borrow(&self) -> Result<Borrowed<'_, C>, NotMade> {
        let mut taken = self.taken();
        loop {
            let idle = match taken.free.pop() {
                Some(idle) => Ok(idle),
                None => taken.caller(),
            };
            match idle {
                Ok(idle) => {
                    taken.calling += 1;
                    let (places, idle) = (self, Some(idle));
                    return Ok(Borrowed { places, idle });
                }
                Err(error) if taken.calling == 0 => return Err(error.into()),
                Err(_) => {
                    let waited = self.freed.wait(taken);
                    taken = waited.unwrap_or_else(PoisonError::into_inner);
                }
            }
        }
    }

    /// A call of a free caller, which is announced.
    pub(crate) fn announce(&self, op: C::Op) -> Result<(Borrowed<'_, C>, C::Announced), NotMade> {
        loop {
            let mut borrowed = self.borrow()?;
            // one that has no call left isn't handed back
            if let Ok(announced) = announce(&mut borrowed.idle, op) {
                return Ok((borrowed, announced));
            }
            borrowed.idle = None;
        }
    }
}

impl<C: Seat> Taken<C> {
    fn caller(&mut self) -> Result<C, CallerError> {
        let left = (self.callers_left.checked_sub(1)).ok_or(CallerError::NoneLeft)?;
        let idle = C::next(&mut self.table)?;
        self.callers_left = left;
        Ok(idle)
    }
}

impl From<CallerError> for NotMade {
    fn from(error: CallerError) -> NotMade {
        match error {
            CallerError::NoneLeft => NotMade::NoCallLeft,
            CallerError::NoMemory => NotMade::NoMemory,
        }
    }
}

/// The announced call of a caller. There is no caller where it makes no further call.
pub(crate) fn announce<C: Seat>(
    caller: &mut Option<C>,
    op: C::Op,
) -> Result<C::Announced, NotMade> {
    let idle = caller.take().ok_or(NotMade::Halted)?;
    idle.announce(op).map_err(|idle| {
        *caller = Some(idle);
        NotMade::NoCallLeft
    })
}

impl<C: Seat> Borrowed<'_, C> {
    pub(crate) fn hand_back(mut self, idle: C) {
        self.idle = Some(idle);
    }
}

impl<C: Seat> Drop for Borrowed<'_, C> {
    fn drop(&mut self) {
        let mut taken = self.places.taken();
        taken.calling -= 1;
        taken.free.extend(self.idle.take());
        // where none is left, each one that waits is to be told
        self.places.freed.notify_all();
    }
}
