//! How a run ends.

use super::step::{At, Operated, Who};
use std::fmt;

/// How a run ended.
#[derive(Clone, Debug, PartialEq, Eq)]
#[non_exhaustive]
pub enum Ending {
    /// Its threads have ended, or those that are left were detached and wait.
    Finished,
    /// Each thread that hasn't ended waits, and none of them can go on.
    Deadlock(Vec<Waiter>),
    /// At the limit of steps: in the second half of them no step has changed anything, and each
    /// thread that doesn't wait has made some.
    Livelock(Vec<Waiter>),
    /// At the limit of steps otherwise.
    StepLimit(Vec<Waiter>),
    /// A thread didn't come to its next step in time: it waits for something that isn't of
    /// [`schedule`](crate::schedule), or computes for long.
    Stuck(Waiter),
    /// A thread panicked, and no join has taken that.
    Panicked(Panic),
}

impl Ending {
    /// The name of the ending, in one word.
    #[must_use]
    pub fn name(&self) -> &'static str {
        match self {
            Ending::Finished => "finished",
            Ending::Deadlock(_) => "deadlock",
            Ending::Livelock(_) => "livelock",
            Ending::StepLimit(_) => "step-limit",
            Ending::Stuck(_) => "stuck",
            Ending::Panicked(_) => "panic",
        }
    }
}

/// A thread that hadn't ended: where it is, and what it waits for.
#[derive(Clone, Debug, PartialEq, Eq)]
pub struct Waiter {
    pub(crate) who: Who,
    pub(crate) call: Option<usize>,
    pub(crate) operated: Operated,
    pub(crate) at: Option<At>,
    pub(crate) awaits: Option<Awaited>,
    pub(crate) held_by: Vec<(Who, At)>,
}

impl Waiter {
    /// The thread.
    #[must_use]
    pub fn who(&self) -> &Who {
        &self.who
    }

    /// The call of this caller's script in which it is, counted from 0.
    #[must_use]
    pub fn call(&self) -> Option<usize> {
        self.call
    }

    /// The line of its last step; none where it has made none.
    #[must_use]
    pub fn at(&self) -> Option<&'static std::panic::Location<'static>> {
        self.at
    }
}

/// What a thread waits for.
#[derive(Clone, Debug, PartialEq, Eq)]
pub(crate) enum Awaited {
    Mutex(u32),
    Read(u32),
    Write(u32),
    Notification(u32),
    Message(u32),
    Room(u32),
    Unpark,
    End(Who),
    Scope,
}

impl fmt::Display for Awaited {
    fn fmt(&self, f: &mut fmt::Formatter<'_>) -> fmt::Result {
        match self {
            Awaited::Mutex(number) => write!(f, "mutex #{number}"),
            Awaited::Read(number) => write!(f, "reading of the lock #{number}"),
            Awaited::Write(number) => write!(f, "writing of the lock #{number}"),
            Awaited::Notification(number) => write!(f, "a notification of condvar #{number}"),
            Awaited::Message(number) => write!(f, "a message of channel #{number}"),
            Awaited::Room(number) => write!(f, "room in channel #{number}"),
            Awaited::Unpark => f.write_str("an unpark"),
            Awaited::End(who) => write!(f, "the end of {who}"),
            Awaited::Scope => f.write_str("the threads of its scope"),
        }
    }
}

impl fmt::Display for Waiter {
    fn fmt(&self, f: &mut fmt::Formatter<'_>) -> fmt::Result {
        write!(f, "{}", self.who)?;
        if let Some(call) = self.call {
            write!(f, ", in its call {call},")?;
        }
        match &self.awaits {
            Some(awaits) => write!(f, " waits for {awaits}")?,
            None => write!(f, " is at {}", self.operated)?,
        }
        if let Some(at) = self.at {
            write!(f, " at {at}")?;
        }
        for (who, at) in &self.held_by {
            write!(f, ", held by {who} since {at}")?;
        }
        Ok(())
    }
}

/// A panic: by whom, where, and what it said.
#[derive(Clone, Debug, PartialEq, Eq)]
pub struct Panic {
    pub(crate) who: Who,
    pub(crate) call: Option<usize>,
    pub(crate) place: String,
    pub(crate) message: String,
}

impl Panic {
    /// The thread.
    #[must_use]
    pub fn who(&self) -> &Who {
        &self.who
    }

    /// The call of this caller's script in which it was, counted from 0.
    #[must_use]
    pub fn call(&self) -> Option<usize> {
        self.call
    }

    /// File, line and column.
    #[must_use]
    pub fn place(&self) -> &str {
        &self.place
    }

    /// What it said.
    #[must_use]
    pub fn message(&self) -> &str {
        &self.message
    }
}

impl fmt::Display for Panic {
    fn fmt(&self, f: &mut fmt::Formatter<'_>) -> fmt::Result {
        write!(f, "{}", self.who)?;
        if let Some(call) = self.call {
            write!(f, ", in its call {call},")?;
        }
        write!(f, " panicked at {}: {}", self.place, self.message)
    }
}

fn each(f: &mut fmt::Formatter<'_>, waiters: &[Waiter]) -> fmt::Result {
    waiters.iter().try_for_each(|it| write!(f, "\n{it}"))
}

/// A line for what it is, and one for each thread.
impl fmt::Display for Ending {
    fn fmt(&self, f: &mut fmt::Formatter<'_>) -> fmt::Result {
        match self {
            Ending::Finished => f.write_str("finished"),
            Ending::Deadlock(waiters) => {
                f.write_str("deadlock: each thread waits, and none can go on")?;
                each(f, waiters)
            }
            Ending::Livelock(waiters) => {
                f.write_str("livelock: the threads move, and change nothing")?;
                each(f, waiters)
            }
            Ending::StepLimit(waiters) => {
                f.write_str("step limit: the run has no end")?;
                each(f, waiters)
            }
            Ending::Stuck(waiter) => write!(
                f,
                "stuck: a thread hasn't come to its next step in time; \
                 it waits for something outside of the schedule, \
                 or computes for long\n{waiter}"
            ),
            Ending::Panicked(panic) => write!(f, "panic\n{panic}"),
        }
    }
}
