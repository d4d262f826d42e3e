//! A schedule as it is written: who runs for how many turns.

/// A thread of the run, and how many turns it has in a row.
#[derive(Clone, Copy, Debug, PartialEq, Eq)]
pub(crate) struct Leg {
    pub(crate) thread: usize,
    pub(crate) turns: u32,
}

/// A turn of a run: the thread that had it, and the call in which this thread was.
#[derive(Clone, Copy, Debug, PartialEq, Eq)]
pub(crate) struct Turn {
    pub(crate) thread: usize,
    pub(crate) call: Option<usize>,
}

pub(crate) fn legs_of(threads: impl Iterator<Item = usize>) -> Vec<Leg> {
    joined(threads.map(|thread| Leg { thread, turns: 1 }))
}

/// Neighbours of one thread as one leg.
pub(crate) fn joined(legs: impl Iterator<Item = Leg>) -> Vec<Leg> {
    let mut all: Vec<Leg> = Vec::new();
    for leg in legs {
        match all.last_mut() {
            Some(last) if last.thread == leg.thread => {
                last.turns = last.turns.saturating_add(leg.turns)
            }
            _ => all.push(leg),
        }
    }
    all
}
