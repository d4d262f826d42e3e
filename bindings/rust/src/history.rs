//! Histories: recorded calls with their moments, and the callers that they have in a book.

use crate::record::Call;
use crate::recorder::{MAX_CALLERS, MAX_CALLS};
use std::collections::BTreeMap;
use std::fmt;

/// Recorded calls, with the moments of their invocations and returns. It is displayed with a line for each call, in the
/// order of the invocations: its number in this order, its operation, its reply if it has one, and both moments.
#[derive(Clone, Debug)]
pub struct History<O, R> {
    // in the order of their invocations
    calls: Vec<Call<O, R>>,
    // how many callers stay with a thread
    own: usize,
    // how many calls were made after the last one that is recorded
    beyond: usize,
    // whether an operation changes no object, whatever its reply is
    is_read_only: fn(&O) -> bool,
}

impl<O, R> History<O, R> {
    /// How many calls it has, without those that its recorder no longer kept.
    #[must_use]
    pub fn len(&self) -> usize {
        self.calls.len()
    }

    /// Whether it has no call.
    #[must_use]
    pub fn is_empty(&self) -> bool {
        self.calls.is_empty()
    }

    /// The number of the call that was invoked at a moment.
    pub(crate) fn number_at(&self, invoked: u64) -> usize {
        self.calls.partition_point(|call| call.invoked < invoked)
    }

    /// The history of calls with these moments, and other operations and replies.
    pub(crate) fn map<P, Q>(
        &self,
        other: impl Fn(&O, Option<&R>) -> (P, Option<Q>),
    ) -> History<P, Q> {
        let other = |call: &Call<O, R>| {
            let reply = call.answer.as_ref().map(|(_, reply)| reply);
            let (op, reply) = other(&call.op, reply);
            let returned = call.answer.as_ref().map(|(returned, _)| *returned);
            Call {
                op,
                invoked: call.invoked,
                answer: returned.zip(reply),
                own: call.own,
            }
        };
        History {
            calls: self.calls.iter().map(other).collect(),
            own: self.own,
            beyond: self.beyond,
            is_read_only: |_| false,
        }
    }
}

impl<O: fmt::Debug, R: fmt::Debug> fmt::Display for History<O, R> {
    fn fmt(&self, f: &mut fmt::Formatter<'_>) -> fmt::Result {
        for (number, call) in self.calls.iter().enumerate() {
            write!(f, "{number}: {:?}", call.op)?;
            match &call.answer {
                Some((returned, reply)) => {
                    writeln!(f, " replied {reply:?}, {} to {returned}", call.invoked)?;
                }
                None => writeln!(f, " never returned, {} on", call.invoked)?,
            }
        }
        Ok(())
    }
}

/// The calls of each caller of a book.
pub(crate) type Pages<O, R> = Vec<Vec<Call<O, R>>>;

impl<O: Clone, R: Clone> History<O, R> {
    pub(crate) fn new(
        mut calls: Vec<Call<O, R>>,
        own: usize,
        beyond: usize,
        is_read_only: fn(&O) -> bool,
    ) -> History<O, R> {
        calls.sort_unstable_by_key(|call| call.invoked);
        History {
            calls,
            own,
            beyond,
            is_read_only,
        }
    }

    /// What was known of it at a moment.
    pub(crate) fn at(mut self, moment: u64) -> History<O, R> {
        let known = |call: &Call<O, R>| self.call_at(call, moment);
        self.calls = self.calls.iter().filter_map(known).collect();
        self
    }

    // What was known of a call at a moment: nothing where it was invoked later, and where it only
    // reads and had no reply by then. Such a call changes no verdict: an order that has it is one
    // without it too.
    fn call_at(&self, call: &Call<O, R>, moment: u64) -> Option<Call<O, R>> {
        let answer = (call.answer.clone()).filter(|(returned, _)| *returned < moment);
        let is_known = answer.is_some() || !(self.is_read_only)(&call.op);
        (call.invoked < moment && is_known).then(|| Call {
            answer,
            ..call.clone()
        })
    }

    /// The history of each key. What isn't recorded may be of any.
    pub(crate) fn by_key<Q: Ord>(self, key: impl Fn(&O) -> Q) -> BTreeMap<Q, History<O, R>> {
        let mut parts = BTreeMap::new();
        for call in self.calls {
            let none = || History {
                calls: Vec::new(),
                ..self
            };
            let part = parts.entry(key(&call.op)).or_insert_with(none);
            part.calls.push(call);
        }
        parts
    }

    /// As many of the first calls as fit a book, and how many others there are.
    pub(crate) fn prefix(&self) -> (Pages<O, R>, usize) {
        let pages = self.all_pages().unwrap_or_else(|| self.first_pages());
        let kept: usize = pages.iter().map(Vec::len).sum();
        (pages, self.calls.len() + self.beyond - kept)
    }

    // All calls, where they fit: the callers of threads have their own numbers if they can, and
    // there are as few others as can be.
    fn all_pages(&self) -> Option<Pages<O, R>> {
        [self.own, 0].into_iter().find_map(|own| {
            (own.max(1)..=MAX_CALLERS).find_map(|callers| {
                let (pages, placed) = self.pages(own, callers);
                (placed == self.calls.len()).then_some(pages)
            })
        })
    }

    // The calls before the first one that finds no caller, or before the last quiet moment, where
    // that leaves half of these at least.
    fn first_pages(&self) -> Pages<O, R> {
        let (pages, placed) = self.pages(0, MAX_CALLERS);
        let quiet = self.last_quiet(placed).filter(|count| 2 * count >= placed);
        let moment = self.calls[quiet.unwrap_or(placed)].invoked;
        let known = |page: &Vec<_>| {
            let calls = page.iter().filter_map(|call| self.call_at(call, moment));
            calls.collect()
        };
        pages.iter().map(known).collect()
    }

    // The greatest number of first calls, these at the most, after which no call is open, but such
    // as never return.
    fn last_quiet(&self, most: usize) -> Option<usize> {
        let mut last_return = 0;
        let mut quiet = None;
        for (count, call) in self.calls[..=most].iter().enumerate() {
            if last_return < call.invoked {
                quiet = Some(count);
            }
            last_return =
                last_return.max(call.answer.as_ref().map_or(0, |(returned, _)| *returned));
        }
        quiet
    }

    // So many callers of a book with the calls up to the first one that finds none, and the number
    // of these calls. The first callers are those of threads.
    fn pages(&self, own: usize, callers: usize) -> (Pages<O, R>, usize) {
        let mut pages = vec![Vec::new(); callers];
        let placed = self
            .calls
            .iter()
            .take_while(|call| place(call, own, &mut pages));
        let placed = placed.count();
        (pages, placed)
    }
}

// Whether a caller that is in no call takes this one: its own, or one of those that are no
// thread's, of which it is the one with the fewest calls. What never returns leaves its caller no
// further call, and so goes to the one with the most.
fn place<O: Clone, R: Clone>(call: &Call<O, R>, own: usize, pages: &mut Pages<O, R>) -> bool {
    let is_free = |at: &usize| {
        let page = &pages[*at];
        page.len() < MAX_CALLS && page.last().is_none_or(|last| last.precedes(call))
    };
    let load = |at: &usize| match call.answer {
        Some(_) => pages[*at].len(),
        None => MAX_CALLS - pages[*at].len(),
    };
    let others = || (own..pages.len()).filter(is_free).min_by_key(load);
    let at = (call.own.filter(|it| *it < own).filter(is_free)).or_else(others);
    if let Some(at) = at {
        pages[at].push(call.clone());
    }
    at.is_some()
}
