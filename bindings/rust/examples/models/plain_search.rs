//! The search for a legal order of Wing and Gong (1993) with the memo of Lowe (2017), as well-known
//! checkers have it: depth first, and the model's step is called at each try.

use selfcheck::Model;
use std::collections::HashSet;

/// A call. Of two calls of one caller the first has returned before the second is invoked.
pub struct Call<O, R> {
    pub op: O,
    /// The moment of its invocation. All moments are different.
    pub invoked: usize,
    /// The moment of its return, and its reply.
    pub answer: Option<(usize, R)>,
}

#[derive(Clone, Copy)]
struct Event {
    call: usize,
    is_return: bool,
}

// Events have numbers from 1 on, by their moments. 0 stands for both ends of their list.
struct Search<'a, M: Model> {
    model: &'a M,
    calls: &'a [Call<M::Op, M::Reply>],
    events: Vec<Event>,
    return_of: Vec<Option<usize>>,
    // the neighbours of each event in the list of those of the calls that aren't placed
    next: Vec<usize>,
    previous: Vec<usize>,
    // how many calls in the list have returned
    returned: usize,
    // the bits of the placed calls
    placed: Vec<u64>,
    state: M::State,
    seen: HashSet<(Vec<u64>, M::State)>,
    // the invocation of each placed call, and the state before it
    path: Vec<(usize, M::State)>,
}

/// Whether the calls have a legal order; `None` where it is time to end before that is known.
pub fn has_order<M: Model>(
    model: &M,
    calls: &[Call<M::Op, M::Reply>],
    mut is_over: impl FnMut() -> bool,
) -> Option<bool> {
    let mut search = Search::new(model, calls);
    let mut at = search.next[0];
    while search.returned > 0 {
        if is_over() {
            return None;
        }
        at = match search.candidate(at) {
            Some(call) if search.place(call, at) => search.next[0],
            Some(_) => search.next[at],
            None => match search.take_back() {
                Some(at) => search.next[at],
                None => return Some(false),
            },
        };
    }
    Some(true)
}

impl<'a, M: Model> Search<'a, M> {
    fn new(model: &'a M, calls: &'a [Call<M::Op, M::Reply>]) -> Self {
        let mut moments = Vec::new();
        for (
            call,
            Call {
                invoked, answer, ..
            },
        ) in calls.iter().enumerate()
        {
            moments.push((*invoked, call, false));
            moments.extend(answer.iter().map(|(returned, _)| (*returned, call, true)));
        }
        moments.sort_unstable();
        let (mut events, mut return_of) = (Vec::new(), vec![None; calls.len()]);
        for (number, (_, call, is_return)) in (1..).zip(&moments) {
            let (call, is_return) = (*call, *is_return);
            if is_return {
                return_of[call] = Some(number);
            }
            events.push(Event { call, is_return });
        }
        let last = events.len();
        Search {
            model,
            calls,
            events,
            next: (1..=last).chain([0]).collect(),
            previous: [last].into_iter().chain(0..last).collect(),
            returned: return_of.iter().flatten().count(),
            return_of,
            placed: vec![0; calls.len().div_ceil(64)],
            state: model.initial(),
            seen: HashSet::new(),
            path: Vec::new(),
        }
    }

    // The call that is invoked here. What is invoked after a return in the list can't come next.
    fn candidate(&self, at: usize) -> Option<usize> {
        let event = self.events[at.checked_sub(1)?];
        (!event.is_return).then_some(event.call)
    }

    // Places the call next, if it has its reply there and what follows hasn't been tried.
    fn place(&mut self, call: usize, invocation: usize) -> bool {
        let Call { op, answer, .. } = &self.calls[call];
        let (next, reply) = self.model.step(&self.state, op);
        if answer.as_ref().is_some_and(|(_, its)| *its != reply) {
            return false;
        }
        self.flip(call);
        if !self.seen.insert((self.placed.clone(), next.clone())) {
            self.flip(call);
            return false;
        }
        self.remove(invocation);
        if let Some(at) = self.return_of[call] {
            self.remove(at);
            self.returned -= 1;
        }
        let before = std::mem::replace(&mut self.state, next);
        self.path.push((invocation, before));
        true
    }

    // Takes the last placed call back, if there is one, and gives its invocation.
    fn take_back(&mut self) -> Option<usize> {
        let (invocation, before) = self.path.pop()?;
        self.state = before;
        let call = self.events[invocation - 1].call;
        self.flip(call);
        if let Some(at) = self.return_of[call] {
            self.put_back(at);
            self.returned += 1;
        }
        self.put_back(invocation);
        Some(invocation)
    }

    fn flip(&mut self, call: usize) {
        self.placed[call / 64] ^= 1 << (call % 64);
    }

    fn remove(&mut self, at: usize) {
        let (before, after) = (self.previous[at], self.next[at]);
        self.next[before] = after;
        self.previous[after] = before;
    }

    // Undoes the last `remove` that isn't undone: the event still knows its neighbours.
    fn put_back(&mut self, at: usize) {
        let (before, after) = (self.previous[at], self.next[at]);
        self.next[before] = at;
        self.previous[after] = at;
    }
}
