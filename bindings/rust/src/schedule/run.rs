//! One run under a schedule: one thread has the turn, and gives it away at its steps.

use super::chooser::Chooser;
use super::ending::{Awaited, Ending, Panic, Waiter};
use super::legs::Turn;
use super::parker::Parker;
use super::pool::{Job, Worker};
use super::seat::{self, Abandon, Seat};
use super::step::{At, Operated, Step, Who};
use crate::library::Points;
use std::panic::{AssertUnwindSafe, catch_unwind};
use std::sync::atomic::{AtomicBool, AtomicU32, AtomicUsize, Ordering};
use std::sync::{Arc, Condvar, Mutex, MutexGuard, PoisonError};
use std::time::Duration;

/// How a run goes.
#[derive(Debug)]
pub(crate) struct Plan {
    pub(crate) chooser: Chooser,
    /// A run with more steps is given up.
    pub(crate) limit: usize,
    /// A thread that makes no step for so long is told as stuck.
    pub(crate) patience: Duration,
    /// Its threads are those of earlier runs, as far as there are such.
    pub(crate) keeps_threads: bool,
}

/// What became of a run.
#[derive(Clone, Debug, PartialEq, Eq)]
pub struct Ran {
    pub(crate) ending: Ending,
    pub(crate) steps: Vec<Step>,
    pub(crate) turns: Vec<Turn>,
    pub(crate) threads: Vec<Who>,
    pub(crate) switches: usize,
    // no thread stays in it, as one that waits outside of the schedule
    pub(crate) all_left: bool,
}

impl Ran {
    /// How it ended.
    #[must_use]
    pub fn ending(&self) -> &Ending {
        &self.ending
    }

    /// Its steps in their order.
    #[must_use]
    pub fn steps(&self) -> &[Step] {
        &self.steps
    }

    /// How often the turn was taken from a thread that could have gone on.
    #[must_use]
    pub fn switches(&self) -> usize {
        self.switches
    }
}

#[derive(Debug)]
pub(crate) struct Run {
    pub(crate) number: u32,
    keeps_threads: bool,
    state: Mutex<State>,
    over: AtomicBool,
    moves: AtomicUsize,
    // threads that haven't left the run
    inside: Mutex<usize>,
    left: Condvar,
}

/// Whom a thread waits for is woken by.
#[derive(Clone, Copy, Debug, PartialEq, Eq)]
pub(crate) enum Key {
    Object(usize),
    Unpark(usize),
    End(usize),
    Scope(usize),
}

#[derive(Debug)]
enum Status {
    Ready,
    Waits { key: Key, until: Option<u64> },
    Ended,
}

#[derive(Debug)]
struct Thread {
    who: Who,
    parker: Arc<Parker>,
    status: Status,
    awaits: Option<Awaited>,
    // not chosen before another one has moved, or there is none and it is this time
    gives_way: Option<u64>,
    timed_out: bool,
    permit: bool,
    scope: Option<usize>,
    call: Option<usize>,
    operated: Operated,
    at: Option<At>,
    moved: usize,
}

#[derive(Debug)]
struct Held {
    key: Key,
    thread: usize,
    at: At,
}

#[derive(Debug)]
struct Panicked {
    thread: usize,
    panic: Panic,
    // somebody has joined the thread, and so been told
    joined: bool,
}

#[derive(Debug)]
pub(crate) struct State {
    threads: Vec<Thread>,
    chooser: Chooser,
    limit: usize,
    steps: Vec<Step>,
    turns: Vec<Turn>,
    switches: usize,
    last: usize,
    in_a_row: usize,
    candidates: Vec<usize>,
    // in nanoseconds; it goes on where all threads give way
    now: u64,
    idle: u32,
    changed: usize,
    objects: u32,
    held: Vec<Held>,
    panics: Vec<Panicked>,
    ending: Option<Ending>,
}

/// What became of a wait.
#[derive(Clone, Copy, Debug, PartialEq, Eq)]
pub(crate) enum Woken {
    Again,
    TimedOut,
    /// The run is over, and this thread unwinds.
    Over,
}

// A thread with so many turns in a row gives way, so that one that spins without saying so doesn't
// keep the others from going on.
const MOST_IN_A_ROW: usize = 500;
// How far the threads that are left may go once the main one has ended.
const STEPS_OF_DETACHED: usize = 1000;
// How long the threads of a run that is over have to unwind.
const UNWINDING: Duration = Duration::from_secs(2);

static RUNS: AtomicU32 = AtomicU32::new(1);

fn nanoseconds(of: Duration) -> u64 {
    u64::try_from(of.as_nanos()).unwrap_or(u64::MAX)
}

fn unpoisoned<'a, T>(
    locked: Result<MutexGuard<'a, T>, PoisonError<MutexGuard<'a, T>>>,
) -> MutexGuard<'a, T> {
    locked.unwrap_or_else(PoisonError::into_inner)
}

impl State {
    fn find_candidates(&mut self) {
        self.candidates.clear();
        for (number, thread) in self.threads.iter().enumerate() {
            if matches!(thread.status, Status::Ready) && thread.gives_way.is_none() {
                self.candidates.push(number);
            }
        }
        if !self.candidates.is_empty() {
            return;
        }
        let due = |thread: &Thread| match thread.status {
            Status::Ready => thread.gives_way,
            Status::Waits { until, .. } => until,
            Status::Ended => None,
        };
        let first = (self.threads.iter().enumerate())
            .filter_map(|(number, thread)| Some((due(thread)?, number)))
            .min();
        if let Some((time, number)) = first {
            self.now = self.now.max(time);
            self.idle += 1;
            let thread = &mut self.threads[number];
            if let Status::Waits { .. } = thread.status {
                thread.status = Status::Ready;
                thread.timed_out = true;
            }
            self.candidates.push(number);
        }
    }

    // Who has the next turn; none where no thread can go on.
    fn choose(&mut self) -> Option<usize> {
        self.find_candidates();
        let last = self.last;
        if self.in_a_row >= MOST_IN_A_ROW && self.candidates.len() > 1 {
            self.chooser.lower(last);
            self.candidates.retain(|it| *it != last);
        }
        if self.candidates.is_empty() {
            return None;
        }
        let next = (self.chooser).choose(&self.candidates, last, self.turns.len());
        if next == last {
            self.in_a_row += 1;
        } else {
            self.in_a_row = 0;
            self.switches += usize::from(self.candidates.contains(&last));
        }
        for (number, thread) in self.threads.iter_mut().enumerate() {
            if number == next {
                thread.gives_way = None;
                thread.moved = self.steps.len();
            } else if next != last {
                thread.gives_way = None;
            }
        }
        self.last = next;
        self.turns.push(Turn {
            thread: next,
            call: self.threads[next].call,
        });
        Some(next)
    }

    fn waiter(&self, number: usize) -> Waiter {
        let thread = &self.threads[number];
        let holders = |key: Key| self.held.iter().filter(move |held| held.key == key);
        Waiter {
            who: thread.who.clone(),
            call: thread.call,
            operated: thread.operated,
            at: thread.at,
            awaits: thread.awaits.clone(),
            held_by: match thread.status {
                Status::Waits { key, .. } => holders(key)
                    .map(|held| (self.threads[held.thread].who.clone(), held.at))
                    .collect(),
                _ => Vec::new(),
            },
        }
    }

    // Those that haven't ended; the main one only where nobody else is left, since it waits for the
    // callers.
    fn waiters(&self) -> Vec<Waiter> {
        let alive: Vec<_> = (0..self.threads.len())
            .filter(|it| !matches!(self.threads[*it].status, Status::Ended))
            .collect();
        let others = alive.iter().any(|it| *it != 0);
        let joins = matches!(self.threads[0].awaits, Some(Awaited::End(Who::Caller(_))));
        (alive.into_iter())
            .filter(|it| *it != 0 || !others || !joins)
            .map(|it| self.waiter(it))
            .collect()
    }

    fn at_limit(&self) -> Ending {
        let half = self.steps.len() / 2;
        let all_moved = (self.threads.iter())
            .filter(|it| matches!(it.status, Status::Ready))
            .all(|it| it.moved >= half);
        if self.changed < half && all_moved {
            Ending::Livelock(self.waiters())
        } else {
            Ending::StepLimit(self.waiters())
        }
    }

    fn wake(&mut self, key: Key, most: usize) -> usize {
        let waiting = (self.threads.iter_mut())
            .filter(|it| matches!(it.status, Status::Waits { key: of, .. } if of == key));
        let mut woken = 0;
        for thread in waiting.take(most) {
            thread.status = Status::Ready;
            thread.awaits = None;
            woken += 1;
        }
        woken
    }

    fn has_ended(&self, number: usize) -> bool {
        matches!(self.threads[number].status, Status::Ended)
    }

    // A panic that nobody has joined, where all else is well.
    fn finished(&self) -> Ending {
        let first = self.panics.iter().find(|it| !it.joined);
        first.map_or(Ending::Finished, |it| Ending::Panicked(it.panic.clone()))
    }
}

impl Run {
    fn new(plan: Plan) -> Arc<Run> {
        Arc::new(Run {
            number: RUNS.fetch_add(1, Ordering::Relaxed),
            keeps_threads: plan.keeps_threads,
            state: Mutex::new(State {
                threads: Vec::new(),
                chooser: plan.chooser,
                limit: plan.limit,
                steps: Vec::with_capacity(256),
                turns: Vec::with_capacity(256),
                switches: 0,
                last: 0,
                in_a_row: 0,
                candidates: Vec::new(),
                now: 0,
                idle: 0,
                changed: 0,
                objects: 0,
                held: Vec::new(),
                panics: Vec::new(),
                ending: None,
            }),
            over: AtomicBool::new(false),
            moves: AtomicUsize::new(0),
            inside: Mutex::new(0),
            left: Condvar::new(),
        })
    }

    fn state(&self) -> MutexGuard<'_, State> {
        unpoisoned(self.state.lock())
    }

    pub(crate) fn is_over(&self) -> bool {
        self.over.load(Ordering::SeqCst)
    }

    // Each thread that is left gets the turn, and unwinds.
    fn end(&self, state: &mut State, ending: Ending) {
        if state.ending.is_none() {
            state.ending = Some(ending);
            self.over.store(true, Ordering::SeqCst);
            for thread in &state.threads {
                if !matches!(thread.status, Status::Ended) {
                    thread.parker.give();
                }
            }
        }
    }

    // No thread can go on.
    fn stops(&self, state: &mut State) {
        let ending = if state.has_ended(0) {
            state.finished()
        } else {
            Ending::Deadlock(state.waiters())
        };
        self.end(state, ending);
    }

    // The run ends by the panic of its main thread or of a caller. Others may be joined.
    fn panicked(&self, state: &mut State, thread: usize, place: String, message: String) {
        let Thread { who, call, .. } = &state.threads[thread];
        let panic = Panic {
            who: who.clone(),
            call: *call,
            place,
            message,
        };
        let is_fatal = !matches!(who, Who::Thread(..));
        state.panics.push(Panicked {
            thread,
            panic,
            joined: false,
        });
        if is_fatal {
            // the first one, since others come of it
            let first = state.panics[0].panic.clone();
            self.end(state, Ending::Panicked(first));
        }
    }

    /// A further thread, which has the turn for the first time when it is chosen.
    pub(crate) fn add(
        self: &Arc<Run>,
        who: impl FnOnce(usize) -> Who,
        parker: Arc<Parker>,
        scope: Option<usize>,
    ) -> Seat {
        let mut state = self.state();
        let me = state.threads.len();
        *unpoisoned(self.inside.lock()) += 1;
        state.threads.push(Thread {
            who: who(me),
            parker: Arc::clone(&parker),
            status: Status::Ready,
            awaits: None,
            gives_way: None,
            timed_out: false,
            permit: false,
            scope,
            call: None,
            operated: Operated::on_none("start"),
            at: None,
            moved: 0,
        });
        Seat::new(Arc::clone(self), me, parker)
    }

    /// Spawns a thread, which is kept for other runs where threads are kept.
    pub(crate) fn spawn(self: &Arc<Run>, who: impl FnOnce(usize) -> Who, body: Job) -> usize {
        let (worker, own) = if self.keeps_threads {
            let worker = Worker::free();
            (Arc::clone(&worker), Some(worker))
        } else {
            (Worker::once(), None)
        };
        let seat = self.add(who, Arc::clone(&worker.parker), None);
        let number = seat.me;
        worker.set_job(Box::new(move || {
            let (run, me) = (Arc::clone(&seat.run), seat.me);
            seat::enter(seat);
            let panic = if run.is_over() {
                drop(body);
                None
            } else {
                let payload = catch_unwind(AssertUnwindSafe(body)).err();
                payload.filter(|it| !it.is::<Abandon>())
            };
            let panic = panic.map(|_| seat::last_panic());
            seat::leave();
            run.finish(me, panic, own);
        }));
        number
    }

    /// The thread has ended, and gives the turn away for the last time.
    pub(crate) fn finish(
        &self,
        me: usize,
        panic: Option<(String, String)>,
        own: Option<Arc<Worker>>,
    ) {
        let mut state = self.state();
        let thread = &mut state.threads[me];
        thread.status = Status::Ended;
        thread.parker.take_back();
        let scope = thread.scope;
        if let Some((place, message)) = panic {
            self.panicked(&mut state, me, place, message);
        }
        state.changed = state.steps.len();
        state.wake(Key::End(me), usize::MAX);
        if let Some(scope) = scope {
            state.wake(Key::Scope(scope), usize::MAX);
        }
        if let Some(own) = own {
            Worker::hand_back(own);
        }
        if state.ending.is_none() {
            match state.choose() {
                Some(next) => state.threads[next].parker.give(),
                None => self.stops(&mut state),
            }
        }
        drop(state);
        let mut inside = unpoisoned(self.inside.lock());
        *inside -= 1;
        if *inside == 0 {
            drop(inside);
            self.left.notify_all();
        }
    }

    // Waits until all threads have left the run, and ends it where they stand still; says whether all
    // have.
    fn watch(&self, patience: Duration) -> bool {
        let mut moves = 0;
        let mut inside = unpoisoned(self.inside.lock());
        while *inside > 0 {
            let time = if self.is_over() { UNWINDING } else { patience };
            let (guard, waited) =
                (self.left.wait_timeout(inside, time)).unwrap_or_else(PoisonError::into_inner);
            inside = guard;
            if *inside == 0 || !waited.timed_out() {
                continue;
            }
            if self.is_over() {
                return false;
            }
            let moved = self.moves.load(Ordering::Relaxed);
            if moved == moves {
                drop(inside);
                let mut state = self.state();
                let stuck = state.waiter(state.last);
                self.end(&mut state, Ending::Stuck(stuck));
                drop(state);
                inside = unpoisoned(self.inside.lock());
            }
            moves = moved;
        }
        true
    }
}

/// Runs the body as a plan says, on kept threads, and comes back when they have ended.
pub(crate) fn run(plan: Plan, body: Job) -> Ran {
    seat::listen_to_panics();
    let _points = Points::of_run();
    let patience = plan.patience;
    let run = Run::new(plan);
    run.spawn(|_| Who::Main, body);
    {
        let mut state = run.state();
        let first = state.choose().expect("the first thread can go on");
        state.threads[first].parker.give();
    }
    let all_left = run.watch(patience);
    let mut state = run.state();
    Ran {
        ending: state.ending.take().unwrap_or(Ending::Finished),
        steps: std::mem::take(&mut state.steps),
        turns: std::mem::take(&mut state.turns),
        threads: state.threads.iter().map(|it| it.who.clone()).collect(),
        switches: state.switches,
        all_left,
    }
}

// What a thread of a run does. Each of these is called by the thread that has the turn, or by one
// of a run that is over.
impl Seat {
    // Gives the turn to whom the schedule chooses, and comes back when this thread is chosen again;
    // none where the run is over and this thread unwinds already.
    fn pass<'a>(&'a self, mut state: MutexGuard<'a, State>) -> Option<MutexGuard<'a, State>> {
        if state.ending.is_some() {
            drop(state);
            seat::abandon();
            return None;
        }
        self.run.moves.fetch_add(1, Ordering::Relaxed);
        match state.choose() {
            Some(next) if next == self.me => return Some(state),
            Some(next) => state.threads[next].parker.give(),
            None => self.run.stops(&mut state),
        }
        drop(state);
        self.parker.wait();
        let state = self.run.state();
        if state.ending.is_some() {
            drop(state);
            seat::abandon();
            return None;
        }
        Some(state)
    }

    // The step itself, once the thread has the turn.
    fn made(&self, state: &mut State, operated: Operated, at: At) {
        let thread = &state.threads[self.me];
        let step = Step {
            who: thread.who.clone(),
            call: thread.call,
            operated,
            at,
        };
        state.steps.push(step);
        let ending = if state.steps.len() >= state.limit {
            state.at_limit()
        } else if state.has_ended(0)
            && state.steps.len() - state.threads[0].moved > STEPS_OF_DETACHED
        {
            state.finished()
        } else {
            return;
        };
        self.run.end(state, ending);
    }

    fn stands(&self, state: &mut State, operated: Operated, at: At) {
        let thread = &mut state.threads[self.me];
        (thread.operated, thread.at) = (operated, Some(at));
    }

    /// A step, at which the schedule may go elsewhere.
    pub(crate) fn step(&self, operated: Operated, at: At) {
        let mut state = self.run.state();
        self.stands(&mut state, operated, at);
        if let Some(mut state) = self.pass(state) {
            self.made(&mut state, operated, at);
            if state.ending.is_some() {
                drop(state);
                self.parker.take_back();
                seat::abandon();
            }
        }
    }

    /// A step before which another thread moves, where one can.
    pub(crate) fn give_way(&self, operated: Operated, at: At, time: Option<Duration>) {
        let mut state = self.run.state();
        self.stands(&mut state, operated, at);
        let time = time.map_or(1000 << state.idle.min(40), nanoseconds);
        let due = state.now.saturating_add(time);
        state.threads[self.me].gives_way = Some(due);
        state.chooser.lower(self.me);
        if let Some(mut state) = self.pass(state) {
            self.made(&mut state, operated, at);
            if state.ending.is_some() {
                drop(state);
                self.parker.take_back();
                seat::abandon();
            }
        }
    }

    /// Waits until it is woken by this key, or for the time.
    pub(crate) fn wait(&self, key: Key, awaited: Awaited, at: At, time: Option<Duration>) -> Woken {
        let mut state = self.run.state();
        let until = time.map(|it| state.now.saturating_add(nanoseconds(it)));
        let thread = &mut state.threads[self.me];
        thread.status = Status::Waits { key, until };
        thread.awaits = Some(awaited);
        thread.at = Some(at);
        match self.pass(state) {
            None => Woken::Over,
            Some(mut state) => {
                let thread = &mut state.threads[self.me];
                thread.awaits = None;
                if std::mem::take(&mut thread.timed_out) {
                    Woken::TimedOut
                } else {
                    Woken::Again
                }
            }
        }
    }

    /// The last step has changed something that others may see.
    pub(crate) fn changes(&self) {
        let mut state = self.run.state();
        state.changed = state.steps.len();
        state.idle = 0;
    }

    pub(crate) fn wake_all(&self, key: Key) {
        self.run.state().wake(key, usize::MAX);
    }

    /// Wakes the first that waits, if there is one.
    pub(crate) fn wake_one(&self, key: Key) -> bool {
        self.run.state().wake(key, 1) == 1
    }

    pub(crate) fn next_object(&self) -> u32 {
        let mut state = self.run.state();
        state.objects += 1;
        state.objects
    }

    pub(crate) fn holds(&self, key: Key, at: At) {
        let mut state = self.run.state();
        let thread = self.me;
        state.held.push(Held { key, thread, at });
        state.changed = state.steps.len();
        state.idle = 0;
    }

    /// The thread gives a lock back, and those that wait for it try again.
    pub(crate) fn gives_back(&self, key: Key) {
        let mut state = self.run.state();
        let me = self.me;
        let mine = |held: &Held| held.key == key && held.thread == me;
        // a guard may have come from another thread
        let place = (state.held.iter().rposition(mine))
            .or_else(|| state.held.iter().rposition(|held| held.key == key));
        if let Some(place) = place {
            state.held.remove(place);
        }
        state.wake(key, usize::MAX);
    }

    pub(crate) fn begins_call(&self, call: usize) {
        self.run.state().threads[self.me].call = Some(call);
    }

    /// The line of its last step.
    pub(crate) fn at(&self) -> Option<At> {
        self.run.state().threads[self.me].at
    }

    pub(crate) fn who(&self) -> Who {
        self.run.state().threads[self.me].who.clone()
    }

    pub(crate) fn name_of(&self, number: usize) -> Who {
        self.run.state().threads[number].who.clone()
    }

    pub(crate) fn has_ended(&self, number: usize) -> bool {
        self.run.state().has_ended(number)
    }

    /// Somebody has joined the thread, so that its panic is told.
    pub(crate) fn joined(&self, number: usize) {
        let mut state = self.run.state();
        for it in state.panics.iter_mut().filter(|it| it.thread == number) {
            it.joined = true;
        }
    }

    pub(crate) fn scope_has_ended(&self, scope: usize) -> bool {
        let state = self.run.state();
        (state.threads.iter())
            .filter(|it| it.scope == Some(scope))
            .all(|it| matches!(it.status, Status::Ended))
    }

    /// Takes the permit to go on, if there is one.
    pub(crate) fn takes_permit(&self) -> bool {
        std::mem::take(&mut self.run.state().threads[self.me].permit)
    }

    pub(crate) fn unparks(&self, number: usize) {
        let mut state = self.run.state();
        if state.threads[number].permit {
            return;
        }
        state.threads[number].permit = true;
        state.changed = state.steps.len();
        state.wake(Key::Unpark(number), usize::MAX);
    }
}
