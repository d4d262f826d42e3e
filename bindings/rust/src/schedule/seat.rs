//! The place of a thread in its run.

use super::parker::Parker;
use super::run::Run;
use super::step::{Operated, POINT_OF_C};
use std::cell::{Cell, RefCell};
use std::collections::BTreeMap;
use std::ffi::CStr;
use std::panic::{self, Location, catch_unwind, resume_unwind};
use std::sync::atomic::{AtomicU64, Ordering};
use std::sync::{Arc, Mutex, Once, PoisonError};
use std::thread;

#[derive(Clone, Debug)]
pub(crate) struct Seat {
    pub(crate) run: Arc<Run>,
    pub(crate) me: usize,
    pub(crate) parker: Arc<Parker>,
}

/// What a thread of a run that is over unwinds with.
#[derive(Debug)]
pub(crate) struct Abandon;

thread_local! {
    static SEAT: RefCell<Option<Seat>> = const { RefCell::new(None) };
    static HEARS: Cell<bool> = const { Cell::new(false) };
    // points of C code that the thread came to once its run was over
    static AFTER_END: Cell<u32> = const { Cell::new(0) };
    static PANIC: RefCell<Option<(String, String)>> = const { RefCell::new(None) };
}

impl Seat {
    pub(crate) fn new(run: Arc<Run>, me: usize, parker: Arc<Parker>) -> Seat {
        Seat { run, me, parker }
    }

    /// The seat of this thread; none where it is in no run, or unwinds since the run is over.
    pub(crate) fn current() -> Option<Seat> {
        let seat = SEAT.try_with(|it| it.borrow().clone()).ok()??;
        if seat.run.is_over() {
            abandon();
            return None;
        }
        Some(seat)
    }

    /// The number of an object in this run.
    pub(crate) fn number_of(&self, tag: &Tag) -> u32 {
        let run = u64::from(self.run.number);
        let given = tag.0.load(Ordering::Relaxed);
        if given >> 32 == run {
            return given as u32;
        }
        let number = self.next_object();
        tag.0
            .store((run << 32) | u64::from(number), Ordering::Relaxed);
        number
    }
}

/// A step of this thread, where it is in a run.
#[track_caller]
pub(crate) fn step(name: &'static str) {
    if let Some(seat) = Seat::current() {
        seat.step(Operated::on_none(name), Location::caller());
    }
}

/// A step of C code. C code can't be unwound: where the run is over it goes on, but for a loop that
/// waits for others, which stays there.
pub(crate) fn point_of_c(file: &'static CStr, line: i32) {
    const MOST_AFTER_END: u32 = 1000;
    let stepped = catch_unwind(|| {
        if let Some(seat) = Seat::current() {
            let at = seat.at().unwrap_or_else(Location::caller);
            seat.step(Operated::on_none(point_name(file, line)), at);
            // what it does isn't seen, so it may be a change
            seat.changes();
        }
    });
    let after_end = AFTER_END.get() + u32::from(stepped.is_err());
    AFTER_END.set(after_end);
    if after_end > MOST_AFTER_END {
        loop {
            thread::park();
        }
    }
}

// A name for each point that is come to.
fn point_name(file: &'static CStr, line: i32) -> &'static str {
    static NAMES: Mutex<BTreeMap<(&CStr, i32), &str>> = Mutex::new(BTreeMap::new());
    let mut names = NAMES.lock().unwrap_or_else(PoisonError::into_inner);
    names.entry((file, line)).or_insert_with(|| {
        let name = format!("{POINT_OF_C}{}:{line}", file.to_string_lossy());
        Box::leak(name.into_boxed_str())
    })
}

/// Leaves a run that is over, unless this thread unwinds already.
pub(crate) fn abandon() {
    if !thread::panicking() {
        resume_unwind(Box::new(Abandon));
    }
}

pub(crate) fn enter(seat: Seat) {
    HEARS.set(true);
    AFTER_END.set(0);
    PANIC.take();
    SEAT.set(Some(seat));
}

pub(crate) fn leave() {
    SEAT.take();
    HEARS.set(false);
}

/// The panics of this thread are kept for its hunt, and not printed.
pub(crate) fn hear_panics(hears: bool) {
    HEARS.set(hears);
}

/// Where the last panic of this thread was, and what it said.
pub(crate) fn last_panic() -> (String, String) {
    let unknown = || ("an unknown place".to_owned(), "no message".to_owned());
    PANIC.take().unwrap_or_else(unknown)
}

/// Panics of threads of runs are told with their findings; all others go to the hook that was
/// there.
pub(crate) fn listen_to_panics() {
    static SET: Once = Once::new();
    SET.call_once(|| {
        let before = panic::take_hook();
        panic::set_hook(Box::new(move |info| {
            if !HEARS.try_with(Cell::get).unwrap_or(false) {
                return before(info);
            }
            let place = (info.location())
                .map_or_else(|| "an unknown place".to_owned(), ToString::to_string);
            let said = info.payload();
            let message = (said.downcast_ref::<&str>().map(|it| (*it).to_owned()))
                .or_else(|| said.downcast_ref::<String>().cloned())
                .unwrap_or_else(|| "no message".to_owned());
            let _ = PANIC.try_with(|it| it.replace(Some((place, message))));
        }));
    });
}

/// The number of an object in the run that has used it last.
#[derive(Debug, Default)]
pub(crate) struct Tag(AtomicU64);

impl Tag {
    pub(crate) const fn new() -> Tag {
        Tag(AtomicU64::new(0))
    }
}
