use super::script::Script;
use crate::book::Book;
use crate::fault::{Fault, Verdict};
use crate::kind::Kind;
use crate::recorder::{Caller, Recorded, Recorder};
use crate::reply::Reply;
use crate::schedule::pool::Job;
use crate::schedule::run::{self, Plan};
use crate::schedule::seat::Seat;
use crate::schedule::thread::joins;
use crate::schedule::{Ending, Operated, Ran, Who};
use std::fmt;
use std::panic::Location;
use std::sync::Arc;

/// An object, as what it replies to operations.
pub(crate) type Object<K> = Arc<dyn Fn(<K as Recorded>::Op) -> Reply + Send + Sync>;
pub(crate) type Maker<K> = Arc<dyn Fn() -> Object<K> + Send + Sync>;

/// What is wrong with a run.
#[derive(Clone, Debug, PartialEq, Eq)]
pub enum Found {
    /// Its calls have no legal order: the object isn't linearizable.
    Illegal,
    /// It has ended otherwise than it should.
    Ended(Ending),
}

impl Found {
    /// Whether the other is wrong in the same way.
    pub(crate) fn is_like(&self, other: &Found) -> bool {
        match (self, other) {
            (Found::Illegal, Found::Illegal) => true,
            (Found::Ended(Ending::Panicked(one)), Found::Ended(Ending::Panicked(two))) => {
                one.place() == two.place()
            }
            (Found::Ended(one), Found::Ended(two)) => one.name() == two.name(),
            _ => false,
        }
    }
}

impl fmt::Display for Found {
    fn fmt(&self, f: &mut fmt::Formatter<'_>) -> fmt::Result {
        match self {
            Found::Illegal => f.write_str("illegal: the calls have no legal order"),
            Found::Ended(ending) => ending.fmt(f),
        }
    }
}

/// A run of a hunt: its script, its schedule, its book, and what is wrong with it.
#[derive(Clone, Debug)]
pub struct Trial<K: Kind> {
    pub(crate) script: Script<K>,
    pub(crate) ran: Ran,
    pub(crate) book: Option<Book<K>>,
    pub(crate) found: Option<Found>,
}

impl<K: Kind> Trial<K> {
    /// What each caller called.
    #[must_use]
    pub fn script(&self) -> &Script<K> {
        &self.script
    }

    /// The steps, how often the turn was taken from a thread, and how the run ended.
    #[must_use]
    pub fn ran(&self) -> &Ran {
        &self.ran
    }

    /// The book of the calls. None where a thread hasn't come back.
    #[must_use]
    pub fn book(&self) -> Option<&Book<K>> {
        self.book.as_ref()
    }

    /// What is wrong with it, if anything is.
    #[must_use]
    pub fn found(&self) -> Option<&Found> {
        self.found.as_ref()
    }

    /// Whether all that is told of a run is the same.
    pub(crate) fn is_same(&self, other: &Trial<K>) -> bool {
        let text = |it: &Trial<K>| it.book.as_ref().map(|book| book.as_str().to_owned());
        self.ran == other.ran && self.found == other.found && text(self) == text(other)
    }

    pub(crate) fn judged(
        script: Script<K>,
        ran: Ran,
        recorder: &Recorder<K>,
    ) -> Result<Trial<K>, Fault> {
        let book = recorder.book().ok();
        let found = match (&ran.ending, &book) {
            (Ending::Finished, Some(book)) => {
                (book.verify()? == Verdict::Illegal).then_some(Found::Illegal)
            }
            (ending, _) => Some(Found::Ended(ending.clone())),
        };
        Ok(Trial {
            script,
            ran,
            book,
            found,
        })
    }
}

/// A recorder with a caller for each of the script's.
pub(crate) fn recorder_of<K: Kind>(script: &Script<K>) -> (Recorder<K>, Vec<Caller<K>>) {
    let recorder = Recorder::new();
    let callers = (script.callers.iter()).map(|_| recorder.caller()).collect();
    (recorder, callers)
}

/// Makes the calls of one caller, each after a step of its own.
pub(crate) fn lives<O, R>(calls: Vec<O>, mut call: impl FnMut(O) -> R) {
    for (number, op) in calls.into_iter().enumerate() {
        if let Some(seat) = Seat::current() {
            seat.begins_call(number);
            seat.step(Operated::on_none("call"), Location::caller());
        }
        call(op);
    }
}

/// What the main thread of a run does: makes the callers' lives, and waits until they have ended.
pub(crate) fn main_of(make: impl FnOnce() -> Vec<Job> + Send + 'static) -> Job {
    Box::new(move || {
        let lives = make();
        let Some(seat) = Seat::current() else { return };
        let callers = lives.into_iter().enumerate();
        let numbers: Vec<_> = callers
            .map(|(number, life)| seat.run.spawn(|_| Who::Caller(number), life))
            .collect();
        for number in numbers {
            joins(&seat, number, Location::caller());
        }
    })
}

/// Runs a script under a schedule.
pub(crate) fn try_planned<K: Kind<Op: Send + Sync + 'static>>(
    script: &Script<K>,
    maker: &Maker<K>,
    plan: Plan,
) -> Result<Trial<K>, Fault> {
    let (recorder, callers) = recorder_of(script);
    let (maker, calls) = (Arc::clone(maker), script.callers.clone());
    let body = main_of(move || {
        let object = maker();
        let life = |(mut caller, calls): (Caller<K>, Vec<(usize, K::Op)>)| {
            let object = Arc::clone(&object);
            let call = move |(_, op)| caller.call(op, || object(op));
            Box::new(move || lives(calls, call)) as Job
        };
        callers.into_iter().zip(calls).map(life).collect()
    });
    let ran = run::run(plan, body);
    Trial::judged(script.clone(), ran, &recorder)
}
