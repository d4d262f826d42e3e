//! Calls that check themselves by a model: an object with a table beside it, in which each call is
//! announced and judged.

use super::dialogue::{Names, Naming, Taught};
use super::{HistoryOf, Model, ModelError};
use crate::asked::Asked;
use crate::enforced::OpenError;
use crate::history::History;
use crate::library::{Judgement, Judging, Lack, ModelAnnounced, ModelIdle, Table};
use crate::places::{CallerError, NotMade, Places, Seat, announce};
use crate::record::Call;
use std::collections::BTreeMap;
use std::convert::Infallible;
use std::error::Error;
use std::fmt;
use std::sync::{Arc, Mutex};

/// An object whose calls check themselves by a model.
///
/// It is as an [`Enforced`](crate::Enforced) object of a kind: each call is announced in a table
/// beside the object, asks the object, is published with its reply, and is judged with all calls
/// that its caller has seen. The judgement asks the model for the steps that it lacks. What it was
/// told stays for the caller's later calls.
///
/// ```
/// use selfcheck::model::{CallError, Enforced, Model, verify};
/// use std::sync::Mutex;
///
/// /// A queue with two places. An operation puts a number, or takes one. It replies the number, or
/// /// `None` where it refuses: it is full, or empty.
/// struct Bounded;
///
/// impl Model for Bounded {
///     type State = Vec<u32>;
///     type Op = Option<u32>;
///     type Reply = Option<u32>;
///
///     fn initial(&self) -> Vec<u32> {
///         Vec::new()
///     }
///
///     fn step(&self, items: &Vec<u32>, op: &Option<u32>) -> (Vec<u32>, Option<u32>) {
///         match (op, items.split_first()) {
///             (Some(item), _) if items.len() < 2 => ([&items[..], &[*item]].concat(), *op),
///             (None, Some((first, rest))) => (rest.to_vec(), Some(*first)),
///             _ => (items.clone(), None),
///         }
///     }
/// }
///
/// // it takes the wrong end
/// let queue = Enforced::new(Bounded, Mutex::new(Vec::new()), 2, 8)?;
/// for item in [5, 6] {
///     queue.call(Some(item), |items| {
///         items.lock().unwrap().push(item);
///         Some(item)
///     })?;
/// }
/// let Err(CallError::Illegal(calls)) = queue.call(None, |items| items.lock().unwrap().pop()) else {
///     panic!("a queue gives 5 first");
/// };
/// assert!(verify(&Bounded, calls.history())?.is_illegal(), "{calls}");
/// # Ok::<_, Box<dyn std::error::Error>>(())
/// ```
///
/// The object is to be as [`Model::initial`] says at first, and to be called through its callers
/// alone. [`Model::key`] isn't used: the calls of all keys are judged together, by a model whose
/// states are those of the whole object.
///
/// **What it says.** That a reply is delivered only where the published calls that its caller has
/// seen have an order that is legal for each object that does what the model was asked for, and that
/// an error's calls have one for no such object, is proved, of the table and of the judgement. What
/// an object of a kind rests on besides, an object here rests on too; and on the model, as
/// [`verify`](super::verify) does.
///
/// **What it costs.** Operations and replies have one number each for all callers, which a short
/// lock gives, at the call, at its reply, and at each question to the model. The model is called
/// without it. Each caller asks for itself, some questions a call where few calls overlap. What runs
/// away in a check of a history does so here: four callers are fine. Where there is a
/// [`Kind`](crate::Kind) for the object, take that.
pub struct Enforced<M: Model, O> {
    object: Asked<O>,
    shared: Arc<Shared<M>>,
    places: Places<Judge<M>>,
}

/// One caller of an object, for one thread at a time. Its place in the table isn't given again where
/// it is dropped.
pub struct EnforcedCaller<M: Model, O> {
    object: Asked<O>,
    shared: Arc<Shared<M>>,
    // None where it makes no further call
    judge: Option<Judge<M>>,
}

// The model, and the numbers that operations and replies have for all callers of a table, whoever
// gives them first.
struct Shared<M: Model> {
    model: M,
    names: Mutex<Names<M>>,
}

// A caller between two calls, and what was told to it; nothing before its first call is judged.
pub(crate) struct Judge<M: Model> {
    idle: ModelIdle,
    taught: Option<Taught<M>>,
}

/// Its call that is announced.
pub(crate) struct Begun<M: Model> {
    announced: ModelAnnounced,
    taught: Option<Taught<M>>,
    op: u32,
}

impl<M: Model> Seat for Judge<M> {
    type Op = u32;
    type Announced = Begun<M>;

    fn next(table: &mut Table) -> Result<Judge<M>, Lack> {
        let (idle, taught) = (table.model_caller()?, None);
        Ok(Judge { idle, taught })
    }

    fn announce(self, op: u32) -> Result<Begun<M>, Judge<M>> {
        let Judge { idle, taught } = self;
        match idle.announce(op) {
            Ok(announced) => Ok(Begun {
                announced,
                taught,
                op,
            }),
            Err(idle) => Err(Judge { idle, taught }),
        }
    }
}

/// Calls that have no order that is legal for the model: those that a caller has seen published, its
/// own last one among them.
#[derive(Clone, Debug)]
pub struct WrongCalls<O, R> {
    history: History<O, R>,
    text: String,
}

impl<O, R> WrongCalls<O, R> {
    /// The calls, which [`verify`](super::verify) judges again. Their moments are such that a call
    /// precedes another one where its caller knew that it had ended before.
    #[must_use]
    pub fn history(&self) -> &History<O, R> {
        &self.history
    }

    /// The text of the calls and of the steps that the model was asked for, by numbers, which is
    /// judged again without the model (`scripts/judge-model` in the repository of the library).
    #[must_use]
    pub fn text(&self) -> &str {
        &self.text
    }
}

/// As its history.
impl<O: fmt::Debug, R: fmt::Debug> fmt::Display for WrongCalls<O, R> {
    fn fmt(&self, f: &mut fmt::Formatter<'_>) -> fmt::Result {
        self.history.fmt(f)
    }
}

/// Why a call gave no reply.
#[derive(Clone, Debug)]
#[non_exhaustive]
pub enum CallError<O, R> {
    /// The object is wrong: the published calls that the caller has seen, its own among them, have
    /// no order that is legal for the model. They are these. The caller makes no further call.
    Illegal(Box<WrongCalls<O, R>>),
    /// The object is wrong, and memory was refused for its calls. The caller makes no further call.
    IllegalUntold,
    /// Memory was refused for the judgement: this is the object's reply, which nobody has checked.
    /// The caller makes no further call; others go on, and judge this reply with theirs.
    Unjudged(R),
    /// The model breaks its own promise: this is the object's reply, which nobody has checked. The
    /// caller makes no further call.
    OfModel(R, ModelError),
    /// See [`NotMade::NoCallLeft`].
    NoCallLeft,
    /// See [`NotMade::Halted`].
    Halted,
    /// See [`NotMade::NoMemory`].
    NoMemory,
}

/// Why a call of an object with this model gave no reply.
pub type CallErrorOf<M> = CallError<<M as Model>::Op, <M as Model>::Reply>;

impl<O: fmt::Debug, R: fmt::Debug> fmt::Display for CallError<O, R> {
    fn fmt(&self, f: &mut fmt::Formatter<'_>) -> fmt::Result {
        match self {
            CallError::Illegal(calls) => write!(f, "these calls have no legal order:\n{calls}"),
            CallError::IllegalUntold => f.write_str("the calls have no legal order"),
            CallError::Unjudged(reply) => write!(f, "out of memory: {reply:?} isn't checked"),
            CallError::OfModel(reply, error) => write!(f, "{error}: {reply:?} isn't checked"),
            CallError::NoCallLeft => NotMade::NoCallLeft.fmt(f),
            CallError::Halted => NotMade::Halted.fmt(f),
            CallError::NoMemory => NotMade::NoMemory.fmt(f),
        }
    }
}

impl<O: fmt::Debug, R: fmt::Debug> Error for CallError<O, R> {}

impl<O, R> From<NotMade> for CallError<O, R> {
    fn from(not_made: NotMade) -> CallError<O, R> {
        match not_made {
            NotMade::NoCallLeft => CallError::NoCallLeft,
            NotMade::Halted => CallError::Halted,
            NotMade::NoMemory => CallError::NoMemory,
        }
    }
}

impl<M: Model, O> Enforced<M, O> {
    /// The object with a table for so many callers, with so many calls each, which the model judges.
    ///
    /// # Errors
    ///
    /// Where there is no such table, and for want of memory.
    pub fn new(
        model: M,
        object: O,
        callers: usize,
        calls: usize,
    ) -> Result<Enforced<M, O>, OpenError> {
        let (Ok(seats), Ok(calls)) = (u32::try_from(callers), u64::try_from(calls)) else {
            return Err(OpenError::NoSuchTable);
        };
        let table = Table::of_model(seats, calls)?;
        let names = Mutex::new(Names::new());
        Ok(Enforced {
            object: Asked::new(object),
            shared: Arc::new(Shared { model, names }),
            places: Places::of(table, callers, 0),
        })
    }

    /// The next caller, which stays with a thread. The calls of others don't take it.
    ///
    /// # Errors
    ///
    /// Where the table has given all its callers, and for want of memory.
    pub fn caller(&self) -> Result<EnforcedCaller<M, O>, CallerError> {
        Ok(EnforcedCaller {
            object: self.object.share(),
            shared: Arc::clone(&self.shared),
            judge: Some(self.places.caller()?),
        })
    }

    /// Makes a call of any caller of the table that is in none: asks the object by this closure, and
    /// gives its reply where the call is delivered.
    ///
    /// Waits while all callers are in calls. So a call that is made amid another of the same thread
    /// may wait for itself. Where a caller has made all its calls, another takes its place.
    /// Where the closure or the model panics, the caller makes no further call.
    ///
    /// # Errors
    ///
    /// See [`CallError`].
    pub fn call<R: Clone + Into<M::Reply>>(
        &self,
        op: M::Op,
        ask: impl FnOnce(&O) -> R,
    ) -> Result<R, CallErrorOf<M>> {
        let Ok(reply) = self.try_call(op, |object| Ok::<_, Infallible>(ask(object)))?;
        Ok(reply)
    }

    /// Makes a call of which it may stay unknown whether it had its effect, as after a timeout: as
    /// [`call`](Enforced::call), but that with an error of the closure the call stays unanswered, and
    /// its caller makes no further call.
    ///
    /// # Errors
    ///
    /// See [`CallError`]; within, those of the closure.
    pub fn try_call<R: Clone + Into<M::Reply>, E>(
        &self,
        op: M::Op,
        ask: impl FnOnce(&O) -> Result<R, E>,
    ) -> Result<Result<R, E>, CallErrorOf<M>> {
        let number = self.shared.number_of(&op);
        let (borrowed, begun) = self.places.announce(number)?;
        let reply = self.object.ask(ask);
        if let Ok(reply) = &reply {
            borrowed.hand_back(self.shared.judged(begun, &op, reply.clone().into())?);
        }
        Ok(reply)
    }
}

impl<M: Model, O> EnforcedCaller<M, O> {
    /// Makes a call: asks the object by this closure, and gives its reply where the call is
    /// delivered.
    ///
    /// Where the closure or the model panics, the caller makes no further call.
    ///
    /// # Errors
    ///
    /// See [`CallError`].
    pub fn call<R: Clone + Into<M::Reply>>(
        &mut self,
        op: M::Op,
        ask: impl FnOnce(&O) -> R,
    ) -> Result<R, CallErrorOf<M>> {
        let begun = announce(&mut self.judge, self.shared.number_of(&op))?;
        let reply = self.object.ask(ask);
        self.judge = Some(self.shared.judged(begun, &op, reply.clone().into())?);
        Ok(reply)
    }
}

impl<M: Model> Shared<M> {
    fn number_of(&self, op: &M::Op) -> u32 {
        (&self.names).with(|names| names.ops.number(op))
    }

    // The caller whose call is delivered.
    fn judged(
        &self,
        begun: Begun<M>,
        op: &M::Op,
        reply: M::Reply,
    ) -> Result<Judge<M>, CallErrorOf<M>> {
        let number = (&self.names).with(|names| names.replies.number(&reply));
        let Some(judging) = begun.announced.answered(number) else {
            return Err(CallError::Unjudged(reply));
        };
        let taught = begun.taught.unwrap_or_else(|| Taught::new(&self.model));
        match self.ended(judging, taught, (begun.op, op), (number, &reply)) {
            Ok(judge) => Ok(judge),
            Err(Stop::Illegal(calls)) => Err(CallError::Illegal(calls)),
            Err(Stop::IllegalUntold) => Err(CallError::IllegalUntold),
            Err(Stop::OfModel(ModelError::NoMemory)) => Err(CallError::Unjudged(reply)),
            Err(Stop::OfModel(error)) => Err(CallError::OfModel(reply, error)),
        }
    }

    fn ended(
        &self,
        mut judging: Judging,
        mut taught: Taught<M>,
        op: (u32, &M::Op),
        reply: (u32, &M::Reply),
    ) -> Result<Judge<M>, Stop<M::Op, M::Reply>> {
        let mut names = &self.names;
        taught
            .promise(&self.model, &mut judging, op, reply)
            .map_err(ModelError::from)?;
        loop {
            judging = match judging.next(u64::MAX) {
                Judgement::Delivered(idle) => {
                    let taught = Some(taught);
                    return Ok(Judge { idle, taught });
                }
                Judgement::Illegal(mut wrong) => {
                    let book = wrong.witness().ok_or(Stop::IllegalUntold)?;
                    let history = names.with(|names| history_of::<M>(&book, names));
                    let text = book + &taught.text();
                    return Err(Stop::Illegal(Box::new(WrongCalls { history, text })));
                }
                Judgement::Asks {
                    mut judging,
                    state,
                    op,
                } => {
                    taught.tell(&self.model, &mut names, &mut judging, (state, op))?;
                    judging
                }
                Judgement::Paused(judging) => judging,
                Judgement::Unjudged => return Err(ModelError::NoMemory.into()),
            };
        }
    }
}

// Why a judgement doesn't deliver.
enum Stop<O, R> {
    Illegal(Box<WrongCalls<O, R>>),
    IllegalUntold,
    OfModel(ModelError),
}

impl<O, R> From<ModelError> for Stop<O, R> {
    fn from(error: ModelError) -> Stop<O, R> {
        Stop::OfModel(error)
    }
}

// A line of a model's book: the operation of a call, and its reply and its view, where it has them.
struct Line {
    op: u32,
    answer: Option<(u32, Vec<(usize, usize)>)>,
}

impl Line {
    // The caller, and the rest of the line.
    fn of(line: &str) -> (usize, Line) {
        let number = |word: Option<&str>| word.and_then(|it| it.parse().ok()).expect("a number");
        let mut words = line.split(' ');
        let caller = number(words.next()) as usize;
        let op = number(words.nth(2));
        let answer = words.next().map(|reply| {
            let view = words.skip(1).map(|pair| {
                let (caller, count) = pair.split_once(':').expect("a pair");
                (number(Some(caller)) as usize, number(Some(count)) as usize)
            });
            (number(reply.strip_prefix('=')), view.collect())
        });
        (caller, Line { op, answer })
    }
}

// The history of a model's book. Of two calls the first one precedes the second one where its view
// lacks it. Views are a chain: so calls return in the order of their views, each after all calls of
// its view were invoked.
fn history_of<M: Model>(book: &str, names: &Names<M>) -> HistoryOf<M> {
    let lines = book.lines().skip(4).take_while(|line| *line != "end");
    let mut pages: BTreeMap<usize, Vec<Line>> = BTreeMap::new();
    for (caller, line) in lines.map(Line::of) {
        pages.entry(caller).or_default().push(line);
    }
    let mut answered = Vec::new();
    for (caller, page) in &pages {
        for (at, line) in page.iter().enumerate() {
            if let Some((_, view)) = &line.answer {
                let size: usize = view.iter().map(|(_, count)| count).sum();
                answered.push((size, *caller, at, view));
            }
        }
    }
    answered.sort_by_key(|(size, ..)| *size);
    let (mut moments, mut returned) = (BTreeMap::new(), BTreeMap::new());
    let mut clock = 0..;
    let mut tick = || clock.next().expect("a book is short");
    for (_, caller, at, view) in answered {
        for (other, count) in view {
            for call in 0..*count {
                moments.entry((*other, call)).or_insert_with(&mut tick);
            }
        }
        returned.insert((caller, at), tick());
    }
    let mut calls = Vec::new();
    for (caller, page) in &pages {
        for (at, line) in page.iter().enumerate() {
            let answer = (line.answer.as_ref()).map(|(reply, _)| {
                (
                    returned[&(*caller, at)],
                    names.replies.value(*reply).clone(),
                )
            });
            calls.push(Call {
                op: names.ops.value(line.op).clone(),
                invoked: moments[&(*caller, at)],
                answer,
                own: Some(*caller),
            });
        }
    }
    let callers = pages.keys().last().map_or(0, |last| last + 1);
    History::new(calls, callers, 0, |_| false)
}

impl<M: Model, O> fmt::Debug for Enforced<M, O> {
    fn fmt(&self, f: &mut fmt::Formatter<'_>) -> fmt::Result {
        f.debug_struct("Enforced").finish_non_exhaustive()
    }
}

impl<M: Model, O> fmt::Debug for EnforcedCaller<M, O> {
    fn fmt(&self, f: &mut fmt::Formatter<'_>) -> fmt::Result {
        f.debug_struct("EnforcedCaller")
            .field("halted", &self.judge.is_none())
            .finish_non_exhaustive()
    }
}
