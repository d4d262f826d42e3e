use super::{Model, ModelError, Order};
use crate::history::Pages;
use crate::library::{ModelAnswer, ModelCheck, ModelFault, Told};
use std::collections::{BTreeMap, HashMap};
use std::fmt::{self, Debug, Write};
use std::hash::Hash;
use std::sync::{Mutex, PoisonError};

/// How many steps of a check that counts them are made at once.
const PORTION: u64 = 16;

/// Values with their numbers, from 0 on.
#[derive(Debug)]
pub(crate) struct Numbered<T> {
    numbers: HashMap<T, u32>,
    values: Vec<T>,
}

impl<T: Clone + Eq + Hash> Numbered<T> {
    pub(crate) fn new() -> Numbered<T> {
        Numbered {
            numbers: HashMap::new(),
            values: Vec::new(),
        }
    }

    pub(crate) fn number(&mut self, value: &T) -> u32 {
        if let Some(number) = self.numbers.get(value) {
            return *number;
        }
        let number = u32::try_from(self.values.len()).expect("so many values need more memory");
        self.values.push(value.clone());
        self.numbers.insert(value.clone(), number);
        number
    }

    pub(crate) fn value(&self, number: u32) -> &T {
        &self.values[number as usize]
    }
}

impl<T: Debug> Numbered<T> {
    fn text(&self, number: u32) -> String {
        format!("{:?}", self.values[number as usize])
    }

    fn lines(&self, what: &str) -> String {
        let line = |(number, value)| format!("{what} {number} {value:?}\n");
        self.values.iter().enumerate().map(line).collect()
    }
}

/// Operations and replies with their numbers.
#[derive(Debug)]
pub(crate) struct Names<M: Model> {
    pub(crate) ops: Numbered<M::Op>,
    pub(crate) replies: Numbered<M::Reply>,
}

impl<M: Model> Names<M> {
    pub(crate) fn new() -> Names<M> {
        Names {
            ops: Numbered::new(),
            replies: Numbered::new(),
        }
    }
}

/// What has names: one check has its own, and all callers of a table share theirs, under a lock.
pub(crate) trait Naming<M: Model> {
    fn with<T>(&mut self, act: impl FnOnce(&mut Names<M>) -> T) -> T;
}

impl<M: Model> Naming<M> for Names<M> {
    fn with<T>(&mut self, act: impl FnOnce(&mut Names<M>) -> T) -> T {
        act(self)
    }
}

impl<M: Model> Naming<M> for &Mutex<Names<M>> {
    fn with<T>(&mut self, act: impl FnOnce(&mut Names<M>) -> T) -> T {
        // where a `Hash` or an `Eq` panics, no number is given
        act(&mut self.lock().unwrap_or_else(PoisonError::into_inner))
    }
}

/// What was told of a model, to one check or to one caller: its states have numbers of their own.
#[derive(Debug)]
pub(crate) struct Taught<M: Model> {
    states: Numbered<M::State>,
    // at a state and an operation the next state and the reply
    told: BTreeMap<(u32, u32), (u32, u32)>,
    // whether it is promised that an operation with a reply changes no state
    promises: BTreeMap<(u32, u32), bool>,
}

impl From<ModelFault> for ModelError {
    fn from(fault: ModelFault) -> ModelError {
        match fault {
            ModelFault::NoMemory => ModelError::NoMemory,
            fault => unreachable!("{fault:?} is only said of a step that is told"),
        }
    }
}

impl<M: Model> Taught<M> {
    pub(crate) fn new(model: &M) -> Taught<M> {
        let mut states = Numbered::new();
        states.number(&model.initial());
        Taught {
            states,
            told: BTreeMap::new(),
            promises: BTreeMap::new(),
        }
    }

    /// Makes the model's promise of the operation with this reply, if it has one, once.
    pub(crate) fn promise(
        &mut self,
        model: &M,
        to: &mut impl Told,
        (op, op_value): (u32, &M::Op),
        (reply, reply_value): (u32, &M::Reply),
    ) -> Result<(), ModelFault> {
        if self.promises.contains_key(&(op, reply)) {
            return Ok(());
        }
        let leaves = model.leaves(op_value, reply_value);
        self.promises.insert((op, reply), leaves);
        if leaves {
            to.leaves(op, reply)?;
        }
        Ok(())
    }

    /// Asks the model for the step, and tells it. Names are locked at no call of the model.
    pub(crate) fn tell(
        &mut self,
        model: &M,
        names: &mut impl Naming<M>,
        to: &mut impl Told,
        (state, op): (u32, u32),
    ) -> Result<(), ModelError> {
        let op_value = names.with(|names| names.ops.value(op).clone());
        let (next, reply_value) = model.step(self.states.value(state), &op_value);
        let reply = names.with(|names| names.replies.number(&reply_value));
        let step = (self.states.number(&next), reply);
        self.promise(model, to, (op, &op_value), (reply, &reply_value))?;
        match to.tell(state, op, step.0, step.1) {
            Ok(()) => {
                self.told.insert((state, op), step);
                Ok(())
            }
            Err(ModelFault::NoMemory) => Err(ModelError::NoMemory),
            Err(ModelFault::Contradicts | ModelFault::LeavesNot) => {
                Err(self.refused(names, (state, op), step))
            }
        }
    }

    fn refused(
        &self,
        names: &mut impl Naming<M>,
        (state, op): (u32, u32),
        (next, reply): (u32, u32),
    ) -> ModelError {
        let first = self.told.get(&(state, op)).copied();
        names.with(|names| {
            let reply_of = |reply| names.replies.value(reply);
            let pair = |(next, reply)| format!("{:?}", (self.states.value(next), reply_of(reply)));
            let (state, op) = (self.states.text(state), names.ops.text(op));
            match first {
                Some(first) => ModelError::Contradicts {
                    state,
                    op,
                    first: pair(first),
                    second: pair((next, reply)),
                },
                None => ModelError::LeavesNot {
                    state,
                    op,
                    reply: names.replies.text(reply),
                    next: self.states.text(next),
                },
            }
        })
    }

    /// The steps as the text of a model has them after a book: promises and then steps, by their
    /// numbers, which rise.
    pub(crate) fn text(&self) -> String {
        let mut text = String::from("steps 2\n");
        let mut line = |line: fmt::Arguments| {
            text.write_fmt(line).expect("a string takes any line");
        };
        for ((op, reply), _) in self.promises.iter().filter(|(_, is_made)| **is_made) {
            line(format_args!("leaves op {op} ={reply}\n"));
        }
        for ((state, op), (next, reply)) in &self.told {
            line(format_args!("{state} op {op} {next} ={reply}\n"));
        }
        line(format_args!("end\n"));
        text
    }
}

/// The dialogue of a check with a model.
pub(crate) struct Dialogue<'a, M: Model> {
    model: &'a M,
    pages: &'a Pages<M::Op, M::Reply>,
    check: ModelCheck,
    names: Names<M>,
    taught: Taught<M>,
}

impl<'a, M: Model> Dialogue<'a, M> {
    /// Of the calls of 1 to 16 callers. The calls of each are one after another.
    pub(crate) fn new(model: &'a M, pages: &'a Pages<M::Op, M::Reply>) -> Result<Self, ModelError> {
        let mut dialogue = Dialogue {
            model,
            pages,
            check: ModelCheck::open(pages.len() as u32)?,
            names: Names::new(),
            taught: Taught::new(model),
        };
        dialogue.take_calls()?;
        Ok(dialogue)
    }

    // Calls begin and end in the order of their moments.
    fn take_calls(&mut self) -> Result<(), ModelError> {
        let mut events = Vec::new();
        for (caller, calls) in self.pages.iter().enumerate() {
            for call in calls {
                events.push((call.invoked, caller as u32, &call.op, None));
                if let Some((returned, reply)) = &call.answer {
                    events.push((*returned, caller as u32, &call.op, Some(reply)));
                }
            }
        }
        events.sort_unstable_by_key(|(moment, ..)| *moment);
        for (_, caller, op, reply) in events {
            let number = self.names.ops.number(op);
            let Some(reply) = reply else {
                self.check.begin(caller, number)?;
                continue;
            };
            let said = self.names.replies.number(reply);
            self.check.end(caller, said)?;
            let (op, reply) = ((number, op), (said, reply));
            (self.taught).promise(self.model, &mut self.check, op, reply)?;
        }
        Ok(())
    }

    /// Whether the calls have a legal order; `None` where that takes more steps.
    pub(crate) fn judge(&mut self, steps: Option<u64>) -> Result<Option<bool>, ModelError> {
        let portion = steps.map_or(u64::MAX, |_| PORTION);
        let mut left = steps.unwrap_or(u64::MAX);
        while left > 0 {
            let part = portion.min(left);
            match self.check.next(part)? {
                ModelAnswer::Legal => return Ok(Some(true)),
                ModelAnswer::Illegal => return Ok(Some(false)),
                ModelAnswer::Asks { state, op } => self.tell(state, op)?,
                ModelAnswer::Paused => {}
            }
            if steps.is_some() {
                left -= part;
            }
        }
        Ok(None)
    }

    fn tell(&mut self, state: u32, op: u32) -> Result<(), ModelError> {
        let (names, check) = (&mut self.names, &mut self.check);
        self.taught.tell(self.model, names, check, (state, op))
    }

    /// Asks the model again for each step that was told.
    pub(crate) fn tell_again(&mut self) -> Result<(), ModelError> {
        let told: Vec<_> = self.taught.told.keys().copied().collect();
        told.into_iter()
            .try_for_each(|(state, op)| self.tell(state, op))
    }

    /// The calls and the steps that the model was asked for, as a text, and what its numbers mean.
    pub(crate) fn evidence(&mut self) -> Result<(String, String), ModelError> {
        let mut names = self.names.ops.lines("op");
        names += &self.names.replies.lines("reply");
        names += &self.taught.states.lines("state");
        Ok((self.check.evidence()?, names))
    }

    /// The legal order, where the calls are judged to have one.
    pub(crate) fn order(&mut self) -> Result<Order<M::Op, M::Reply>, ModelError> {
        let calls = self.pages.iter().map(Vec::len).sum();
        let mut state = 0;
        let placed = self.check.order(calls)?.into_iter().map(|at| {
            let call = &self.pages[at.caller as usize][at.number as usize];
            // a legal order's steps are all told
            let (next, reply) = self.taught.told[&(state, self.names.ops.numbers[&call.op])];
            state = next;
            (
                call.invoked,
                call.op.clone(),
                self.names.replies.value(reply).clone(),
            )
        });
        Ok(placed.collect())
    }
}
