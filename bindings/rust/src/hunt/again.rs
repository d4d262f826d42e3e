use super::script::Script;
use crate::kind::Kind;
use crate::schedule::legs::Leg;
use std::error::Error;
use std::fmt;
use std::str::FromStr;

/// Which run of a hunt is to come again: one by its number, or a small one, by the calls that are
/// left of its script and by its schedule. It is displayed and read as text: `412`, or `412 calls
/// 0.1 2.0 turns 1*1 2*5 1*9`.
#[derive(Clone, Debug, PartialEq, Eq)]
pub struct Again {
    pub(crate) run: u64,
    pub(crate) small: Option<SmallRun>,
}

#[derive(Clone, Debug, PartialEq, Eq)]
pub(crate) struct SmallRun {
    // caller and call, as they are drawn
    pub(crate) calls: Vec<(usize, usize)>,
    pub(crate) legs: Vec<Leg>,
}

impl SmallRun {
    pub(crate) fn new<K: Kind>(script: &Script<K>, legs: Vec<Leg>) -> SmallRun {
        let calls = (script.callers.iter().enumerate())
            .flat_map(|(caller, calls)| calls.iter().map(move |(number, _)| (caller, *number)))
            .collect();
        SmallRun { calls, legs }
    }

    /// What is left of the script.
    pub(crate) fn of<K: Kind>(&self, script: &Script<K>) -> Script<K> {
        let mut script = script.clone();
        for (caller, calls) in script.callers.iter_mut().enumerate() {
            calls.retain(|(number, _)| self.calls.contains(&(caller, *number)));
        }
        script
    }
}

impl fmt::Display for Again {
    fn fmt(&self, f: &mut fmt::Formatter<'_>) -> fmt::Result {
        write!(f, "{}", self.run)?;
        if let Some(small) = &self.small {
            f.write_str(" calls")?;
            for (caller, call) in &small.calls {
                write!(f, " {caller}.{call}")?;
            }
            f.write_str(" turns")?;
            for leg in &small.legs {
                write!(f, " {}*{}", leg.thread, leg.turns)?;
            }
        }
        Ok(())
    }
}

/// The text doesn't say which run is to come again.
#[derive(Clone, Debug, PartialEq, Eq)]
pub struct NoRun(String);

impl fmt::Display for NoRun {
    fn fmt(&self, f: &mut fmt::Formatter<'_>) -> fmt::Result {
        write!(
            f,
            "no run is named by '{}', as '412' or '412 calls 0.1 2.0 turns 1*1 2*5' does",
            self.0
        )
    }
}

impl Error for NoRun {}

fn pair<A: FromStr, B: FromStr>(word: &str, between: char) -> Option<(A, B)> {
    let (first, second) = word.split_once(between)?;
    Some((first.parse().ok()?, second.parse().ok()?))
}

fn read(text: &str) -> Option<Again> {
    let mut words = text.split_whitespace().peekable();
    let run = words.next()?.parse().ok()?;
    if words.peek().is_none() {
        return Some(Again { run, small: None });
    }
    let (mut calls, mut legs) = (Vec::new(), Vec::new());
    (words.next()? == "calls").then_some(())?;
    while let Some(word) = words.next_if(|it| *it != "turns") {
        calls.push(pair(word, '.')?);
    }
    words.next()?;
    for word in words {
        let (thread, turns) = pair(word, '*')?;
        legs.push(Leg { thread, turns });
    }
    let small = Some(SmallRun { calls, legs });
    Some(Again { run, small })
}

impl FromStr for Again {
    type Err = NoRun;

    fn from_str(text: &str) -> Result<Again, NoRun> {
        read(text).ok_or_else(|| NoRun(text.to_owned()))
    }
}

impl From<u64> for Again {
    fn from(run: u64) -> Again {
        Again { run, small: None }
    }
}
