//! Makes a finding small: fewer calls, and fewer switches from thread to thread.

use super::hunter::Hunter;
use super::script::Script;
use super::scripted::Scripted;
use super::trial::{Found, Trial};
use crate::fault::Fault;
use crate::schedule::Who;
use crate::schedule::chooser::Chooser;
use crate::schedule::draw::Draw;
use crate::schedule::legs::{Leg, Turn, joined, legs_of};

// How many runs, and how many turns in all, are spent on one finding.
const RUNS: usize = 3000;
const TURNS: usize = 600_000;
// Further schedules for a script with one call fewer, and for one schedule with fewer switches.
const OTHERS: u64 = 8;
const FEWER: u64 = 400;
// Of how many turns at the most legs are tried that are made of two.
const MOST_TURNS: u32 = 40;

struct Shrinking<'a, 'b, K: Scripted> {
    hunter: &'a Hunter<'b, K>,
    wanted: Found,
    best: Trial<K>,
    runs: usize,
    turns: usize,
}

// What is made less: switches first.
fn size<K: Scripted>(trial: &Trial<K>) -> (usize, usize, usize) {
    let legs = legs_of(trial.ran.turns.iter().map(|it| it.thread)).len();
    (trial.ran.switches, legs, trial.ran.turns.len())
}

/// A run that is wrong in the same way, with fewer calls and switches as far as they are found.
pub(crate) fn smaller<K: Scripted>(
    hunter: &Hunter<'_, K>,
    found: &Trial<K>,
) -> Result<Trial<K>, Fault> {
    let Some(wanted) = found.found.clone() else {
        return Ok(found.clone());
    };
    let mut shrinking = Shrinking {
        hunter,
        wanted,
        best: found.clone(),
        runs: RUNS,
        turns: TURNS,
    };
    loop {
        let before = (shrinking.best.script.calls(), size(&shrinking.best));
        shrinking.remove_calls()?;
        shrinking.join_legs()?;
        shrinking.try_fewer_switches()?;
        if (shrinking.best.script.calls(), size(&shrinking.best)) == before {
            return Ok(shrinking.best);
        }
    }
}

impl<K: Scripted> Shrinking<'_, '_, K> {
    // A run with this schedule, where it is wrong as wanted.
    fn wrong(&mut self, script: &Script<K>, chooser: Chooser) -> Result<Option<Trial<K>>, Fault> {
        if self.runs == 0 || self.turns == 0 {
            return Ok(None);
        }
        let trial = self.hunter.trial(script, chooser)?;
        self.runs -= 1;
        self.turns = self.turns.saturating_sub(trial.ran.turns.len());
        let is_wrong = (trial.found.as_ref()).is_some_and(|it| it.is_like(&self.wanted));
        Ok(is_wrong.then_some(trial))
    }

    fn remove_calls(&mut self) -> Result<(), Fault> {
        for caller in (0..self.best.script.callers.len()).rev() {
            for call in (0..self.best.script.callers[caller].len()).rev() {
                if call >= self.best.script.callers[caller].len() {
                    continue;
                }
                let rule = self.hunter.settings.rule;
                for removed in self.best.script.removed_with(rule, (caller, call)) {
                    if self.removes(&removed)? {
                        break;
                    }
                }
            }
        }
        Ok(())
    }

    // Whether the script without these calls is wrong too, by what is left of the schedule, or by
    // others.
    fn removes(&mut self, removed: &[(usize, usize)]) -> Result<bool, Fault> {
        let script = self.best.script.without(removed);
        let ran = &self.best.ran;
        let is_left = |turn: &&Turn| match (&ran.threads[turn.thread], turn.call) {
            (Who::Caller(caller), Some(call)) => !removed.contains(&(*caller, call)),
            _ => true,
        };
        let legs = legs_of(ran.turns.iter().filter(is_left).map(|it| it.thread));
        let turns = ran.turns.len();
        let mut trial = self.wrong(&script, Chooser::written(legs))?;
        for other in 0..OTHERS {
            if trial.is_none() {
                let draw = Draw::of_run(other, turns as u64);
                trial = self.wrong(&script, Chooser::priorities(draw, 2, turns))?;
            }
        }
        Ok(match trial {
            Some(trial) => {
                self.best = trial;
                true
            }
            None => false,
        })
    }

    fn legs(&self) -> Vec<Leg> {
        legs_of(self.best.ran.turns.iter().map(|it| it.thread))
    }

    // Whether the schedule is wrong too, and less; then it is the best.
    fn try_legs(&mut self, legs: Vec<Leg>) -> Result<bool, Fault> {
        let script = self.best.script.clone();
        let trial = self.wrong(&script, Chooser::written(legs))?;
        Ok(self.takes(trial))
    }

    fn takes(&mut self, trial: Option<Trial<K>>) -> bool {
        match trial {
            Some(trial) if size(&trial) < size(&self.best) => {
                self.best = trial;
                true
            }
            _ => false,
        }
    }

    fn join_legs(&mut self) -> Result<(), Fault> {
        let mut place = 0;
        while place < self.legs().len() {
            let mut less = false;
            for legs in shorter(&self.legs(), place) {
                less = less || self.try_legs(legs)?;
            }
            if !less {
                place += 1;
            }
        }
        Ok(())
    }

    // Some schedules with so few points that they have fewer switches.
    fn try_fewer_switches(&mut self) -> Result<(), Fault> {
        for number in 0..FEWER {
            let switches = self.best.ran.switches;
            if switches <= 1 {
                return Ok(());
            }
            let draw = Draw::of_run(number, 1);
            let points = 1 + (number as usize % 2).min(switches - 2);
            let turns = self.best.ran.turns.len();
            let script = self.best.script.clone();
            let trial = self.wrong(&script, Chooser::priorities(draw, points, turns))?;
            self.takes(trial);
        }
        self.join_legs()
    }
}

// Schedules that have one leg fewer at this place: it is made with the thread's next one, or with
// its last one, for as many turns or fewer, since the steps may be others then; or it takes the
// thread as far as it goes; or nothing is said from it on.
fn shorter(legs: &[Leg], place: usize) -> Vec<Vec<Leg>> {
    let leg = legs[place];
    let is_its = |it: &usize| legs[*it].thread == leg.thread;
    let later = (place + 1..legs.len()).find(is_its);
    let sooner = (0..place).rev().find(is_its);
    let mut all = Vec::new();
    for with in [later, sooner].into_iter().flatten() {
        let most = leg.turns.saturating_add(legs[with].turns);
        for turns in (1..=most.min(MOST_TURNS)).rev() {
            let one = |(at, it): (usize, &Leg)| match at {
                at if at == place => None,
                at if at == with => Some(Leg { turns, ..leg }),
                _ => Some(*it),
            };
            all.push(joined(legs.iter().enumerate().filter_map(one)));
        }
    }
    let mut far = legs.to_vec();
    far[place].turns = u32::MAX;
    all.push(far);
    all.push(legs[..place].to_vec());
    all
}
