use super::scripted::{Effect, Scripted};
use super::settings::{Rule, Settings};
use super::values::Values;
use crate::kind::Kind;
use crate::schedule::draw::Draw;
use std::fmt;

/// What each caller of a run calls.
#[derive(Clone, Debug)]
pub struct Script<K: Kind> {
    // with the number that the call has in the script that was drawn
    pub(crate) callers: Vec<Vec<(usize, K::Op)>>,
}

impl<K: Scripted> Script<K> {
    /// The script of a run, and what is drawn after it.
    pub(crate) fn drawn(settings: &Settings<K>, run: u64) -> (Script<K>, Draw) {
        let draw = Draw::of_run(settings.seed, run);
        let all = settings.callers * settings.calls;
        let mut values = Values::new(draw, settings.values, settings.keys, all);
        let callers = (0..settings.callers)
            .map(|caller| calls_of(settings, caller, &mut values))
            .collect();
        (Script { callers }, values.draw)
    }
}

// The calls of one caller.
fn calls_of<K: Scripted>(
    settings: &Settings<K>,
    caller: usize,
    values: &mut Values,
) -> Vec<(usize, K::Op)> {
    let mut inside = 0;
    let (role, calls) = role_of(settings, caller);
    (0..calls)
        .map(|number| {
            let which = operation(settings, role, inside, &mut values.draw);
            match K::EFFECTS[which] {
                Effect::Puts => inside += 1,
                Effect::Takes if inside > 0 => inside -= 1,
                _ => {}
            }
            (number, K::operation(which, values))
        })
        .collect()
}

// What alone a caller does, where it does one thing alone, and how many calls it has.
fn role_of<K: Scripted>(settings: &Settings<K>, caller: usize) -> (Option<Effect>, usize) {
    if settings.rule != Rule::Apart {
        return (None, settings.calls);
    }
    let consumers = settings.callers / 2;
    let producers = settings.callers - consumers;
    if caller >= producers {
        return (Some(Effect::Takes), settings.calls);
    }
    let all = settings.calls * consumers;
    let more = usize::from(caller < all % producers);
    (Some(Effect::Puts), all / producers + more)
}

// The number of an operation by its weight, of those that the rule allows to a caller that has so
// many values in.
fn operation<K: Scripted>(
    settings: &Settings<K>,
    role: Option<Effect>,
    inside: usize,
    draw: &mut Draw,
) -> usize {
    let is_allowed = |effect| match (settings.rule, effect) {
        (Rule::MorePuts(most), Effect::Puts) => inside < most,
        (Rule::MorePuts(_), Effect::Takes) => inside > 0,
        _ => role.is_none_or(|role| role == effect),
    };
    let allowed = || {
        (K::EFFECTS.iter().zip(&settings.weights).enumerate())
            .filter(|(_, (effect, _))| is_allowed(**effect))
            .map(|(number, (_, weight))| (number, u64::from(*weight)))
    };
    let mut place = draw.below(allowed().map(|(_, weight)| weight).sum());
    for (number, weight) in allowed() {
        if place < weight {
            return number;
        }
        place -= weight;
    }
    unreachable!("the place is below the sum of the weights")
}

impl<K: Kind> Script<K> {
    /// How many calls it has.
    #[must_use]
    pub fn calls(&self) -> usize {
        self.callers.iter().map(Vec::len).sum()
    }

    /// The operations of each caller.
    pub fn callers(&self) -> impl Iterator<Item = impl Iterator<Item = K::Op> + '_> + '_ {
        self.callers
            .iter()
            .map(|calls| calls.iter().map(|(_, op)| *op))
    }

    /// The callers and calls that go where this one goes: it alone, or with one by which the rule
    /// still holds.
    pub(crate) fn removed_with(
        &self,
        rule: Rule,
        (caller, call): (usize, usize),
    ) -> Vec<Vec<(usize, usize)>> {
        match rule {
            Rule::Free => vec![vec![(caller, call)]],
            // a put and the take after it, or a last put
            Rule::MorePuts(_) if call + 1 == self.callers[caller].len() => {
                vec![vec![(caller, call)]]
            }
            Rule::MorePuts(_) => vec![vec![(caller, call), (caller, call + 1)]],
            Rule::Apart => {
                let consumers = self.callers.len() / 2;
                let producers = self.callers.len() - consumers;
                let others = if caller < producers {
                    producers..self.callers.len()
                } else {
                    0..producers
                };
                (others.filter(|it| !self.callers[*it].is_empty()))
                    .map(|it| vec![(caller, call), (it, self.callers[it].len() - 1)])
                    .collect()
            }
        }
    }

    /// Without these calls.
    pub(crate) fn without(&self, removed: &[(usize, usize)]) -> Script<K> {
        let callers = (self.callers.iter().enumerate())
            .map(|(caller, calls)| {
                (calls.iter().enumerate())
                    .filter(|(call, _)| !removed.contains(&(caller, *call)))
                    .map(|(_, it)| *it)
                    .collect()
            })
            .collect();
        Script { callers }
    }
}

/// A line for each caller.
impl<K: Kind> fmt::Display for Script<K> {
    fn fmt(&self, f: &mut fmt::Formatter<'_>) -> fmt::Result {
        for (caller, calls) in self.callers.iter().enumerate() {
            write!(f, "caller {caller}:")?;
            for (place, (_, op)) in calls.iter().enumerate() {
                write!(f, "{} {op}", if place == 0 { "" } else { "," })?;
            }
            writeln!(f)?;
        }
        Ok(())
    }
}
