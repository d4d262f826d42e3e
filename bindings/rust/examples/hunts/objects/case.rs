use selfcheck::hunt::{Found, Settings, hunt, replay};
use selfcheck::{Kind, Reply};
use std::time::{Duration, Instant};

/// An object that is wrong, and its right form.
pub struct Case {
    pub name: &'static str,
    /// What may be found of the wrong one first.
    pub wanted: &'static [&'static str],
    /// Hunts with this seed, for so many runs and no longer than this time.
    pub wrong: fn(u64, u64, Duration) -> Outcome,
    pub right: fn(u64, u64, Duration) -> Outcome,
}

impl Case {
    /// Whether a hunt has found what is wrong.
    pub fn is_found(&self, outcome: &Outcome) -> bool {
        (outcome.found.as_deref()).is_some_and(|it| self.wanted.contains(&it))
    }
}

/// What became of a hunt.
#[derive(Clone, Debug, Default, PartialEq)]
pub struct Outcome {
    pub found: Option<String>,
    pub runs: u64,
    pub turns: u64,
    pub time: Duration,
    /// It came again by its seed, and its small run by its line.
    pub repeats: bool,
    pub calls: usize,
    pub switches: usize,
    pub told: String,
}

/// Hunts, and has what is found come again.
pub fn hunted<K, O>(
    settings: &Settings<K>,
    make: impl Fn() -> O + Send + Sync + Clone + 'static,
    call: impl Fn(&O, K::Op) -> Reply + Send + Sync + Clone + 'static,
) -> Outcome
where
    K: selfcheck::hunt::Scripted,
    O: Send + Sync + 'static,
{
    let began = Instant::now();
    let hunted = hunt(settings, make.clone(), call.clone()).expect("the hunt is made");
    let mut outcome = Outcome {
        runs: hunted.runs(),
        turns: hunted.turns(),
        time: began.elapsed(),
        told: hunted.to_string(),
        ..Outcome::default()
    };
    if let Some(finding) = hunted.finding() {
        let small = finding.small();
        let again =
            replay(settings, &finding.again().to_string(), make, call).expect("it runs again");
        outcome.found = Some(name_of(finding.found()).to_owned());
        outcome.repeats = finding.repeats()
            && again.ran() == small.ran()
            && text(again.book()) == text(small.book());
        outcome.calls = small.script().calls();
        outcome.switches = small.ran().switches();
    }
    outcome
}

fn text<K: Kind>(book: Option<&selfcheck::Book<K>>) -> Option<String> {
    book.map(|it| it.as_str().to_owned())
}

fn name_of(found: &Found) -> &'static str {
    match found {
        Found::Illegal => "illegal",
        Found::Ended(ending) => ending.name(),
    }
}

// The settings, and how both forms are made.
macro_rules! case {
    ($name:ident $($wanted:ident)|+, $settings:expr, $wrong:expr, $right:expr) => {
        $crate::objects::Case {
            name: stringify!($name),
            wanted: &[$(stringify!($wanted)),+],
            wrong: |seed, runs, time| {
                let settings = $settings.seed(seed).runs(runs).time(time);
                $crate::objects::case::hunted(&settings, $wrong, |object, op| op.call_on(object))
            },
            right: |seed, runs, time| {
                let settings = $settings.seed(seed).runs(runs).time(time);
                $crate::objects::case::hunted(&settings, $right, |object, op| op.call_on(object))
            },
        }
    };
}

pub(crate) use case;
