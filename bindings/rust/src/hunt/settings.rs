use super::scripted::{Effect, Scripted};
use crate::recorder::{MAX_CALLERS, MAX_CALLS};
use crate::schedule;
use std::error::Error;
use std::fmt;
use std::marker::PhantomData;
use std::path::{Path, PathBuf};
use std::time::Duration;

/// What a hunt does: its scripts, its schedules, and when it ends.
///
/// ```
/// use selfcheck::Queue;
/// use selfcheck::hunt::Settings;
/// use std::time::Duration;
///
/// let settings = Settings::<Queue>::new().callers(2).seed(17).time(Duration::from_secs(2));
/// assert_eq!(settings.to_string(), "Settings::<Queue>::new().callers(2).calls(6).seed(17)");
/// ```
#[derive(Clone, Debug, PartialEq)]
pub struct Settings<K> {
    pub(crate) callers: usize,
    pub(crate) calls: usize,
    pub(crate) seed: u64,
    pub(crate) weights: Vec<u32>,
    pub(crate) values: Option<u32>,
    pub(crate) keys: u32,
    pub(crate) rule: Rule,
    pub(crate) runs: Option<u64>,
    pub(crate) time: Option<Duration>,
    pub(crate) strategy: Strategy,
    pub(crate) points: usize,
    pub(crate) steps: usize,
    pub(crate) patience: Duration,
    pub(crate) after_panics: bool,
    pub(crate) real_threads: bool,
    pub(crate) new_threads: bool,
    pub(crate) folder: Option<PathBuf>,
    kind: PhantomData<K>,
}

/// How schedules are made.
#[derive(Clone, Copy, Debug, PartialEq, Eq, Hash)]
pub enum Strategy {
    /// Each run takes one of the others, by its seed.
    Both,
    /// A random walk: at each step another thread may go on.
    Walk,
    /// Priorities that change at a few points (Burckhardt and others 2010).
    Priorities,
}

/// Which scripts objects are given whose calls wait.
#[derive(Clone, Copy, Debug, PartialEq, Eq)]
pub(crate) enum Rule {
    Free,
    /// Each caller has put in as many as it takes, and at most so many more.
    MorePuts(usize),
    /// Some callers put, and the others take as many.
    Apart,
}

/// How many runs a hunt makes where neither runs nor time are said.
const RUNS: u64 = 10_000;

impl<K: Scripted> Default for Settings<K> {
    fn default() -> Settings<K> {
        Settings::new()
    }
}

impl<K: Scripted> Settings<K> {
    /// Three callers with six calls each, each operation as often as each other one, in 10,000 runs
    /// under schedules of both kinds, of seed 0.
    #[must_use]
    pub fn new() -> Settings<K> {
        Settings {
            callers: 3,
            calls: 6,
            seed: 0,
            weights: vec![1; K::EFFECTS.len()],
            values: K::VALUES,
            keys: 3,
            rule: Rule::Free,
            runs: None,
            time: None,
            strategy: Strategy::Both,
            points: 6,
            steps: schedule::STEPS,
            patience: schedule::PATIENCE,
            after_panics: false,
            real_threads: false,
            new_threads: false,
            folder: None,
            kind: PhantomData,
        }
    }

    /// How many callers there are: 1 to [`MAX_CALLERS`].
    #[must_use]
    pub fn callers(mut self, callers: usize) -> Self {
        self.callers = callers;
        self
    }

    /// How many calls each of them makes: 1 to [`MAX_CALLS`].
    #[must_use]
    pub fn calls(mut self, calls: usize) -> Self {
        self.calls = calls;
        self
    }

    /// By which scripts and schedules are drawn.
    #[must_use]
    pub fn seed(mut self, seed: u64) -> Self {
        self.seed = seed;
        self
    }

    /// How often each operation comes, in the order of the kind's operations: a number for each,
    /// not all 0.
    #[must_use]
    pub fn weights(mut self, weights: &[u32]) -> Self {
        self.weights = weights.to_vec();
        self
    }

    /// How many different values there are, from 1 on. Queues, stacks, priority queues, registers
    /// and maps have all values different where this isn't said, and others three.
    #[must_use]
    pub fn values(mut self, values: u32) -> Self {
        self.values = Some(values);
        self
    }

    /// How many keys a map has, from 1 on; three where this isn't said.
    #[must_use]
    pub fn keys(mut self, keys: u32) -> Self {
        self.keys = keys;
        self
    }

    /// For objects of which a call waits where they are full: each caller takes no more than it has
    /// put in, and at most so many fewer. With a capacity of at least so many for each caller
    /// nothing waits for ever. With 1 a caller puts and takes in turn.
    #[must_use]
    pub fn at_most_more_puts(mut self, most: usize) -> Self {
        self.rule = Rule::MorePuts(most);
        self
    }

    /// For objects of which calls wait where they are full or empty: half of the callers take, as
    /// many calls as are said for each, and the others put as many in all. So nothing waits for
    /// ever.
    #[must_use]
    pub fn producers_and_consumers(mut self) -> Self {
        self.rule = Rule::Apart;
        self
    }

    /// How many runs there are at the most.
    #[must_use]
    pub fn runs(mut self, runs: u64) -> Self {
        self.runs = Some(runs);
        self
    }

    /// After which time no run begins. Where runs are said too, the hunt ends by what comes first.
    #[must_use]
    pub fn time(mut self, time: Duration) -> Self {
        self.time = Some(time);
        self
    }

    /// How schedules are made.
    #[must_use]
    pub fn strategy(mut self, strategy: Strategy) -> Self {
        self.strategy = strategy;
        self
    }

    /// At how many points at the most priorities change: each run has one to so many.
    #[must_use]
    pub fn change_points(mut self, points: usize) -> Self {
        self.points = points;
        self
    }

    /// How many steps a run has at the most; with more it is a livelock, or has no end.
    #[must_use]
    pub fn most_steps(mut self, steps: usize) -> Self {
        self.steps = steps;
        self
    }

    /// How long a thread may make no step before it is told as stuck.
    #[must_use]
    pub fn patience(mut self, patience: Duration) -> Self {
        self.patience = patience;
        self
    }

    /// The hunt goes on after a panic. Of several panics at one place of the code the first is
    /// told.
    #[must_use]
    pub fn after_panics(mut self) -> Self {
        self.after_panics = true;
        self
    }

    /// Runs on real threads, for objects that don't use the types of
    /// [`schedule`](mod@crate::schedule). No run comes again by its seed then, but its script does.
    #[must_use]
    pub fn real_threads(mut self) -> Self {
        self.real_threads = true;
        self
    }

    /// Each run has new threads, for objects with thread-local values. Otherwise threads are kept from
    /// run to run, which takes less time.
    #[must_use]
    pub fn new_threads(mut self) -> Self {
        self.new_threads = true;
        self
    }

    /// Where each finding has a folder of its own, and a file has the run that has begun, with its
    /// script. That stays where the process ends in the run, as by an abort.
    #[must_use]
    pub fn folder(mut self, folder: impl AsRef<Path>) -> Self {
        self.folder = Some(folder.as_ref().to_owned());
        self
    }

    pub(crate) fn most_runs(&self) -> u64 {
        match (self.runs, self.time) {
            (Some(runs), _) => runs,
            (None, Some(_)) => u64::MAX,
            (None, None) => RUNS,
        }
    }

    pub(crate) fn check(&self) -> Result<(), SettingError> {
        is_in("callers", self.callers as u64, 1, MAX_CALLERS as u64)?;
        is_in("calls", self.calls as u64, 1, MAX_CALLS as u64)?;
        is_in("values", self.values.unwrap_or(1).into(), 1, u64::MAX)?;
        is_in("keys", self.keys.into(), 1, u64::MAX)?;
        is_in("runs", self.runs.unwrap_or(1), 1, u64::MAX)?;
        is_in("change_points", self.points as u64, 1, 1000)?;
        is_in("most_steps", self.steps as u64, 1, 1 << 30)?;
        if self.time.is_some_and(|it| it.is_zero()) {
            return refused("time", 0, "more than 0");
        }
        if self.patience.is_zero() {
            return refused("patience", 0, "more than 0");
        }
        let weights = &self.weights;
        if weights.len() != K::EFFECTS.len() || weights.iter().all(|it| *it == 0) {
            let wanted = format!("{} numbers, not all 0", K::EFFECTS.len());
            return refused("weights", format!("{weights:?}"), &wanted);
        }
        self.check_rule()
    }

    fn check_rule(&self) -> Result<(), SettingError> {
        let rule = match self.rule {
            Rule::Free => return Ok(()),
            Rule::MorePuts(most) => {
                is_in("at_most_more_puts", most as u64, 1, u64::MAX)?;
                "at_most_more_puts"
            }
            Rule::Apart => {
                is_in("callers", self.callers as u64, 2, MAX_CALLERS as u64)?;
                "producers_and_consumers"
            }
        };
        if !K::EFFECTS.contains(&Effect::Puts) {
            return refused(rule, "said", "unsaid for a kind without puts and takes");
        }
        let has = |effect| {
            let mut weighted = K::EFFECTS.iter().zip(&self.weights);
            weighted.any(|(its, weight)| *its == effect && *weight > 0)
        };
        if !has(Effect::Puts) || !has(Effect::Takes) {
            let weights = format!("{:?}", self.weights);
            return refused("weights", weights, "more than 0 for puts and for takes");
        }
        Ok(())
    }
}

fn refused(name: &'static str, given: impl ToString, wanted: &str) -> Result<(), SettingError> {
    Err(SettingError {
        name,
        given: given.to_string(),
        wanted: wanted.to_owned(),
    })
}

fn is_in(name: &'static str, given: u64, least: u64, most: u64) -> Result<(), SettingError> {
    match most {
        _ if (least..=most).contains(&given) => Ok(()),
        u64::MAX => refused(name, given, &format!("at least {least}")),
        most => refused(name, given, &format!("{least} to {most}")),
    }
}

/// As code, with what scripts and schedules are made by.
impl<K: Scripted> fmt::Display for Settings<K> {
    fn fmt(&self, f: &mut fmt::Formatter<'_>) -> fmt::Result {
        let path = std::any::type_name::<K>();
        let kind = path.rsplit("::").next().unwrap_or(path);
        write!(f, "Settings::<{kind}>::new().callers({})", self.callers)?;
        write!(f, ".calls({}).seed({})", self.calls, self.seed)?;
        let usual = Settings::<K>::new();
        if self.weights != usual.weights {
            write!(f, ".weights(&{:?})", self.weights)?;
        }
        if let Some(values) = self.values.filter(|_| self.values != usual.values) {
            write!(f, ".values({values})")?;
        }
        if self.keys != usual.keys {
            write!(f, ".keys({})", self.keys)?;
        }
        match self.rule {
            Rule::Free => {}
            Rule::MorePuts(most) => write!(f, ".at_most_more_puts({most})")?,
            Rule::Apart => f.write_str(".producers_and_consumers()")?,
        }
        if self.strategy != usual.strategy {
            write!(f, ".strategy(Strategy::{:?})", self.strategy)?;
        }
        if self.points != usual.points {
            write!(f, ".change_points({})", self.points)?;
        }
        if self.steps != usual.steps {
            write!(f, ".most_steps({})", self.steps)?;
        }
        if self.real_threads {
            f.write_str(".real_threads()")?;
        }
        if self.new_threads {
            f.write_str(".new_threads()")?;
        }
        Ok(())
    }
}

/// A setting that is out of its bounds.
#[derive(Clone, Debug, PartialEq, Eq)]
pub struct SettingError {
    name: &'static str,
    given: String,
    wanted: String,
}

impl SettingError {
    /// The setting's name.
    #[must_use]
    pub fn name(&self) -> &'static str {
        self.name
    }
}

impl fmt::Display for SettingError {
    fn fmt(&self, f: &mut fmt::Formatter<'_>) -> fmt::Result {
        write!(
            f,
            "the setting {} is {}, and has to be {}",
            self.name, self.given, self.wanted
        )
    }
}

impl Error for SettingError {}
