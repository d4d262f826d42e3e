use super::{FindingOf, Model, ModelError, verify};
use crate::history::History;
use crate::hunt::Found;
use crate::hunt::finding::write_steps;
use crate::hunt::trial::{lives, main_of};
use crate::recorder::{Caller, Recorder};
use crate::schedule::draw::Draw;
use crate::schedule::pool::Job;
use crate::schedule::{self, Ending, Ran};
use std::fmt;
use std::sync::Arc;

/// Which runs a hunt makes over a model. What its callers call has to fit a check: there are
/// [`MAX_CALLERS`](crate::MAX_CALLERS) of them at the most, with
/// [`MAX_CALLS`](crate::MAX_CALLS) calls each.
#[derive(Clone, Copy, Debug, PartialEq, Eq)]
pub struct Runs {
    /// How many callers there are.
    pub callers: usize,
    /// How many calls each of them makes.
    pub calls: usize,
    /// By which scripts and schedules are drawn.
    pub seed: u64,
    /// How many runs there are at the most.
    pub runs: u64,
}

impl Default for Runs {
    /// Three callers with six calls each, in 10,000 runs of seed 0.
    fn default() -> Runs {
        Runs {
            callers: 3,
            calls: 6,
            seed: 0,
            runs: 10_000,
        }
    }
}

/// A wrong run of an object.
#[derive(Clone, Debug)]
pub struct ModelFinding<O, R> {
    seed: u64,
    run: u64,
    found: Found,
    script: Vec<Vec<O>>,
    ran: Ran,
    history: Option<History<O, R>>,
    repeats: bool,
}

impl<O, R> ModelFinding<O, R> {
    /// The number of the run, by which [`replay`] makes it again.
    #[must_use]
    pub fn run(&self) -> u64 {
        self.run
    }

    /// What is wrong.
    #[must_use]
    pub fn found(&self) -> &Found {
        &self.found
    }

    /// The operations of each caller.
    #[must_use]
    pub fn script(&self) -> &[Vec<O>] {
        &self.script
    }

    /// The steps, and how the run ended.
    #[must_use]
    pub fn ran(&self) -> &Ran {
        &self.ran
    }

    /// The calls. `None` where a thread hasn't come back.
    #[must_use]
    pub fn history(&self) -> Option<&History<O, R>> {
        self.history.as_ref()
    }

    /// Whether a hunt found the same steps and ending when it ran it once more.
    #[must_use]
    pub fn repeats(&self) -> bool {
        self.repeats
    }
}

/// What is wrong, how it comes again, the steps and the calls.
impl<O: fmt::Debug, R: fmt::Debug> fmt::Display for ModelFinding<O, R> {
    fn fmt(&self, f: &mut fmt::Formatter<'_>) -> fmt::Result {
        writeln!(f, "{}", self.found)?;
        writeln!(f, "found by run {} of seed {}", self.run, self.seed)?;
        if !self.repeats {
            writeln!(f, "it didn't come again by its seed")?;
        }
        writeln!(f)?;
        write_steps(f, &self.ran, |caller, call| {
            format!("{:?}", self.script[caller][call])
        })?;
        match &self.history {
            Some(history) => write!(f, "\n{history}"),
            None => Ok(()),
        }
    }
}

/// Hunts for a wrong run of the object that `make` makes; `call` makes an operation on it, and
/// `draw` a random operation. Each run has an object of its own, whose code uses the types of
/// [`schedule`](mod@crate::schedule), and its calls are judged by the model.
///
/// ```
/// use selfcheck::hunt::Found;
/// use selfcheck::model::{Model, Runs, hunt};
/// use selfcheck::schedule::sync::atomic::{AtomicU32, Ordering::SeqCst};
///
/// /// A number to which a call adds one of 1 to 3. It replies the new number.
/// struct Sum;
///
/// impl Model for Sum {
///     type State = u32;
///     type Op = u32;
///     type Reply = u32;
///
///     fn initial(&self) -> u32 {
///         0
///     }
///
///     fn step(&self, sum: &u32, more: &u32) -> (u32, u32) {
///         (sum + more, sum + more)
///     }
/// }
///
/// // wrong: another thread may add between the two steps
/// let add = |sum: &AtomicU32, more: &u32| {
///     let new = sum.load(SeqCst) + more;
///     sum.store(new, SeqCst);
///     new
/// };
/// let runs = Runs { seed: 17, ..Runs::default() };
/// let finding = hunt(&Sum, &runs, |draw| 1 + draw.below(3) as u32, || AtomicU32::new(0), add)?;
/// let finding = finding.expect("the sum is wrong");
/// assert_eq!(*finding.found(), Found::Illegal);
/// assert!(finding.repeats());
/// println!("{finding}");
/// # Ok::<_, selfcheck::model::ModelError>(())
/// ```
///
/// # Errors
///
/// As [`verify`].
pub fn hunt<M, O>(
    model: &M,
    runs: &Runs,
    draw: impl Fn(&mut Draw) -> M::Op,
    make: impl Fn() -> O + Send + Sync + 'static,
    call: impl Fn(&O, &M::Op) -> M::Reply + Send + Sync + 'static,
) -> Result<Option<FindingOf<M>>, ModelError>
where
    M: Model<Op: Send + 'static, Reply: Send + 'static> + 'static,
    O: Send + Sync + 'static,
{
    let (make, call) = (Arc::new(make), Arc::new(call));
    for run in 0..runs.runs {
        let Some(mut finding) = try_run(model, runs, run, &draw, &make, &call)? else {
            continue;
        };
        let again = try_run(model, runs, run, &draw, &make, &call)?;
        finding.repeats =
            again.is_some_and(|it| it.ran == finding.ran && it.found == finding.found);
        return Ok(Some(finding));
    }
    Ok(None)
}

/// Makes a run of a hunt once more, by its number. All else has to be as in the hunt. `None` where
/// nothing is wrong with it.
///
/// # Errors
///
/// As [`verify`].
pub fn replay<M, O>(
    model: &M,
    runs: &Runs,
    run: u64,
    draw: impl Fn(&mut Draw) -> M::Op,
    make: impl Fn() -> O + Send + Sync + 'static,
    call: impl Fn(&O, &M::Op) -> M::Reply + Send + Sync + 'static,
) -> Result<Option<FindingOf<M>>, ModelError>
where
    M: Model<Op: Send + 'static, Reply: Send + 'static> + 'static,
    O: Send + Sync + 'static,
{
    try_run(model, runs, run, &draw, &Arc::new(make), &Arc::new(call))
}

fn try_run<M, O>(
    model: &M,
    runs: &Runs,
    run: u64,
    draw: &impl Fn(&mut Draw) -> M::Op,
    make: &Arc<impl Fn() -> O + Send + Sync + 'static>,
    call: &Arc<impl Fn(&O, &M::Op) -> M::Reply + Send + Sync + 'static>,
) -> Result<Option<FindingOf<M>>, ModelError>
where
    M: Model<Op: Send + 'static, Reply: Send + 'static> + 'static,
    O: Send + Sync + 'static,
{
    let mut drawn = Draw::of_run(runs.seed, run);
    let mut calls_of = |_| (0..runs.calls).map(|_| draw(&mut drawn)).collect();
    let script: Vec<Vec<M::Op>> = (0..runs.callers).map(&mut calls_of).collect();
    let recorder = Recorder::<M>::new();
    let callers: Vec<_> = script.iter().map(|_| recorder.caller()).collect();
    let (make, call, calls) = (Arc::clone(make), Arc::clone(call), script.clone());
    let body = main_of(move || {
        let object = Arc::new(make());
        let life = |(mut caller, calls): (Caller<M>, Vec<M::Op>)| {
            let (object, call) = (Arc::clone(&object), Arc::clone(&call));
            let call = move |op: M::Op| caller.call(op.clone(), || call(&object, &op));
            Box::new(move || lives(calls, call)) as Job
        };
        callers.into_iter().zip(calls).map(life).collect()
    });
    let ran = schedule::run(drawn.number(), body);
    let history = recorder.history().ok();
    let found = match (ran.ending(), &history) {
        (Ending::Finished, Some(history)) => {
            if !verify(model, history)?.is_illegal() {
                return Ok(None);
            }
            Found::Illegal
        }
        (ending, _) => Found::Ended(ending.clone()),
    };
    Ok(Some(ModelFinding {
        seed: runs.seed,
        run,
        found,
        script,
        ran,
        history,
        repeats: false,
    }))
}
