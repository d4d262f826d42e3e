//! Hunts: random calls of an object under random schedules, until a run is wrong; then the run is
//! made small.
//!
//! ```
//! use selfcheck::hunt::{Found, Settings, hunt, replay};
//! use selfcheck::schedule::sync::atomic::{AtomicU32, Ordering::SeqCst};
//! use selfcheck::{Counter, Reply};
//!
//! // wrong: another thread may add between the two steps
//! let inc = |number: &AtomicU32, _| {
//!     let old = number.load(SeqCst);
//!     number.store(old + 1, SeqCst);
//!     Reply::Value(old)
//! };
//! let settings = Settings::<Counter>::new().seed(17);
//! let hunted = hunt(&settings, || AtomicU32::new(0), inc)?;
//! let finding = hunted.finding().expect("the counter is wrong");
//! assert_eq!(*finding.found(), Found::Illegal);
//! assert!(finding.repeats());
//! println!("{finding}");
//!
//! // the small run comes again by the line that the finding has
//! let again = replay(&settings, &finding.again().to_string(), || AtomicU32::new(0), inc)?;
//! assert_eq!(again.found(), Some(&Found::Illegal));
//! assert_eq!(again.book(), finding.small().book());
//! # Ok::<_, Box<dyn std::error::Error>>(())
//! ```
//!
//! The object's code uses the types of [`schedule`](mod@crate::schedule), or
//! [`Settings::real_threads`] are set. Where the object is behind one of the traits as
//! [`QueueObject`](crate::QueueObject), the last closure is `|object, op| op.call_on(object)`.
//!
//! What a hunt finds is a book with no legal order, by the proved check, or an ending of its own: a
//! deadlock, a livelock, a run with no end, a thread that waits for something outside of the
//! schedule, or a panic. Each finding is run once more before it is told, and says whether it came
//! again. A hunt that finds nothing shows nothing of the object: random schedules aren't all
//! schedules.
//!
//! An object whose calls wait ends in a deadlock where nobody does what they wait for. A full ring
//! that waits is such a one: [`Settings::at_most_more_puts`] gives it scripts that never wait for
//! ever.

mod again;
mod error;
pub(crate) mod finding;
mod folder;
mod hunted;
mod hunter;
mod real;
mod script;
mod scripted;
mod settings;
mod small;
pub(crate) mod trial;
mod values;

pub use again::{Again, NoRun};
pub use error::HuntError;
pub use finding::Finding;
pub use hunted::Hunted;
pub use script::Script;
pub use scripted::{Effect, Scripted};
pub use settings::{SettingError, Settings, Strategy};
pub use trial::{Found, Trial};
pub use values::Values;

use crate::fault::Fault;
use crate::kind::Kind;
use crate::reply::Reply;
use crate::schedule::Ending;
use crate::schedule::legs::legs_of;
use again::SmallRun;
use folder::Begun;
use hunter::Hunter;
use std::sync::Arc;
use std::time::Instant;
use trial::{Maker, Object};

/// Hunts for a wrong run of the object that `make` makes; `call` makes an operation on it. Each run
/// has an object of its own.
///
/// # Errors
///
/// Where a setting is out of its bounds, by its name, before anything runs; for want of memory; and
/// where a finding can't be written, with what is lost, or the file that has each run before it
/// begins.
pub fn hunt<K, O>(
    settings: &Settings<K>,
    make: impl Fn() -> O + Send + Sync + 'static,
    call: impl Fn(&O, K::Op) -> Reply + Send + Sync + 'static,
) -> Result<Hunted<K>, HuntError<K>>
where
    K: Scripted,
    O: Send + Sync + 'static,
{
    settings.check()?;
    let mut hunter = Hunter::new(settings, maker::<K, O>(make, call));
    let mut hunted = Hunted {
        runs: 0,
        turns: 0,
        finding: None,
        panics: Vec::new(),
    };
    let begun = Begun::of(settings);
    let began = Instant::now();
    let has_time = || settings.time.is_none_or(|time| began.elapsed() < time);
    while hunted.runs < settings.most_runs() && has_time() {
        let run = hunted.runs;
        let (script, draw) = Script::drawn(settings, run);
        if let Some(begun) = &begun {
            begun.begins(run, &script)?;
        }
        let trial = hunter.run_of(run, &script, draw)?;
        hunted.runs += 1;
        hunted.turns += trial.ran.turns.len() as u64;
        let Some(found) = trial.found.clone() else {
            continue;
        };
        let goes_on = settings.after_panics && matches!(found, Found::Ended(Ending::Panicked(_)));
        if goes_on && hunted.panics.iter().any(|it| it.found.is_like(&found)) {
            continue;
        }
        let finding = told(&mut hunter, run, trial, found)?;
        hunted = written(settings, hunted, finding, goes_on)?;
        if !goes_on {
            break;
        }
    }
    Ok(hunted)
}

/// Runs a run of a hunt once more: by its number, or as [`Finding::again`] says it. The closures
/// and settings have to be those of the hunt.
///
/// # Errors
///
/// Where a setting is out of its bounds, or the text names no run, before anything runs; and for
/// want of memory.
pub fn replay<K, O>(
    settings: &Settings<K>,
    again: &str,
    make: impl Fn() -> O + Send + Sync + 'static,
    call: impl Fn(&O, K::Op) -> Reply + Send + Sync + 'static,
) -> Result<Trial<K>, HuntError<K>>
where
    K: Scripted,
    O: Send + Sync + 'static,
{
    settings.check()?;
    let again = again.parse()?;
    Ok(Hunter::new(settings, maker::<K, O>(make, call)).again(&again)?)
}

fn maker<K: Kind, O: Send + Sync + 'static>(
    make: impl Fn() -> O + Send + Sync + 'static,
    call: impl Fn(&O, K::Op) -> Reply + Send + Sync + 'static,
) -> Maker<K> {
    let call = Arc::new(call);
    Arc::new(move || {
        let (object, call) = (make(), Arc::clone(&call));
        Arc::new(move |op| call(&object, op)) as Object<K>
    })
}

// Runs it once more, and makes it small where it came again.
fn told<K: Scripted>(
    hunter: &mut Hunter<'_, K>,
    run: u64,
    trial: Trial<K>,
    found: Found,
) -> Result<Finding<K>, Fault> {
    let repeats = !hunter.settings.real_threads && hunter.run(run)?.is_same(&trial);
    let (mut small, mut small_again) = (trial.clone(), None);
    if repeats && trial.ran.all_left {
        small = small::smaller(hunter, &trial)?;
        let legs = legs_of(small.ran.turns.iter().map(|it| it.thread));
        small_again = Some(Again {
            run,
            small: Some(SmallRun::new(&small.script, legs)),
        });
    }
    let small_book = match (&found, &small.book) {
        (Found::Illegal, Some(book)) => book.smaller()?,
        _ => None,
    };
    let explanation = match &small_book {
        Some(book) => book.explanation()?,
        None => None,
    };
    Ok(Finding {
        found,
        trial,
        again: Again::from(run),
        repeats,
        small,
        small_again,
        small_book,
        explanation,
        settings: hunter.settings.to_string(),
        folder: None,
    })
}

// Writes a finding where it is to be written, and takes it to what was hunted.
fn written<K: Scripted>(
    settings: &Settings<K>,
    mut hunted: Hunted<K>,
    mut finding: Finding<K>,
    goes_on: bool,
) -> Result<Hunted<K>, HuntError<K>> {
    let mut result = Ok(());
    let of_small_book = match &finding.small_book {
        Some(book) => vec![("picture.svg", book.picture()?)],
        None => Vec::new(),
    };
    if let Some(folder) = &settings.folder {
        let name = format!("{}-{}-{}", K::NAME, settings.seed, finding.run());
        let folder = folder.join(name);
        finding.folder = Some(folder.clone());
        result = folder::write(&finding, &of_small_book, &folder).map_err(|lost| (lost, folder));
    }
    if goes_on {
        hunted.panics.push(finding);
    } else {
        hunted.finding = Some(finding);
    }
    match result {
        Ok(()) => Ok(hunted),
        Err((lost, folder)) => Err(HuntError::Unwritten {
            folder,
            lost: lost.files,
            error: lost.error,
            hunted: Box::new(hunted),
        }),
    }
}
