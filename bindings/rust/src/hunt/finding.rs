use super::again::Again;
use super::trial::{Found, Trial};
use crate::book::Book;
use crate::kind::Kind;
use crate::schedule::{Ran, Who};
use std::fmt;
use std::path::{Path, PathBuf};

/// What a hunt has found: a run that is wrong, and a small one that is wrong in the same way.
#[derive(Clone, Debug)]
pub struct Finding<K: Kind> {
    pub(crate) found: Found,
    pub(crate) trial: Trial<K>,
    pub(crate) again: Again,
    pub(crate) repeats: bool,
    pub(crate) small: Trial<K>,
    pub(crate) small_again: Option<Again>,
    pub(crate) small_book: Option<Book<K>>,
    pub(crate) explanation: Option<String>,
    pub(crate) settings: String,
    pub(crate) folder: Option<PathBuf>,
}

impl<K: Kind> Finding<K> {
    /// What is wrong.
    #[must_use]
    pub fn found(&self) -> &Found {
        &self.found
    }

    /// The number of the run, counted from 0.
    #[must_use]
    pub fn run(&self) -> u64 {
        self.again.run
    }

    /// The run as it was found.
    #[must_use]
    pub fn trial(&self) -> &Trial<K> {
        &self.trial
    }

    /// Whether it came again by its seed: the same steps, book and ending. Never so on real
    /// threads.
    #[must_use]
    pub fn repeats(&self) -> bool {
        self.repeats
    }

    /// The small run. Where the finding doesn't come again it is the run as it was found.
    #[must_use]
    pub fn small(&self) -> &Trial<K> {
        &self.small
    }

    /// Where the run is illegal, the smallest part of the small run's book that is illegal too.
    #[must_use]
    pub fn small_book(&self) -> Option<&Book<K>> {
        self.small_book.as_ref()
    }

    /// Which rule of its kind the small book breaks, and by which calls, in one line; `None` where
    /// it breaks none of the rules.
    #[must_use]
    pub fn explanation(&self) -> Option<&str> {
        self.explanation.as_deref()
    }

    /// What brings the small run again.
    #[must_use]
    pub fn again(&self) -> &Again {
        self.small_again.as_ref().unwrap_or(&self.again)
    }

    /// The line of code that brings the small run again, with the closures of the hunt as `make`
    /// and `call`.
    #[must_use]
    pub fn line(&self) -> String {
        self.line_of(self.again())
    }

    pub(crate) fn line_of(&self, again: &Again) -> String {
        line(&self.settings, again)
    }

    /// Where it is written, if it is.
    #[must_use]
    pub fn folder(&self) -> Option<&Path> {
        self.folder.as_deref()
    }
}

/// The line of code that brings a run again.
pub(crate) fn line(settings: &str, again: &Again) -> String {
    format!("replay(&{settings}, \"{again}\", make, call)")
}

/// What is wrong, how it comes again, and the small run's steps.
impl<K: Kind> fmt::Display for Finding<K> {
    fn fmt(&self, f: &mut fmt::Formatter<'_>) -> fmt::Result {
        writeln!(f, "{}", self.found)?;
        if self.repeats {
            writeln!(f, "found by run {}, and again by its seed:", self.run())?;
            writeln!(f, "    {}", self.line_of(&self.again))?;
        } else {
            writeln!(
                f,
                "found by run {}; it didn't come again by its seed",
                self.run()
            )?;
        }
        if let Some(small) = &self.small_again {
            let (calls, switches) = (self.small.script.calls(), self.small.ran.switches);
            writeln!(f, "small: {calls} calls, {switches} switches:")?;
            writeln!(f, "    {}", self.line_of(small))?;
        }
        if let Some(folder) = &self.folder {
            writeln!(f, "written to {}", folder.display())?;
        }
        write!(f, "\n{}\n{}", self.small.script, Steps(&self.small))?;
        if let Some(line) = &self.explanation {
            write!(f, "\n{line}")?;
        }
        if let Some(book) = &self.small_book {
            write!(f, "\n{book}")?;
        }
        Ok(())
    }
}

/// The steps of a run, each on a line, with a blank line where another thread goes on.
pub(crate) struct Steps<'a, K: Kind>(pub(crate) &'a Trial<K>);

impl<K: Kind> fmt::Display for Steps<'_, K> {
    fn fmt(&self, f: &mut fmt::Formatter<'_>) -> fmt::Result {
        let Trial { script, ran, .. } = self.0;
        write_steps(f, ran, |caller, call| script.callers[caller][call].1)
    }
}

/// Writes the steps of a run whose callers make these calls.
pub(crate) fn write_steps<D: fmt::Display>(
    f: &mut fmt::Formatter<'_>,
    ran: &Ran,
    op_of: impl Fn(usize, usize) -> D,
) -> fmt::Result {
    let mut last = None;
    for step in &ran.steps {
        if last.is_some_and(|last| last != &step.who) {
            writeln!(f)?;
        }
        last = Some(&step.who);
        match (&step.who, step.call, step.operated.name) {
            (Who::Caller(caller), Some(call), "call") => {
                writeln!(f, "{} calls {}", step.who, op_of(*caller, call))?;
            }
            _ => writeln!(f, "{step}")?,
        }
    }
    Ok(())
}
