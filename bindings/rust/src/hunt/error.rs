use super::again::NoRun;
use super::hunted::Hunted;
use super::settings::SettingError;
use crate::fault::Fault;
use crate::kind::Kind;
use std::error::Error;
use std::fmt;
use std::io;
use std::path::PathBuf;

/// Why a hunt, or a run that was to come again, says nothing, or lost something of what it says.
#[derive(Debug)]
#[non_exhaustive]
pub enum HuntError<K: Kind> {
    /// A setting is out of its bounds. Nothing was run.
    Setting(SettingError),
    /// The text names no run. Nothing was run.
    NoRun(NoRun),
    /// A book couldn't be judged.
    Unjudged(Fault),
    /// The file that is to have a run before it begins couldn't be written, so it didn't begin.
    NotBegun {
        /// The file.
        file: PathBuf,
        /// The number of the run.
        run: u64,
        /// Why it isn't written.
        error: io::Error,
    },
    /// Files of a finding couldn't be written. All that was found is here all the same.
    Unwritten {
        /// The finding's folder.
        folder: PathBuf,
        /// The names of the files that aren't written, or not whole.
        lost: Vec<&'static str>,
        /// Why the first of them isn't.
        error: io::Error,
        /// What became of the hunt.
        hunted: Box<Hunted<K>>,
    },
}

impl<K: Kind> fmt::Display for HuntError<K> {
    fn fmt(&self, f: &mut fmt::Formatter<'_>) -> fmt::Result {
        match self {
            HuntError::Setting(error) => error.fmt(f),
            HuntError::NoRun(error) => error.fmt(f),
            HuntError::Unjudged(fault) => write!(f, "a book couldn't be judged: {fault}"),
            HuntError::NotBegun { file, run, error } => {
                let file = file.display();
                write!(
                    f,
                    "run {run} didn't begin, since {file} couldn't be written: {error}"
                )
            }
            HuntError::Unwritten {
                folder,
                lost,
                error,
                ..
            } => {
                let (lost, folder) = (lost.join(", "), folder.display());
                write!(
                    f,
                    "{lost} of the finding in {folder} couldn't be written: {error}"
                )
            }
        }
    }
}

impl<K: Kind> Error for HuntError<K> {}

impl<K: Kind> From<SettingError> for HuntError<K> {
    fn from(error: SettingError) -> Self {
        HuntError::Setting(error)
    }
}

impl<K: Kind> From<NoRun> for HuntError<K> {
    fn from(error: NoRun) -> Self {
        HuntError::NoRun(error)
    }
}

impl<K: Kind> From<Fault> for HuntError<K> {
    fn from(fault: Fault) -> Self {
        HuntError::Unjudged(fault)
    }
}
