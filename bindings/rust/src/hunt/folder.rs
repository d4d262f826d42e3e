//! The folder of a finding, and the file that has the run that has begun.

use super::again::Again;
use super::error::HuntError;
use super::finding::{Finding, Steps, line};
use super::script::Script;
use super::scripted::Scripted;
use super::settings::Settings;
use crate::kind::Kind;
use std::fs;
use std::io;
use std::path::{Path, PathBuf};

/// What couldn't be written of a finding.
#[derive(Debug)]
pub(crate) struct Lost {
    pub(crate) files: Vec<&'static str>,
    pub(crate) error: io::Error,
}

/// Writes each of the files, whatever became of the others.
pub(crate) fn write<K: Kind>(
    finding: &Finding<K>,
    of_small_book: &[(&'static str, String)],
    folder: &Path,
) -> Result<(), Lost> {
    let book = finding.trial.book.as_ref().map(ToString::to_string);
    let small_book =
        (finding.small_book.as_ref().or(finding.small.book.as_ref())).map(ToString::to_string);
    let files: [(&str, Option<String>); 9] = [
        ("finding.txt", Some(finding.to_string())),
        ("settings.txt", Some(format!("{}\n", finding.settings))),
        ("script.txt", Some(finding.trial.script.to_string())),
        ("steps.txt", Some(Steps(&finding.trial).to_string())),
        ("book.txt", book),
        ("small-script.txt", Some(finding.small.script.to_string())),
        ("small-steps.txt", Some(Steps(&finding.small).to_string())),
        ("small-book.txt", small_book),
        ("explanation.txt", finding.explanation.clone()),
    ];
    let of_small_book = of_small_book
        .iter()
        .map(|(file, text)| (*file, Some(text.clone())));
    let mut lost: Option<Lost> = None;
    let made = fs::create_dir_all(folder);
    for (file, text) in files.into_iter().chain(of_small_book) {
        let Some(text) = text else { continue };
        let written = match &made {
            Ok(()) => fs::write(folder.join(file), text),
            Err(error) => Err(io::Error::new(error.kind(), error.to_string())),
        };
        if let Err(error) = written {
            let lost = lost.get_or_insert(Lost {
                files: Vec::new(),
                error,
            });
            lost.files.push(file);
        }
    }
    lost.map_or(Ok(()), Err)
}

/// The file that has the run that has begun, in case that the process ends in it.
#[derive(Debug)]
pub(crate) struct Begun {
    folder: PathBuf,
    file: PathBuf,
    settings: String,
}

impl Begun {
    pub(crate) fn of<K: Scripted>(settings: &Settings<K>) -> Option<Begun> {
        let folder = settings.folder.clone()?;
        let file = folder.join(format!("{}-{}-begun.txt", K::NAME, settings.seed));
        let settings = settings.to_string();
        Some(Begun {
            folder,
            file,
            settings,
        })
    }

    pub(crate) fn begins<K: Scripted>(
        &self,
        run: u64,
        script: &Script<K>,
    ) -> Result<(), HuntError<K>> {
        let line = line(&self.settings, &Again::from(run));
        let text = format!("run {run} has begun, and hasn't ended:\n    {line}\n\n{script}");
        let written = fs::create_dir_all(&self.folder).and_then(|()| fs::write(&self.file, text));
        written.map_err(|error| HuntError::NotBegun {
            file: self.file.clone(),
            run,
            error,
        })
    }
}

impl Drop for Begun {
    fn drop(&mut self) {
        // what stays says no more than that the run has begun
        let _ = fs::remove_file(&self.file);
    }
}
