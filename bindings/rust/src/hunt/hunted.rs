use super::finding::Finding;
use crate::kind::Kind;
use std::fmt;

/// What became of a hunt.
#[derive(Clone, Debug)]
pub struct Hunted<K: Kind> {
    pub(crate) runs: u64,
    pub(crate) turns: u64,
    pub(crate) finding: Option<Finding<K>>,
    pub(crate) panics: Vec<Finding<K>>,
}

impl<K: Kind> Hunted<K> {
    /// How many runs it made, without those that a finding was made small by.
    #[must_use]
    pub fn runs(&self) -> u64 {
        self.runs
    }

    /// How many turns threads had in them.
    #[must_use]
    pub fn turns(&self) -> u64 {
        self.turns
    }

    /// What ended the hunt, if something was found.
    #[must_use]
    pub fn finding(&self) -> Option<&Finding<K>> {
        self.finding.as_ref()
    }

    /// The panics after which the hunt went on, one for each place of the code.
    #[must_use]
    pub fn panics(&self) -> &[Finding<K>] {
        &self.panics
    }
}

impl<K: Kind> fmt::Display for Hunted<K> {
    fn fmt(&self, f: &mut fmt::Formatter<'_>) -> fmt::Result {
        for panic in &self.panics {
            writeln!(f, "{panic}")?;
        }
        match &self.finding {
            Some(finding) => finding.fmt(f),
            None => writeln!(f, "nothing was found in {} runs", self.runs),
        }
    }
}
