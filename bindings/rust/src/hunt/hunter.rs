use super::again::Again;
use super::real::try_real;
use super::script::Script;
use super::scripted::Scripted;
use super::settings::{Settings, Strategy};
use super::trial::{Maker, Trial, try_planned};
use crate::fault::Fault;
use crate::schedule::chooser::Chooser;
use crate::schedule::draw::Draw;
use crate::schedule::run::Plan;

/// Makes the runs of a hunt.
pub(crate) struct Hunter<'a, K: Scripted> {
    pub(crate) settings: &'a Settings<K>,
    pub(crate) maker: Maker<K>,
    // how many turns the first run had
    pub(crate) turns: usize,
}

impl<'a, K: Scripted> Hunter<'a, K> {
    pub(crate) fn new(settings: &'a Settings<K>, maker: Maker<K>) -> Self {
        Hunter {
            settings,
            maker,
            turns: 0,
        }
    }

    // The schedule of a run. The first one is a walk, and tells how many turns the others may have.
    fn chooser(&self, run: u64, mut draw: Draw) -> Chooser {
        let by_priorities = match self.settings.strategy {
            Strategy::Walk => false,
            Strategy::Priorities => true,
            Strategy::Both => draw.below(2) == 0,
        };
        if run == 0 || !by_priorities {
            return Chooser::walk(draw);
        }
        let points = 1 + draw.place(self.settings.points);
        Chooser::priorities(draw, points, self.turns)
    }

    pub(crate) fn trial(&self, script: &Script<K>, chooser: Chooser) -> Result<Trial<K>, Fault> {
        let keeps_threads = !self.settings.new_threads;
        if self.settings.real_threads {
            let patience = self.settings.patience;
            return try_real(script, &self.maker, patience, keeps_threads);
        }
        let plan = Plan {
            chooser,
            limit: self.settings.steps,
            patience: self.settings.patience,
            keeps_threads,
        };
        try_planned(script, &self.maker, plan)
    }

    /// A run of the hunt. The first one has to be made before all others.
    pub(crate) fn run(&mut self, run: u64) -> Result<Trial<K>, Fault> {
        let (script, draw) = Script::drawn(self.settings, run);
        self.run_of(run, &script, draw)
    }

    /// The run with this script, and with what is drawn after it.
    pub(crate) fn run_of(
        &mut self,
        run: u64,
        script: &Script<K>,
        draw: Draw,
    ) -> Result<Trial<K>, Fault> {
        let trial = self.trial(script, self.chooser(run, draw))?;
        if run == 0 {
            self.turns = trial.ran.turns.len();
        }
        Ok(trial)
    }

    /// A run that comes again.
    pub(crate) fn again(&mut self, again: &Again) -> Result<Trial<K>, Fault> {
        if let Some(small) = &again.small {
            let (script, _) = Script::drawn(self.settings, again.run);
            return self.trial(&small.of(&script), Chooser::written(small.legs.clone()));
        }
        if again.run > 0 {
            self.run(0)?;
        }
        self.run(again.run)
    }
}
