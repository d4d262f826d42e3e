//! Who goes on at a step: by a random walk, by priorities, or as it is written.

use super::draw::Draw;
use super::legs::Leg;

#[derive(Clone, Debug)]
pub(crate) enum Chooser {
    /// At each step another thread with a chance of 1 in so many.
    Walk { draw: Draw, one_in: u64 },
    /// The highest priority first; at each of the points whoever runs gets the lowest (Burckhardt
    /// and others 2010).
    Priorities {
        draw: Draw,
        of_threads: Vec<u64>,
        points: Vec<usize>,
        lowest: u64,
    },
    /// These legs, and after them each thread until it waits or ends.
    Written {
        legs: Vec<Leg>,
        at: usize,
        made: u32,
    },
}

// Below all priorities that threads begin with lie those that they are lowered to.
const FIRST_PRIORITIES: u64 = 1 << 40;

impl Chooser {
    pub(crate) fn walk(mut draw: Draw) -> Chooser {
        let one_in = [2, 4, 8, 16][draw.place(4)];
        Chooser::Walk { draw, one_in }
    }

    /// Priorities with so many points among so many steps.
    pub(crate) fn priorities(mut draw: Draw, points: usize, steps: usize) -> Chooser {
        let points = (0..points).map(|_| draw.place(steps.max(1))).collect();
        Chooser::Priorities {
            draw,
            of_threads: Vec::new(),
            points,
            lowest: FIRST_PRIORITIES,
        }
    }

    pub(crate) fn written(legs: Vec<Leg>) -> Chooser {
        Chooser::Written {
            legs,
            at: 0,
            made: 0,
        }
    }

    /// One of the candidates, which are in rising order. The last to move was `last`.
    pub(crate) fn choose(&mut self, candidates: &[usize], last: usize, turn: usize) -> usize {
        let goes_on = candidates.contains(&last);
        match self {
            Chooser::Walk { draw, one_in } => {
                if goes_on && draw.below(*one_in) != 0 {
                    return last;
                }
                candidates[draw.place(candidates.len())]
            }
            Chooser::Priorities {
                draw,
                of_threads,
                points,
                lowest,
            } => {
                while of_threads.len() <= candidates[candidates.len() - 1] {
                    of_threads.push(FIRST_PRIORITIES + draw.below(FIRST_PRIORITIES));
                }
                if goes_on && points.contains(&turn) {
                    *lowest -= 1;
                    of_threads[last] = *lowest;
                }
                let highest = (candidates.iter()).max_by_key(|it| (of_threads[**it], **it));
                *highest.expect("there is a candidate")
            }
            Chooser::Written { legs, at, made } => {
                while let Some(leg) = legs.get(*at) {
                    if leg.turns > *made && candidates.contains(&leg.thread) {
                        *made += 1;
                        return leg.thread;
                    }
                    (*at, *made) = (*at + 1, 0);
                }
                let next = candidates.iter().find(|it| **it > last);
                if goes_on {
                    last
                } else {
                    *next.unwrap_or(&candidates[0])
                }
            }
        }
    }

    /// The thread gives way.
    pub(crate) fn lower(&mut self, thread: usize) {
        if let Chooser::Priorities {
            of_threads, lowest, ..
        } = self
        {
            if let Some(priority) = of_threads.get_mut(thread) {
                *lowest -= 1;
                *priority = *lowest;
            }
        }
    }
}
