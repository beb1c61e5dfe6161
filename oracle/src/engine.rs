//! Eight screens, each with one job or none (document 02, Papers 9 and 10), by whole runs of the Rust: a job ends with as many turns as a fresh
//! run of its set works strips, and with that run's answer. No strip looks at the density, so a change of it before the end is one of the set.

use crate::forms::{Density, Set};
use crate::refusals::{self, Refusal};

const SCREENS: usize = 8;

pub struct Engine {
    jobs: [Option<Job>; SCREENS],
    /// The last served, from 0; the last of all before one is served, so that the first look is at screen 1.
    last: usize,
}

struct Job {
    set: Set,
    /// How many strips were worked.
    worked: usize,
}

impl Engine {
    pub fn new() -> Self {
        Self {
            jobs: [const { None }; SCREENS],
            last: SCREENS - 1,
        }
    }

    /// The place of screen 1 to 8.
    fn place(screen: u64) -> Option<usize> {
        (1..=SCREENS as u64).contains(&screen).then(|| screen as usize - 1)
    }

    /// 23 before `check`, which is every check before the strips.
    pub fn submit(&mut self, screen: u64, set: Set, check: fn(&Set) -> Result<(), Refusal>) -> Result<(), Refusal> {
        let at = Self::place(screen).filter(|&at| self.jobs[at].is_none()).ok_or(Refusal::Screen)?;
        check(&set)?;
        self.jobs[at] = Some(Job { set, worked: 0 });
        Ok(())
    }

    /// "with no job there, or no such screen, 12"
    pub fn change(&mut self, screen: u64, density: Density) -> Result<(), Refusal> {
        let job = Self::place(screen).and_then(|at| self.jobs[at].as_mut()).ok_or(Refusal::Density)?;
        refusals::density(density)?;
        job.set.density = density;
        Ok(())
    }

    /// The set of a screen's job, and how many strips of it were worked.
    pub fn held(&self, screen: u64) -> Option<(&Set, usize)> {
        let job = self.jobs[Self::place(screen)?].as_ref()?;
        Some((&job.set, job.worked))
    }

    /// "for the next screen with a job, in ascending order from the one after the last served, wrapping round": its number, its set and how many
    /// strips of it are worked with this turn.
    pub fn serve(&mut self) -> Option<(usize, &Set, usize)> {
        let at = (1..=SCREENS).map(|k| (self.last + k) % SCREENS).find(|&at| self.jobs[at].is_some())?;
        self.last = at;
        let job = self.jobs[at].as_mut()?;
        job.worked += 1;
        Some((at + 1, &job.set, job.worked))
    }

    /// "A job that finishes or is refused frees its screen."
    pub fn free(&mut self, screen: usize) {
        self.jobs[screen - 1] = None;
    }
}
