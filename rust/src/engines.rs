//! Eight screens, one engine: each screen may hold one job, and a turn works one strip for the next of them.

use crate::{raw, Body, Density, Error, Figures, FinSet, Progress, RunError};

/// What a turn did.
#[derive(Debug, Clone, Copy, PartialEq)]
#[allow(missing_docs)]
pub enum Turn {
    /// No screen holds a job.
    Idle,
    /// A strip was worked for this screen, and strips of its job are still to come.
    More { screen: usize },
    /// The job of this screen has ended, with figures or refused, and has freed it.
    Done {
        screen: usize,
        answer: Result<Figures, RunError>,
    },
}

/// An engine of eight screens, 1 to 8: the memory that the library's calls are lent. Every call gets it as the one before
/// left it, since it is borrowed mutably.
#[derive(Debug, Clone)]
pub struct Engine {
    pub(crate) numbers: [f64; raw::ENGINE_NUMBERS],
    pub(crate) counts: [usize; raw::ENGINE_COUNTS],
}

impl Default for Engine {
    fn default() -> Self {
        Self::new()
    }
}

impl Engine {
    /// An engine with no job; the first turn looks from screen 1.
    pub fn new() -> Self {
        Self {
            numbers: [0.0; raw::ENGINE_NUMBERS],
            counts: [0; raw::ENGINE_COUNTS],
        }
    }

    /// No screen holds a job from here on, and none was served.
    pub fn clear(&mut self) {
        // SAFETY: each pointer goes with the length of its own live list; what is written is borrowed by nobody else.
        unsafe { raw::delvouzh_engine_clear(self.counts.as_mut_ptr(), self.counts.len()) };
    }

    /// Submits a set to a screen with at most `limit` intervals a strip. A screen that is not 1 to 8, or holds a job, is
    /// refused before anything else; a refused submission changes nothing.
    pub fn submit(&mut self, screen: usize, set: &FinSet, limit: usize) -> Result<(), Error> {
        let crossing = set.numbers();
        let mut values = [0; raw::VALUES];
        // SAFETY: each pointer goes with the length of its own live list; what is written is borrowed by nobody else.
        let number = unsafe {
            raw::delvouzh_engine_submit(
                screen,
                limit,
                crossing.numbers.as_ptr(),
                crossing.numbers.len(),
                crossing.counts.as_ptr(),
                crossing.counts.len(),
                crossing.points.as_ptr(),
                crossing.points.len(),
                self.numbers.as_mut_ptr(),
                self.numbers.len(),
                self.counts.as_mut_ptr(),
                self.counts.len(),
                values.as_mut_ptr(),
                values.len(),
            )
        };
        Error::unless_zero(number, values)
    }

    /// Works one strip for the next screen with a job, in ascending order from the one after the last served, wrapping
    /// round. A scratch of fewer than 1,024 numbers is refused, and then nothing changes.
    pub fn turn(&mut self, scratch: &mut [f64]) -> Result<Turn, RunError> {
        let mut body = [0.0; raw::BODY];
        let mut counts = [0; raw::TURN_COUNTS];
        // SAFETY: each pointer goes with the length of its own live list; what is written is borrowed by nobody else.
        let number = unsafe {
            raw::delvouzh_engine_turn(
                self.numbers.as_mut_ptr(),
                self.numbers.len(),
                self.counts.as_mut_ptr(),
                self.counts.len(),
                scratch.as_mut_ptr(),
                scratch.len(),
                body.as_mut_ptr(),
                body.len(),
                counts.as_mut_ptr(),
                counts.len(),
            )
        };
        let [first, second, intervals, samples, screen] = counts;
        if number == raw::IDLE {
            return Ok(Turn::Idle);
        }
        if number == raw::MORE {
            return Ok(Turn::More { screen });
        }
        let refused = RunError::unless_zero(number, [first, second], samples);
        if screen == 0 {
            refused?;
        }
        let body = Body::from_numbers(body);
        let answer = refused.map(|()| Figures {
            body,
            intervals,
            samples,
        });
        Ok(Turn::Done { screen, answer })
    }

    /// Another density for the plates of a screen's job; a refused one leaves the old one.
    pub fn change_density(&mut self, screen: usize, density: Density) -> Result<(), RunError> {
        let (density, value) = density.number();
        let mut counts = [0; raw::COUNTS];
        // SAFETY: each pointer goes with the length of its own live list; what is written is borrowed by nobody else.
        let number = unsafe {
            raw::delvouzh_engine_change_density(
                self.numbers.as_mut_ptr(),
                self.numbers.len(),
                self.counts.as_mut_ptr(),
                self.counts.len(),
                screen,
                density,
                value,
                counts.as_mut_ptr(),
                counts.len(),
            )
        };
        let [first, second, _, samples] = counts;
        RunError::unless_zero(number, [first, second], samples)
    }

    /// How far the job of a screen is: all 0 with no job there, or no such screen.
    pub fn progress(&self, screen: usize) -> Progress {
        let mut counts = [0; raw::COUNTS];
        // SAFETY: each pointer goes with the length of its own live list; what is written is borrowed by nobody else.
        unsafe {
            raw::delvouzh_engine_progress(
                self.numbers.as_ptr(),
                self.numbers.len(),
                self.counts.as_ptr(),
                self.counts.len(),
                screen,
                counts.as_mut_ptr(),
                counts.len(),
            )
        };
        Progress::of_counts(counts)
    }
}
