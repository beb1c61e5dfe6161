//! A set worked one strip a step, its density changed while it works.

use crate::{raw, Body, Density, Error, Figures, FinSet, RunError};

/// What a step answers that is not refused.
#[derive(Debug, Clone, Copy, PartialEq)]
pub enum Step {
    /// Strips are still to come.
    More,
    /// The job has ended; each step from now on answers the same.
    Done(Figures),
}

/// How far a job is: `worked` of `strips` strips, with so many intervals and samples. A strip that was refused counts as
/// worked.
#[derive(Debug, Clone, Copy, PartialEq, Eq)]
#[allow(missing_docs)]
pub struct Progress {
    pub worked: usize,
    pub strips: usize,
    pub intervals: usize,
    pub samples: usize,
}

impl Progress {
    pub(crate) fn of_counts([worked, strips, intervals, samples]: [usize; raw::COUNTS]) -> Self {
        Self {
            worked,
            strips,
            intervals,
            samples,
        }
    }
}

/// A running job: the memory that the library's calls are lent. Every call gets it as the one before left it, since it
/// is borrowed mutably; a clone is a job of its own.
#[derive(Debug, Clone)]
pub struct Job {
    numbers: [f64; raw::JOB_NUMBERS],
    counts: [usize; raw::JOB_COUNTS],
}

impl Job {
    /// A job of a set with at most `limit` intervals a strip; it keeps its own copy of an outline. Every check of the set
    /// runs here, and a set that is refused has no job; each step checks how long its scratch is.
    pub fn new(set: &FinSet, limit: usize) -> Result<Self, Error> {
        let crossing = set.numbers();
        let mut job = Self {
            numbers: [0.0; raw::JOB_NUMBERS],
            counts: [0; raw::JOB_COUNTS],
        };
        let mut values = [0; raw::VALUES];
        // SAFETY: each pointer goes with the length of its own live list; what is written is borrowed by nobody else.
        let number = unsafe {
            raw::delvouzh_job_make(
                limit,
                crossing.numbers.as_ptr(),
                crossing.numbers.len(),
                crossing.counts.as_ptr(),
                crossing.counts.len(),
                crossing.points.as_ptr(),
                crossing.points.len(),
                job.numbers.as_mut_ptr(),
                job.numbers.len(),
                job.counts.as_mut_ptr(),
                job.counts.len(),
                values.as_mut_ptr(),
                values.len(),
            )
        };
        Error::unless_zero(number, values)?;
        Ok(job)
    }

    /// Works the next strip. The step that works the last strip, or one that is refused, answers what `mass_properties`
    /// does for the set with the density that was taken last. A scratch that is too short is refused, and the job stays
    /// as it was.
    pub fn step(&mut self, scratch: &mut [f64]) -> Result<Step, RunError> {
        let mut body = [0.0; raw::BODY];
        let mut counts = [0; raw::COUNTS];
        // SAFETY: each pointer goes with the length of its own live list; what is written is borrowed by nobody else.
        let number = unsafe {
            raw::delvouzh_job_step(
                self.numbers.as_mut_ptr(),
                self.numbers.len(),
                self.counts.as_mut_ptr(),
                self.counts.len(),
                scratch.as_mut_ptr(),
                scratch.len(),
                body.as_mut_ptr(),
                body.len(),
                counts.as_mut_ptr(),
                counts.len(),
            )
        };
        if number == raw::MORE {
            return Ok(Step::More);
        }
        let [first, second, intervals, samples] = counts;
        RunError::unless_zero(number, [first, second], samples)?;
        let body = Body::from_numbers(body);
        Ok(Step::Done(Figures {
            body,
            intervals,
            samples,
        }))
    }

    /// Another density for the plates, as long as the job has not ended; a refused one leaves the old one.
    pub fn change_density(&mut self, density: Density) -> Result<(), RunError> {
        let (density, value) = density.number();
        let mut counts = [0; raw::COUNTS];
        // SAFETY: each pointer goes with the length of its own live list; what is written is borrowed by nobody else.
        let number = unsafe {
            raw::delvouzh_job_change_density(
                self.numbers.as_mut_ptr(),
                self.numbers.len(),
                self.counts.as_mut_ptr(),
                self.counts.len(),
                density,
                value,
                counts.as_mut_ptr(),
                counts.len(),
            )
        };
        let [first, second, _, samples] = counts;
        RunError::unless_zero(number, [first, second], samples)
    }

    /// How far the job is.
    pub fn progress(&self) -> Progress {
        let mut counts = [0; raw::COUNTS];
        // SAFETY: each pointer goes with the length of its own live list; what is written is borrowed by nobody else.
        unsafe {
            raw::delvouzh_job_progress(
                self.numbers.as_ptr(),
                self.numbers.len(),
                self.counts.as_ptr(),
                self.counts.len(),
                counts.as_mut_ptr(),
                counts.len(),
            )
        };
        Progress::of_counts(counts)
    }
}
