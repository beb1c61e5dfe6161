//! Jobs worked strip by strip, beside whole runs.
mod random;

use delvouzh::{
    mass_properties, scratch_len, Density, Error, FinSet, Job, Planform, Progress, Refusal, RunError, Step,
};
use random::Random;

fn refused(refusal: Refusal, samples: usize) -> RunError {
    RunError {
        error: Error::Refused(refusal),
        samples,
    }
}

/// Steps a job to its end, with changes of density and short steps in between, and gives its answer, the steps that counted and the density
/// taken last.
fn worked(
    job: &mut Job,
    random: &mut Random,
    scratch: &mut [f64],
    density: Density,
) -> (Result<Step, RunError>, usize, Density) {
    let (mut steps, mut last) = (0, density);
    loop {
        while random.below(3) == 0 {
            let other = random.density();
            match job.change_density(other) {
                Ok(()) => last = other,
                Err(failed) => assert_eq!(failed.error, Error::Refused(Refusal::Density)),
            }
        }
        if random.below(4) == 0 {
            let before = scratch.to_vec();
            let short = job.step(&mut scratch[..15]).unwrap_err();
            assert_eq!(short.error, Error::Refused(Refusal::Scratch));
            assert_eq!(before, scratch, "a short step writes nothing");
        }
        assert_eq!(job.progress().worked, steps);
        steps += 1;
        let answer = job.step(scratch);
        if answer != Ok(Step::More) {
            return (answer, steps, last);
        }
    }
}

/// One less than the heights of a planform's points, equal ones once, with 0 and the span.
fn strips(planform: &Planform) -> usize {
    let Planform::Outline { points_m } = planform else {
        return 1;
    };
    let mut heights: Vec<f64> = points_m.iter().map(|point| point[1]).collect();
    heights.sort_by(f64::total_cmp);
    heights.dedup_by(|a, b| a == b);
    heights.len() - 1
}

#[test]
fn a_job_ends_as_a_fresh_run_with_the_density_taken_last() {
    let mut random = Random(20261116);
    let (mut done, mut most) = (0, 0);
    for _ in 0..3000 {
        let points = random.outline();
        let set = random.set(&points);
        let limit = [1, 2, 8, 64][random.below(4) as usize];
        let mut whole = vec![7.0; scratch_len(limit)];
        let mut scratch = whole.clone();
        let mut job = match Job::new(&set, limit) {
            Ok(job) => job,
            Err(error) => {
                assert_eq!(
                    mass_properties(&set, limit, &mut whole),
                    Err(RunError { error, samples: 0 })
                );
                continue;
            }
        };
        let (answer, steps, density) = worked(&mut job, &mut random, &mut scratch, set.density);
        let fresh = mass_properties(&FinSet { density, ..set }, limit, &mut whole);
        assert_eq!(answer, fresh.map(Step::Done));
        assert_eq!(scratch, whole, "the strips leave what a whole run does");
        assert_eq!(job.step(&mut []), answer, "the same again, with no scratch");
        assert!(steps <= 63);
        let samples = fresh.map_or_else(|failed| failed.samples, |figures| figures.samples);
        let progress = job.progress();
        assert_eq!((progress.worked, progress.samples), (steps, samples));
        assert_eq!(progress.strips, strips(&set.planform));
        if let Ok(figures) = fresh {
            assert_eq!(
                (progress.worked, progress.intervals),
                (progress.strips, figures.intervals)
            );
        }
        assert_eq!(
            job.change_density(set.density),
            Err(refused(Refusal::Density, samples)),
            "no change after the end"
        );
        done += usize::from(fresh.is_ok());
        most = most.max(steps);
    }
    assert!(
        done > 1000 && most > 10,
        "{done} jobs with figures, {most} steps at most"
    );
}

#[test]
fn a_refused_set_has_no_job() {
    let mut random = Random(1);
    let points = random.outline();
    let set = FinSet {
        thickness_m: 65.0,
        ..random.set(&points)
    };
    assert_eq!(
        Job::new(&set, 8).unwrap_err(),
        Error::Refused(Refusal::Length { field: 7 })
    );
    assert_eq!(Job::new(&set, 65).unwrap_err(), Error::Refused(Refusal::Limit));
}

#[test]
fn short_steps_and_refused_changes_carry_the_samples_so_far() {
    let points = [[0.0, 0.0], [0.05, 0.1], [0.1, 0.05], [0.2, 0.0]];
    let mut random = Random(2);
    let set = FinSet {
        planform: Planform::Outline { points_m: &points },
        ..random.set(&points)
    };
    let mut scratch = vec![0.0; scratch_len(64)];
    let mut job = Job::new(&set, 64).unwrap();
    let line = Density::Line { kg_m: 1.0 };
    assert_eq!(job.change_density(line), Err(refused(Refusal::Density, 0)));
    assert_eq!(job.step(&mut scratch[..1023]), Err(refused(Refusal::Scratch, 0)));
    let progress = |worked, intervals, samples| Progress {
        worked,
        strips: 2,
        intervals,
        samples,
    };
    assert_eq!(job.progress(), progress(0, 0, 0));
    assert_eq!(job.step(&mut scratch), Ok(Step::More));
    let so_far = job.change_density(line).unwrap_err().samples;
    assert!(so_far >= 15);
    assert_eq!(job.progress(), progress(1, (so_far + 15) / 30, so_far));
    assert_eq!(job.step(&mut []), Err(refused(Refusal::Scratch, so_far)));
    let mut other = job.clone();
    assert_eq!(
        job.step(&mut scratch),
        other.step(&mut scratch),
        "a clone goes on from where it was made"
    );
}
