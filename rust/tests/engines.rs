//! An engine of eight screens under random traffic, beside jobs stepped alone.
mod random;

use delvouzh::{Engine, Error, Job, Progress, Refusal, RunError, Step, Turn};
use random::Random;

/// How far the job of a screen is that holds none.
const NONE: Progress = Progress {
    worked: 0,
    strips: 0,
    intervals: 0,
    samples: 0,
};

fn refused(refusal: Refusal) -> Error {
    Error::Refused(refusal)
}

/// The jobs of the eight screens, each alone, and the screen served last.
struct Alone {
    jobs: [Option<Job>; 8],
    last: usize,
}

impl Alone {
    fn job(&mut self, screen: usize) -> Option<&mut Job> {
        self.jobs.get_mut(screen.wrapping_sub(1))?.as_mut()
    }

    /// The nearest screen with a job behind the last served.
    fn due(&self) -> Option<usize> {
        (1..=8)
            .map(|distance| (self.last + distance - 1) % 8 + 1)
            .find(|screen| self.jobs[screen - 1].is_some())
    }

    /// What a turn tells.
    fn turn(&mut self, scratch: &mut [f64]) -> Turn {
        let Some(screen) = self.due() else {
            return Turn::Idle;
        };
        self.last = screen;
        let answer = match self.job(screen).unwrap().step(scratch) {
            Ok(Step::More) => return Turn::More { screen },
            Ok(Step::Done(figures)) => Ok(figures),
            Err(failed) => Err(failed),
        };
        self.jobs[screen - 1] = None;
        Turn::Done { screen, answer }
    }
}

/// A submission of a set, which now and then is one that is refused.
fn submit(engine: &mut Engine, alone: &mut Alone, random: &mut Random) {
    let screen = random.below(10) as usize;
    let points = random.outline();
    let mut set = random.set(&points);
    if random.below(8) == 0 {
        set.count = 0;
    }
    let limit = 1 + random.below(65) as usize;
    let before = (engine.clone(), alone.last);
    let answer = engine.submit(screen, &set, limit);
    if alone.job(screen).is_some() || !(1..=8).contains(&screen) {
        assert_eq!(answer, Err(refused(Refusal::Screen)));
    } else {
        match Job::new(&set, limit) {
            Ok(job) => {
                assert_eq!(answer, Ok(()));
                alone.jobs[screen - 1] = Some(job);
            }
            Err(error) => assert_eq!(answer, Err(error)),
        }
    }
    if answer.is_err() {
        let (mut same, mut engine) = (before.0, engine.clone());
        let mut scratch = [0.0; 1024];
        let mut other = [0.0; 1024];
        assert_eq!(same.turn(&mut scratch), engine.turn(&mut other), "nothing changed");
    }
}

fn change(engine: &mut Engine, alone: &mut Alone, random: &mut Random) {
    let screen = random.below(10) as usize;
    let density = random.density();
    let answer = engine.change_density(screen, density);
    let expected = match alone.job(screen) {
        Some(job) => job.change_density(density),
        None => Err(RunError {
            error: refused(Refusal::Density),
            samples: 0,
        }),
    };
    assert_eq!(answer, expected);
}

#[test]
fn eight_screens_answer_as_jobs_alone() {
    let mut random = Random(88172645463325252);
    let mut engine = Engine::new();
    let mut alone = Alone {
        jobs: Default::default(),
        last: 0,
    };
    let mut scratch = [7.0; 1024];
    let mut other = scratch;
    let (mut done, mut idle) = (0, 0);
    for call in 0..20_000 {
        let screen = random.below(10) as usize;
        let held = alone.job(screen).map(|job| job.progress());
        assert_eq!(engine.progress(screen), held.unwrap_or(NONE));
        // at times nothing is submitted, so that the engine runs empty
        match random.below(16) {
            0 => {
                let short = engine.turn(&mut scratch[..1023]).unwrap_err();
                assert_eq!((short.error, short.samples), (refused(Refusal::Scratch), 0));
            }
            1..=3 => change(&mut engine, &mut alone, &mut random),
            4..=7 if call % 1000 > 200 => submit(&mut engine, &mut alone, &mut random),
            _ => {
                let turn = engine.turn(&mut scratch).unwrap();
                assert_eq!(turn, alone.turn(&mut other));
                assert_eq!(scratch, other);
                match turn {
                    Turn::Idle => idle += 1,
                    Turn::More { .. } => {}
                    Turn::Done { .. } => done += 1,
                }
            }
        }
    }
    assert!(done > 500 && idle > 50, "{done} jobs, {idle} idle turns");
}

#[test]
fn last_served_stays() {
    let mut random = Random(1);
    let points = random.outline();
    let set = delvouzh::FinSet {
        planform: delvouzh::Planform::Ellipse {
            root_chord_m: 0.1,
            span_m: 0.1,
        },
        ..random.set(&points)
    };
    let mut scratch = [0.0; 1024];
    let mut engine = Engine::new();
    let served = |turn| match turn {
        Ok(Turn::Done { screen, .. }) => screen,
        other => panic!("{other:?}"),
    };
    engine.submit(1, &set, 64).unwrap();
    assert_eq!(served(engine.turn(&mut scratch)), 1);
    assert_eq!(engine.turn(&mut scratch), Ok(Turn::Idle));
    engine.submit(1, &set, 64).unwrap();
    engine.submit(2, &set, 64).unwrap();
    assert_eq!(served(engine.turn(&mut scratch)), 2);
    engine.submit(3, &set, 64).unwrap();
    engine.clear();
    assert_eq!(engine.turn(&mut scratch), Ok(Turn::Idle));
    engine.submit(2, &set, 64).unwrap();
    engine.submit(1, &set, 64).unwrap();
    assert_eq!(served(engine.turn(&mut scratch)), 1);
}
