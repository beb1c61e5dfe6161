//! Eight sets in three ways that answer the same: whole runs, jobs stepped one after the other, and jobs on the eight screens of an engine.
//!
//! Each time is the best of many rounds in which the three take turns, so that other work on the machine counts least.
use std::hint::black_box;
use std::time::{Duration, Instant};

use delvouzh::{mass_properties, Density, Engine, Figures, FinSet, Job, Planform, Section, Step, Turn};

const ROUNDS: usize = 400;
const LIMIT: usize = 64;

/// Points over the root from its leading to its trailing edge, each height of its own.
fn outline(points: usize) -> Vec<[f64; 2]> {
    let top = |i: usize| 0.05 + 0.001 * ((i * 7) % points) as f64;
    let mut outline = vec![[0.0, 0.0]];
    outline.extend((1..points - 1).map(|i| [0.01 * i as f64, top(i)]));
    outline.push([0.01 * (points - 1) as f64, 0.0]);
    outline
}

fn set(planform: Planform) -> FinSet {
    FinSet {
        count: 3,
        planform,
        thickness_m: 0.003,
        section: Section::Square,
        tab: None,
        fillet: None,
        cant_rad: 0.02,
        base_angle_rad: 0.0,
        body_radius_m: 0.05,
        density: Density::Bulk { kg_m3: 160.0 },
    }
}

fn whole(set: &FinSet, scratch: &mut [f64]) -> Figures {
    mass_properties(black_box(set), LIMIT, scratch).unwrap()
}

/// The figures, and how many steps were taken.
fn stepped(set: &FinSet, scratch: &mut [f64]) -> (Figures, usize) {
    let mut job = Job::new(black_box(set), LIMIT).unwrap();
    let mut steps = 1;
    loop {
        match job.step(scratch).unwrap() {
            Step::More => steps += 1,
            Step::Done(figures) => return (figures, steps),
        }
    }
}

/// The set on every screen: the figures of the last to end, and how many turns were taken.
fn on_eight_screens(engine: &mut Engine, set: &FinSet, scratch: &mut [f64]) -> (Figures, usize) {
    for screen in 1..=8 {
        engine.submit(screen, black_box(set), LIMIT).unwrap();
    }
    let (mut turns, mut left, mut last) = (0, 8, None);
    while left > 0 {
        turns += 1;
        if let Turn::Done { answer, .. } = engine.turn(scratch).unwrap() {
            last = Some(answer.unwrap());
            left -= 1;
        }
    }
    (last.unwrap(), turns)
}

fn timed<T>(best: &mut Duration, work: impl FnOnce() -> T) -> T {
    let start = Instant::now();
    let result = black_box(work());
    *best = (*best).min(start.elapsed());
    result
}

fn main() {
    let (few, many) = (outline(12), outline(64));
    let trapezoid = Planform::Trapezoid {
        root_chord_m: 0.2,
        tip_chord_m: 0.1,
        span_m: 0.1,
        sweep_m: 0.05,
    };
    let ellipse = Planform::Ellipse {
        root_chord_m: 0.2,
        span_m: 0.1,
    };
    let sets = [
        ("trapezoid", set(trapezoid)),
        ("ellipse", set(ellipse)),
        ("outline of 12 points", set(Planform::Outline { points_m: &few })),
        ("outline of 64 points", set(Planform::Outline { points_m: &many })),
    ];
    println!("| set (square section) | strips | whole runs, µs | jobs, one after the other | eight screens | a step | a turn |");
    println!("|---|---|---|---|---|---|---|");
    for (name, set) in &sets {
        let mut scratch = [0.0; 16 * LIMIT];
        let mut engine = Engine::new();
        let mut best = [Duration::MAX; 3];
        let mut counts = (0, 0);
        for _ in 0..ROUNDS {
            let runs = timed(&mut best[0], || [(); 8].map(|()| whole(set, &mut scratch)));
            let jobs = timed(&mut best[1], || [(); 8].map(|()| stepped(set, &mut scratch)));
            let (last, turns) = timed(&mut best[2], || on_eight_screens(&mut engine, set, &mut scratch));
            assert_eq!(runs[0], jobs[0].0, "{name}: a job answers as a whole run");
            assert_eq!(runs[0], last, "{name}: a screen answers as a whole run");
            counts = (jobs[0].1, turns);
        }
        assert_eq!(counts.1, 8 * counts.0, "{name}: as many turns as strips");
        let micros = best.map(|time| time.as_secs_f64() * 1e6);
        let (step, turn) = (micros[1] / (8 * counts.0) as f64, micros[2] / counts.1 as f64);
        let [whole, jobs, engine] = micros;
        println!(
            "| {name} | {} | {whole:.2} | {jobs:.2} | {engine:.2} | {step:.2} | {turn:.2} |",
            counts.0
        );
    }
}
