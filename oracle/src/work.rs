//! Answers to card lines: document 01's refusals first, then the Rust.

use hpr_core::record::{self, Strip};
use hpr_core::{CoreError, DMat3, DVec3};
use hpr_design::error::DesignError;
use hpr_design::fins::{FinCrossSection, FinFillet, FinPlanform, FinSet, FinTab, TubeFinSet, reach};
use hpr_design::mass::{MassProperties, Placement};
use hpr_design::material::Material;

use crate::drill::{self, Place};
use crate::engine::Engine;
use crate::figures::show_all;
use crate::forms::{self, Body, Density, Form, Planform, Section, Set, Tubes};
use crate::refusals::{self, Refusal};

pub enum Figures {
    Set(MassProperties),
    /// Area, centroid x, centroid height.
    Area([f64; 3]),
    Joined(MassProperties),
    Ring(MassProperties),
    /// Of copies, or with a part moved or taken off.
    Body(MassProperties),
    Closing(f64),
    /// With the nearest corner's position.
    Drilled(Place, usize),
    Moments([f64; 3]),
    Sound,
    /// A submission or a change of density is.
    Taken,
    Idle,
    /// Of a screen's job more strips remain.
    More(usize),
    /// A screen's job has ended.
    Done(usize, Result<MassProperties, Refusal>),
    /// How far a screen's job is: strips worked, strips in all, intervals, samples.
    Progress([u64; 4]),
}

/// What a line gives. Intervals, samples and scratch are those of lines that run strips, and else 0 and untouched.
pub struct Worked {
    figures: Result<Figures, Refusal>,
    intervals: usize,
    samples: u64,
    /// The scratch from its start, as far as it was written.
    wrote: Vec<f64>,
    lent: usize,
    of_area: bool,
}

impl Worked {
    /// The line that the card program prints.
    pub fn answer(&self) -> String {
        let body = |b: &MassProperties| {
            format!(
                "(mass{}) (centre{}) (inertia{})",
                show_all(&[b.mass_kg]),
                show_all(&[b.cg_m.x, b.cg_m.y, b.cg_m.z]),
                show_all(&b.inertia_kg_m2.six())
            )
        };
        let counts = format!("(intervals {}) (samples {})", self.intervals, self.samples);
        match &self.figures {
            Ok(Figures::Set(b)) => format!("(figures {} {counts})", body(b)),
            Ok(Figures::Area([area, x, height])) => format!(
                "(area (area{}) (centroid{}) {counts})",
                show_all(&[*area]),
                show_all(&[*x, *height])
            ),
            Ok(Figures::Joined(b)) => format!("(joined {})", body(b)),
            Ok(Figures::Ring(b)) => format!("(ring {})", body(b)),
            Ok(Figures::Body(b)) => format!("(body {})", body(b)),
            Ok(Figures::Closing(radius)) => format!("(closing{})", show_all(&[*radius])),
            Ok(Figures::Drilled(Place::Inside, nearest)) => format!("(inside {nearest})"),
            Ok(Figures::Drilled(Place::Edge, nearest)) => format!("(edge {nearest})"),
            Ok(Figures::Drilled(Place::Outside, nearest)) => format!("(outside {nearest})"),
            Ok(Figures::Moments(m)) => format!("(moments{})", show_all(m)),
            Ok(Figures::Sound) => "(sound)".to_owned(),
            Ok(Figures::Taken) => "(taken)".to_owned(),
            Ok(Figures::Idle) => "(idle)".to_owned(),
            Ok(Figures::More(screen)) => format!("(more {screen})"),
            Ok(Figures::Done(screen, Ok(b))) => format!("(done {screen} (figures {} {counts}))", body(b)),
            Ok(Figures::Done(screen, Err(refusal))) => format!("(done {screen} (refused {}))", refusal.number()),
            Ok(Figures::Progress([worked, strips, intervals, samples])) => {
                format!("(progress (worked {worked}) (strips {strips}) (intervals {intervals}) (samples {samples}))")
            }
            Err(refusal) => format!("(refused {})", refusal.number()),
        }
    }

    /// The answer with all that a call returns or leaves beside it.
    pub fn detail(&self) -> String {
        let values = self.figures.as_ref().err().map(|r| r.values());
        format!(
            "(detail {}{} (intervals {}) (samples {}) (wrote{}) (left {}))",
            self.answer(),
            values.unwrap_or_default(),
            self.intervals,
            self.samples,
            show_all(&self.wrote),
            self.lent - self.wrote.len()
        )
    }
}

impl Worked {
    /// The refusal's number and its two values (0 where it has none), the figures (zeros with a refusal), intervals, samples, and a sum over
    /// every number of the scratch, of which number i was i before.
    pub fn run(&self) -> String {
        let (number, [a, b]) = match &self.figures {
            Ok(_) => (0, [0, 0]),
            Err(refusal) => (refusal.number(), refusal.numbers()),
        };
        let figures = match &self.figures {
            Ok(Figures::Set(b)) => [&[b.mass_kg, b.cg_m.x, b.cg_m.y, b.cg_m.z][..], &b.inertia_kg_m2.six()[..]].concat(),
            Ok(Figures::Area(found)) => found.to_vec(),
            _ => vec![0.0; if self.of_area { 3 } else { 10 }],
        };
        let mut sum: u64 = 1;
        for i in 0..self.lent {
            let x = self.wrote.get(i).copied().unwrap_or(i as f64);
            let bits = if x == 0.0 { 0 } else { x.to_bits() };
            sum ^= bits;
            sum ^= sum << 13;
            sum ^= sum >> 7;
            sum ^= sum << 17;
        }
        format!(
            "(run (number {number}) (values {a} {b}) (figures{}) (intervals {}) (samples {}) (scratch {sum}))",
            show_all(&figures),
            self.intervals,
            self.samples
        )
    }
}

/// Works a line with `lent` numbers of scratch, over the engine as the lines before left it.
pub fn work(engine: &mut Engine, line: &[u8], lent: usize) -> Worked {
    let form = forms::read(line);
    let of_area = matches!(form, Ok(Form::Area { .. }));
    record::start(0, &[]);
    let figures = match form {
        Err(refusal) => Err(refusal),
        Ok(Form::Set(set)) => fin_set(&set, lent).map(Figures::Set),
        Ok(Form::Area { limit, planform }) => area(limit, &planform, lent),
        Ok(Form::Join(points)) => join(&points),
        Ok(Form::Moments(tensor)) => moments(&tensor).map(Figures::Moments),
        Ok(Form::Check(body)) => check(&body).map(|()| Figures::Sound),
        Ok(Form::Tubes(set)) => tubes(&set),
        Ok(Form::Closing { count, radius }) => closing(count, radius),
        Ok(Form::Drill { planform, at }) => drilled(&planform, at),
        Ok(Form::Copied { body, offsets }) => copied(&body, &offsets),
        Ok(Form::Placed { body, places }) => placed(&body, &places),
        Ok(Form::Moved { whole, part, offset }) => part_moved(&whole, &part, offset),
        Ok(Form::Without { whole, part }) => without_part(&whole, &part),
        Ok(Form::Submit { screen, set }) => engine.submit(screen, set, check_set).map(|()| Figures::Taken),
        Ok(Form::Density { screen, density }) => engine.change(screen, density).map(|()| Figures::Taken),
        Ok(Form::Turn) => return turn(engine, lent),
        Ok(Form::Progress { screen }) => return plain(Ok(Figures::Progress(progress(engine, screen))), lent),
    };
    let run = record::finish();
    let intervals = if figures.is_ok() { intervals(&run.strips) } else { 0 };
    Worked {
        intervals,
        samples: samples(&run.strips),
        figures,
        wrote: wrote(&run.strips, lent),
        lent,
        of_area,
    }
}

/// The fewest numbers of scratch that a turn takes.
const TURN: usize = 1024;

/// An answer that ran no strips, or whose intervals and samples are not told.
fn plain(figures: Result<Figures, Refusal>, lent: usize) -> Worked {
    Worked {
        intervals: 0,
        samples: 0,
        figures,
        wrote: Vec::new(),
        lent,
        of_area: false,
    }
}

/// How far a screen's job is: of a fresh run of its set, the first strips. Strips lie between neighbouring break heights, also those behind one that the
/// run will refuse.
fn progress(engine: &Engine, screen: u64) -> [u64; 4] {
    let Some((set, worked)) = engine.held(screen) else {
        return [0; 4];
    };
    let planform = checked_planform(&set.planform).ok().expect("a job's set was accepted");
    let strips = reach::breakpoints(&planform).len() - 1;
    let _ = fin_set(set, TURN);
    let run = record::finish();
    let so_far = &run.strips[..worked];
    [worked as u64, strips as u64, intervals(so_far) as u64, samples(so_far)]
}

/// A turn. The plain answers carry neither intervals nor samples; what is written are the pieces of its own strip.
fn turn(engine: &mut Engine, lent: usize) -> Worked {
    if lent < TURN {
        return plain(Err(Refusal::Scratch), lent);
    }
    let Some((screen, set, worked)) = engine.serve() else {
        return plain(Ok(Figures::Idle), lent);
    };
    let fresh = fin_set(set, lent);
    let run = record::finish();
    let wrote = wrote(&run.strips[worked - 1..worked], lent);
    if worked < run.strips.len() {
        return Worked {
            wrote,
            ..plain(Ok(Figures::More(screen)), lent)
        };
    }
    engine.free(screen);
    Worked {
        intervals: if fresh.is_ok() { intervals(&run.strips) } else { 0 },
        samples: samples(&run.strips),
        wrote,
        ..plain(Ok(Figures::Done(screen, fresh)), lent)
    }
}

fn samples(strips: &[Strip]) -> u64 {
    strips.iter().map(|s| s.samples).sum()
}

/// The scratch from its start, as far as these strips wrote it, one over the other.
fn wrote(strips: &[Strip], lent: usize) -> Vec<f64> {
    let mut wrote: Vec<f64> = Vec::new();
    for strip in strips {
        let pieces = strip.pieces.concat();
        if wrote.len() < pieces.len() {
            wrote.resize(pieces.len(), 0.0);
        }
        wrote[..pieces.len()].copy_from_slice(&pieces);
    }
    assert!(wrote.len() <= lent, "the strips wrote past the scratch");
    wrote
}

/// The pieces added up, one for a strip of equal ends. An accepted strip's samples are 15·(2·n − 1) or none.
fn intervals(strips: &[Strip]) -> usize {
    let mut total = 0;
    for strip in strips {
        let pieces = strip.pieces.len();
        if strip.lower == strip.upper {
            assert!(pieces == 0 && strip.samples == 0);
            total += 1;
        } else {
            assert_eq!(strip.samples, 15 * (2 * pieces as u64 - 1));
            total += pieces;
        }
    }
    total
}

fn fin_set(set: &Set, lent: usize) -> Result<MassProperties, Refusal> {
    refusals::run(set.limit, lent)?;
    let planform = checked_set(set)?;
    let set_of_fins = rust_set(set, planform);
    record::start(set.limit as usize, &[]);
    set_of_fins.mass_properties(set.radius).map_err(run_refusal)
}

/// Every check before the strips but 2.
fn check_set(set: &Set) -> Result<(), Refusal> {
    refusals::limit(set.limit)?;
    checked_set(set).map(|_| ())
}

/// The planform, once every check behind 1 and 2 passed.
fn checked_set(set: &Set) -> Result<FinPlanform, Refusal> {
    refusals::count(set.count)?;
    let planform = checked_planform(&set.planform)?;
    refusals::behind_planform(set, planform.root_chord_m())?;
    Ok(planform)
}

fn area(limit: u64, planform: &Planform, lent: usize) -> Result<Figures, Refusal> {
    refusals::run(limit, lent)?;
    let planform = checked_planform(planform)?;
    record::start(limit as usize, &[]);
    let found = planform.geometry().map_err(run_refusal)?;
    Ok(Figures::Area([
        found.area_m2,
        found.centroid_x_m,
        found.centroid_span_m,
    ]))
}

fn join(points: &[[f64; 4]]) -> Result<Figures, Refusal> {
    refusals::count(points.len() as u64)?;
    let bodies: Vec<MassProperties> = points
        .iter()
        .map(|&[mass, x, y, z]| MassProperties::point(mass, DVec3::new(x, y, z)))
        .collect();
    Ok(Figures::Joined(MassProperties::combine(&bodies)))
}

fn drilled(planform: &Planform, at: [f64; 2]) -> Result<Figures, Refusal> {
    checked_planform(planform)?;
    refusals::point(at)?;
    let (place, nearest) = drill::drill(planform, at)?;
    Ok(Figures::Drilled(place, nearest))
}

fn copied(body: &Body, offsets: &[[f64; 2]]) -> Result<Figures, Refusal> {
    check(body)?;
    let places: Vec<[f64; 3]> = offsets.iter().map(|&[x, y]| [x, y, 0.0]).collect();
    refusals::places(&places)?;
    Ok(Figures::Body(MassProperties::copied(rust_body(body), offsets)))
}

fn placed(body: &Body, places: &[[f64; 3]]) -> Result<Figures, Refusal> {
    check(body)?;
    refusals::places(places)?;
    let places: Vec<Placement> = places
        .iter()
        .map(|&[x, y, roll_rad]| Placement {
            offset_m: [x, y],
            roll_rad,
        })
        .collect();
    Ok(Figures::Body(MassProperties::placed(rust_body(body), &places)))
}

fn part_moved(whole: &Body, part: &Body, offset: [f64; 3]) -> Result<Figures, Refusal> {
    check(whole)?;
    check(part)?;
    refusals::offset(&offset)?;
    refusals::has_mass(whole.mass)?;
    let [x, y, z] = offset;
    Ok(Figures::Body(rust_body(whole).with_part_moved(&rust_body(part), DVec3::new(x, y, z))))
}

fn without_part(whole: &Body, part: &Body) -> Result<Figures, Refusal> {
    check(whole)?;
    check(part)?;
    refusals::outweighs(whole.mass, part.mass)?;
    Ok(Figures::Body(rust_body(whole).without_part(&rust_body(part))))
}

fn tubes(set: &Tubes) -> Result<Figures, Refusal> {
    refusals::tubes(set)?;
    let ring = TubeFinSet {
        count: set.count as u32,
        length_m: set.length,
        outer_radius_m: set.outer,
        thickness_m: set.wall,
        base_angle_rad: set.base,
        material: rust_material(set.density),
    };
    match ring.mass_properties(set.radius) {
        Ok(body) => Ok(Figures::Ring(body)),
        Err(other) => panic!("the Rust refuses what document 02 takes: {other:?}"),
    }
}

fn closing(count: u64, radius: f64) -> Result<Figures, Refusal> {
    refusals::closing(count, radius)?;
    Ok(Figures::Closing(TubeFinSet::closing_radius_m(radius, count as u32)))
}

pub fn moments(tensor: &[f64; 6]) -> Result<[f64; 3], Refusal> {
    refusals::entries(tensor)?;
    let body = MassProperties {
        inertia_kg_m2: DMat3::from_six(tensor),
        ..MassProperties::ZERO
    };
    Ok(body.principal_moments_kg_m2())
}

pub fn check(body: &Body) -> Result<(), Refusal> {
    refusals::body(body)?;
    match rust_body(body).validate() {
        Ok(()) => Ok(()),
        Err(DesignError::UnphysicalInertia(text)) => {
            let cases = [
                ("a body with no mass", 'b'),
                ("a principal moment is negative", 'd'),
                ("the principal moments", 'e'),
            ];
            let case = cases.iter().find(|(start, _)| text.starts_with(start));
            let (_, case) = case.unwrap_or_else(|| panic!("no case of 17: {text}"));
            Err(Refusal::Tensor { case: *case })
        }
        Err(other) => panic!("the Rust refuses what document 01 takes: {other:?}"),
    }
}

/// The planform as the Rust has it, once every check of document 01 on it passed.
pub fn checked_planform(planform: &Planform) -> Result<FinPlanform, Refusal> {
    refusals::planform(planform)?;
    let planform = rust_planform(planform);
    outline(&planform)?;
    Ok(planform)
}

/// Numbers 7 and 8 of an outline, as the Rust decides them.
fn outline(planform: &FinPlanform) -> Result<(), Refusal> {
    let text = match planform.validate() {
        Ok(()) => return Ok(()),
        Err(DesignError::Geometry(text)) => text,
        Err(other) => panic!("the Rust refuses what document 01 takes: {other:?}"),
    };
    if text == "the fin has no area" {
        return Err(Refusal::NoArea);
    }
    let edges: Vec<usize> = text
        .split(|c: char| !c.is_ascii_digit())
        .filter_map(|word| word.parse().ok())
        .collect();
    match edges[..] {
        [i, j] if text.contains("crosses itself") => Err(Refusal::Touches { edges: [i, j] }),
        _ => panic!("the Rust refuses what document 01 takes: {text}"),
    }
}

/// 13 of a strip, and 8 behind the last. A sample that is not finite stops the oracle: no set has one (document 02, Paper 14).
fn run_refusal(error: DesignError) -> Refusal {
    match error {
        DesignError::Numerics(CoreError::QuadratureDidNotConverge { component, .. }) => {
            Refusal::NotConverged { component }
        }
        DesignError::Geometry(text) if text == "the fin has no area" || text == "the fin has no volume" => {
            Refusal::NoArea
        }
        other => panic!("the Rust refuses what document 01 takes: {other:?}"),
    }
}

pub fn rust_planform(planform: &Planform) -> FinPlanform {
    match *planform {
        Planform::Trapezoid([root_chord_m, tip_chord_m, span_m, sweep_m]) => FinPlanform::Trapezoidal {
            root_chord_m,
            tip_chord_m,
            span_m,
            sweep_m,
        },
        Planform::Ellipse([root_chord_m, span_m]) => FinPlanform::Elliptical { root_chord_m, span_m },
        Planform::Outline(ref figures) => FinPlanform::Freeform {
            points_m: figures.chunks_exact(2).map(|p| [p[0], p[1]]).collect(),
        },
    }
}

pub fn rust_section(section: Section) -> FinCrossSection {
    match section {
        Section::Square => FinCrossSection::Square,
        Section::Rounded => FinCrossSection::Rounded,
        Section::Airfoil => FinCrossSection::Airfoil,
        Section::AirfoilOpen => FinCrossSection::AirfoilOpen,
    }
}

pub fn rust_tab([height_m, length_m, offset_m]: [f64; 3]) -> FinTab {
    FinTab {
        height_m,
        length_m,
        offset_m,
    }
}

pub fn rust_set(set: &Set, planform: FinPlanform) -> FinSet {
    FinSet {
        count: set.count as u32,
        planform,
        thickness_m: set.thickness,
        cross_section: rust_section(set.section),
        tab: set.tab.map(rust_tab),
        fillet: set.fillet.map(|(radius_m, density)| FinFillet {
            radius_m,
            material: rust_material(density),
        }),
        cant_rad: set.cant,
        base_angle_rad: set.base,
        material: rust_material(set.density),
    }
}

fn rust_material(density: Density) -> Material {
    match density {
        Density::Bulk(v) => Material::bulk("", v),
        Density::Surface(v) => Material::surface("", v),
        Density::Line(v) => Material::line("", v),
    }
}

pub fn rust_body(body: &Body) -> MassProperties {
    let [x, y, z] = body.centre;
    MassProperties {
        mass_kg: body.mass,
        cg_m: DVec3::new(x, y, z),
        inertia_kg_m2: DMat3::from_six(&body.inertia),
    }
}
