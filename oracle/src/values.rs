//! Single questions to the Rust and the stand-ins, one a line: `WORD .. = RESULT ..`, for tests of single functions.

use hpr_core::record;
use hpr_core::stand_ins::sine_cosine;
use hpr_core::{DMat3, DQuat, DVec3};
use hpr_design::fins::{FinSet, reach};

use crate::bodies;
use crate::figures::{self, raw, raw_all, show_all};
use crate::forms::{Body, Density, Planform, Section, Set};
use crate::lines::{angle, far_trapezoid, planform, planform_words, section, section_word};
use crate::outlines::{self, Heights, length};
use crate::random::{Random, moved, power_of_two};
use crate::refusals::Refusal;
use crate::work::{check, checked_planform, moments, rust_body, rust_planform, rust_section, rust_set};

pub const KINDS: &[&str] = &[
    "roots",
    "sines",
    "sections",
    "chords",
    "breaks",
    "touches",
    "integrands",
    "tabs",
    "turns",
    "checks",
];

/// `count` questions of one kind with their answers; none if there is no such kind.
pub fn values(kind: &str, count: u64, seed: u64) -> Option<Vec<String>> {
    let question: fn(&mut Random) -> String = match kind {
        "roots" => root,
        "sines" => sine,
        "sections" => section_question,
        "chords" => chords,
        "breaks" => breaks,
        "touches" => touch,
        "integrands" => integrand,
        "tabs" => tab,
        "turns" => turn,
        "checks" => check_question,
        _ => return None,
    };
    let r = &mut Random::new(seed);
    let answered = |_| {
        let question = question(r);
        work(question.as_bytes())
    };
    Some((0..count).map(answered).collect())
}

/// The question with its answer behind ` =`. What stands behind an `=` already is not read.
pub fn work(line: &[u8]) -> String {
    let text = String::from_utf8_lossy(line);
    let question = text.split('=').next().unwrap_or_default().trim();
    let mut words = Words(question.split(' ').collect());
    match words.answer() {
        Some(answer) if words.0.is_empty() => format!("{question} ={answer}"),
        _ => format!("{question} = no such question"),
    }
}

struct Words<'a>(Vec<&'a str>);

impl<'a> Words<'a> {
    fn word(&mut self) -> Option<&'a str> {
        (!self.0.is_empty()).then(|| self.0.remove(0))
    }

    fn figure(&mut self) -> Option<f64> {
        figures::read_bits(self.word()?.as_bytes())
    }

    fn figures<const N: usize>(&mut self) -> Option<[f64; N]> {
        let mut list = [0.0; N];
        for x in &mut list {
            *x = self.figure()?;
        }
        Some(list)
    }

    fn section(&mut self) -> Option<Section> {
        let word = self.word()?;
        [Section::Square, Section::Rounded, Section::Airfoil, Section::AirfoilOpen]
            .into_iter()
            .find(|&s| section_word(s) == word)
    }

    fn planform(&mut self) -> Option<Planform> {
        match self.word()? {
            "trapezoid" => Some(Planform::Trapezoid(self.figures()?)),
            "ellipse" => Some(Planform::Ellipse(self.figures()?)),
            "outline" => {
                let mut list = Vec::new();
                while self.0.first().is_some_and(|&w| w != "at") {
                    list.push(self.figure()?);
                }
                Some(Planform::Outline(list))
            }
            _ => None,
        }
    }

    /// `at F`
    fn at(&mut self) -> Option<f64> {
        (self.word()? == "at").then_some(())?;
        self.figure()
    }

    /// A turn about x or z.
    fn rotation(&mut self) -> Option<DQuat> {
        let axis = self.word()?;
        let angle = self.figure()?;
        match axis {
            "x" => Some(DQuat::from_rotation_x(angle)),
            "z" => Some(DQuat::from_rotation_z(angle)),
            _ => None,
        }
    }

    fn body(&mut self) -> Option<Body> {
        let [mass] = self.figures()?;
        Some(Body {
            mass,
            centre: self.figures()?,
            inertia: self.figures()?,
        })
    }

    fn answer(&mut self) -> Option<String> {
        match self.word()? {
            "root" => Some(show_all(&[self.figure()?.sqrt()])),
            "sine" => {
                let (sine, cosine) = sine_cosine(self.figure()?);
                Some(show_all(&[sine, cosine]))
            }
            "section" => {
                let section = rust_section(self.section()?);
                let [a, b, t] = self.figures()?;
                Some(show_all(&reach::chord_moments(section, a, b, t)))
            }
            "chords" => {
                let planform = rust_planform(&self.planform()?);
                let mut found = Vec::new();
                planform.chords_at(self.at()?, &mut found);
                Some(found.iter().map(|&(a, b)| show_all(&[a, b])).collect())
            }
            "breaks" => {
                let planform = rust_planform(&self.planform()?);
                Some(show_all(&reach::breakpoints(&planform)))
            }
            "touch" => {
                let [a, b, c, d, e, f, g, h] = self.figures()?;
                let touch = reach::segments_touch([a, b], [c, d], [e, f], [g, h]);
                Some(if touch { " yes" } else { " no" }.to_owned())
            }
            "area" => {
                let planform = checked_planform(&self.planform()?).ok()?;
                let at = self.at()?;
                record::start(1, &[at]);
                let _ = planform.geometry();
                record::finish().integrand.first().map(|v| show_all(v))
            }
            "plate" => {
                let section = self.section()?;
                let [thickness, radius] = self.figures()?;
                let set = plate(section, thickness, None, self.planform()?)?;
                let at = self.at()?;
                record::start(1, &[at]);
                let _ = set.mass_properties(radius);
                record::finish().integrand.first().map(|v| show_all(v))
            }
            "tab" => {
                let [thickness, radius] = self.figures()?;
                let any = Planform::Ellipse([1.0, 1.0]);
                let set = plate(Section::Square, thickness, Some(self.figures()?), any)?;
                Some(show_all(&reach::tab_integrals(&set, radius)))
            }
            "matrix" => {
                let turn = DMat3::from_quat(self.rotation()?);
                Some(show_all(&turn.to_cols_array()))
            }
            "turn" => {
                let rotation = self.rotation()?;
                let turned = rust_body(&self.body()?).rotated(rotation);
                let c = turned.cg_m;
                let inertia = show_all(&turned.inertia_kg_m2.six());
                Some(show_all(&[turned.mass_kg, c.x, c.y, c.z]) + &inertia)
            }
            "about" => {
                let [x, y, z] = self.figures()?;
                let body = rust_body(&self.body()?);
                let inertia = body.inertia_about(DVec3::new(x, y, z));
                Some(show_all(&inertia.six()))
            }
            "moments" => Some(match moments(&self.figures()?) {
                Ok(found) => show_all(&found),
                Err(refusal) => refused(refusal),
            }),
            "check" => Some(match check(&self.body()?) {
                Ok(()) => " sound".to_owned(),
                Err(refusal) => refused(refusal),
            }),
            _ => None,
        }
    }
}

/// ` refused N`, and the case of 17 behind it.
fn refused(refusal: Refusal) -> String {
    let case = match refusal {
        Refusal::Tensor { case } => format!(" {case}"),
        _ => String::new(),
    };
    format!(" refused {}{case}", refusal.number())
}

/// One uncanted fin of density 1 at angle 0.
fn plate(section: Section, thickness: f64, tab: Option<[f64; 3]>, planform: Planform) -> Option<FinSet> {
    let checked = checked_planform(&planform).ok()?;
    let set = Set {
        limit: 1,
        count: 1,
        planform,
        thickness,
        section,
        tab,
        fillet: None,
        cant: 0.0,
        base: 0.0,
        radius: 0.0,
        density: Density::Bulk(1.0),
    };
    Some(rust_set(&set, checked))
}

/// Squares and their neighbours, powers of two, subnormals, the largest, roots near the middle of two f64s, any bits.
fn root(r: &mut Random) -> String {
    let x = match r.below(10) {
        0 => r.pick(&[
            0.0,
            -0.0,
            1.0,
            2.0,
            4.0,
            -1.0,
            f64::INFINITY,
            f64::NEG_INFINITY,
            f64::MIN_POSITIVE,
        ]),
        1 => r.not_finite(),
        2 => square(r),
        3 => {
            let x = square(r);
            r.near(x, 3)
        }
        4 => power_of_two(r.range(-1074, 1023)),
        5 => {
            let x = power_of_two(r.range(-1074, 1023));
            r.near(x, 3)
        }
        6 => {
            let shift = 12 + r.below(52);
            f64::from_bits(r.next() >> shift)
        }
        7 => moved(f64::MAX, -r.range(0, 3)),
        8 => beside_a_middle(r),
        _ => r.bits(),
    };
    format!("root {}", raw(x))
}

/// A square that is an f64 exactly, times a power of four.
fn square(r: &mut Random) -> f64 {
    let shift = 38 + r.below(26);
    let q = (r.next() >> shift) as f64;
    q * q * power_of_two(2 * r.range(-480, 450))
}

/// The f64 nearest (q + 1/2)² for a q of 53 digits: its root lies close to the middle between two f64s.
fn beside_a_middle(r: &mut Random) -> f64 {
    let q = u128::from((r.next() >> 12) | (1 << 52));
    let between = q * q + q;
    (between as f64) * power_of_two(2 * r.range(-500, 400))
}

/// Angles of sets, quarter turns, neighbours of the halves where the whole number changes, huge, subnormal, any bits.
fn sine(r: &mut Random) -> String {
    let f = match r.below(10) {
        0 => r.pick(&[
            0.0,
            -0.0,
            1.0,
            -1.0,
            2.0,
            -2.0,
            f64::INFINITY,
            f64::NAN,
            0.5,
            f64::MAX,
            -f64::MAX,
        ]),
        1 => r.not_finite(),
        2 => {
            let fins = r.range(1, 32);
            let k = r.range(0, fins - 1);
            let base = angle(r);
            (base + 2.0 * std::f64::consts::PI * k as f64 / fins as f64) / 2.0
        }
        3 => angle(r) / 2.0,
        4 => {
            let quarters = r.range(-200, 200) as f64;
            r.near(quarters * std::f64::consts::FRAC_PI_2, 3)
        }
        5 => {
            let top = 1 << r.below(40);
            let half = r.range(-top, top) as f64 + 0.5;
            r.near(half / 0.6366197723675814, 3)
        }
        6 => r.near(0.49999999999999994 / 0.6366197723675814, 4),
        7 => {
            let f = r.scaled(40, 70);
            r.sign(f)
        }
        8 => {
            let f = f64::from_bits(r.next() >> (12 + r.below(52)));
            r.sign(f)
        }
        _ => r.bits(),
    };
    format!("sine {}", raw(f))
}

/// A figure of a scaled fin, now and then any f64.
fn scaled_figure(r: &mut Random) -> f64 {
    match r.below(12) {
        0 => bodies::figure(r),
        1 => r.pick(&[0.0, -0.0, 1.0]),
        _ => r.scaled(-10, 0),
    }
}

fn section_question(r: &mut Random) -> String {
    let a = scaled_figure(r);
    let a = if r.once_in(4) { -a } else { a };
    let b = match r.below(6) {
        0 => r.near(a, 3),
        1 => scaled_figure(r),
        _ => a + scaled_figure(r),
    };
    // thickness at times equal to, or near, the width, where the rounded section changes
    let t = match r.below(5) {
        0 => r.near(b - a, 2),
        _ => scaled_figure(r),
    };
    format!("section {}{}", section_word(section(r)), raw_all(&[a, b, t]))
}

/// A height in, at the end of, or outside the planform.
fn height(r: &mut Random, breaks: &[f64], scale: f64) -> f64 {
    let pair = r.below(breaks.len() - 1);
    let (low, high) = (breaks[pair] / scale, breaks[pair + 1] / scale);
    match r.below(8) {
        0 => r.pick(&[low, high]),
        1..=3 => {
            let (end, steps) = (r.pick(&[low, high, high]), r.pick(&[3, 300]));
            r.near(end, steps)
        }
        4 => r.pick(&[
            0.0,
            -0.0,
            -1.0,
            f64::NAN,
            f64::INFINITY,
            f64::NEG_INFINITY,
            f64::from_bits(1),
            2.0,
        ]),
        _ => r.between(low, high),
    }
}

/// A legal planform with its break heights and root chord plus span.
fn legal_planform(r: &mut Random) -> (Planform, Vec<f64>, f64) {
    loop {
        let wild = r.once_in(3);
        let found = if r.once_in(4) {
            let style = r.pick(&[Heights::Close, Heights::Level, Heights::Merging]);
            let n = 3 + r.below(10);
            Planform::Outline(outlines::simple(r, n, style, wild).concat())
        } else if r.once_in(6) {
            far_trapezoid(r)
        } else {
            planform(r, wild)
        };
        if let Ok(legal) = checked_planform(&found) {
            let breaks = reach::breakpoints(&legal);
            return (found, breaks, legal.root_chord_m() + legal.span_m());
        }
    }
}

/// One in five at the span itself, where trapezoid and ellipse have their tip chord.
fn chords(r: &mut Random) -> String {
    let (planform, breaks, _) = legal_planform(r);
    let at = if r.once_in(5) {
        breaks[breaks.len() - 1]
    } else {
        height(r, &breaks, 1.0)
    };
    format!("chords {} at {}", planform_words(&planform, raw_all), raw(at))
}

fn breaks(r: &mut Random) -> String {
    let (planform, ..) = legal_planform(r);
    format!("breaks {}", planform_words(&planform, raw_all))
}

/// A pointed trapezoid just under its tip, where the trailing edge can round to before the leading edge: the area integrand
/// adds that width below 0 too.
fn pointed(r: &mut Random) -> String {
    let (root, span) = (r.scaled(-16, -12), r.scaled(-6, -2));
    let sweep = moved(power_of_two(r.range(-3, 3)), r.range(-2, 2));
    let at = r.near(span / (root + span), 1000);
    let words = planform_words(&Planform::Trapezoid([root, 0.0, span, sweep]), raw_all);
    format!("area {words} at {}", raw(at))
}

fn integrand(r: &mut Random) -> String {
    if r.once_in(10) {
        return pointed(r);
    }
    let (planform, breaks, scale) = legal_planform(r);
    let words = planform_words(&planform, raw_all);
    let at = raw(height(r, &breaks, scale));
    if r.once_in(3) {
        return format!("area {words} at {at}");
    }
    let wild = r.once_in(3);
    let thickness = length(r, wild);
    let radius = if r.once_in(4) { 0.0 } else { length(r, wild) };
    let section = section_word(section(r));
    format!("plate {section}{} {words} at {at}", raw_all(&[thickness, radius]))
}

/// Two edges: of an outline, on a small grid so that corners meet, or with any figures.
fn touch(r: &mut Random) -> String {
    let figures: [f64; 8] = match r.below(4) {
        0 => std::array::from_fn(|_| r.range(0, 4) as f64),
        1 => std::array::from_fn(|_| bodies::figure(r)),
        2 => {
            // an end of one edge on, or a last bit off, the other
            let (p, q) = ([r.unit(), r.unit()], [r.unit(), r.unit()]);
            let f = r.unit();
            let x = r.near(p[0] + f * (q[0] - p[0]), 1);
            let y = r.near(p[1] + f * (q[1] - p[1]), 1);
            [p[0], p[1], q[0], q[1], x, y, r.unit(), r.unit()]
        }
        _ => std::array::from_fn(|_| r.unit()),
    };
    format!("touch{}", raw_all(&figures))
}

fn tab(r: &mut Random) -> String {
    let wild = r.once_in(3);
    let mut next = || length(r, wild);
    let list = [next(), next(), next(), next(), next()];
    format!("tab{}", raw_all(&list))
}

fn turn(r: &mut Random) -> String {
    let axis = r.pick(&["x", "z"]);
    let angle = if r.once_in(12) { bodies::figure(r) } else { angle(r) };
    let (mass, centre, inertia) = bodies::body(r);
    let body = raw_all(&[mass]) + &raw_all(&centre) + &raw_all(&inertia);
    match r.below(3) {
        0 => format!("matrix {axis} {}", raw(angle)),
        1 => format!("turn {axis} {}{body}", raw(angle)),
        _ => {
            let point: [f64; 3] = std::array::from_fn(|_| bodies::figure(r));
            format!("about{}{body}", raw_all(&point))
        }
    }
}

fn check_question(r: &mut Random) -> String {
    if r.once_in(3) {
        return format!("moments{}", raw_all(&bodies::tensor(r)));
    }
    let (mass, centre, inertia) = bodies::body(r);
    format!("check{}{}{}", raw_all(&[mass]), raw_all(&centre), raw_all(&inertia))
}
