//! A drawing of one fin, as an SVG on standard output that prints in its true size:
//!
//!     cargo run --example drawing -- trapezoid 0.2 0.1 0.15 0.05 tab 0.02 0.1 0.05 > fin.svg
//!     cargo run --example drawing -- "$(head -n 1 ../examples/lines.txt)" > fin.svg
//!
//! Either the planform in words, `trapezoid ROOT TIP SPAN SWEEP`, `ellipse ROOT SPAN` or `outline X Y X Y ..`, after which `tab HEIGHT LENGTH OFFSET` may
//! stand, all in metres: then the fin is 3 mm plywood of square section on a body of 50 mm radius. Or one argument that is a whole line
//! `(set ..)` of the card program. Chords, area, centroid, mass and balance point are the library's.
use delvouzh::{
    chords_at, geometry, mass_properties, scratch_len, Density, Error, FinSet, Planform, RunError, Section, Tab,
};

mod line;
mod sheet;
mod svg;

const LIMIT: usize = 64;

/// What is drawn, x aft of the root's leading edge and height above the root, in millimetres.
struct Fin<'a> {
    set: FinSet<'a>,
    edge: Vec<[f64; 2]>,
    /// Each break height, with the chords there.
    chords: Vec<(f64, Vec<[f64; 2]>)>,
    centroid: [f64; 2],
    balance_point: [f64; 2],
    area_mm2: f64,
    mass_g: f64,
}

fn mm([x_m, y_m]: [f64; 2]) -> [f64; 2] {
    [1e3 * x_m, 1e3 * y_m]
}

/// Through the ends of the chords at these heights, up the leading edge and down the trailing one.
fn through_chords(planform: &Planform, heights_m: &[f64]) -> Result<Vec<[f64; 2]>, Error> {
    let mut leading = Vec::new();
    let mut trailing = Vec::new();
    for &height in heights_m {
        for [start, end] in chords_at(planform, height)? {
            leading.push([start, height]);
            trailing.push([end, height]);
        }
    }
    Ok(leading.into_iter().chain(trailing.into_iter().rev()).collect())
}

/// The points of the edge: of an ellipse so many that the drawn line is smooth.
fn edge(planform: &Planform) -> Result<Vec<[f64; 2]>, Error> {
    const QUARTER: usize = 48;
    match *planform {
        Planform::Trapezoid { span_m, .. } => through_chords(planform, &[0.0, span_m]),
        Planform::Ellipse { span_m, .. } => {
            let angle = |k: usize| std::f64::consts::FRAC_PI_2 * k as f64 / QUARTER as f64;
            let heights: Vec<f64> = (0..=QUARTER).map(|k| span_m * angle(k).sin()).collect();
            through_chords(planform, &heights)
        }
        Planform::Outline { points_m } => Ok(points_m.to_vec()),
    }
}

/// 0, the span and every point's height, ascending, equal ones once.
fn break_heights(planform: &Planform) -> Vec<f64> {
    let mut heights = match *planform {
        Planform::Trapezoid { span_m, .. } | Planform::Ellipse { span_m, .. } => vec![0.0, span_m],
        Planform::Outline { points_m } => points_m.iter().map(|p| p[1]).collect(),
    };
    heights.sort_by(f64::total_cmp);
    heights.dedup_by(|a, b| a == b);
    heights
}

/// One fin of the set, without cant, at angle 0: its centre's x is the body radius plus its height above the root, and its z points to the
/// nose.
fn body_of_one(set: &FinSet) -> Result<delvouzh::Body, RunError> {
    let one = FinSet {
        count: 1,
        cant_rad: 0.0,
        base_angle_rad: 0.0,
        ..*set
    };
    let mut scratch = vec![0.0; scratch_len(LIMIT)];
    Ok(mass_properties(&one, LIMIT, &mut scratch)?.body)
}

fn fin(set: FinSet) -> Result<Fin, Box<dyn std::error::Error>> {
    mass_properties(&set, LIMIT, &mut vec![0.0; scratch_len(LIMIT)])?;
    let body = body_of_one(&set)?;
    let [out_m, _, forward_m] = body.centre_m;
    let area = geometry(&set.planform, LIMIT, &mut vec![0.0; scratch_len(LIMIT)])?;
    let mut chords = Vec::new();
    for height in break_heights(&set.planform) {
        let there = chords_at(&set.planform, height)?;
        chords.push((1e3 * height, there.into_iter().map(mm).collect()));
    }
    Ok(Fin {
        set,
        edge: edge(&set.planform)?.into_iter().map(mm).collect(),
        chords,
        centroid: mm([area.centroid_x_m, area.centroid_span_m]),
        balance_point: mm([-forward_m, out_m - set.body_radius_m]),
        area_mm2: 1e6 * area.area_m2,
        mass_g: 1e3 * body.mass_kg,
    })
}

const USAGE: &str = "usage: drawing trapezoid ROOT TIP SPAN SWEEP | ellipse ROOT SPAN | outline X Y X Y .. [tab HEIGHT LENGTH OFFSET]\n       \
                     drawing '(set ..)', a line of the card program; lengths are metres";

fn number(word: &str) -> Result<f64, String> {
    word.parse()
        .map_err(|_| format!("{word:?} is no number: write metres, as 0.15"))
}

/// The planform's word, its figures, and the tab.
fn arguments(words: &[String]) -> Result<(&str, Vec<f64>, Option<Tab>), Box<dyn std::error::Error>> {
    let (planform, rest) = words.split_first().ok_or(USAGE)?;
    let cut = rest.iter().position(|w| w == "tab").unwrap_or(rest.len());
    let figures = |words: &[String]| words.iter().map(|w| number(w)).collect::<Result<Vec<_>, _>>();
    let tab = match *figures(rest.get(cut + 1..).unwrap_or_default())? {
        [] if cut == rest.len() => None,
        [height_m, length_m, offset_m] => Some(Tab {
            height_m,
            length_m,
            offset_m,
        }),
        _ => return Err(USAGE.into()),
    };
    Ok((planform, figures(&rest[..cut])?, tab))
}

/// The drawing of a fin of 3 mm plywood that the words ask for.
fn drawing_of_words(words: &[String]) -> Result<String, Box<dyn std::error::Error>> {
    let (word, figures, tab) = arguments(words)?;
    let points_m = line::pairs(&figures);
    let planform = match (word, &figures[..]) {
        ("trapezoid", &[root_chord_m, tip_chord_m, span_m, sweep_m]) => Planform::Trapezoid {
            root_chord_m,
            tip_chord_m,
            span_m,
            sweep_m,
        },
        ("ellipse", &[root_chord_m, span_m]) => Planform::Ellipse { root_chord_m, span_m },
        ("outline", _) if figures.len() % 2 == 0 => Planform::Outline { points_m: &points_m },
        _ => return Err(USAGE.into()),
    };
    let set = FinSet {
        count: 1,
        planform,
        thickness_m: 0.003,
        section: Section::Square,
        tab,
        fillet: None,
        cant_rad: 0.0,
        base_angle_rad: 0.0,
        body_radius_m: 0.05,
        density: Density::Bulk { kg_m3: 680.0 },
    };
    Ok(sheet::drawn(&fin(set)?))
}

fn drawing(words: &[String]) -> Result<String, Box<dyn std::error::Error>> {
    match words {
        [line] if line.trim_start().starts_with('(') => line::with_set(line, |set| Ok(sheet::drawn(&fin(set)?))),
        _ => drawing_of_words(words),
    }
}

fn main() -> std::process::ExitCode {
    let words: Vec<String> = std::env::args().skip(1).collect();
    match drawing(&words) {
        Ok(svg) => {
            print!("{svg}");
            std::process::ExitCode::SUCCESS
        }
        Err(error) => {
            eprintln!("{error}");
            std::process::ExitCode::FAILURE
        }
    }
}
