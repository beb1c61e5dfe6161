//! Card lines of every kind.

use hpr_design::fins::TubeFinSet;

use crate::bodies;
use crate::figures::{marked, marked_all};
use crate::forms::{Density, Planform, Section};
use crate::outlines::{self, Heights, Point, length};
use crate::places;
use crate::points::{self, drill_line};
use crate::random::{Random, moved, power_of_two};
use crate::screens;
use crate::words;

pub const KINDS: &[&str] = &[
    "set", "area", "outline", "narrow", "merging", "noise", "touch", "points", "limits", "faults", "table", "join",
    "moments", "check", "tubes", "closing", "fillets", "drill", "copied", "placed", "moved", "without", "decimals", "words", "spaces", "mixed", "engine",
    "progress",
];

/// How many of them are made figure by figure; the others are such lines, written otherwise.
const MADE: usize = 22;

/// `count` lines of one kind; none if there is no such kind.
pub fn lines(kind: &str, count: u64, seed: u64) -> Option<Vec<String>> {
    let r = &mut Random::new(seed);
    let count = count as usize;
    if kind == "engine" {
        return Some(screens::traffic(r, count));
    }
    if kind == "progress" {
        return Some(screens::questions(r, count));
    }
    let listed: fn(&mut Random) -> Vec<String> = match kind {
        "limits" => limits,
        "table" => |_| table(),
        _ => {
            KINDS.contains(&kind).then_some(())?;
            return Some((0..count).map(|_| one(r, kind)).collect());
        }
    };
    // a list that is gone through again, limits with another base set, until there are enough lines
    let mut made = Vec::new();
    while made.len() < count {
        made.extend(listed(r));
    }
    made.truncate(count);
    Some(made)
}

pub fn one(r: &mut Random, kind: &str) -> String {
    match kind {
        "set" => set(r).line(),
        "area" => {
            let wild = r.once_in(3);
            area(r, |r| planform(r, wild))
        }
        "outline" => on_outline(r, |r| {
            let (n, wild) = (point_count(r), r.once_in(3));
            let style = if r.once_in(3) { Heights::Level } else { Heights::Free };
            outlines::simple(r, n, style, wild)
        }),
        "narrow" => narrow(r, Heights::Close),
        "merging" => narrow(r, Heights::Merging),
        "noise" => noise(r),
        "touch" => on_outline(r, |r| {
            let wild = r.once_in(3);
            outlines::touching(r, wild)
        }),
        "points" => points(r),
        "limits" => pick(r, limits),
        "faults" => faults(r),
        "table" => pick(r, |_| table()),
        "join" => join(r),
        "moments" => moments_line(&bodies::tensor(r)),
        "check" => check(r),
        "decimals" => {
            let line = mixed(r);
            words::decimals(r, &line)
        }
        "words" => {
            let line = mixed(r);
            words::mistyped(r, &line)
        }
        "tubes" => tubes(r),
        "closing" => closing(r),
        "fillets" => fillets(r),
        "drill" => points::drill(r),
        "copied" => places::copied(r),
        "placed" => places::placed(r),
        "moved" => places::moved(r),
        "without" => places::without(r),
        "spaces" => {
            let line = mixed(r);
            spaced(r, &line)
        }
        _ => mixed(r),
    }
}

/// Any kind that is made figure by figure.
fn mixed(r: &mut Random) -> String {
    let kind = r.pick(&KINDS[..MADE]);
    one(r, kind)
}

fn pick(r: &mut Random, list: fn(&mut Random) -> Vec<String>) -> String {
    let made = list(r);
    one_of(r, made)
}

/// A set's line before it is written; counts are text, as they may have any number of digits.
#[derive(Clone)]
struct Draft {
    limit: String,
    count: String,
    planform: Planform,
    thickness: f64,
    section: Section,
    tab: Option<[f64; 3]>,
    fillet: Option<(f64, Density)>,
    cant: f64,
    base: f64,
    radius: f64,
    density: Density,
}

impl Draft {
    fn line(&self) -> String {
        let tab = self.tab.map(|t| format!(" (tab{})", marked_all(&t)));
        let fillet = self.fillet.map(|(x, density)| format!(" (fillet {} {})", marked(x), density_part(density)));
        format!(
            "(set (limit {}) (count {}) ({}) (thickness {}) (section {}){}{} (cant {}) (base {}) (radius {}) {})",
            self.limit,
            self.count,
            planform_words(&self.planform, marked_all),
            marked(self.thickness),
            section_word(self.section),
            tab.unwrap_or_default(),
            fillet.unwrap_or_default(),
            marked(self.cant),
            marked(self.base),
            marked(self.radius),
            density_part(self.density)
        )
    }

    fn root(&self) -> f64 {
        match &self.planform {
            Planform::Trapezoid([root, ..]) | Planform::Ellipse([root, _]) => *root,
            Planform::Outline(figures) => figures.get(figures.len().wrapping_sub(2)).copied().unwrap_or(1.0),
        }
    }
}

pub fn density_part(density: Density) -> String {
    let (kind, value) = match density {
        Density::Bulk(v) => ("bulk", v),
        Density::Surface(v) => ("surface", v),
        Density::Line(v) => ("line", v),
    };
    format!("({kind} {})", marked(value))
}

/// The planform's word and figures, without brackets; a line's are marked, a question's are not.
pub fn planform_words(planform: &Planform, written: fn(&[f64]) -> String) -> String {
    match planform {
        Planform::Trapezoid(f) => format!("trapezoid{}", written(f)),
        Planform::Ellipse(f) => format!("ellipse{}", written(f)),
        Planform::Outline(f) => format!("outline{}", written(f)),
    }
}

pub fn section_word(section: Section) -> &'static str {
    match section {
        Section::Square => "square",
        Section::Rounded => "rounded",
        Section::Airfoil => "airfoil",
        Section::AirfoilOpen => "airfoil-open",
    }
}

pub fn section(r: &mut Random) -> Section {
    r.pick(&[Section::Square, Section::Rounded, Section::Airfoil, Section::AirfoilOpen])
}

fn limit(r: &mut Random) -> String {
    let limit = match r.below(8) {
        0 => r.range(1, 8),
        1 => r.range(1, 64),
        _ => 64,
    };
    limit.to_string()
}

fn point_count(r: &mut Random) -> usize {
    match r.below(6) {
        0 => 64,
        1 => r.range(3, 64) as usize,
        _ => r.range(3, 12) as usize,
    }
}

fn figures(points: &[Point]) -> Planform {
    Planform::Outline(points.concat())
}

/// A legal planform.
pub fn planform(r: &mut Random, wild: bool) -> Planform {
    let (root, span) = (length(r, wild), length(r, wild));
    match r.below(8) {
        0..=3 => {
            let tip = match r.below(4) {
                0 => r.pick(&[0.0, -0.0]),
                1 => root,
                _ => length(r, wild),
            };
            let sweep = match r.below(4) {
                0 => r.pick(&[0.0, -0.0]),
                1 => -length(r, wild),
                _ => length(r, wild),
            };
            Planform::Trapezoid([root, tip, span, sweep])
        }
        4 | 5 => Planform::Ellipse([root, span]),
        _ => {
            let (n, level) = (point_count(r), r.once_in(4));
            let style = if level { Heights::Level } else { Heights::Free };
            figures(&outlines::simple(r, n, style, wild))
        }
    }
}

/// Both zeros, tiny, subnormal, the limits, multiples of an eighth turn, and any angle.
pub fn angle(r: &mut Random) -> f64 {
    let x = match r.below(10) {
        0 | 1 => 0.0,
        2 => f64::from_bits(1 + (r.next() >> (13 + r.below(51)))),
        3 => r.scaled(-1022, -30),
        4 => 4.0,
        5 => r.range(0, 5) as f64 * std::f64::consts::FRAC_PI_4,
        6 => r.range(0, 180) as f64 * std::f64::consts::PI / 180.0,
        _ => r.between(0.0, 4.0),
    };
    r.sign(x)
}

pub fn density(r: &mut Random) -> f64 {
    match r.below(8) {
        0 => r.pick(&[0.0, -0.0]),
        1 => r.pick(&[power_of_two(-10), power_of_two(15)]),
        2 => r.scaled(-10, 14),
        _ => r.range(90, 2800) as f64,
    }
}

/// A tab on the root and no deeper than the body, at times as long or as deep as may be.
fn tab(r: &mut Random, root: f64, radius: f64) -> [f64; 3] {
    let offset = if r.once_in(3) { 0.0 } else { root * r.unit() };
    let room = root - offset;
    let length = if r.once_in(3) { room } else { room * r.unit() };
    let height = if r.once_in(3) { radius } else { radius * r.unit() };
    [height, length, offset]
}

/// A thickness that is over the root chord is made one within it, at times the root chord itself: number 21 is for limits and faults.
fn within_root(r: &mut Random, thickness: f64, root: f64) -> f64 {
    let shortest = power_of_two(-20);
    if !(shortest <= root && root < thickness) {
        return thickness;
    }
    if r.once_in(8) { root } else { (root * r.unit()).max(shortest) }
}

fn on(r: &mut Random, planform: Planform, wild: bool) -> Draft {
    let radius = if r.once_in(6) {
        r.pick(&[0.0, -0.0])
    } else {
        length(r, wild)
    };
    let mut draft = Draft {
        limit: limit(r),
        count: r.pick(&[1, 2, 3, 3, 4, 4, 5, 6, 7, 8, 13, 31, 32]).to_string(),
        planform,
        thickness: if wild {
            length(r, wild)
        } else {
            r.range(1, 120) as f64 / 10000.0
        },
        section: section(r),
        tab: None,
        fillet: None,
        cant: angle(r),
        base: angle(r),
        radius,
        density: Density::Bulk(density(r)),
    };
    draft.thickness = within_root(r, draft.thickness, draft.root());
    if radius != 0.0 && r.once_in(3) {
        draft.tab = Some(tab(r, draft.root(), radius));
    }
    draft
}

fn set(r: &mut Random) -> Draft {
    let wild = r.once_in(3);
    let planform = planform(r, wild);
    on(r, planform, wild)
}

fn area(r: &mut Random, planform: impl Fn(&mut Random) -> Planform) -> String {
    let limit = limit(r);
    format!("(area (limit {limit}) ({}))", planform_words(&planform(r), marked_all))
}

/// A set or an area with the outline.
fn on_outline(r: &mut Random, outline: impl Fn(&mut Random) -> Vec<Point>) -> String {
    if r.once_in(3) {
        return area(r, |r| figures(&outline(r)));
    }
    let planform = figures(&outline(r));
    on(r, planform, false).line()
}

/// Strips a few last bits wide. A thick plate, or an area, lets the noise in them pass the bound; a body radius equal to the root
/// chord makes r one at the top, so that components tie.
fn narrow(r: &mut Random, heights: Heights) -> String {
    let (n, wild) = (r.range(3, 12) as usize, r.once_in(4));
    let outline = figures(&outlines::simple(r, n, heights, wild));
    if r.once_in(3) {
        return area(r, |_| outline.clone());
    }
    let mut draft = on(r, outline, wild);
    if r.once_in(2) {
        draft.thickness = draft.root();
    }
    if r.once_in(3) {
        draft.limit = r.range(1, 3).to_string();
        draft.thickness = draft.root();
        draft.tab = None;
        draft.radius = draft.root();
    }
    draft.line()
}

/// A narrow trapezoid whose tip lies far aft or fore.
pub fn far_trapezoid(r: &mut Random) -> Planform {
    let root = r.scaled(-20, -14);
    let other = r.scaled(-20, -14);
    let tip = r.pick(&[0.0, 0.0, root, 0.5 * root, other]);
    let span = r.scaled(-20, -8);
    // just under a power of two the trailing edge can round to before the leading edge
    let sweep = if r.once_in(3) {
        let power = power_of_two(r.range(-4, 5));
        r.near(power, 4)
    } else {
        r.scaled(-4, 5)
    };
    Planform::Trapezoid([root, tip, span, r.sign(sweep)])
}

/// Legal sets on such trapezoids: differences of squares and cubes lose their digits, and no number of pieces meets the bound.
fn noise(r: &mut Random) -> String {
    let planform = far_trapezoid(r);
    if r.once_in(4) {
        return area(r, |_| planform.clone());
    }
    let mut draft = on(r, planform, false);
    draft.limit = r.pick(&["1", "7", "32", "63", "64"]).to_owned();
    let thickness = r.scaled(-20, -14);
    draft.thickness = within_root(r, thickness, draft.root());
    draft.line()
}

/// Outlines of too few or too many points, or half a pair, with bad points among them: 5 comes first.
fn points(r: &mut Random) -> String {
    let n = r.pick(&[0, 1, 2, 3, 4, 5, 6, 7, 127, 128, 129, 130, 131, 140]);
    let bad = r.once_in(2);
    let figure = |k: usize| match k {
        _ if bad && r.once_in(4) => r.pick(&[-1.0, f64::NAN, 65.0, f64::from_bits(1)]),
        0 | 1 => 0.0,
        _ if k == n - 1 && n % 2 == 0 => 0.0,
        // the points rise to the right, so that 128 figures are an outline
        _ if k % 2 == 0 => k as f64 / 1000.0,
        _ => r.range(1, 50) as f64 / 100.0,
    };
    let planform = Planform::Outline((0..n).map(figure).collect());
    if r.once_in(3) {
        return area(r, |_| planform.clone());
    }
    let mut draft = on(r, planform, false);
    draft.tab = None;
    draft.line()
}

/// What stands about each limit of a length.
fn lengths() -> Vec<f64> {
    let (low, high) = (power_of_two(-20), 64.0);
    let magnitudes = [
        0.0,
        f64::from_bits(1),
        f64::MIN_POSITIVE,
        moved(low, -1),
        low,
        moved(low, 1),
        1.0,
        moved(high, -1),
        high,
        moved(high, 1),
        f64::MAX,
        f64::INFINITY,
        f64::NAN,
    ];
    signed(&magnitudes)
}

fn angles() -> Vec<f64> {
    let magnitudes = [
        0.0,
        f64::from_bits(1),
        moved(4.0, -1),
        4.0,
        moved(4.0, 1),
        f64::MAX,
        f64::INFINITY,
        f64::NAN,
    ];
    signed(&magnitudes)
}

pub fn densities() -> Vec<f64> {
    let (low, high) = (power_of_two(-10), power_of_two(15));
    let magnitudes = [
        0.0,
        f64::from_bits(1),
        moved(low, -1),
        low,
        moved(low, 1),
        moved(high, -1),
        high,
        moved(high, 1),
        f64::INFINITY,
        f64::NAN,
    ];
    signed(&magnitudes)
}

fn signed(magnitudes: &[f64]) -> Vec<f64> {
    magnitudes.iter().flat_map(|&x| [x, -x]).collect()
}

/// Counts about a limit, and counts that a narrow register would take for a small one.
fn counts(limits: &[u64]) -> Vec<String> {
    let mut list: Vec<String> = Vec::new();
    for &limit in limits {
        list.extend((limit.saturating_sub(1)..=limit + 1).map(|n| n.to_string()));
        list.push(format!("{limit:040}"));
    }
    let wrapped = [
        "257",
        "65537",
        "4294967297",
        "4294967304",
        "18446744073709551615",
        "18446744073709551616",
    ];
    let longer = ["18446744073709551617", "340282366920938463463374607431768211457"];
    list.extend(wrapped.iter().chain(&longer).map(|&w| w.to_owned()));
    list.push("9".repeat(300));
    list.push(format!("1{}", "0".repeat(300)));
    list
}

/// Each limit of each field, one step inside and outside, on one base set.
fn limits(r: &mut Random) -> Vec<String> {
    let wild = r.once_in(3);
    let mut base = set(r);
    base.planform = loop {
        let found = planform(r, wild);
        if !matches!(found, Planform::Outline(_)) {
            break found;
        }
    };
    base.thickness = within_root(r, base.thickness, base.root());
    base.radius = length(r, wild);
    base.tab = Some(tab(r, base.root(), base.radius));
    let mut list = Vec::new();
    let mut with = |change: &dyn Fn(&mut Draft)| {
        let mut draft = base.clone();
        change(&mut draft);
        list.push(draft.line());
    };
    for text in counts(&[1, 64]) {
        with(&|d| d.limit = text.clone());
    }
    for text in counts(&[1, 32]) {
        with(&|d| d.count = text.clone());
    }
    for value in lengths() {
        // the shortest root chord passes with the shortest thickness
        for k in 0..4 {
            with(&|d| {
                let mut lengths = [0.2, 0.1, 0.15, 0.05];
                lengths[k] = value;
                d.thickness = power_of_two(-20);
                d.tab = None;
                d.planform = Planform::Trapezoid(lengths);
            });
        }
        for k in 0..2 {
            with(&|d| {
                let mut lengths = [0.2, 0.15];
                lengths[k] = value;
                d.thickness = power_of_two(-20);
                d.tab = None;
                d.planform = Planform::Ellipse(lengths);
            });
        }
        for k in 0..8 {
            with(&|d| {
                let mut drawn = vec![0.0, 0.0, 0.05, 0.1, 0.2, 0.12, 0.25, 0.0];
                drawn[k] = value;
                d.thickness = power_of_two(-20);
                d.tab = None;
                d.planform = Planform::Outline(drawn);
            });
        }
        with(&|d| d.thickness = value);
        with(&|d| d.radius = value);
        for k in 0..3 {
            with(&|d| d.tab.as_mut().expect("a tab")[k] = value);
        }
    }
    for value in angles() {
        with(&|d| d.cant = value);
        with(&|d| d.base = value);
    }
    for value in densities() {
        with(&|d| d.density = Density::Bulk(value));
        with(&|d| d.density = Density::Surface(value));
        with(&|d| d.density = Density::Line(value));
    }
    let root = base.root();
    for steps in -4..=4 {
        // number 10's limit rounds twice; root + root·1e-12 is another
        for end in [root, root * (1.0 + 1e-12), root + root * 1e-12] {
            with(&|d| d.tab = Some([d.radius, moved(end, steps), 0.0]));
            with(&|d| d.tab = Some([d.radius, moved(0.75 * end, steps), 0.25 * end]));
        }
        with(&|d| d.tab.as_mut().expect("a tab")[0] = moved(d.radius, steps));
        with(&|d| d.thickness = moved(root, steps));
    }
    list
}

/// A legal set with one to four faults, so that the order of the checks shows.
fn faults(r: &mut Random) -> String {
    let mut d = set(r);
    let bad_lengths = [-0.01, 0.0, 65.0, f64::NAN, f64::INFINITY, f64::from_bits(1)];
    if d.tab.is_none() && r.once_in(2) {
        d.tab = Some(tab(r, d.root(), d.radius));
    }
    for _ in 0..1 + r.below(4) {
        let bad = r.pick(&bad_lengths);
        match r.below(15) {
            0 => d.limit = r.pick(&["0", "65", "501", "4000", "99999999999999999999"]).to_owned(),
            1 => d.count = r.pick(&["0", "33", "4294967297"]).to_owned(),
            2..=4 => match &mut d.planform {
                Planform::Trapezoid(f) => f[r.below(4)] = bad,
                Planform::Ellipse(f) => f[r.below(2)] = bad,
                Planform::Outline(f) => {
                    let at = r.below(f.len());
                    f[at] = bad;
                    if r.once_in(5) {
                        f.pop();
                    }
                }
            },
            5 => {
                let wild = r.once_in(3);
                d.planform = figures(&outlines::touching(r, wild));
            }
            6 => d.planform = Planform::Outline(vec![0.0, 0.0, 1.0, 0.0, 2.0, r.pick(&[0.0, 0.5])]),
            7 => d.thickness = r.pick(&[bad, bad, moved(d.root(), 1), 2.0 * d.root()]),
            8 => d.cant = r.pick(&[f64::NAN, 4.5, -5.0, f64::INFINITY]),
            9 => d.base = r.pick(&[f64::NAN, 4.5, -5.0, f64::INFINITY]),
            10 | 11 => {
                let mut t = d.tab.unwrap_or([0.01, 0.01, 0.0]);
                t[r.below(3)] = r.pick(&[bad, -0.01, 50.0]);
                d.tab = Some(t);
            }
            12 => d.radius = r.pick(&[bad, 0.0, power_of_two(-20)]),
            13 => d.density = Density::Bulk(r.pick(&[-1.0, f64::NAN, 1e9, 1e-9, f64::INFINITY])),
            _ => d.density = r.pick(&[Density::Surface(0.1), Density::Line(1.0), Density::Surface(f64::NAN)]),
        }
    }
    d.line()
}

/// Sets with fillets: radii of every size, and a few last bits about a millionth and a thousand times the body's; a sixth about a limit, a
/// sixth with faults, so that the order of the checks shows.
fn fillets(r: &mut Random) -> String {
    let mut d = set(r);
    let radius = fillet_radius(r, &mut d);
    d.fillet = Some((radius, Density::Bulk(density(r))));
    match r.below(6) {
        0 => fillet_limit(r, &mut d),
        1 => {
            for _ in 0..1 + r.below(3) {
                fillet_fault(r, &mut d);
            }
        }
        _ => {}
    }
    d.line()
}

/// A legal radius; where it is to stand about a bound of the ratio the body gets a radius that allows it.
fn fillet_radius(r: &mut Random, d: &mut Draft) -> f64 {
    let (low, high) = (power_of_two(-20), 64.0);
    let radius = match r.below(8) {
        0 => return r.pick(&[0.0, -0.0]),
        1 => {
            d.radius = r.between(1.0, 64.0);
            r.near(d.radius * 1e-6, 3)
        }
        2 => {
            d.radius = r.between(low, 0.06);
            r.near(d.radius * 1000.0, 3)
        }
        3 => {
            d.radius = length(r, true);
            length(r, true)
        }
        4 => length(r, false),
        _ => d.radius * r.between(0.01, 3.0),
    };
    if let Some(tab) = &mut d.tab {
        tab[0] = tab[0].min(d.radius);
    }
    radius.clamp(low, high)
}

fn fillet_limit(r: &mut Random, d: &mut Draft) {
    let (radius, _) = d.fillet.expect("a fillet");
    let value = r.pick(&densities());
    d.fillet = Some(match r.below(4) {
        0 => (r.pick(&lengths()), Density::Bulk(value)),
        1 => (radius, Density::Surface(value)),
        2 => (radius, Density::Line(value)),
        _ => (radius, Density::Bulk(value)),
    });
}

fn fillet_fault(r: &mut Random, d: &mut Draft) {
    let (radius, glue) = d.fillet.expect("a fillet");
    let bad = r.pick(&[-0.01, 0.0, 65.0, f64::NAN, f64::INFINITY, f64::from_bits(1)]);
    match r.below(9) {
        0 => d.fillet = Some((bad, glue)),
        1 => d.fillet = Some((radius, Density::Surface(0.1))),
        2 => d.fillet = Some((radius, Density::Bulk(-1.0))),
        3 => d.base = 4.5,
        4 => d.tab = Some([bad, 0.01, 0.0]),
        5 => d.radius = r.pick(&[bad, 0.0, power_of_two(-20)]),
        6 => d.density = r.pick(&[Density::Line(1.0), Density::Bulk(-1.0)]),
        7 => d.fillet = Some((r.between(1.0, 64.0), glue)),
        // not converged: behind every check
        _ => d.limit = "1".to_owned(),
    }
}

/// The line of a ring of tubes before it is written.
#[derive(Clone)]
struct TubesDraft {
    count: String,
    length: f64,
    outer: f64,
    wall: f64,
    base: f64,
    radius: f64,
    density: Density,
}

impl TubesDraft {
    fn line(&self) -> String {
        format!(
            "(tubes (count {}) (length {}) (outer {}) (wall {}) (base {}) (radius {}) {})",
            self.count,
            marked(self.length),
            marked(self.outer),
            marked(self.wall),
            marked(self.base),
            marked(self.radius),
            density_part(self.density)
        )
    }
}

/// A legal ring; its tubes at times close it, its wall is at times zero or the outer radius.
fn legal_tubes(r: &mut Random) -> TubesDraft {
    let wild = r.once_in(3);
    let count = r.pick(&[1, 2, 3, 3, 4, 4, 5, 6, 6, 7, 8, 13, 31, 32]);
    let radius = if r.once_in(6) {
        r.pick(&[0.0, -0.0])
    } else {
        length(r, wild)
    };
    let closing = TubeFinSet::closing_radius_m(radius, count);
    let outer = if (power_of_two(-20)..=64.0).contains(&closing) && r.once_in(3) {
        closing
    } else {
        length(r, wild)
    };
    let wall = match r.below(6) {
        0 => r.pick(&[0.0, -0.0]),
        1 => outer,
        2 => (outer * r.unit()).max(power_of_two(-20)),
        3 => length(r, wild).min(outer),
        _ => (outer / r.range(2, 50) as f64).max(power_of_two(-20)),
    };
    TubesDraft {
        count: count.to_string(),
        length: length(r, wild),
        outer,
        wall,
        base: angle(r),
        radius,
        density: Density::Bulk(density(r)),
    }
}

/// Half legal; else walls a last bit about the outer radius, a field about one of its limits, or one to four faults, so that the order
/// of the checks shows.
fn tubes(r: &mut Random) -> String {
    let mut d = legal_tubes(r);
    match r.below(8) {
        0 => d.wall = r.near(d.outer, 2),
        1 | 2 => tubes_limit(r, &mut d),
        3 => {
            for _ in 0..1 + r.below(4) {
                tubes_fault(r, &mut d);
            }
        }
        _ => {}
    }
    d.line()
}

fn tubes_limit(r: &mut Random, d: &mut TubesDraft) {
    let value = r.pick(&lengths());
    match r.below(8) {
        0 => d.count = one_of(r, counts(&[1, 3, 32])),
        1 => d.length = value,
        2 => d.outer = value,
        3 => d.wall = value,
        4 => d.base = r.pick(&angles()),
        5 => d.radius = value,
        6 => d.density = Density::Bulk(r.pick(&densities())),
        // both at the limit of lengths
        _ => (d.outer, d.wall) = (value, r.near(value, 1)),
    }
}

fn tubes_fault(r: &mut Random, d: &mut TubesDraft) {
    let bad = r.pick(&[-0.01, 0.0, 65.0, f64::NAN, f64::INFINITY, f64::from_bits(1)]);
    match r.below(9) {
        0 => d.count = r.pick(&["0", "33", "4294967297"]).to_owned(),
        1 => d.length = bad,
        2 => d.outer = bad,
        3 => d.wall = bad,
        4 => d.wall = 2.0 * d.outer,
        5 => d.base = r.pick(&[f64::NAN, 4.5, -5.0, f64::INFINITY]),
        6 => d.radius = bad,
        7 => d.density = Density::Bulk(r.pick(&[-1.0, f64::NAN, 1e9, 1e-9, f64::INFINITY])),
        _ => d.density = r.pick(&[Density::Surface(0.1), Density::Line(1.0), Density::Surface(f64::NAN)]),
    }
}

fn one_of(r: &mut Random, mut list: Vec<String>) -> String {
    list.swap_remove(r.below(list.len()))
}

fn closing_line(count: &str, radius: f64) -> String {
    format!("(closing (count {count}) (radius {}))", marked(radius))
}

fn closing(r: &mut Random) -> String {
    let wild = r.once_in(3);
    let count = match r.below(6) {
        0 => one_of(r, counts(&[1, 3, 32])),
        _ => r.range(1, 32).to_string(),
    };
    let radius = match r.below(6) {
        0 => r.pick(&lengths()),
        _ => length(r, wild),
    };
    closing_line(&count, radius)
}

/// The examples of document 01's refusal table, its join, the cases named P that a line can show, and document 02's rings of tubes, fillets, with
/// ratios at both bounds, and points.
fn table() -> Vec<String> {
    let legal = Draft {
        limit: "64".to_owned(),
        count: "3".to_owned(),
        planform: Planform::Trapezoid([0.2, 0.1, 0.15, 0.05]),
        thickness: 0.003,
        section: Section::Square,
        tab: None,
        fillet: None,
        cant: 0.0,
        base: 0.0,
        radius: 0.05,
        density: Density::Bulk(680.0),
    };
    let with = |change: &dyn Fn(&mut Draft)| {
        let mut draft = legal.clone();
        change(&mut draft);
        draft.line()
    };
    let outline = |points: &[Point]| {
        let planform = figures(points);
        with(&|d| d.planform = planform.clone())
    };
    let body = |mass: f64, x: f64, diagonal: [f64; 3]| {
        let [a, b, c] = diagonal;
        let tensor = [a, b, c, 0.0, 0.0, 0.0];
        check_line(mass, [x, 0.0, 0.0], &tensor)
    };
    let ratio = |radius: f64, body_radius: f64| {
        with(&|d| {
            d.fillet = Some((radius, Density::Bulk(1200.0)));
            d.radius = body_radius;
        })
    };
    let ring = TubesDraft {
        count: "6".to_owned(),
        length: 0.2,
        outer: 0.05,
        wall: 0.001,
        base: 0.0,
        radius: 0.05,
        density: Density::Bulk(680.0),
    };
    let drilled = Planform::Trapezoid([1.0, 0.5, 1.0, 0.5]);
    let with_wall = |wall: f64| TubesDraft { wall, ..ring.clone() }.line();
    vec![
        legal.line(),
        with(&|d| d.limit = "0".to_owned()),
        with(&|d| d.limit = "65".to_owned()),
        with(&|d| d.limit = "501".to_owned()),
        with(&|d| d.limit = "4000".to_owned()),
        with(&|d| d.count = "0".to_owned()),
        with(&|d| d.planform = Planform::Trapezoid([0.2, -0.01, 0.15, 0.05])),
        outline(&[[0.0, 0.0], [0.2, 0.0]]),
        outline(&[[0.0, 0.0], [0.1, 0.1], [0.2, 0.1]]),
        outline(&[[0.0, 0.0], [2.0, 1.0], [0.0, 1.0], [2.0, 0.0]]),
        outline(&[[0.0, 0.0], [1.0, 0.0], [2.0, 0.0]]),
        with(&|d| {
            d.planform = Planform::Trapezoid([0.003, 0.1, 0.15, 0.05]);
            d.thickness = 0.2;
        }),
        with(&|d| d.thickness = 0.2),
        with(&|d| d.cant = f64::NAN),
        with(&|d| d.tab = Some([0.01, 0.1, -0.01])),
        with(&|d| d.tab = Some([0.01, 0.2, 0.0])),
        with(&|d| {
            d.radius = 0.02;
            d.tab = Some([0.03, 0.1, 0.0]);
        }),
        with(&|d| d.density = Density::Surface(0.1)),
        with(&|d| {
            d.limit = "1".to_owned();
            d.planform = Planform::Ellipse([0.2, 0.1]);
        }),
        with(&|d| {
            d.planform = Planform::Trapezoid([0.000005, 0.0, 0.05, 0.8]);
            d.thickness = 0.000005;
            d.radius = 9.0;
        }),
        "(area (limit 64) (trapezoid 0.0004 0 1 31))".to_owned(),
        body(-1.0, 0.0, [1.0, 1.0, 1.0]),
        body(1.0, f64::NAN, [1.0, 1.0, 1.0]),
        body(1.0, 0.0, [1.0, 1.0, f64::INFINITY]),
        body(0.0, 0.0, [1.0, 1.0, 1.0]),
        check_line(1.0, [0.0; 3], &[1.0, 1.0, 1.0, 0.5, 0.0, 0.0]),
        body(1.0, 0.0, [1.0, -1.0, 1.0]),
        body(1.0, 0.0, [1.0, 1.0, 3.0]),
        body(1.0, 0.0, [1.0, 2.0, 3.0]),
        "(set".to_owned(),
        "(join)".to_owned(),
        join_line(&[[1.0, 0.0, 0.0, 0.0], [1.0, 2.0, 0.0, 0.0]]),
        moments_line(&[2.0, 0.0, 2.0, 0.0, 0.0, 0.0]),
        ring.line(),
        with_wall(0.0),
        with_wall(ring.outer),
        with_wall(moved(ring.outer, 1)),
        with_wall(65.0),
        closing_line("6", 0.05),
        closing_line("2", 0.05),
        closing_line("3", 64.0),
        closing_line("0", f64::NAN),
        closing_line("33", 0.05),
        closing_line("6", f64::NAN),
        with(&|d| d.fillet = Some((0.01, Density::Bulk(1200.0)))),
        with(&|d| d.fillet = Some((0.01, Density::Bulk(0.0)))),
        with(&|d| d.fillet = Some((0.0, Density::Surface(0.1)))),
        with(&|d| d.fillet = Some((0.01, Density::Surface(0.1)))),
        with(&|d| {
            d.fillet = Some((0.01, Density::Bulk(1200.0)));
            d.radius = 0.0;
        }),
        ratio(0.001, 0.000001),
        ratio(1.0, 0.001),
        ratio(0.0000161, 16.1),
        ratio(0.000001, 1.0),
        // inside; on an edge and at a corner; outside; at a pointed tip, whose two corners are one place
        drill_line(&drilled, [0.5, 0.5]),
        drill_line(&drilled, [0.25, 0.5]),
        drill_line(&drilled, [1.0, 0.0]),
        drill_line(&drilled, [-0.25, 0.5]),
        drill_line(&Planform::Trapezoid([1.0, 0.0, 1.0, 0.5]), [0.5, 1.0]),
        // a corner at 128 m, and the farthest point
        drill_line(&Planform::Trapezoid([64.0; 4]), [-64.0, -64.0]),
        // 25: sweep + tip, which rounds to whole steps, and the point; 24 before 25, 4 before 24, 7 before 25, 8 before 4
        drill_line(&Planform::Trapezoid([1.0, moved(power_of_two(-20), 1), 1.0, 64.0]), [0.0, 0.0]),
        drill_line(&drilled, [0.1, 0.5]),
        drill_line(&Planform::Ellipse([1.0, 1.0]), [0.1, 0.5]),
        drill_line(&Planform::Ellipse([1.0, 1.0]), [65.0, f64::NAN]),
        drill_line(&figures(&[[0.0, 0.0], [2.0, 1.0], [0.0, 1.0], [2.0, 0.0]]), [0.1, 0.1]),
        drill_line(&figures(&[[0.0, 0.0], [1.0, 0.0], [2.0, 0.0]]), [65.0, 0.1]),
    ]
    .into_iter()
    .chain(places::table())
    .collect()
}

fn join_line(points: &[[f64; 4]]) -> String {
    let points: String = points.iter().map(|p| format!(" (point{})", marked_all(p))).collect();
    format!("(join{points})")
}

fn moments_line(tensor: &[f64; 6]) -> String {
    format!("(moments{})", marked_all(tensor))
}

fn join(r: &mut Random) -> String {
    join_line(&bodies::points(r))
}

fn check_line(mass: f64, centre: [f64; 3], inertia: &[f64; 6]) -> String {
    let parts = [marked_all(&[mass]), marked_all(&centre), marked_all(inertia)];
    format!("(check (mass{}) (centre{}) (inertia{}))", parts[0], parts[1], parts[2])
}

fn check(r: &mut Random) -> String {
    let (mass, centre, inertia) = bodies::body(r);
    check_line(mass, centre, &inertia)
}

/// The same line with other spaces, all of them free.
pub fn spaced(r: &mut Random, line: &str) -> String {
    let bytes = line.as_bytes();
    let bracket = |k: usize| bytes.get(k).is_none_or(|b| b"()".contains(b));
    let mut made = String::new();
    for (k, &byte) in bytes.iter().enumerate() {
        let beside = k == 0 || bracket(k) || bracket(k - 1);
        if byte == b' ' {
            let least = if bracket(k - 1) || bracket(k + 1) { 0 } else { 1 };
            let spaces = r.range(least, 3) as usize;
            made.push_str(&" ".repeat(spaces));
            continue;
        }
        if beside && r.once_in(4) {
            made.push_str(&" ".repeat(1 + r.below(2)));
        }
        made.push(char::from(byte));
    }
    made.push_str(&" ".repeat(r.below(3)));
    made
}
