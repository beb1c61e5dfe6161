//! Where things stand on the sheet: the fin in the middle in its true size, its dimensions around it, heights of the chords on the left, a
//! bar to hold a ruler against and the legend below.
use crate::svg::{decimals, figure, width_of, Svg, TEXT_PX};
use crate::Fin;
use delvouzh::{Density, Planform, Section};

/// A pixel of an SVG is a 96th of an inch, so that the fin prints in its true size.
const PX_PER_MM: f64 = 96.0 / 25.4;
/// What stands around the fin.
const LEFT_PX: f64 = 84.0;
const RIGHT_PX: f64 = 110.0;
const ROW_PX: f64 = 26.0;
const LEGEND_ROW_PX: f64 = 20.0;
const LEGEND_TEXT_PX: f64 = 36.0;
const MARGIN_PX: f64 = 28.0;

const STYLE: &str = "text{font:12px 'DejaVu Sans',Verdana,Arial,sans-serif;fill:#222}\
.edge{fill:#f3e3c3;stroke:#5b3a1a;stroke-linejoin:round}.tab{fill:#e3c998;stroke:#5b3a1a;stroke-linejoin:round}\
.chord{fill:none;stroke:#2b6cb0}.leader{stroke:#9bb8d8;stroke-width:.8;stroke-dasharray:1 3}\
.dimension{stroke:#444;stroke-width:.8}.extension{stroke:#999;stroke-width:.6}.arrow{fill:#444}\
.bar{stroke:#222;stroke-width:2}.centroid{fill:none;stroke:#c02942;stroke-width:1.4}\
.corner{fill:#8a4b08;font-weight:bold}.light{fill:#fff;stroke:#111;stroke-width:1.2}.dark{fill:#111}";

/// A fin's box in millimetres, its tab with it, and where it lies on the sheet.
struct Sheet {
    left: f64,
    right: f64,
    bottom: f64,
    top: f64,
    px_per_mm: f64,
    /// Where x = 0 and height 0 are.
    origin: [f64; 2],
    width: f64,
}

/// Dimensions along x above the fin, and below it: from, to, and at which heights the two ends are.
struct Rows {
    above: Vec<([f64; 2], [f64; 2])>,
    below: Vec<([f64; 2], [f64; 2])>,
}

fn rows(fin: &Fin) -> Rows {
    let mut rows = Rows {
        above: Vec::new(),
        below: Vec::new(),
    };
    if let Some([start, end, depth]) = tab_mm(fin) {
        rows.below.push(([start, end], [-depth, -depth]));
        if start > 0.0 {
            rows.below.push(([0.0, start], [0.0, -depth]));
        }
    }
    match fin.set.planform {
        Planform::Trapezoid {
            root_chord_m,
            tip_chord_m,
            span_m,
            sweep_m,
        } => {
            let [root, tip, span, sweep] = [root_chord_m, tip_chord_m, span_m, sweep_m].map(|x| 1e3 * x);
            if tip > 0.0 {
                rows.above.push(([sweep, sweep + tip], [span, span]));
            }
            if sweep > 0.0 {
                rows.above.push(([0.0, sweep], [0.0, span]));
            }
            if sweep < 0.0 {
                rows.above.push(([sweep, 0.0], [span, 0.0]));
            }
            rows.below.push(([0.0, root], [0.0, 0.0]));
        }
        Planform::Ellipse { root_chord_m, .. } => rows.below.push(([0.0, 1e3 * root_chord_m], [0.0, 0.0])),
        Planform::Outline { points_m } => {
            let root = points_m.last().map_or(0.0, |p| 1e3 * p[0]);
            rows.below.push(([0.0, root], [0.0, 0.0]));
            let first = lowest(fin, 0);
            let last = highest(fin, 0);
            if first[0] < 0.0 || root < last[0] {
                rows.above.push(([first[0], last[0]], [first[1], last[1]]));
            }
        }
    }
    rows
}

/// The tab's front and rear, and its depth below the root.
fn tab_mm(fin: &Fin) -> Option<[f64; 3]> {
    fin.set
        .tab
        .map(|tab| [tab.offset_m, tab.offset_m + tab.length_m, tab.height_m].map(|x| 1e3 * x))
}

/// The point of the edge that is furthest to the front (or lowest).
fn lowest(fin: &Fin, axis: usize) -> [f64; 2] {
    let by = |a: &&[f64; 2], b: &&[f64; 2]| a[axis].total_cmp(&b[axis]);
    *fin.edge.iter().min_by(by).unwrap_or(&[0.0; 2])
}

/// The point that is furthest to the rear (or highest).
fn highest(fin: &Fin, axis: usize) -> [f64; 2] {
    let by = |a: &&[f64; 2], b: &&[f64; 2]| a[axis].total_cmp(&b[axis]);
    *fin.edge.iter().max_by(by).unwrap_or(&[0.0; 2])
}

fn sheet(fin: &Fin, rows_above: usize, least_width: f64) -> Sheet {
    let left = lowest(fin, 0)[0];
    let right = highest(fin, 0)[0];
    let top = highest(fin, 1)[1];
    let bottom = tab_mm(fin).map_or(0.0, |[_, _, depth]| -depth);
    let px_per_mm = PX_PER_MM;
    let needed = LEFT_PX + px_per_mm * (right - left) + RIGHT_PX;
    let width = needed.max(least_width);
    let first_x = LEFT_PX + 0.5 * (width - needed);
    let first_y = 74.0 + ROW_PX * rows_above as f64;
    Sheet {
        left,
        right,
        bottom,
        top,
        px_per_mm,
        origin: [first_x - px_per_mm * left, first_y + px_per_mm * top],
        width,
    }
}

impl Sheet {
    fn x(&self, x_mm: f64) -> f64 {
        self.origin[0] + self.px_per_mm * x_mm
    }

    fn y(&self, height_mm: f64) -> f64 {
        self.origin[1] - self.px_per_mm * height_mm
    }

    fn at(&self, [x_mm, height_mm]: [f64; 2]) -> [f64; 2] {
        [self.x(x_mm), self.y(height_mm)]
    }

    /// Millimetres for the group whose transform is the sheet's scale: to a hundredth of a pixel.
    fn coordinate(&self, x_mm: f64) -> String {
        decimals(x_mm, (100.0 * self.px_per_mm).log10().ceil().clamp(0.0, 12.0) as usize)
    }

    fn path(&self, points: &[[f64; 2]]) -> String {
        let pairs: Vec<String> = points
            .iter()
            .map(|p| format!("{} {}", self.coordinate(p[0]), self.coordinate(p[1])))
            .collect();
        format!("M{}", pairs.join("L"))
    }
}

/// Edge, tab and chords, in millimetres with heights upward, scaled by the group that they stand in.
fn shapes(svg: &mut Svg, s: &Sheet, fin: &Fin) {
    let px = 1.0 / s.px_per_mm;
    svg.element(&format!(
        r#"<g id="millimetres" transform="matrix({scale} 0 0 {down} {} {})" stroke-width="{}">"#,
        s.origin[0],
        s.origin[1],
        1.5 * px,
        scale = s.px_per_mm,
        down = -s.px_per_mm
    ));
    if let Some([start, end, depth]) = tab_mm(fin) {
        let corners = [[start, 0.0], [start, -depth], [end, -depth], [end, 0.0]];
        svg.element(&format!(r#"<path id="tab" class="tab" d="{}Z"/>"#, s.path(&corners)));
    }
    svg.element(&format!(r#"<path id="edge" class="edge" d="{}Z"/>"#, s.path(&fin.edge)));
    let dashes = format!("{} {}", 5.0 * px, 4.0 * px);
    for (height, chords) in &fin.chords {
        for &[start, end] in chords {
            let path = s.path(&[[start, *height], [end, *height]]);
            svg.element(&format!(
                r#"<path class="chord" stroke-dasharray="{dashes}" d="{path}"/>"#
            ));
        }
    }
    svg.element("</g>");
}

/// The heights of the chords, where there is room, each with a line to the first chord there.
fn heights(svg: &mut Svg, s: &Sheet, fin: &Fin) {
    let column = s.x(s.left) - 16.0;
    let mut last = f64::INFINITY;
    for (height, chords) in &fin.chords {
        let y = s.y(*height);
        let (Some(first), true) = (chords.first(), last - y >= TEXT_PX + 1.0) else {
            continue;
        };
        last = y;
        svg.text([column - 4.0, y + 0.35 * TEXT_PX], "end", &figure(*height));
        svg.line("leader", [column, y], [s.x(first[0]), y]);
    }
}

fn dimensions(svg: &mut Svg, s: &Sheet, fin: &Fin, rows: &Rows) {
    let labelled = |[from, to]: [f64; 2]| figure(to - from);
    for (k, &(ends, at)) in rows.above.iter().enumerate() {
        let y = s.y(s.top) - ROW_PX * (k as f64 + 0.75);
        svg.across(ends.map(|x| s.x(x)), y, at.map(|h| s.y(h)), &labelled(ends));
    }
    for (k, &(ends, at)) in rows.below.iter().enumerate() {
        let y = s.y(s.bottom) + ROW_PX * (k as f64 + 1.0);
        svg.across(ends.map(|x| s.x(x)), y, at.map(|h| s.y(h)), &labelled(ends));
    }
    let tip = highest(fin, 1);
    let root = highest(fin, 0)[0].min(fin.edge.last().map_or(0.0, |p| p[0]));
    let column = s.x(s.right) + 28.0;
    svg.upward(
        [s.y(0.0), s.y(tip[1])],
        column,
        [s.x(root), s.x(tip[0])],
        &figure(tip[1]),
    );
    if let Some([_, end, depth]) = tab_mm(fin) {
        svg.upward(
            [s.y(-depth), s.y(0.0)],
            column + 30.0,
            [s.x(end), s.x(root)],
            &figure(depth),
        );
    }
}

/// A cross, `reach` pixels to each side.
fn centroid_mark(svg: &mut Svg, [x, y]: [f64; 2], reach: f64, id: &str) {
    svg.element(&format!(
        r#"<path id="{id}" class="centroid" d="M{:.2} {y:.2}H{:.2}M{x:.2} {:.2}V{:.2}"/>"#,
        x - reach,
        x + reach,
        y - reach,
        y + reach
    ));
}

/// The drawing office's sign of a centre of gravity: a circle in quarters, two of them dark.
fn balance_mark(svg: &mut Svg, [x, y]: [f64; 2], id: &str) {
    svg.element(&format!(
        r#"<circle id="{id}" class="light" cx="{x:.2}" cy="{y:.2}" r="6"/>"#
    ));
    svg.element(&format!(
        r#"<path class="dark" d="M{x:.2} {y:.2}h6a6 6 0 0 0 -6 -6zM{x:.2} {y:.2}h-6a6 6 0 0 0 6 6z"/>"#
    ));
}

/// Which way the rocket flies.
fn nose(svg: &mut Svg, y: f64) {
    svg.element(&format!(
        r#"<path id="nose" class="arrow" d="M{MARGIN_PX} {y}l9 -4v2.8h30v2.4h-30v2.8z"/>"#
    ));
    svg.text([MARGIN_PX + 46.0, y + 0.35 * TEXT_PX], "start", "to the nose");
}

/// A line of 50 mm, to hold a ruler against.
fn scale_bar(svg: &mut Svg, x: f64, y: f64) {
    let end = x + 50.0 * PX_PER_MM;
    svg.line("bar", [x, y], [end, y]);
    svg.line("dimension", [x, y - 5.0], [x, y + 5.0]);
    svg.line("dimension", [end, y - 5.0], [end, y + 5.0]);
    svg.text(
        [end + 10.0, y + 0.35 * TEXT_PX],
        "start",
        "50 mm on paper: the drawing prints 1:1",
    );
}

/// Numbers beside an outline's corners, as the legend lists them.
fn corner_numbers(svg: &mut Svg, s: &Sheet, fin: &Fin) {
    let Planform::Outline { points_m } = fin.set.planform else {
        return;
    };
    let middle = s.at(fin.centroid);
    for (k, point) in points_m.iter().enumerate() {
        let [x, y] = s.at(point.map(|v| 1e3 * v));
        let [dx, dy] = [x - middle[0], y - middle[1]];
        let away = 11.0 / dx.hypot(dy).max(1.0);
        let [x, y] = [x + away * dx, y + away * dy + 0.35 * TEXT_PX];
        svg.element(&format!(
            r#"<text class="corner" x="{x:.2}" y="{y:.2}" text-anchor="middle">{k}</text>"#
        ));
    }
}

fn aft_and_above([x, height]: [f64; 2]) -> String {
    format!(
        "{} mm aft of the root's leading edge, {} mm above the root",
        figure(x),
        figure(height)
    )
}

/// An outline's corners, a few to a row.
fn corner_rows(fin: &Fin) -> Vec<String> {
    let Planform::Outline { points_m } = fin.set.planform else {
        return Vec::new();
    };
    let named = |(k, point): (usize, &[f64; 2])| {
        let [x, height] = point.map(|v| figure(1e3 * v));
        format!("{k} ({x}, {height})")
    };
    let corners: Vec<String> = points_m.iter().enumerate().map(named).collect();
    corners.chunks(5).map(|row| row.join(",  ")).collect()
}

/// What the marks are, with their numbers.
fn legend_texts(fin: &Fin) -> Vec<String> {
    let mut whole = String::new();
    if fin.set.tab.is_some() {
        whole += ", tab included";
    }
    if fin.set.fillet.is_some() {
        whole += ", glue included";
    }
    let mut texts = vec![
        "chords at the heights on the left".into(),
        format!("centroid of the planform: {}", aft_and_above(fin.centroid)),
        format!("balance point of one fin{whole}: {}", aft_and_above(fin.balance_point)),
        format!(
            "area {} mm², mass of one fin {} g; all lengths in mm",
            figure(fin.area_mm2),
            figure(fin.mass_g)
        ),
    ];
    let rows = corner_rows(fin);
    if !rows.is_empty() {
        texts.push("corners: how far aft of the root's leading edge, and how high above the root".into());
    }
    texts.extend(rows);
    texts
}

/// The bar, and each mark with its text; answers how far down they go.
fn legend(svg: &mut Svg, texts: &[String], first: f64) -> f64 {
    let row = |k: usize| first + LEGEND_ROW_PX * k as f64;
    let mark = |k: usize| [MARGIN_PX + 12.0, row(k)];
    scale_bar(svg, MARGIN_PX, row(0));
    svg.element(&format!(
        r#"<path class="chord" stroke-width="1.5" stroke-dasharray="5 4" d="M{MARGIN_PX} {}h24"/>"#,
        row(1)
    ));
    centroid_mark(svg, mark(2), 8.0, "centroid-mark");
    balance_mark(svg, mark(3), "balance-mark");
    for (k, text) in (1..).zip(texts) {
        svg.text([MARGIN_PX + LEGEND_TEXT_PX, row(k) + 0.35 * TEXT_PX], "start", text);
    }
    row(texts.len()) + LEGEND_ROW_PX
}

/// What the fin is, and what it is made of.
fn title(fin: &Fin) -> [String; 2] {
    let set = &fin.set;
    let shape = match set.planform {
        Planform::Trapezoid { .. } => "Trapezoid",
        Planform::Ellipse { .. } => "Half ellipse",
        Planform::Outline { .. } => "Drawn outline",
    };
    let section = match set.section {
        Section::Square => "square",
        Section::Rounded => "rounded",
        Section::Airfoil => "airfoil",
        _ => "airfoil with an open tail",
    };
    let tab = if set.tab.is_some() { " with a tab" } else { "" };
    let wood = match set.density {
        Density::Bulk { kg_m3: 680.0 } => "plywood of 680 kg/m³".into(),
        Density::Bulk { kg_m3 } => format!("wood of {} kg/m³", figure(kg_m3)),
        _ => "a density that is no wood's".into(),
    };
    [
        format!(
            "{shape}{tab}, {} mm thick, {section} section",
            figure(1e3 * set.thickness_m)
        ),
        format!("{wood}, on a body of {} mm radius", figure(1e3 * set.body_radius_m)),
    ]
}

/// The whole drawing. The fin covers the lines that lead to its dimensions.
pub(crate) fn drawn(fin: &Fin) -> String {
    let rows = rows(fin);
    let texts = legend_texts(fin);
    let longest = texts.iter().map(|text| width_of(text)).fold(0.0, f64::max);
    let s = sheet(fin, rows.above.len(), 2.0 * MARGIN_PX + LEGEND_TEXT_PX + longest);
    let [what, made_of] = title(fin);
    let mut svg = Svg::default();
    svg.text([MARGIN_PX, 24.0], "start", &format!("{what}; {made_of}"));
    nose(&mut svg, 42.0);
    heights(&mut svg, &s, fin);
    dimensions(&mut svg, &s, fin, &rows);
    shapes(&mut svg, &s, fin);
    corner_numbers(&mut svg, &s, fin);
    balance_mark(&mut svg, s.at(fin.balance_point), "balance-point");
    centroid_mark(&mut svg, s.at(fin.centroid), 11.0, "centroid");
    let below = s.y(s.bottom) + ROW_PX * (rows.below.len() as f64 + 1.0) + 14.0;
    let height = legend(&mut svg, &texts, below);
    let size = format!(
        r#"width="{:.2}mm" height="{:.2}mm" viewBox="0 0 {w:.2} {height:.2}""#,
        s.width / PX_PER_MM,
        height / PX_PER_MM,
        w = s.width
    );
    format!(
        "<svg xmlns=\"http://www.w3.org/2000/svg\" {size} role=\"img\">\n<title>{what}</title>\n<style>{STYLE}</style>\n\
         <rect width=\"100%\" height=\"100%\" fill=\"#fff\"/>\n{}</svg>\n",
        svg.elements
    )
}
