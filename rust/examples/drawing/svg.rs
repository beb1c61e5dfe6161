//! The few shapes of a drawing, as elements of an SVG: lines, dimensions with arrowheads, texts.
use std::fmt::Write;

pub const TEXT_PX: f64 = 12.0;
const ARROW_PX: f64 = 7.0;

/// Elements in the order in which they are drawn. Positions are pixels, y downward.
#[derive(Default)]
pub struct Svg {
    pub elements: String,
}

/// A text's width, near enough to place others beside it.
pub fn width_of(text: &str) -> f64 {
    0.62 * TEXT_PX * text.chars().count() as f64
}

/// To so many decimals, without zeros at the end.
pub fn decimals(x: f64, places: usize) -> String {
    let text = format!("{x:.places$}");
    let short = if text.contains('.') {
        text.trim_end_matches('0').trim_end_matches('.')
    } else {
        &text
    };
    if short == "-0" {
        "0".into()
    } else {
        short.into()
    }
}

/// A quantity to read: to five significant digits, the digits before the point whole.
pub fn figure(x: f64) -> String {
    if x == 0.0 {
        return "0".into();
    }
    let places = 4 - x.abs().log10().floor() as i32;
    if places > 8 {
        return format!("{x:.4e}");
    }
    decimals(x, places.max(0) as usize)
}

/// An arrowhead at (x, y) whose line goes off along (dx, dy).
fn arrowhead(x: f64, y: f64, [dx, dy]: [f64; 2]) -> String {
    let (bx, by) = (x + ARROW_PX * dx, y + ARROW_PX * dy);
    let (wx, wy) = (0.3 * ARROW_PX * dy, 0.3 * ARROW_PX * dx);
    format!(
        "M{x:.2} {y:.2}L{:.2} {:.2}L{:.2} {:.2}Z",
        bx + wx,
        by + wy,
        bx - wx,
        by - wy
    )
}

impl Svg {
    pub fn element(&mut self, text: &str) {
        self.elements.push_str(text);
        self.elements.push('\n');
    }

    pub fn line(&mut self, class: &str, [x0, y0]: [f64; 2], [x1, y1]: [f64; 2]) {
        let _ = writeln!(
            self.elements,
            r#"<path class="{class}" d="M{x0:.2} {y0:.2}L{x1:.2} {y1:.2}"/>"#
        );
    }

    /// Text; `anchor` is start, middle or end.
    pub fn text(&mut self, [x, y]: [f64; 2], anchor: &str, text: &str) {
        let text = text.replace('&', "&amp;").replace('<', "&lt;");
        let _ = writeln!(
            self.elements,
            r#"<text x="{x:.2}" y="{y:.2}" text-anchor="{anchor}">{text}</text>"#
        );
    }

    /// The same, reading upward.
    fn upward_text(&mut self, [x, y]: [f64; 2], anchor: &str, text: &str) {
        let turn = format!("rotate(-90 {x:.2} {y:.2})");
        let _ = writeln!(
            self.elements,
            r#"<text x="{x:.2}" y="{y:.2}" text-anchor="{anchor}" transform="{turn}">{text}</text>"#
        );
    }

    /// The arrows of a dimension from a to b along `direction`; where there is no room between them they stand outside and point inward.
    fn arrows(&mut self, a: [f64; 2], b: [f64; 2], [dx, dy]: [f64; 2], inside: bool) {
        let s = if inside { 1.0 } else { -1.0 };
        let tail = if inside { 0.0 } else { 2.0 * ARROW_PX };
        self.line(
            "dimension",
            [a[0] - tail * dx, a[1] - tail * dy],
            [b[0] + tail * dx, b[1] + tail * dy],
        );
        let heads = arrowhead(a[0], a[1], [s * dx, s * dy]) + &arrowhead(b[0], b[1], [-s * dx, -s * dy]);
        self.element(&format!(r#"<path class="arrow" d="{heads}"/>"#));
    }

    /// A dimension from x0 to x1 at y, with lines to it from where what it measures lies, at `from` and `to`.
    pub fn across(&mut self, [x0, x1]: [f64; 2], y: f64, [from, to]: [f64; 2], label: &str) {
        let beyond = |at: f64| {
            if at < y {
                [at + 3.0, y + 4.0]
            } else {
                [at - 3.0, y - 4.0]
            }
        };
        for (x, [near, far]) in [(x0, beyond(from)), (x1, beyond(to))] {
            self.line("extension", [x, near], [x, far]);
        }
        let inside = x1 - x0 >= 3.0 * ARROW_PX;
        self.arrows([x0, y], [x1, y], [1.0, 0.0], inside);
        if x1 - x0 >= width_of(label) + 8.0 {
            self.text([0.5 * (x0 + x1), y - 3.5], "middle", label);
        } else {
            let tail = if inside { 4.0 } else { 2.0 * ARROW_PX + 3.0 };
            self.text([x1 + tail, y + 0.35 * TEXT_PX], "start", label);
        }
    }

    /// A dimension from y0 up to y1 at x, likewise.
    pub fn upward(&mut self, [y0, y1]: [f64; 2], x: f64, [from, to]: [f64; 2], label: &str) {
        for (y, near) in [(y0, from), (y1, to)] {
            self.line("extension", [near + 3.0, y], [x + 4.0, y]);
        }
        let inside = y0 - y1 >= 3.0 * ARROW_PX;
        self.arrows([x, y1], [x, y0], [0.0, 1.0], inside);
        if y0 - y1 >= width_of(label) + 8.0 {
            self.upward_text([x - 3.5, 0.5 * (y0 + y1)], "middle", label);
        } else {
            self.text([x + 6.0, 0.5 * (y0 + y1) + 0.35 * TEXT_PX], "start", label);
        }
    }
}
