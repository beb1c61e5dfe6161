//! The example `drawing`: what it draws is what the library says, read back from the SVG.
use delvouzh::{chords_at, geometry, mass_properties, scratch_len, Density, FinSet, Planform, Section, Tab};
use std::process::{Command, Output};

const TRAPEZOID: Planform = Planform::Trapezoid {
    root_chord_m: 0.2,
    tip_chord_m: 0.1,
    span_m: 0.15,
    sweep_m: 0.05,
};

const ELLIPSE: Planform = Planform::Ellipse {
    root_chord_m: 0.2,
    span_m: 0.1,
};

const POINTS_M: [[f64; 2]; 6] = [
    [0.0, 0.0],
    [-0.02, 0.08],
    [0.05, 0.05],
    [0.09, 0.13],
    [0.22, 0.09],
    [0.2, 0.0],
];

const OUTLINE: Planform = Planform::Outline { points_m: &POINTS_M };

const TAB: Tab = Tab {
    height_m: 0.02,
    length_m: 0.1,
    offset_m: 0.05,
};

/// A planform, with the example's words and its break heights in metres.
const FINS: [(Planform, &str, &[f64]); 3] = [
    (TRAPEZOID, "trapezoid 0.2 0.1 0.15 0.05", &[0.0, 0.15]),
    (ELLIPSE, "ellipse 0.2 0.1", &[0.0, 0.1]),
    (
        OUTLINE,
        "outline 0 0 -0.02 0.08 0.05 0.05 0.09 0.13 0.22 0.09 0.2 0",
        &[0.0, 0.05, 0.08, 0.09, 0.13],
    ),
];

const WITH_TAB: &str = " tab 0.02 0.1 0.05";

fn run(words: &str) -> Output {
    run_with(&words.split(' ').collect::<Vec<_>>())
}

fn run_with(words: &[&str]) -> Output {
    let example = ["run", "--quiet", "--offline", "--example", "drawing", "--"];
    Command::new(env!("CARGO")).args(example).args(words).output().unwrap()
}

fn drawn(words: &str) -> String {
    let output = run(words);
    assert!(output.status.success(), "{}", String::from_utf8_lossy(&output.stderr));
    String::from_utf8(output.stdout).unwrap()
}

/// What stands between < and >, in order.
fn tags(svg: &str) -> Vec<&str> {
    svg.split('<')
        .skip(1)
        .map(|part| part.split('>').next().unwrap())
        .collect()
}

fn attribute<'a>(tag: &'a str, name: &str) -> &'a str {
    let (_, rest) = tag
        .split_once(&format!(" {name}=\""))
        .unwrap_or_else(|| panic!("{tag} has no {name}"));
    rest.split('"').next().unwrap()
}

fn with_id<'a>(svg: &'a str, id: &str) -> Option<&'a str> {
    let wanted = format!(" id=\"{id}\"");
    tags(svg).into_iter().find(|tag| tag.contains(&wanted))
}

fn numbers(text: &str) -> Vec<f64> {
    let words = text.split(|c: char| !(c.is_ascii_digit() || c == '-' || c == '.'));
    words.filter(|w| !w.is_empty()).map(|w| w.parse().unwrap()).collect()
}

fn pairs(tag: &str) -> Vec<[f64; 2]> {
    numbers(attribute(tag, "d"))
        .chunks_exact(2)
        .map(|p| [p[0], p[1]])
        .collect()
}

/// The picture's scale, in pixels to a millimetre, and where its origin lies.
fn scale(svg: &str) -> (f64, [f64; 2]) {
    let [s, _, _, down, x, y] = numbers(attribute(with_id(svg, "millimetres").unwrap(), "transform"))[..] else {
        panic!("no matrix of six numbers");
    };
    assert_eq!(down, -s, "the same scale along x and height, which points up");
    (s, [x, y])
}

/// Whether a drawn point is one of the library's, to a fiftieth of a pixel.
fn same(svg: &str, [x_mm, height_mm]: [f64; 2], [x_m, height_m]: [f64; 2]) -> bool {
    let near = 0.02 / scale(svg).0;
    (x_mm - 1e3 * x_m).abs() <= near && (height_mm - 1e3 * height_m).abs() <= near
}

/// A mark's place, from pixels to millimetres.
fn placed(svg: &str, [x_px, y_px]: [f64; 2]) -> [f64; 2] {
    let (s, [x, y]) = scale(svg);
    [(x_px - x) / s, (y - y_px) / s]
}

#[test]
fn every_drawing_is_well_formed() {
    for (_, words, _) in FINS {
        for words in [words.to_string(), words.to_string() + WITH_TAB] {
            let svg = drawn(&words);
            let mut open = Vec::new();
            for tag in tags(&svg) {
                assert_eq!(tag.matches('"').count() % 2, 0, "{tag}");
                match tag.strip_prefix('/') {
                    Some(name) => assert_eq!(open.pop(), Some(name), "{words}"),
                    None if tag.ends_with('/') => {}
                    None => open.push(tag.split(' ').next().unwrap()),
                }
            }
            assert!(open.is_empty(), "{open:?} is not closed");
            assert!(!svg.contains("NaN") && !svg.contains("inf"), "{words}");
        }
    }
}

#[test]
fn the_edge_is_the_planform_s() {
    let svg = drawn(FINS[0].1);
    let edge = pairs(with_id(&svg, "edge").unwrap());
    let corners = [[0.0, 0.0], [0.05, 0.15], [0.15, 0.15], [0.2, 0.0]];
    assert_eq!(edge.len(), corners.len());
    assert!(edge.iter().zip(corners).all(|(&p, corner)| same(&svg, p, corner)));

    let svg = drawn(FINS[2].1);
    let edge = pairs(with_id(&svg, "edge").unwrap());
    assert_eq!(edge.len(), POINTS_M.len());
    assert!(edge.iter().zip(POINTS_M).all(|(&p, point)| same(&svg, p, point)));

    let svg = drawn(FINS[1].1);
    let edge = pairs(with_id(&svg, "edge").unwrap());
    assert!(edge.len() > 60, "an ellipse is drawn smooth");
    for [x, height] in edge {
        let [across, up] = [x / 100.0 - 1.0, height / 100.0];
        assert!((across * across + up * up - 1.0).abs() < 1e-3, "{x} {height}");
    }
}

#[test]
fn the_chords_are_the_library_s_at_every_break() {
    for (planform, words, breaks) in FINS {
        let svg = drawn(words);
        let chord = |tag: &&str| tag.contains("class=\"chord\"") && tag.contains('L');
        let mut lines = tags(&svg).into_iter().filter(chord).map(pairs);
        for &height in breaks {
            for [start, end] in chords_at(&planform, height).unwrap() {
                let line = lines.next().unwrap();
                assert!(
                    same(&svg, line[0], [start, height]) && same(&svg, line[1], [end, height]),
                    "{words}"
                );
            }
        }
        assert_eq!(lines.next(), None, "{words}: no other chord");
    }
}

#[test]
fn the_marks_are_the_centroid_and_the_balance_point() {
    let mut scratch = vec![0.0; scratch_len(64)];
    for (planform, words, _) in FINS {
        for tab in [None, Some(TAB)] {
            let svg = drawn(&(words.to_string() + if tab.is_some() { WITH_TAB } else { "" }));
            let area = geometry(&planform, 64, &mut scratch).unwrap();
            let cross = numbers(attribute(with_id(&svg, "centroid").unwrap(), "d"));
            let [left, _, right, x, ..] = cross[..] else {
                panic!("{cross:?}")
            };
            assert!((left + right - 2.0 * x).abs() < 0.03);
            let centroid = placed(&svg, [x, cross[1]]);
            assert!(
                same(&svg, centroid, [area.centroid_x_m, area.centroid_span_m]),
                "{words}"
            );

            let set = FinSet {
                count: 1,
                planform,
                thickness_m: 0.003,
                section: Section::Square,
                tab,
                fillet: None,
                cant_rad: 0.0,
                base_angle_rad: 0.0,
                body_radius_m: 0.05,
                density: Density::Bulk { kg_m3: 680.0 },
            };
            let [out, _, forward] = mass_properties(&set, 64, &mut scratch).unwrap().body.centre_m;
            let circle = with_id(&svg, "balance-point").unwrap();
            let at = ["cx", "cy"].map(|name| attribute(circle, name).parse().unwrap());
            assert!(same(&svg, placed(&svg, at), [-forward, out - 0.05]), "{words}");
        }
    }
}

#[test]
fn a_tab_is_drawn_where_there_is_one() {
    for (_, words, _) in FINS {
        assert_eq!(with_id(&drawn(words), "tab"), None);
        let svg = drawn(&(words.to_string() + WITH_TAB));
        let corners = pairs(with_id(&svg, "tab").unwrap());
        let wanted = [[0.05, 0.0], [0.05, -0.02], [0.15, -0.02], [0.15, 0.0]];
        assert!(corners.iter().zip(wanted).all(|(&p, corner)| same(&svg, p, corner)));
    }
}

#[test]
fn dimensions_are_in_millimetres() {
    let svg = drawn(&(FINS[0].1.to_string() + WITH_TAB));
    for (label, times) in [("200", 1), ("100", 2), ("150", 2), ("50", 2), ("20", 1)] {
        assert_eq!(svg.matches(&format!(">{label}</text>")).count(), times, "{label}");
    }
    let svg = drawn(FINS[2].1);
    for label in ["200", "240", "130", "50", "80", "90"] {
        assert_eq!(svg.matches(&format!(">{label}</text>")).count(), 1, "{label}");
    }
    let named = |(k, [x, height]): (usize, &[f64; 2])| format!("{k} ({:.0}, {:.0})", 1e3 * x, 1e3 * height);
    for corner in POINTS_M.iter().enumerate().map(named) {
        assert!(svg.contains(&corner), "{corner}");
    }
}

#[test]
fn it_prints_in_its_true_size() {
    for (_, words, _) in FINS {
        let svg = drawn(words);
        let sheet = tags(&svg)[0];
        let [_, _, width, height] = numbers(attribute(sheet, "viewBox"))[..] else {
            panic!("{sheet}")
        };
        let (px_per_mm, _) = scale(&svg);
        for (name, px) in [("width", width), ("height", height)] {
            let mm: f64 = attribute(sheet, name).strip_suffix("mm").unwrap().parse().unwrap();
            assert!((mm * px_per_mm - px).abs() < 0.05, "{words}: {name}");
        }
    }
}

/// A line of the card program is drawn, with what the fin is made of.
#[test]
fn a_card_line_is_drawn() {
    let line =
        "(set (limit 64) (count 3) (outline 0 0 0.06 0.11 0.15 0.11 0.19 0) (thickness 0.003) (section airfoil) \
                (fillet 0.01 (bulk 1200)) (cant 0.02) (base 0) (radius 0.038) (bulk #4064000000000000))";
    let output = run_with(&[line]);
    let svg = String::from_utf8(output.stdout).unwrap();
    assert!(output.status.success());
    for said in [
        "3 mm thick, airfoil section",
        "wood of 160 kg/m³, on a body of 38 mm radius",
        "glue included",
        "3 (190, 0)",
    ] {
        assert!(svg.contains(said), "{said}");
    }
    let output = run_with(&["(area (limit 64) (ellipse 0.2 0.1))"]);
    assert!(!output.status.success() && output.stdout.is_empty());
    let said = String::from_utf8(output.stderr).unwrap();
    assert_eq!(said, "a line that begins (set is wanted\n");
}

#[test]
fn a_refused_fin_is_not_drawn() {
    let output = run("trapezoid 0.2 0.1 0.15 0.05 tab 0.06 0.1 0.05");
    assert!(!output.status.success() && output.stdout.is_empty());
    let said = String::from_utf8(output.stderr).unwrap();
    assert!(said.lines().any(|line| line.starts_with("refused 11")), "{said}");
    let output = run("trapezoid 0.2 0.1 ten 0.05");
    let said = String::from_utf8(output.stderr).unwrap();
    assert_eq!(said, "\"ten\" is no number: write metres, as 0.15\n");
    for words in [
        "trapezoid 0.2 0.1 0.15",
        "outline 0 0 1",
        "square 1",
        "ellipse 0.2 0.1 tab 0.02",
    ] {
        let output = run(words);
        let said = String::from_utf8(output.stderr).unwrap();
        assert!(
            !output.status.success() && said.contains("usage: drawing trapezoid ROOT"),
            "{words}: {said}"
        );
    }
}

#[test]
fn the_picture_in_docs_is_this_one() {
    let kept = concat!(env!("CARGO_MANIFEST_DIR"), "/../docs/fin.svg");
    let svg = drawn(&(FINS[0].1.to_string() + WITH_TAB));
    assert_eq!(std::fs::read_to_string(kept).unwrap(), svg);
}
