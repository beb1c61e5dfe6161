//! A `(set ..)` line of the card program, read into a set.
use delvouzh::{Density, Fillet, FinSet, Planform, Section, Tab};

type Outcome<T> = Result<T, Box<dyn std::error::Error>>;

/// x and height of each point.
pub fn pairs(figures: &[f64]) -> Vec<[f64; 2]> {
    figures.chunks_exact(2).map(|p| [p[0], p[1]]).collect()
}

/// The words of each part, from its bracket to the next one of its own depth: the set's name, then its parts.
fn parts(line: &str) -> Vec<Vec<String>> {
    let spaced = line.replace('(', " ( ").replace(')', " ) ");
    let mut depth = 0;
    let mut parts: Vec<Vec<String>> = Vec::new();
    for word in spaced.split_whitespace() {
        match word {
            "(" => {
                depth += 1;
                if depth <= 2 {
                    parts.push(Vec::new());
                }
            }
            ")" => depth -= 1,
            _ => parts
                .last_mut()
                .into_iter()
                .for_each(|part| part.push(word.to_string())),
        }
    }
    parts
}

/// A decimal, or the bits of an f64 after a mark.
fn figure(word: &str) -> Result<f64, String> {
    match word.strip_prefix('#') {
        Some(bits) => u64::from_str_radix(bits, 16).map(f64::from_bits).map_err(|_| ()),
        None => word.parse().map_err(|_| ()),
    }
    .map_err(|()| format!("{word:?} is no figure"))
}

fn density(word: &str, figure: f64) -> Outcome<Density> {
    match word {
        "bulk" => Ok(Density::Bulk { kg_m3: figure }),
        "surface" => Ok(Density::Surface { kg_m2: figure }),
        "line" => Ok(Density::Line { kg_m: figure }),
        _ => Err(format!("{word:?} is no kind of density").into()),
    }
}

fn section(word: &str) -> Outcome<Section> {
    match word {
        "square" => Ok(Section::Square),
        "rounded" => Ok(Section::Rounded),
        "airfoil" => Ok(Section::Airfoil),
        "airfoil-open" => Ok(Section::AirfoilOpen),
        _ => Err(format!("{word:?} is no section").into()),
    }
}

fn planform<'a>(word: &str, figures: &[f64], points_m: &'a [[f64; 2]]) -> Option<Planform<'a>> {
    match (word, figures) {
        ("trapezoid", &[root_chord_m, tip_chord_m, span_m, sweep_m]) => Some(Planform::Trapezoid {
            root_chord_m,
            tip_chord_m,
            span_m,
            sweep_m,
        }),
        ("ellipse", &[root_chord_m, span_m]) => Some(Planform::Ellipse { root_chord_m, span_m }),
        ("outline", _) => Some(Planform::Outline { points_m }),
        _ => None,
    }
}

/// What stands in one part of the line.
fn put<'a>(set: &mut FinSet<'a>, part: &[String], figures: &[f64], points_m: &'a [[f64; 2]]) -> Outcome<()> {
    match (part[0].as_str(), figures) {
        ("set", _) | ("limit", _) => {}
        ("count", &[count]) => set.count = count as usize,
        ("thickness", &[x]) => set.thickness_m = x,
        ("section", _) => set.section = section(part.get(1).map_or("", String::as_str))?,
        ("tab", &[height_m, length_m, offset_m]) => {
            set.tab = Some(Tab {
                height_m,
                length_m,
                offset_m,
            })
        }
        ("fillet", &[radius_m, x]) => {
            let density = density(&part[2], x)?;
            set.fillet = Some(Fillet { radius_m, density });
        }
        ("cant", &[x]) => set.cant_rad = x,
        ("base", &[x]) => set.base_angle_rad = x,
        ("radius", &[x]) => set.body_radius_m = x,
        ("bulk" | "surface" | "line", &[x]) => set.density = density(&part[0], x)?,
        (word, _) => match planform(word, figures, points_m) {
            Some(planform) => set.planform = planform,
            None => return Err(format!("({} is no part of a set's line", part.join(" ")).into()),
        },
    }
    Ok(())
}

/// Hands on the set that a line asks for.
pub fn with_set<T>(line: &str, then: impl FnOnce(FinSet) -> Outcome<T>) -> Outcome<T> {
    let parts = parts(line);
    if parts
        .first()
        .and_then(|part| part.first())
        .is_none_or(|word| word != "set")
    {
        return Err("a line that begins (set is wanted".into());
    }
    let mut read = Vec::new();
    for part in &parts {
        let words = part
            .iter()
            .skip(1)
            .filter(|w| !["bulk", "surface", "line"].contains(&w.as_str()));
        let figures = match part.first().map_or("", String::as_str) {
            "" => return Err("an empty bracket is no part of a set's line".into()),
            "set" | "section" => Vec::new(),
            _ => words.map(|w| figure(w)).collect::<Result<Vec<_>, _>>()?,
        };
        let points = pairs(&figures);
        read.push((part, figures, points));
    }
    let mut set = FinSet {
        count: 0,
        planform: Planform::Outline { points_m: &[] },
        thickness_m: 0.0,
        section: Section::Square,
        tab: None,
        fillet: None,
        cant_rad: 0.0,
        base_angle_rad: 0.0,
        body_radius_m: 0.0,
        density: Density::Bulk { kg_m3: 0.0 },
    };
    for (part, figures, points_m) in &read {
        put(&mut set, part, figures, points_m)?;
    }
    then(set)
}
