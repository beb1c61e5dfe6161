//! The card program's forms, read from a line.

use crate::figures;
use crate::refusals::Refusal;

/// The most bytes that a line has, its newline not counted.
const LONGEST: usize = 4096;

pub enum Form {
    Set(Set),
    Area { limit: u64, planform: Planform },
    Join(Vec<[f64; 4]>),
    Moments([f64; 6]),
    Check(Body),
    Tubes(Tubes),
    Closing { count: u64, radius: f64 },
    Drill { planform: Planform, at: [f64; 2] },
    Copied { body: Body, offsets: Vec<[f64; 2]> },
    /// x, y, roll.
    Placed { body: Body, places: Vec<[f64; 3]> },
    Moved { whole: Body, part: Body, offset: [f64; 3] },
    Without { whole: Body, part: Body },
    Submit { screen: u64, set: Set },
    Density { screen: u64, density: Density },
    Turn,
    Progress { screen: u64 },
}

pub struct Set {
    pub limit: u64,
    pub count: u64,
    pub planform: Planform,
    pub thickness: f64,
    pub section: Section,
    /// Height, length, offset.
    pub tab: Option<[f64; 3]>,
    /// Radius and density.
    pub fillet: Option<(f64, Density)>,
    pub cant: f64,
    pub base: f64,
    pub radius: f64,
    pub density: Density,
}

pub struct Tubes {
    pub count: u64,
    pub length: f64,
    pub outer: f64,
    pub wall: f64,
    pub base: f64,
    pub radius: f64,
    pub density: Density,
}

#[derive(Clone)]
pub enum Planform {
    /// Root chord, tip chord, span, sweep.
    Trapezoid([f64; 4]),
    /// Root chord, span.
    Ellipse([f64; 2]),
    /// x, y, x, y, ..; any number of figures.
    Outline(Vec<f64>),
}

#[derive(Clone, Copy)]
pub enum Section {
    Square,
    Rounded,
    Airfoil,
    AirfoilOpen,
}

#[derive(Clone, Copy)]
pub enum Density {
    Bulk(f64),
    Surface(f64),
    Line(f64),
}

pub struct Body {
    pub mass: f64,
    pub centre: [f64; 3],
    pub inertia: [f64; 6],
}

#[derive(Clone, Copy, PartialEq)]
enum Token<'a> {
    Open,
    Close,
    Word(&'a [u8]),
}

fn tokens(line: &[u8]) -> Vec<Token<'_>> {
    let mut found = Vec::new();
    let mut at = 0;
    while at < line.len() {
        match line[at] {
            b' ' => at += 1,
            b'(' => {
                found.push(Token::Open);
                at += 1;
            }
            b')' => {
                found.push(Token::Close);
                at += 1;
            }
            _ => {
                let rest = &line[at..];
                let end = rest.iter().position(|b| b" ()".contains(b));
                let end = end.unwrap_or(rest.len());
                found.push(Token::Word(&rest[..end]));
                at += end;
            }
        }
    }
    found
}

/// The form that a line holds: 18 where it is none, else 19 where a word is no figure and one belongs there.
pub fn read(line: &[u8]) -> Result<Form, Refusal> {
    if line.len() > LONGEST {
        return Err(Refusal::NoForm);
    }
    let found = tokens(line);
    let mut reader = Reader {
        rest: &found,
        spoiled: false,
    };
    let form = reader.form().ok_or(Refusal::NoForm)?;
    if reader.spoiled {
        return Err(Refusal::NoFigure);
    }
    Ok(form)
}

struct Reader<'t, 'l> {
    rest: &'t [Token<'l>],
    /// A word that is no figure stood where one belongs.
    spoiled: bool,
}

impl<'l> Reader<'_, 'l> {
    /// The whole line.
    fn form(&mut self) -> Option<Form> {
        let form = match self.open()? {
            b"set" => Form::Set(self.set()?),
            b"area" => Form::Area {
                limit: self.count_part(b"limit")?,
                planform: self.planform()?,
            },
            b"join" => Form::Join(self.each(b"point")?),
            b"moments" => Form::Moments(self.figures()?),
            b"check" => Form::Check(self.body_parts()?),
            b"tubes" => Form::Tubes(self.tubes()?),
            b"closing" => {
                let count = self.count_part(b"count")?;
                let [radius] = self.part(b"radius")?;
                Form::Closing { count, radius }
            }
            b"drill" => Form::Drill {
                planform: self.planform()?,
                at: self.part(b"at")?,
            },
            b"copied" => Form::Copied {
                body: self.body()?,
                offsets: self.each(b"offset")?,
            },
            b"placed" => Form::Placed {
                body: self.body()?,
                places: self.each(b"place")?,
            },
            b"moved" => Form::Moved {
                whole: self.body()?,
                part: self.body()?,
                offset: self.part(b"offset")?,
            },
            b"without" => Form::Without {
                whole: self.body()?,
                part: self.body()?,
            },
            b"submit" => {
                let screen = self.count()?;
                (self.open()? == b"set").then_some(())?;
                let set = self.set()?;
                self.close()?;
                Form::Submit { screen, set }
            }
            b"density" => Form::Density {
                screen: self.count()?,
                density: self.density()?,
            },
            b"turn" => Form::Turn,
            b"progress" => Form::Progress { screen: self.count()? },
            _ => return None,
        };
        self.close()?;
        self.rest.is_empty().then_some(form)
    }

    fn next(&mut self) -> Option<Token<'l>> {
        let (first, rest) = self.rest.split_first()?;
        self.rest = rest;
        Some(*first)
    }

    fn word(&mut self) -> Option<&'l [u8]> {
        match self.next()? {
            Token::Word(word) => Some(word),
            _ => None,
        }
    }

    /// A bracket and the word behind it.
    fn open(&mut self) -> Option<&'l [u8]> {
        (self.next()? == Token::Open).then_some(())?;
        self.word()
    }

    fn close(&mut self) -> Option<()> {
        (self.next()? == Token::Close).then_some(())
    }

    /// Where a figure belongs any word is a form, and the line's end tells; a byte that no form has is none.
    fn figure(&mut self) -> Option<f64> {
        let word = self.word()?;
        let figure = figures::read(word);
        self.spoiled |= figure.is_none();
        word.iter().all(u8::is_ascii_graphic).then_some(figure.unwrap_or(0.0))
    }

    fn figures<const N: usize>(&mut self) -> Option<[f64; N]> {
        let mut list = [0.0; N];
        for x in &mut list {
            *x = self.figure()?;
        }
        Some(list)
    }

    /// `(name F ..)`
    fn part<const N: usize>(&mut self, name: &[u8]) -> Option<[f64; N]> {
        (self.open()? == name).then_some(())?;
        self.figures_close()
    }

    fn figures_close<const N: usize>(&mut self) -> Option<[f64; N]> {
        let list = self.figures()?;
        self.close()?;
        Some(list)
    }

    /// `(name F ..) ..`, as many as there are.
    fn each<const N: usize>(&mut self, name: &[u8]) -> Option<Vec<[f64; N]>> {
        let mut list = Vec::new();
        while self.rest.first() == Some(&Token::Open) {
            list.push(self.part(name)?);
        }
        Some(list)
    }

    fn body_parts(&mut self) -> Option<Body> {
        let [mass] = self.part(b"mass")?;
        Some(Body {
            mass,
            centre: self.part(b"centre")?,
            inertia: self.part(b"inertia")?,
        })
    }

    /// `(body ..)`
    fn body(&mut self) -> Option<Body> {
        (self.open()? == b"body").then_some(())?;
        let body = self.body_parts()?;
        self.close()?;
        Some(body)
    }

    /// `(name N)`
    fn count_part(&mut self, name: &[u8]) -> Option<u64> {
        (self.open()? == name).then_some(())?;
        let value = self.count()?;
        self.close()?;
        Some(value)
    }

    /// A number past u64 reads as the largest u64, which is past every limit too.
    fn count(&mut self) -> Option<u64> {
        let word = self.word()?;
        let mut value: u64 = 0;
        for byte in word {
            if !byte.is_ascii_digit() {
                return None;
            }
            value = value.saturating_mul(10).saturating_add(u64::from(byte - b'0'));
        }
        Some(value)
    }

    fn planform(&mut self) -> Option<Planform> {
        match self.open()? {
            b"trapezoid" => Some(Planform::Trapezoid(self.figures_close()?)),
            b"ellipse" => Some(Planform::Ellipse(self.figures_close()?)),
            b"outline" => {
                let mut list = Vec::new();
                while let Some(Token::Word(_)) = self.rest.first() {
                    list.push(self.figure()?);
                }
                self.close()?;
                Some(Planform::Outline(list))
            }
            _ => None,
        }
    }

    fn section(&mut self) -> Option<Section> {
        (self.open()? == b"section").then_some(())?;
        let section = match self.word()? {
            b"square" => Section::Square,
            b"rounded" => Section::Rounded,
            b"airfoil" => Section::Airfoil,
            b"airfoil-open" => Section::AirfoilOpen,
            _ => return None,
        };
        self.close()?;
        Some(section)
    }

    fn density(&mut self) -> Option<Density> {
        let name = self.open()?;
        let [value] = self.figures_close()?;
        match name {
            b"bulk" => Some(Density::Bulk(value)),
            b"surface" => Some(Density::Surface(value)),
            b"line" => Some(Density::Line(value)),
            _ => None,
        }
    }

    /// `(fillet F DENSITY)`
    fn fillet(&mut self) -> Option<(f64, Density)> {
        (self.open()? == b"fillet").then_some(())?;
        let radius = self.figure()?;
        let density = self.density()?;
        self.close()?;
        Some((radius, density))
    }

    fn set(&mut self) -> Option<Set> {
        let limit = self.count_part(b"limit")?;
        let count = self.count_part(b"count")?;
        let planform = self.planform()?;
        let [thickness] = self.part(b"thickness")?;
        let section = self.section()?;
        let tab = match self.rest {
            [Token::Open, Token::Word(b"tab"), ..] => Some(self.part(b"tab")?),
            _ => None,
        };
        let fillet = match self.rest {
            [Token::Open, Token::Word(b"fillet"), ..] => Some(self.fillet()?),
            _ => None,
        };
        let [cant] = self.part(b"cant")?;
        let [base] = self.part(b"base")?;
        let [radius] = self.part(b"radius")?;
        let density = self.density()?;
        Some(Set {
            limit,
            count,
            planform,
            thickness,
            section,
            tab,
            fillet,
            cant,
            base,
            radius,
            density,
        })
    }

    fn tubes(&mut self) -> Option<Tubes> {
        let count = self.count_part(b"count")?;
        let [length] = self.part(b"length")?;
        let [outer] = self.part(b"outer")?;
        let [wall] = self.part(b"wall")?;
        let [base] = self.part(b"base")?;
        let [radius] = self.part(b"radius")?;
        let density = self.density()?;
        Some(Tubes {
            count,
            length,
            outer,
            wall,
            base,
            radius,
            density,
        })
    }
}
