//! The oracle: the original Rust's answers to card lines and to single questions, and generators for both.
//! oracle/README.md says what each command reads and prints.

mod bodies;
mod damage;
mod drill;
mod engine;
mod figures;
mod forms;
mod lines;
mod outlines;
mod places;
mod points;
mod random;
mod refusals;
mod runs;
mod screens;
mod values;
mod words;
mod work;

use std::io::{self, BufWriter, Read, Write};

/// The numbers of scratch that the card program lends.
const LENT: usize = 1024;

const USAGE: &str = "usage: oracle answer | detail [SCRATCH] | runs | work | damage SEED [N] | kinds
     | lines KIND COUNT SEED | runs KIND COUNT SEED | values KIND COUNT SEED";

fn main() {
    let arguments: Vec<String> = std::env::args().skip(1).collect();
    let words: Vec<&str> = arguments.iter().map(String::as_str).collect();
    let mut out = BufWriter::new(io::stdout().lock());
    let mut engine = engine::Engine::new();
    let done = match words[..] {
        ["answer"] => each_line(&mut out, |line| work::work(&mut engine, line, LENT).answer().into_bytes()),
        ["detail"] => each_line(&mut out, |line| work::work(&mut engine, line, LENT).detail().into_bytes()),
        ["detail", scratch] => {
            let lent = number(scratch) as usize;
            each_line(&mut out, |line| work::work(&mut engine, line, lent).detail().into_bytes())
        }
        ["runs"] => each_line(&mut out, |line| runs::run(line).into_bytes()),
        ["runs", kind, count, seed] => {
            let made = runs::runs(kind, number(count), number(seed));
            print(&mut out, made, lines::KINDS)
        }
        ["lines", kind, count, seed] => {
            let made = lines::lines(kind, number(count), number(seed));
            print(&mut out, made, lines::KINDS)
        }
        ["damage", seed] => damaged(&mut out, number(seed), 1),
        ["damage", seed, n] => damaged(&mut out, number(seed), number(n) as usize),
        ["values", kind, count, seed] => {
            let made = values::values(kind, number(count), number(seed));
            print(&mut out, made, values::KINDS)
        }
        ["kinds"] => lines::KINDS.iter().try_for_each(|kind| writeln!(out, "{kind}")),
        ["work"] => each_line(&mut out, |line| values::work(line).into_bytes()),
        _ => stop(USAGE),
    };
    if let Err(e) = done.and_then(|()| out.flush()) {
        stop(&e.to_string());
    }
}

/// One line in n is damaged, the others stay as they are.
fn damaged(out: &mut impl Write, seed: u64, n: usize) -> io::Result<()> {
    let mut random = random::Random::new(seed);
    each_line(out, |line| if n == 1 || random.once_in(n) { damage::damage(&mut random, line) } else { line.to_vec() })
}

fn stop(text: &str) -> ! {
    eprintln!("{text}");
    std::process::exit(2)
}

fn number(word: &str) -> u64 {
    word.parse().unwrap_or_else(|_| stop(USAGE))
}

fn print(out: &mut impl Write, made: Option<Vec<String>>, kinds: &[&str]) -> io::Result<()> {
    let Some(made) = made else {
        stop(&format!("the kinds are: {}", kinds.join(", ")));
    };
    made.iter().try_for_each(|line| writeln!(out, "{line}"))
}

/// Writes what `f` makes of each line of standard input. A line ends at a newline or at the end of the input; an
/// input that ends in a newline has no empty last line.
fn each_line(out: &mut impl Write, mut f: impl FnMut(&[u8]) -> Vec<u8>) -> io::Result<()> {
    let mut input = Vec::new();
    io::stdin().lock().read_to_end(&mut input)?;
    let mut rest = &input[..];
    while !rest.is_empty() {
        let end = rest.iter().position(|&b| b == b'\n').unwrap_or(rest.len());
        out.write_all(&f(&rest[..end]))?;
        out.write_all(b"\n")?;
        rest = rest.get(end + 1..).unwrap_or_default();
    }
    Ok(())
}
