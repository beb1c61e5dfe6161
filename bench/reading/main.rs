//! The proved reader of figures beside the loop over digits that stood there before and a Rust reader that goes digit by digit: equal
//! answers and time a figure, on the figures of 64-point outlines; then what reading takes of a whole line.
//!
//! Each time is the best of many rounds in which the readers take turns, so that other work on the machine counts least.
use std::hint::black_box;
use std::time::Instant;

extern "C" {
    fn read_by_words(word: *const u8, word_len: usize) -> u64;
    fn read_by_loop(word: *const u8, word_len: usize) -> u64;
    fn delvouzh_answer_line(
        line: *const u8,
        line_len: usize,
        scratch: *mut f64,
        scratch_len: usize,
        engine_numbers: *mut f64,
        engine_numbers_len: usize,
        engine_counts: *mut usize,
        engine_counts_len: usize,
        answer: *mut u8,
        answer_len: usize,
        written: *mut usize,
        written_len: usize,
    ) -> usize;
}

/// The bits of a figure, every NaN as one, and 1 for a word that is none.
type Reader = fn(&[u8]) -> u64;

#[inline(never)]
fn by_words(word: &[u8]) -> u64 {
    unsafe { read_by_words(word.as_ptr(), word.len()) }
}

#[inline(never)]
fn by_loop(word: &[u8]) -> u64 {
    unsafe { read_by_loop(word.as_ptr(), word.len()) }
}

#[inline(never)]
fn by_rust(word: &[u8]) -> u64 {
    if word.len() != 16 {
        return 1;
    }
    let mut bits = 0;
    for &byte in word {
        let digit = match byte {
            b'0'..=b'9' => byte - b'0',
            b'a'..=b'f' => byte - b'a' + 10,
            _ => return 1,
        };
        bits = bits * 16 + u64::from(digit);
    }
    if f64::from_bits(bits).is_nan() { 0x7ff8_0000_0000_0000 } else { bits }
}

const READERS: [(&str, Reader); 3] = [("Rust, digit by digit", by_rust), ("the loop over digits", by_loop), ("two words", by_words)];

/// Marsaglia's xorshift, from a fixed seed: every run has the same inputs.
struct Random(u64);

impl Random {
    fn bits(&mut self) -> u64 {
        self.0 ^= self.0 << 13;
        self.0 ^= self.0 >> 7;
        self.0 ^= self.0 << 17;
        self.0
    }

    /// Between 0 and 1.
    fn part(&mut self) -> f64 {
        (self.bits() >> 11) as f64 / (1u64 << 53) as f64
    }
}

fn figure(x: f64) -> [u8; 16] {
    format!("{:016x}", x.to_bits()).into_bytes().try_into().unwrap()
}

/// x, y of the points of an outline: up one side of an arch and down the other, none at the same height.
fn outline(r: &mut Random, points: usize) -> Vec<f64> {
    let last = (points - 1) as f64;
    let mut all = vec![0.0, 0.0];
    for i in 1..points - 1 {
        let t = (i as f64 + 0.3 * r.part()) / last;
        all.extend([0.3 * t, 0.1 * (std::f64::consts::PI * t).sin()]);
    }
    all.extend([0.3, 0.0]);
    all
}

// ---- equal answers

struct Tally {
    compared: u64,
    differ: u64,
}

fn compare(tally: &mut Tally, word: &[u8]) {
    let answers = READERS.map(|(_, read)| read(word));
    tally.compared += 1;
    if answers != [answers[0]; 3] {
        tally.differ += 1;
        if tally.differ <= 8 {
            println!("differ at {word:?}: {answers:x?}");
        }
    }
}

/// Figures, each with every two of its bytes replaced by any two; words of any bytes; words of other lengths.
fn compare_all(figures: &[[u8; 16]]) -> u64 {
    let mut tally = Tally { compared: 0, differ: 0 };
    for word in figures {
        compare(&mut tally, word);
    }
    for first in 0..16 {
        for second in 0..first {
            for both in 0..65536u32 {
                let mut word = figures[(first * 16 + second) % figures.len()];
                word[first] = both as u8;
                word[second] = (both >> 8) as u8;
                compare(&mut tally, &word);
            }
        }
    }
    let mut random = Random(0x2545_f491_4f6c_dd1d);
    for _ in 0..2_000_000 {
        let bits = random.bits();
        compare(&mut tally, format!("{bits:016x}").as_bytes());
        let halves = [bits.to_be_bytes(), random.bits().to_be_bytes()].concat();
        compare(&mut tally, &halves);
        compare(&mut tally, &figures[0][..(bits % 16) as usize]);
    }
    println!("{} words read by all three, {} differ\n", tally.compared, tally.differ);
    tally.differ
}

// ---- time a figure

fn time(read: Reader, words: &[[u8; 16]]) -> f64 {
    let passes = 4096 / words.len();
    let start = Instant::now();
    let mut all = 0;
    for _ in 0..passes {
        for word in words {
            all ^= read(black_box(word));
        }
    }
    black_box(all);
    start.elapsed().as_nanos() as f64 / (passes * words.len()) as f64
}

/// Prints the best times of the three and returns them.
fn times(name: &str, words: &[[u8; 16]]) -> [f64; 3] {
    let mut best = [f64::MAX; 3];
    for _ in 0..500 {
        for (best, (_, read)) in best.iter_mut().zip(READERS) {
            *best = best.min(time(read, words));
        }
    }
    println!("{name:<34}{:>8.2}{:>8.2}{:>8.2}{:>12.1}", best[0], best[1], best[2], best[1] / best[2]);
    best
}

fn damaged(figures: &[[u8; 16]], place: usize) -> Vec<[u8; 16]> {
    let mut words = figures.to_vec();
    for word in &mut words {
        word[place] = b'G';
    }
    words
}

// ---- reading's share of a line

fn answer(line: &str) -> String {
    let mut scratch = [0.0; 1024];
    let (mut engine_numbers, mut engine_counts) = ([0.0; 1272], [0; 145]);
    let mut text = [0; 320];
    let mut written = [0];
    let number = unsafe {
        delvouzh_answer_line(
            line.as_ptr(),
            line.len(),
            scratch.as_mut_ptr(),
            scratch.len(),
            engine_numbers.as_mut_ptr(),
            engine_numbers.len(),
            engine_counts.as_mut_ptr(),
            engine_counts.len(),
            text.as_mut_ptr(),
            text.len(),
            written.as_mut_ptr(),
            1,
        )
    };
    assert_eq!(number, 0);
    String::from_utf8(text[..written[0]].to_vec()).unwrap()
}

fn time_line(line: &str) -> f64 {
    let mut best = f64::MAX;
    for _ in 0..300 {
        let start = Instant::now();
        black_box(answer(black_box(line)));
        best = best.min(start.elapsed().as_nanos() as f64);
    }
    best
}

/// A line and the same line that is refused once it is read, its time with the loop in place of the words worked out from `saved`, the
/// nanoseconds that a figure takes less.
fn share(name: &str, figures: usize, saved: f64, whole: &str, refused: &str) {
    assert!(!answer(whole).contains("refused") && answer(refused).contains("refused"), "{name}");
    let (line, reading) = (time_line(whole), time_line(refused));
    let more = figures as f64 * saved;
    println!(
        "{name:<34}{figures:>8}{:>10.2}{:>10.2}{:>8.1} %{:>10.2}{:>10.2}{:>8.1} %",
        (reading + more) / 1000.0,
        (line + more) / 1000.0,
        100.0 * (reading + more) / (line + more),
        reading / 1000.0,
        line / 1000.0,
        100.0 * reading / line
    );
}

fn lines(saved: f64) {
    // sixteen digits are marked where the library asks for it
    let mark = if answer("(join (point 0 0 0 0))").contains("refused") { "" } else { "#" };
    let f = |x: f64| format!("{mark}{}", String::from_utf8(figure(x).to_vec()).unwrap());
    let all = |xs: &[f64]| xs.iter().map(|x| f(*x)).collect::<Vec<_>>().join(" ");
    let set = |count: usize, planform: &str| {
        format!(
            "(set (limit 64) (count {count}) {planform} (thickness {}) (section square) (cant {}) (base {}) (radius {}) (bulk {}))",
            f(0.003),
            f(0.0),
            f(0.0),
            f(0.03),
            f(680.0)
        )
    };
    let mut random = Random(0x9e37_79b9_7f4a_7c15);
    println!("\n{:<42}{:>30}{:>30}", "µs a line", "with the loop", "with two words");
    println!("{:<34}{:>8}{:>10}{:>10}{:>10}{:>10}{:>10}{:>10}", "", "figures", "reading", "line", "share", "reading", "line", "share");
    for points in [64, 12, 3] {
        let planform = format!("(outline {})", all(&outline(&mut random, points)));
        let name = format!("set, outline of {points} points");
        share(&name, 2 * points + 5, saved, &set(4, &planform), &set(33, &planform));
        let area = |limit| format!("(area (limit {limit}) {planform})");
        share(&format!("area, outline of {points} points"), 2 * points, saved, &area(64), &area(0));
    }
    let planform = format!("(trapezoid {})", all(&[0.3, 0.1, 0.15, 0.1]));
    share("set, trapezoid", 9, saved, &set(4, &planform), &set(33, &planform));
    let area = |limit| format!("(area (limit {limit}) {planform})");
    share("area, trapezoid", 4, saved, &area(64), &area(0));
}

fn main() {
    let mut random = Random(0x9e37_79b9_7f4a_7c15);
    let figures: Vec<[u8; 16]> = (0..32).flat_map(|_| outline(&mut random, 64)).map(figure).collect();
    let differ = compare_all(&figures);
    println!("{:<34}{:>8}{:>8}{:>8}{:>12}", "ns a figure", "Rust", "loop", "words", "loop/words");
    let best = times("outlines of 64 points", &figures);
    times("the same 9 again and again", &figures[2..11]);
    times("no figure: first digit wrong", &damaged(&figures, 0));
    times("no figure: last digit wrong", &damaged(&figures, 15));
    lines(best[1] - best[2]);
    if differ != 0 || best[1] < 3.0 * best[2] {
        std::process::exit(1);
    }
}
