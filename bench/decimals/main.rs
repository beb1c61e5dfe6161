//! The proved reading of figure words, as Rust links it, beside `str::parse::<f64>`: equal bits, the same words taken, and time a word.
//!
//! A word's shape is tested here apart from both, as Rust takes more (`1e3`, `.5`, `inf`). Each time is the best of 200 rounds in which the
//! two take turns, so that other work on the machine counts least.
use std::hint::black_box;
use std::time::Instant;

extern "C" {
    fn read_word(word: *const u8, length: usize) -> f64;
}

#[inline(always)]
fn proved(word: &str) -> f64 {
    unsafe { read_word(word.as_ptr(), word.len()) }
}

#[inline(always)]
fn rust(word: &str) -> f64 {
    word.parse().unwrap_or(f64::NAN)
}

/// An optional sign, 1 to 19 digits in all, one optional point with a digit on each side; and not sixteen digits alone.
fn is_decimal(word: &str) -> bool {
    let bare = word.strip_prefix(['+', '-']).unwrap_or(word);
    let (whole, fraction) = bare.split_once('.').unwrap_or((bare, "0"));
    let digits = bare.bytes().filter(u8::is_ascii_digit).count();
    let all = |part: &str| !part.is_empty() && part.bytes().all(|b| b.is_ascii_digit());
    all(whole) && all(fraction) && digits <= 19 && !(word.len() == 16 && digits == 16)
}

/// Marsaglia's xorshift, from a fixed seed: every run has the same words.
struct Random(u64);

impl Random {
    fn bits(&mut self) -> u64 {
        self.0 ^= self.0 << 13;
        self.0 ^= self.0 >> 7;
        self.0 ^= self.0 << 17;
        self.0
    }

    fn below(&mut self, n: u64) -> u64 {
        self.bits() % n
    }
}

/// Digits with a sign at times, and a point somewhere between them or none.
fn pointed(r: &mut Random, digits: &str) -> String {
    let sign = ["", "", "", "-", "+"][r.below(5) as usize];
    let at = r.below(digits.len() as u64) as usize;
    if at == 0 {
        format!("{sign}{digits}")
    } else {
        format!("{sign}{}.{}", &digits[..at], &digits[at..])
    }
}

fn some_digits(r: &mut Random, count: usize) -> String {
    (0..count).map(|_| char::from(b'0' + r.below(10) as u8)).collect()
}

/// As people type lengths in metres: 0.0032, 0.15, 12.5.
fn typed(r: &mut Random) -> String {
    let places = 1 + r.below(4) as usize;
    let whole = if r.below(3) == 0 { r.below(64) } else { 0 };
    format!("{whole}.{}", some_digits(r, places))
}

fn any(r: &mut Random) -> String {
    let count = 1 + r.below(19) as usize;
    let digits = some_digits(r, count);
    pointed(r, &digits)
}

fn fifteen(r: &mut Random) -> String {
    let digits = some_digits(r, 15);
    pointed(r, &digits)
}

fn sixteen_up(r: &mut Random) -> String {
    let count = 16 + r.below(4) as usize;
    let digits = some_digits(r, count);
    pointed(r, &digits)
}

fn nineteen_behind(r: &mut Random) -> String {
    format!("{}.{}", r.below(10), some_digits(r, 18))
}

/// A number halfway between two f64s, exactly, or one last digit off: whole, or with places where twice as much is whole.
fn halfway(r: &mut Random) -> String {
    let leading = 1u64 << 52;
    let twice = 2 * (leading + r.below(leading)) + 1;
    let (n, zeros) = match r.below(3) {
        0 => (twice * [1, 2, 4, 8, 16, 32, 64, 128][r.below(8) as usize], 0),
        1 => (twice / 2 * 10 + 5, 1),
        _ => (twice / 4 * 100 + twice % 4 * 25, 2),
    };
    let n = n + [0, 0, 1][r.below(3) as usize] - [0, 0, 1][r.below(3) as usize];
    let digits = n.to_string();
    if zeros == 0 {
        return format!("+{digits}");
    }
    let at = digits.len() - zeros;
    format!("{}.{}", &digits[..at], &digits[at..])
}

/// A word with one to three bytes put in, cut or changed.
fn damaged(r: &mut Random) -> String {
    let mut word = any(r).into_bytes();
    for _ in 0..1 + r.below(3) {
        let byte = b"0123456789..+-eE#xinfa "[r.below(23) as usize];
        let at = r.below(word.len() as u64 + 1) as usize;
        match r.below(3) {
            0 => word.insert(at, byte),
            1 if at < word.len() => word[at] = byte,
            _ if at < word.len() => {
                word.remove(at);
            }
            _ => {}
        }
    }
    String::from_utf8(word).unwrap()
}

fn family(name: &str, count: usize, make: fn(&mut Random) -> String) -> u64 {
    let mut r = Random(0x2545_f491_4f6c_dd1d);
    let (mut taken, mut differ) = (0, 0);
    for _ in 0..count {
        let word = make(&mut r);
        let (got, want) = (proved(&word), if is_decimal(&word) { rust(&word) } else { f64::NAN });
        taken += u64::from(!want.is_nan());
        if got.to_bits() != want.to_bits() && !(got.is_nan() && want.is_nan()) {
            differ += 1;
            if differ <= 8 {
                println!("differ at {word}: {:016x}, Rust {:016x}", got.to_bits(), want.to_bits());
            }
        }
    }
    println!("{name:<34}{count:>10}{taken:>10}{differ:>10}");
    differ
}

fn timed(words: &[String], read: impl Fn(&str) -> f64) -> f64 {
    let start = Instant::now();
    let mut sum = 0;
    for word in words {
        sum ^= read(black_box(word)).to_bits();
    }
    black_box(sum);
    start.elapsed().as_secs_f64() * 1e9 / words.len() as f64
}

/// Nanoseconds a word: ours and Rust's.
fn race(name: &str, make: fn(&mut Random) -> String) -> bool {
    let mut r = Random(0x9e37_79b9_7f4a_7c15);
    let words: Vec<String> = std::iter::repeat_with(|| make(&mut r)).filter(|w| is_decimal(w)).take(4096).collect();
    let (mut ours, mut theirs) = (f64::MAX, f64::MAX);
    for _ in 0..200 {
        ours = ours.min(timed(&words, proved));
        theirs = theirs.min(timed(&words, rust));
    }
    println!("{name:<34}{ours:>10.1}{theirs:>10.1}{:>10.2}", ours / theirs);
    ours <= 2.0 * theirs
}

type Family = (&'static str, usize, fn(&mut Random) -> String);

fn main() {
    let families: [Family; 7] = [
        ("typed lengths", 100_000, typed),
        ("1 to 19 digits", 300_000, any),
        ("15 digits", 50_000, fifteen),
        ("16 to 19 digits", 250_000, sixteen_up),
        ("19 digits, 18 behind the point", 50_000, nineteen_behind),
        ("halfway, or a last digit off", 150_000, halfway),
        ("damaged", 100_000, damaged),
    ];
    println!("{:<34}{:>10}{:>10}{:>10}", "words", "compared", "figures", "differ");
    let differ: u64 = families.iter().map(|(name, count, make)| family(name, *count, *make)).sum();
    println!("\n{:<34}{:>10}{:>10}{:>10}", "nanoseconds a word", "here", "Rust", "times");
    let slow = families[..6].iter().filter(|(name, _, make)| !race(name, *make)).count();
    if differ > 0 || slow > 0 {
        println!("{differ} words differ, {slow} families take over twice the time");
        std::process::exit(1);
    }
}
