//! Lines whose figures are typed: as decimals, whose values may be others, or as words that are no figures.

use crate::random::Random;

/// What is no figure, or nearly none; the last few have a byte that no form has.
const MISTYPED: &[&str] = &[
    ".5",
    "5.",
    "1e3",
    "+",
    "-",
    ".",
    "-.5",
    "+5.",
    "--5",
    "+-5",
    "5-",
    "1.2.3",
    "1,5",
    "1_000",
    "0x10",
    "nan",
    "inf",
    "x",
    "~",
    "!",
    "#",
    "##",
    "#3ff",
    "#3ff000000000000",
    "#3ff00000000000000",
    "#3FF0000000000000",
    "#3ff000000000000g",
    "#-5",
    "-#3ff0000000000000",
    "+#3ff0000000000000",
    "5#",
    "3ff0000000000000",
    "1234567890123456",
    "0000000000000000",
    "12345678901234567890",
    "0.1234567890123456789",
    "+12345678901234567890",
    "-0.00000000000000000001",
    "5\u{7f}",
    "\u{e9}",
    "0.\t5",
];

/// The line with about half of its figures as decimals.
pub fn decimals(r: &mut Random, line: &str) -> String {
    retyped(r, line, 2, |r, bits| decimal(r, f64::from_bits(bits)))
}

/// The line with a word that is no figure, seldom two or none.
pub fn mistyped(r: &mut Random, line: &str) -> String {
    let figures = line.matches('#').count().max(1);
    retyped(r, line, figures, |r, _| Some(r.pick(MISTYPED).to_owned()))
}

/// The line with one in n of its figures typed otherwise; none is left as it is.
fn retyped(r: &mut Random, line: &str, n: usize, typed: impl Fn(&mut Random, u64) -> Option<String>) -> String {
    let mut parts = line.split('#');
    let mut made = parts.next().unwrap_or_default().to_owned();
    for part in parts {
        let (digits, rest) = part.split_at(16);
        let bits = u64::from_str_radix(digits, 16).expect("bits");
        let word = if r.once_in(n) { typed(r, bits) } else { None };
        made.push_str(&word.unwrap_or_else(|| format!("#{digits}")));
        made.push_str(rest);
    }
    made
}

/// A decimal of up to 19 digits about x, or any; none where x has no such.
fn decimal(r: &mut Random, x: f64) -> Option<String> {
    let word = match r.below(40) {
        0 => any(r),
        1 | 2 => format!("{x:.*}", r.below(19)),
        3..=20 => x.to_string(),
        _ => format!("{x:.*}", 9 + r.below(10)),
    };
    let digits = word.bytes().filter(u8::is_ascii_digit).count();
    if !x.is_finite() || digits > 19 {
        return None;
    }
    let (sign, mut unsigned) = match word.strip_prefix('-') {
        Some(unsigned) => ("-", unsigned.to_owned()),
        None => (if r.once_in(4) { "+" } else { "" }, word),
    };
    if digits < 19 && r.once_in(6) {
        unsigned.insert_str(0, &"0".repeat(1 + r.below(19 - digits)));
    }
    Some(format!("{sign}{unsigned}"))
}

/// 1 to 19 digits, often 16 and more, with a point among them or none; near a half between two f64s now and then.
fn any(r: &mut Random) -> String {
    let digits = if r.once_in(2) { r.range(16, 19) } else { r.range(1, 19) } as usize;
    let number = if r.once_in(4) {
        let half = (1 << 53 | r.next() >> 11) * 2 + 1;
        (half << r.below(9)).wrapping_add_signed(r.range(-1, 1))
    } else {
        r.next()
    };
    let mut word = format!("{number:019}")[..digits].to_owned();
    let place = r.below(word.len());
    if place > 0 {
        word.insert(place, '.');
    }
    word
}
