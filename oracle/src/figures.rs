//! Figures: sixteen lowercase hexadecimal digits of an f64's bits, behind a mark where they are handed in on a line; or decimals.

/// The figure that a word of a line is (document 02, Paper 2).
pub fn read(word: &[u8]) -> Option<f64> {
    match word.split_first()? {
        (b'#', digits) => read_bits(digits),
        _ => read_decimal(std::str::from_utf8(word).ok()?),
    }
}

/// An optional sign, then 1 to 19 digits in all and one optional point with a digit on each side; not sixteen digits alone.
fn read_decimal(word: &str) -> Option<f64> {
    let digits_alone = |text: &str| !text.is_empty() && text.bytes().all(|b| b.is_ascii_digit());
    if digits_alone(word) && word.len() == 16 {
        return None;
    }
    let unsigned = word.strip_prefix(['+', '-']).unwrap_or(word);
    let parts: Vec<&str> = unsigned.split('.').collect();
    let digits: usize = parts.iter().map(|part| part.len()).sum();
    let shaped = parts.len() <= 2 && parts.iter().all(|part| digits_alone(part)) && digits <= 19;
    shaped.then(|| word.parse().expect("a decimal"))
}

/// The f64 that a word of sixteen lowercase hexadecimal digits writes.
pub fn read_bits(word: &[u8]) -> Option<f64> {
    if word.len() != 16 {
        return None;
    }
    let mut bits = 0;
    for &byte in word {
        let digit = match byte {
            b'0'..=b'9' => byte - b'0',
            b'a'..=b'f' => byte - b'a' + 10,
            _ => return None,
        };
        bits = bits * 16 + u64::from(digit);
    }
    Some(f64::from_bits(bits))
}

/// A result as it is printed: either zero as all 0, a NaN as 7ff8000000000000.
pub fn show(x: f64) -> String {
    if x == 0.0 {
        raw(0.0)
    } else if x.is_nan() {
        "7ff8000000000000".to_owned()
    } else {
        raw(x)
    }
}

/// The bits as they are: for what is handed in with a question.
pub fn raw(x: f64) -> String {
    format!("{:016x}", x.to_bits())
}

/// Results, each behind a space.
pub fn show_all(list: &[f64]) -> String {
    list.iter().map(|&x| format!(" {}", show(x))).collect()
}

/// The bits behind their mark: for what is handed in on a line.
pub fn marked(x: f64) -> String {
    format!("#{}", raw(x))
}

/// What is handed in on a line, each behind a space.
pub fn marked_all(list: &[f64]) -> String {
    list.iter().map(|&x| format!(" {}", marked(x))).collect()
}

/// What is handed in, each behind a space.
pub fn raw_all(list: &[f64]) -> String {
    list.iter().map(|&x| format!(" {}", raw(x))).collect()
}
