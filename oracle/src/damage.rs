//! Damaged lines: most are no form any more, some still are.

use crate::random::Random;

/// The line with one to three damages. No newline is ever put in.
pub fn damage(r: &mut Random, line: &[u8]) -> Vec<u8> {
    let mut line = line.to_vec();
    for _ in 0..1 + r.below(3) {
        once(r, &mut line);
    }
    line.retain(|&b| b != b'\n');
    line
}

fn once(r: &mut Random, line: &mut Vec<u8>) {
    if line.is_empty() {
        line.push(b' ');
        return;
    }
    let at = r.below(line.len());
    let end = (at + 1 + r.below(20)).min(line.len());
    match r.below(14) {
        0 => line[at] ^= 1 << r.below(8),
        1 => line.truncate(at),
        2 => drop(line.drain(at..end)),
        3 => drop(line.remove(at)),
        4 => {
            let byte = r.pick(b" ()\t\r\0\x7f\x80\xff09afgz-+.,#ABF");
            line.insert(at, byte);
        }
        5 => line.insert(at, r.next() as u8),
        // doubles a byte, most often a digit or a space
        6 => line.insert(at, line[at]),
        // spaces beside a bracket or another space are free, within a word they are not
        7 => {
            let spaces = 1 + r.below(3);
            line.splice(at..at, vec![b' '; spaces]);
        }
        8 => upper_case(r, line),
        9 => line.swap(at, end - 1),
        // a stretch twice
        10 => {
            let stretch = line[at..end].to_vec();
            line.splice(at..at, stretch);
        }
        11 => {
            let whole = line.clone();
            line.extend(whole);
        }
        // exactly as long as a line may be, or about that
        12 => {
            let longest = 4094 + r.below(5);
            if line.len() < longest {
                line.resize(longest, b' ');
            }
        }
        _ => {
            let byte = r.pick(b"()");
            if let Some(k) = line.iter().skip(at).position(|&b| b == byte) {
                line.remove(at + k);
            }
        }
    }
}

fn upper_case(r: &mut Random, line: &mut [u8]) {
    let letters: Vec<usize> = (0..line.len()).filter(|&k| line[k].is_ascii_lowercase()).collect();
    if !letters.is_empty() {
        let at = r.pick(&letters);
        line[at] = line[at].to_ascii_uppercase();
    }
}
