//! Rows with faults: every way the paper names of not being six numbers, and the
//! unusual spellings that are still allowed. None of them holds a line feed.

use crate::generate::{conic, spelled, Kind};
use crate::prng::Prng;

/// A row with a fault, or an allowed row in an unusual spelling.
pub fn faulty_row(prng: &mut Prng) -> Vec<u8> {
    let six = conic(Kind::Random, prng);
    match prng.below(5) {
        0 => byte_fault(spelled(six), prng),
        1 => number_fault(six, prng),
        2 => count_fault(six, prng),
        3 => long_row(six, prng),
        _ => unusual_spelling(six, prng),
    }
}

/// Wrong bytes: carriage return, tab, NUL, high bytes, doubled or outer spaces.
fn byte_fault(mut row: Vec<u8>, prng: &mut Prng) -> Vec<u8> {
    let anywhere = prng.below(row.len() as u64 + 1) as usize;
    let spaces: Vec<usize> = (0..row.len()).filter(|i| row[*i] == b' ').collect();
    let gap = prng.pick(&spaces);
    let wrong = prng.pick(b"\r\t\0\x0b\x0c\x1f\x7f\x80\xa0\xb2\xff.,;:/+-_xeE0 ");
    match prng.below(8) {
        0 => row.push(b'\r'),
        1 => row[gap] = b'\t',
        2 => row.insert(gap, b' '),
        3 => row.insert(0, b' '),
        4 => row.push(b' '),
        5 => row.push(b'\0'),
        6 => row[gap] = wrong,
        _ => row.insert(anywhere, wrong),
    }
    row
}

/// One number that is none: "+", "--", a lone "-", seven digits, an empty field.
fn number_fault(six: [i64; 6], prng: &mut Prng) -> Vec<u8> {
    let mut fields = six.map(|n| n.to_string());
    let place = prng.below(6) as usize;
    let size = six[place].abs();
    fields[place] = match prng.below(12) {
        0 => format!("+{size}"),
        1 => format!("--{size}"),
        2 => "-".to_string(),
        3 => String::new(),
        4 => format!("{size:07}"),
        5 => format!("-{size:07}"),
        6 => "1000000".to_string(),
        7 => "0000000".to_string(),
        8 => format!("{size}-"),
        9 => format!("- {size}"),
        10 => format!("-+{size}"),
        _ => format!("{size}.0"),
    };
    fields.join(" ").into_bytes()
}

/// No row at all, fewer or more than six numbers.
fn count_fault(six: [i64; 6], prng: &mut Prng) -> Vec<u8> {
    let mut fields: Vec<String> = six.iter().map(|n| n.to_string()).collect();
    match prng.below(5) {
        0 => return Vec::new(),
        1 => fields.truncate(5),
        2 => fields.push(prng.between(-40, 40).to_string()),
        3 => fields.truncate(prng.between(1, 4) as usize),
        _ => return b" ".repeat(prng.between(1, 6) as usize),
    }
    fields.join(" ").into_bytes()
}

/// Rows of many bytes.
fn long_row(six: [i64; 6], prng: &mut Prng) -> Vec<u8> {
    let row = spelled(six);
    let often = prng.between(20, 400) as usize;
    match prng.below(5) {
        0 => [row, b" 1".repeat(often)].concat(),
        1 => [row, b"0".repeat(often)].concat(),
        2 => [b"0".repeat(often), row].concat(),
        3 => [row, b" ".repeat(often)].concat(),
        _ => (0..often).map(|_| any_byte(prng)).collect(),
    }
}

fn any_byte(prng: &mut Prng) -> u8 {
    match prng.below(256) as u8 {
        b'\n' => b'\r',
        byte => byte,
    }
}

/// Allowed all the same: "-0", leading zeros up to six digits; also the largest
/// numbers that can be spelled, which are out of range.
fn unusual_spelling(six: [i64; 6], prng: &mut Prng) -> Vec<u8> {
    let fields = six.map(|n| match prng.below(6) {
        0 => "-0".to_string(),
        1 => "-000000".to_string(),
        2 => "000000".to_string(),
        3 | 4 => {
            let digits = prng.between(1, 6) as usize;
            let sign = if n < 0 { "-" } else { "" };
            format!("{sign}{:0digits$}", n.abs())
        }
        _ => n.to_string(),
    });
    let mut row = fields.join(" ").into_bytes();
    if prng.below(8) == 0 {
        let first_space = row
            .iter()
            .position(|byte| *byte == b' ')
            .expect("six fields");
        let largest: &[u8] = prng.pick(&[&b"999999"[..], b"-999999", b"000041", b"-000040"]);
        row.splice(..first_space, largest.iter().copied());
    }
    row
}
