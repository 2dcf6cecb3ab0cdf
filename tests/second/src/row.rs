//! Text rows: a row of digits to a row of text, and whole input to whole output.

use crate::solve::{solve, Answer, Reason};

/// The shortest buffer that is accepted for an output row.
pub const ROW_BUFFER: usize = 40;

/// Six numbers with one space between, each an optional "-" and one to six digits.
pub fn six_numbers(text: &[u8]) -> Option<[i64; 6]> {
    let numbers: Option<Vec<i64>> = text.split(|byte| *byte == b' ').map(number).collect();
    numbers?.try_into().ok()
}

/// One number of a row.
fn number(field: &[u8]) -> Option<i64> {
    let (sign, digits) = match field {
        [b'-', digits @ ..] => (-1, digits),
        digits => (1, digits),
    };
    if !(1..=6).contains(&digits.len()) || !digits.iter().all(u8::is_ascii_digit) {
        return None;
    }
    let size = digits
        .iter()
        .fold(0, |size, digit| 10 * size + i64::from(digit - b'0'));
    Some(sign * size)
}

/// The output row of a row of text, with its line feed.
pub fn row_text(text: &[u8]) -> Vec<u8> {
    let answer = six_numbers(text).map_or(Answer::Refusal(10), solve);
    answer_row(answer).into_bytes()
}

/// The row of an answer, with its line feed.
pub fn answer_row(answer: Answer) -> String {
    match answer {
        Answer::Point(point) => format!("P {} {} {}\n", point.x, point.y, point.z),
        Answer::None(Reason::Sign) => "N sign\n".to_string(),
        Answer::None(Reason::Prime(prime)) => format!("N prime {prime}\n"),
        Answer::Refusal(number) => format!("R {number}\n"),
    }
}

/// Writes the output row into a lent buffer and gives its length, or refusal 11.
pub fn row_into_buffer(text: &[u8], buffer: &mut [u8]) -> Result<usize, u32> {
    if buffer.len() < ROW_BUFFER {
        return Err(11);
    }
    let row = row_text(text);
    buffer[..row.len()].copy_from_slice(&row);
    Ok(row.len())
}

/// The rows of an input: cut at line feeds, a last one counts if not empty.
pub fn rows_of(input: &[u8]) -> impl Iterator<Item = &[u8]> {
    input
        .split_inclusive(|byte| *byte == b'\n')
        .map(|row| row.strip_suffix(b"\n").unwrap_or(row))
}

/// What the program prints for an input.
pub fn whole_output(input: &[u8]) -> Vec<u8> {
    rows_of(input).flat_map(row_text).collect()
}
