//! Rows: through the library with buffers of every small length, and through the program, whole inputs.

use crate::library;
use crate::tally::Tally;
use second::generate::{row, rows, Kind};
use second::prng::Prng;
use std::io::Write;
use std::process::{Command, Stdio};

/// Each row with a buffer that is long enough, or by lot any other length; bytes after the row stay.
pub fn through_library(tally: &mut Tally, name: &str, kind: Kind, count: u64, seed: u64) {
    let mut prng = Prng::new(seed);
    for _ in 0..count {
        let text = row(kind, &mut prng);
        let room = if prng.below(4) == 0 { prng.below(80) } else { 40 };
        buffered(tally, &text, room as usize);
    }
    tally.report(&format!("rows, {name}, seed {seed}"));
}

fn buffered(tally: &mut Tally, text: &[u8], room: usize) {
    let mut ours = vec![0xEE; room];
    let mut theirs = ours.clone();
    let answer = library::row(text, &mut ours);
    let other = second::row_into_buffer(text, &mut theirs);
    tally.same(&(text, room), answer.map(|a| (a, ours)), (other, theirs));
}

/// The whole output of the program for a whole input.
pub fn through_program(tally: &mut Tally, program: &str, name: &str, kind: Kind, count: usize, seed: u64) {
    let input = rows(kind, count, seed);
    let ours = run(program, &input);
    let theirs = second::whole_output(&input);
    let our_rows = ours.split_inclusive(|b| *b == b'\n');
    let their_rows = theirs.split_inclusive(|b| *b == b'\n');
    let texts = input.split_inclusive(|b| *b == b'\n');
    for ((text, our_row), their_row) in texts.zip(our_rows).zip(their_rows) {
        tally.same(&format_args!("{}", text.escape_ascii()), Ok(our_row), their_row);
    }
    // The shorter output ended the loop: rows that one side lacks at the end show in the lengths.
    let source = format!("{count} rows, {name}, seed {seed}, the length of the output");
    tally.same(&source, Ok(ours.len()), theirs.len());
    tally.report(&format!("rows of the program, {name}, seed {seed}"));
}

/// The number of rows and every byte of the output as a whole.
pub fn whole(tally: &mut Tally, program: &str, seed: u64) {
    let mut prng = Prng::new(seed);
    for _ in 0..40 {
        let count = prng.below(200) as usize;
        let mut input = rows(Kind::Mixed, count, prng.next_bits());
        if prng.below(2) == 0 {
            input.pop();
        }
        tally.same(&format_args!("{}", input.escape_ascii()), Ok(run(program, &input)), second::whole_output(&input));
    }
    tally.report(&format!("whole inputs of the program, seed {seed}"));
}

fn run(program: &str, input: &[u8]) -> Vec<u8> {
    let mut child = Command::new(program)
        .stdin(Stdio::piped())
        .stdout(Stdio::piped())
        .spawn()
        .expect("the program starts");
    let mut stdin = child.stdin.take().expect("the program has an input");
    let text = input.to_vec();
    let feeder = std::thread::spawn(move || stdin.write_all(&text).expect("the program reads its input"));
    let output = child.wait_with_output().expect("the program ends");
    feeder.join().expect("the input was fed");
    output.stdout
}
