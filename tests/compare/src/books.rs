//! Books: written ones of random lists, and read ones: right, damaged at every byte, cut, lengthened, random.

use crate::library;
use crate::tally::Tally;
use second::generate::{conic, Kind};
use second::prng::Prng;

const KINDS: [Kind; 7] = [
    Kind::Random, Kind::Random, Kind::Circle, Kind::Parabola, Kind::Hyperbola, Kind::Diagonal, Kind::Degenerate,
];

fn list_of(count: u64, prng: &mut Prng) -> Vec<u8> {
    let mut list = Vec::new();
    for _ in 0..count {
        let kind = prng.pick(&KINDS);
        list.extend(conic(kind, prng).map(|n| n as i8 as u8));
    }
    list
}

/// Lists of every small length, right and wrong, with buffers long enough and too short.
pub fn written(tally: &mut Tally, count: u64, seed: u64) {
    let mut prng = Prng::new(seed);
    for _ in 0..count {
        let conics = prng.below(12);
        let mut list = list_of(conics, &mut prng);
        match prng.below(6) {
            0 => list.push(0),
            1 if !list.is_empty() => list[0] = prng.next_bits() as u8,
            _ => {}
        }
        let room = prng.below(40 + 22 * conics) as usize;
        write(tally, &list, room);
        write(tally, &list, 300);
    }
    for length in [11_994, 11_999, 12_000, 12_001, 12_006] {
        write(tally, &vec![1; length], 50_000);
    }
    write(tally, &list_of(2_000, &mut prng), 42_002);
    tally.report(&format!("written books, seed {seed}"));
}

fn write(tally: &mut Tally, list: &[u8], room: usize) {
    let mut ours = vec![0xEE; room];
    let mut theirs = ours.clone();
    let answer = library::write_book(list, &mut ours);
    let other = second::write_book(list, &mut theirs);
    tally.same(&(list, room), answer.map(|a| (a, ours)), (other, theirs));
}

fn book_of(list: &[u8]) -> Vec<u8> {
    let mut book = vec![0; 42_002];
    let length = second::write_book(list, &mut book).expect("the list is right");
    book.truncate(length);
    book
}

fn read(tally: &mut Tally, book: &[u8], number: u64) {
    tally.same(&(book, number), library::read_book(book, number), second::read_book(book, number));
}

fn read_some(tally: &mut Tally, book: &[u8]) {
    for number in [0, 1, 4, u64::MAX] {
        read(tally, book, number);
    }
}

/// A book with all four kinds: point, none by sign, none by a prime, degenerate.
fn four_kinds() -> Vec<u8> {
    let conics: [[i8; 6]; 4] = [[1, 0, 1, 0, 0, -1], [1, 0, 1, 0, 0, 3], [1, 0, 1, 0, 0, -3], [1, 0, 1, 0, 0, 0]];
    book_of(&conics.concat().iter().map(|n| *n as u8).collect::<Vec<u8>>())
}

/// Every single byte changed to every other value, every cut and every lengthening.
pub fn damaged(tally: &mut Tally) {
    let book = four_kinds();
    for place in 0..book.len() {
        for value in 0..=255 {
            let mut other = book.clone();
            other[place] = value;
            read_some(tally, &other);
        }
        read_some(tally, &book[..place]);
    }
    for more in 1..40 {
        read_some(tally, &[book.clone(), vec![0; more]].concat());
    }
    counts_and_offsets(tally, &book);
    tally.report("a damaged book of all four kinds");
}

fn counts_and_offsets(tally: &mut Tally, book: &[u8]) {
    for count in [0u16, 1, 3, 5, 2_000, 2_001, 65_535] {
        let mut other = book.to_vec();
        other[..2].copy_from_slice(&count.to_le_bytes());
        read_some(tally, &other);
        other.resize(65_535 * 3 + 2, 0);
        read_some(tally, &other);
    }
    for first in 0..4 {
        for second in 0..4 {
            let mut other = book.to_vec();
            for byte in 0..3 {
                other.swap(2 + 3 * first + byte, 2 + 3 * second + byte);
            }
            read_some(tally, &other);
        }
    }
}

/// Right books of random lists, each read at every number, then with bytes changed by lot.
pub fn random(tally: &mut Tally, count: u64, seed: u64) {
    let mut prng = Prng::new(seed);
    for _ in 0..count {
        let conics = prng.below(9);
        let book = book_of(&list_of(conics, &mut prng));
        for number in 0..=conics {
            read(tally, &book, number);
        }
        for _ in 0..8 {
            let mut other = book.clone();
            let place = prng.below(other.len() as u64) as usize;
            other[place] = other[place].wrapping_add(prng.pick(&[1, 255, 2, 16]));
            read_some(tally, &other);
        }
        let noise: Vec<u8> = (0..prng.below(60)).map(|_| prng.below(5) as u8).collect();
        read_some(tally, &noise);
    }
    tally.report(&format!("random books, seed {seed}"));
}

/// A book of 2,000 conics, read at some numbers.
pub fn large(tally: &mut Tally, seed: u64) {
    let mut prng = Prng::new(seed);
    let book = book_of(&list_of(2_000, &mut prng));
    for number in [0, 1, 999, 1_999, 2_000] {
        read(tally, &book, number);
    }
    tally.report(&format!("a book of 2,000 conics, seed {seed}"));
}
