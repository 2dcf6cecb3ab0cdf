//! The curve book: the two books of the paper, round trips, refusals.

use second::generate::{conic, Kind};
use second::prng::Prng;
use second::{read_book, solve, write_book, Answer, Point, Reason, Stored, StoredAnswer};

/// The book of a list of conics.
fn book(conics: &[[i8; 6]]) -> Vec<u8> {
    let list: Vec<u8> = conics.iter().flatten().map(|n| *n as u8).collect();
    let mut buffer = vec![0xAA; 50_000];
    let length = write_book(&list, &mut buffer).expect("a book");
    assert!(buffer[length..].iter().all(|byte| *byte == 0xAA));
    buffer.truncate(length);
    buffer
}

/// A book of one body, whatever it holds.
fn one_body(kind: u8, six: [i8; 6], words: &[i32]) -> Vec<u8> {
    let mut bytes = vec![1, 0, kind, 5, 0];
    bytes.extend(six.map(|n| n as u8));
    bytes.extend(words.iter().flat_map(|word| word.to_le_bytes()));
    bytes
}

const CIRCLE: [i8; 6] = [1, 0, 1, 0, 0, -1];
const NO_SIGN: [i8; 6] = [1, 0, 1, 0, 0, 3];
const NO_PRIME: [i8; 6] = [1, 0, 1, 0, 0, -21];
const ORIGIN: [i8; 6] = [1, 0, 1, 0, 0, 0];

#[test]
fn the_papers_books() {
    assert_eq!(book(&[NO_SIGN]), [1, 0, 2, 5, 0, 1, 0, 1, 0, 0, 3]);
    assert_eq!(book(&[]), [0, 0]);
    assert_eq!(read_book(&[0, 0], 0), Err(16));
    assert_eq!(read_book(&[0, 0, 0], 0), Err(12));
}

#[test]
fn all_four_kinds() {
    let bytes = book(&[CIRCLE, NO_SIGN, NO_PRIME, ORIGIN]);
    assert_eq!(bytes[..14], [4, 0, 1, 14, 0, 2, 32, 0, 3, 38, 0, 4, 48, 0]);
    assert_eq!(
        bytes[14..32],
        [1, 0, 1, 0, 0, 255, 0, 0, 0, 0, 1, 0, 0, 0, 1, 0, 0, 0]
    );
    assert_eq!(bytes[38..48], [1, 0, 1, 0, 0, 235, 3, 0, 0, 0]);
    assert_eq!(bytes.len(), 54);
    let answers = [
        StoredAnswer::Point(Point::new(0, 1, 1)),
        StoredAnswer::None(Reason::Sign),
        StoredAnswer::None(Reason::Prime(3)),
        StoredAnswer::Degenerate,
    ];
    for (number, answer) in answers.into_iter().enumerate() {
        let stored = read_book(&bytes, number as u64).expect("a conic");
        assert_eq!(stored.answer, answer);
    }
    assert_eq!(read_book(&bytes, 4), Err(16));
    assert_eq!(read_book(&bytes, u64::MAX), Err(16));
}

#[test]
fn writers_refusals() {
    let mut buffer = [7u8; 11];
    let sign = NO_SIGN.map(|n| n as u8);
    let outside = [41, 0, 0, 0, 0, 0];
    assert_eq!(write_book(&sign[..5], &mut []), Err(15));
    assert_eq!(write_book(&[41; 7], &mut []), Err(15));
    assert_eq!(write_book(&vec![41; 12_006], &mut []), Err(15));
    assert_eq!(write_book(&vec![41; 12_001], &mut []), Err(15));
    assert_eq!(write_book(&vec![41; 12_000], &mut []), Err(1));
    assert_eq!(write_book(&outside, &mut []), Err(1));
    assert_eq!(write_book(&[128, 0, 0, 0, 0, 0], &mut []), Err(1));
    assert_eq!(write_book(&[sign, outside].concat(), &mut []), Err(1));
    assert_eq!(write_book(&[], &mut []), Err(14));
    assert_eq!(write_book(&[], &mut [0]), Err(14));
    assert_eq!(write_book(&sign, &mut buffer[..10]), Err(14));
    assert_eq!(buffer, [7; 11]);
    assert_eq!(write_book(&sign, &mut buffer), Ok(11));
}

#[test]
fn broken_layouts() {
    let good = book(&[CIRCLE, NO_SIGN, NO_PRIME, ORIGIN]);
    for short in 0..good.len() {
        assert_eq!(read_book(&good[..short], 0), Err(12), "{short}");
    }
    assert_eq!(read_book(&[good.clone(), vec![0]].concat(), 0), Err(12));
    for place in 0..14 {
        for flip in 1..=255u8 {
            let mut bytes = good.clone();
            bytes[place] ^= flip;
            let same_length = place == 5 && bytes[5] == 4 || place == 11 && bytes[11] == 2;
            let expected = if same_length { 13 } else { 12 };
            assert_eq!(read_book(&bytes, 99), Err(expected), "{place} {flip}");
        }
    }
}

#[test]
fn books_of_the_largest_count() {
    let full = book(&[ORIGIN; 2_000]);
    assert_eq!(full.len(), 18_002);
    assert!(read_book(&full, 1_999).is_ok());
    assert_eq!(read_book(&full, 2_000), Err(16));
    assert_eq!(book(&[CIRCLE; 2_000]).len(), 42_002);
    // The same layout with 2,001 conics holds together but for its count.
    let mut above = 2_001u16.to_le_bytes().to_vec();
    for place in 0..2_001u16 {
        above.push(4);
        above.extend((2 + 3 * 2_001 + 6 * place).to_le_bytes());
    }
    above.extend([ORIGIN.map(|n| n as u8); 2_001].concat());
    assert_eq!(read_book(&above, 0), Err(12));
}

#[test]
fn bodies_that_are_right_or_not() {
    for (bytes, right) in [
        (one_body(1, CIRCLE, &[0, 1, 1]), true),
        (one_body(1, CIRCLE, &[-3, 4, 5]), true),
        (one_body(1, CIRCLE, &[0, 2, 2]), false),
        (one_body(1, CIRCLE, &[0, -1, -1]), false),
        (one_body(1, CIRCLE, &[0, 0, 0]), false),
        (one_body(1, CIRCLE, &[1, 1, 1]), false),
        (one_body(1, [0, 1, 0, 0, 0, -1], &[1, 0, 0]), false),
        (
            one_body(1, [1, 0, 0, 0, -1, 0], &[12_649, 159_997_201, 1]),
            true,
        ),
        (
            one_body(1, [1, 0, 0, 0, -1, 0], &[12_650, 160_022_500, 1]),
            false,
        ),
        (one_body(1, ORIGIN, &[0, 0, 1]), false),
        (one_body(1, [41, 0, 41, 0, 0, -41], &[0, 1, 1]), false),
        (one_body(2, NO_SIGN, &[]), true),
        (one_body(2, NO_PRIME, &[]), false),
        (one_body(2, CIRCLE, &[]), false),
        (one_body(2, ORIGIN, &[]), false),
        (one_body(2, [41, 0, 41, 0, 0, 41], &[]), false),
        (one_body(3, NO_PRIME, &[3]), true),
        (one_body(3, NO_PRIME, &[7]), false),
        (one_body(3, NO_PRIME, &[-3]), false),
        (one_body(3, NO_SIGN, &[3]), false),
        (one_body(4, ORIGIN, &[]), true),
        (one_body(4, CIRCLE, &[]), false),
        (one_body(4, [41, 0, 0, 0, 0, 0], &[]), false),
        (one_body(4, [-128, 0, 0, 0, 0, 0], &[]), false),
    ] {
        assert_eq!(read_book(&bytes, 0).is_ok(), right, "{bytes:?}");
        let expected = if right { 16 } else { 13 };
        assert_eq!(read_book(&bytes, 1), Err(expected));
    }
}

#[test]
fn random_books_come_back() {
    let mut prng = Prng::new(33);
    let kinds = [
        Kind::Random,
        Kind::Degenerate,
        Kind::Diagonal,
        Kind::Parabola,
    ];
    for count in [1, 2, 7, 100, 300] {
        let conics: Vec<[i64; 6]> = (0..count)
            .map(|_| conic(prng.pick(&kinds), &mut prng))
            .collect();
        let narrow: Vec<[i8; 6]> = conics.iter().map(|six| six.map(|n| n as i8)).collect();
        let bytes = book(&narrow);
        for (number, six) in conics.into_iter().enumerate() {
            let answer = match solve(six) {
                Answer::Point(point) => StoredAnswer::Point(point),
                Answer::None(reason) => StoredAnswer::None(reason),
                Answer::Refusal(_) => StoredAnswer::Degenerate,
            };
            assert_eq!(read_book(&bytes, number as u64), Ok(Stored { six, answer }));
        }
    }
}
