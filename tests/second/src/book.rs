//! The curve book: contents first, then bodies.

use crate::conic::{in_range, Conic};
use crate::point::Point;
use crate::solve::{solve, Answer, Reason};

/// The most conics a book holds.
pub const MOST_CONICS: usize = 2_000;

/// What a book stores of one conic.
#[derive(Clone, Copy, Debug, PartialEq, Eq)]
pub enum StoredAnswer {
    Point(Point),
    None(Reason),
    Degenerate,
}

/// A conic with its stored answer.
#[derive(Clone, Copy, Debug, PartialEq, Eq)]
pub struct Stored {
    pub six: [i64; 6],
    pub answer: StoredAnswer,
}

/// Writes the book of a list of signed bytes, six a conic, and gives its length, or
/// the first refusal of 15, 1, 14.
pub fn write_book(list: &[u8], buffer: &mut [u8]) -> Result<usize, u32> {
    let book = book_of(list)?;
    let room = buffer.get_mut(..book.len()).ok_or(14u32)?;
    room.copy_from_slice(&book);
    Ok(book.len())
}

/// The bytes of the book of a list, or the first refusal of 15, 1.
pub fn book_of(list: &[u8]) -> Result<Vec<u8>, u32> {
    if !list.len().is_multiple_of(6) || list.len() > 6 * MOST_CONICS {
        return Err(15);
    }
    let conics: Vec<[i64; 6]> = list.chunks(6).map(six_of).collect();
    if !conics.iter().all(|six| in_range(*six)) {
        return Err(1);
    }
    let count = conics.len();
    let mut contents = (count as u16).to_le_bytes().to_vec();
    let mut bodies = Vec::new();
    for six in conics {
        let (kind, body) = body_of(six);
        let offset = u16::try_from(2 + 3 * count + bodies.len()).expect("offset fits two bytes");
        contents.push(kind);
        contents.extend(offset.to_le_bytes());
        bodies.extend(body);
    }
    contents.extend(bodies);
    Ok(contents)
}

/// Kind and body of a conic in range.
fn body_of(six: [i64; 6]) -> (u8, Vec<u8>) {
    let mut body: Vec<u8> = six.iter().map(|n| *n as i8 as u8).collect();
    let kind = match solve(six) {
        Answer::Point(point) => {
            for n in [point.x, point.y, point.z] {
                let narrow = i32::try_from(n).expect("a stored number fits four bytes");
                body.extend(narrow.to_le_bytes());
            }
            1
        }
        Answer::None(Reason::Sign) => 2,
        Answer::None(Reason::Prime(prime)) => {
            let narrow = u32::try_from(prime).expect("a stored prime fits four bytes");
            body.extend(narrow.to_le_bytes());
            3
        }
        Answer::Refusal(2) => 4,
        Answer::Refusal(number) => unreachable!("refusal {number} of a conic in range"),
    };
    (kind, body)
}

/// Six signed bytes as numbers.
fn six_of(bytes: &[u8]) -> [i64; 6] {
    std::array::from_fn(|i| i64::from(bytes[i] as i8))
}

/// Reads one conic of a book, or gives the first refusal of 12, 13, 16.
pub fn read_book(book: &[u8], number: u64) -> Result<Stored, u32> {
    let bodies = layout(book).ok_or(12u32)?;
    let stored: Option<Vec<Stored>> = bodies
        .iter()
        .map(|(kind, body)| judged(*kind, body))
        .collect();
    let stored = stored.ok_or(13u32)?;
    let place = usize::try_from(number).map_err(|_| 16u32)?;
    stored.get(place).copied().ok_or(16)
}

/// Kinds and bodies of a book whose layout holds.
fn layout(book: &[u8]) -> Option<Vec<(u8, &[u8])>> {
    let (head, rest) = book.split_first_chunk::<2>()?;
    let count = usize::from(u16::from_le_bytes(*head));
    if count > MOST_CONICS {
        return None;
    }
    let (contents, mut left) = rest.split_at_checked(3 * count)?;
    let mut bodies = Vec::with_capacity(count);
    for entry in contents.chunks(3) {
        let length = match entry[0] {
            1 => 18,
            2 | 4 => 6,
            3 => 10,
            _ => return None,
        };
        let offset = usize::from(u16::from_le_bytes([entry[1], entry[2]]));
        if offset != book.len() - left.len() {
            return None;
        }
        let (body, after) = left.split_at_checked(length)?;
        bodies.push((entry[0], body));
        left = after;
    }
    left.is_empty().then_some(bodies)
}

/// The conic and answer of a body, if the body is right.
fn judged(kind: u8, body: &[u8]) -> Option<Stored> {
    let six = six_of(body);
    let word = |place: usize| <[u8; 4]>::try_from(&body[place..place + 4]).expect("four bytes");
    let coordinate = |place: usize| i64::from(i32::from_le_bytes(word(place)));
    let answer = match kind {
        1 => {
            let point = Point::new(coordinate(6), coordinate(10), coordinate(14));
            let conic = Conic::judged(six).ok()?;
            let right = point.is_legal_base() && conic.value(point.triple()) == 0;
            right.then_some(StoredAnswer::Point(point))?
        }
        4 => (Conic::judged(six) == Err(2)).then_some(StoredAnswer::Degenerate)?,
        _ => {
            let reason = match kind {
                2 => Reason::Sign,
                _ => Reason::Prime(u64::from(u32::from_le_bytes(word(6)))),
            };
            (solve(six) == Answer::None(reason)).then_some(StoredAnswer::None(reason))?
        }
    };
    Some(Stored { six, answer })
}
