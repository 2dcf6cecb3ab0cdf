//! Points on conics with whole coefficients, for safe callers. An answer is looked at only by its case: a none has no coordinates.
//!
//! The `unsafe` blocks owe the library valid places that do not overlap: each is a local or a slice that is borrowed for the call.
mod library;

/// ax² + bxy + cy² + dxz + eyz + fz² = 0.
#[derive(Clone, Copy, Debug, PartialEq, Eq)]
pub struct Conic {
    pub a: i64,
    pub b: i64,
    pub c: i64,
    pub d: i64,
    pub e: i64,
    pub f: i64,
}

#[derive(Clone, Copy, Debug, PartialEq, Eq)]
pub struct Point {
    pub x: i64,
    pub y: i64,
    pub z: i64,
}

#[derive(Clone, Copy, Debug, PartialEq, Eq)]
pub struct Direction {
    pub u: i64,
    pub v: i64,
}

/// Why a conic has no point.
#[derive(Clone, Copy, Debug, PartialEq, Eq)]
pub enum Reason {
    Sign,
    Prime(u64),
}

#[derive(Clone, Copy, Debug, PartialEq, Eq)]
pub enum Answer {
    Point(Point),
    None(Reason),
}

/// The stored answer of a conic in a book.
#[derive(Clone, Copy, Debug, PartialEq, Eq)]
pub enum Stored {
    Point(Point),
    None(Reason),
    Degenerate,
}

/// A refusal, by its number.
#[derive(Clone, Copy, Debug, PartialEq, Eq)]
pub struct Refusal {
    pub number: u64,
}

impl Refusal {
    fn of(code: i64) -> Refusal {
        Refusal {
            number: code.unsigned_abs(),
        }
    }
}

impl Point {
    fn of([x, y, z]: [i64; 3]) -> Point {
        Point { x, y, z }
    }
}

/// A point with z > 0, or none with its reason. Refusals 1, 2.
pub fn solve(h: Conic) -> Result<Answer, Refusal> {
    let (mut point, mut prime) = ([0; 3], 0);
    match unsafe { library::conic_solve(h.a, h.b, h.c, h.d, h.e, h.f, &mut point, &mut prime) } {
        1 => Ok(Answer::Point(Point::of(point))),
        2 => Ok(Answer::None(Reason::Sign)),
        3 => Ok(Answer::None(Reason::Prime(prime))),
        code => Err(Refusal::of(code)),
    }
}

/// The point to which a direction leads from a base. Refusals 1, 2, 5, 6, 7.
pub fn point(h: Conic, base: Point, t: Direction) -> Result<Point, Refusal> {
    let mut point = [0; 3];
    let Point { x, y, z } = base;
    match unsafe {
        library::conic_point(h.a, h.b, h.c, h.d, h.e, h.f, x, y, z, t.u, t.v, &mut point)
    } {
        0 => Ok(Point::of(point)),
        code => Err(Refusal::of(code)),
    }
}

/// The direction that leads from a base to a target. Refusals 1, 2, 5, 6, 8, 9.
pub fn direction(h: Conic, base: Point, q: Point) -> Result<Direction, Refusal> {
    let mut direction = [0; 2];
    let Point { x, y, z } = base;
    match unsafe {
        library::conic_direction(
            h.a,
            h.b,
            h.c,
            h.d,
            h.e,
            h.f,
            x,
            y,
            z,
            q.x,
            q.y,
            q.z,
            &mut direction,
        )
    } {
        0 => Ok(Direction {
            u: direction[0],
            v: direction[1],
        }),
        code => Err(Refusal::of(code)),
    }
}

fn length(code: i64) -> Result<usize, Refusal> {
    usize::try_from(code).map_err(|_| Refusal::of(code))
}

/// Writes the row that answers a text row, and returns its length. Refusal 11.
pub fn row(text: &[u8], out: &mut [u8]) -> Result<usize, Refusal> {
    length(unsafe { library::conic_row(text.as_ptr(), text.len(), out.as_mut_ptr(), out.len()) })
}

/// Writes the book of a list of conics, and returns its length. Refusals 15, 1, 14.
pub fn book_write(list: &[u8], book: &mut [u8]) -> Result<usize, Refusal> {
    length(unsafe {
        library::conic_book_write(list.as_ptr(), list.len(), book.as_mut_ptr(), book.len())
    })
}

/// The conic of a number, from 0, with its stored answer. Refusals 12, 13, 16.
pub fn book_read(book: &[u8], number: u64) -> Result<(Conic, Stored), Refusal> {
    let (mut conic, mut point, mut prime) = ([0; 6], [0; 3], 0);
    let code = unsafe {
        library::conic_book_read(
            book.as_ptr(),
            book.len(),
            number,
            &mut conic,
            &mut point,
            &mut prime,
        )
    };
    let stored = match code {
        1 => Stored::Point(Point::of(point)),
        2 => Stored::None(Reason::Sign),
        3 => Stored::None(Reason::Prime(prime)),
        4 => Stored::Degenerate,
        code => return Err(Refusal::of(code)),
    };
    let [a, b, c, d, e, f] = conic;
    Ok((Conic { a, b, c, d, e, f }, stored))
}
