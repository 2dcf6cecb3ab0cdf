//! Each function once for each kind of answer.
use conic::{book_read, book_write, direction, point, row, solve};
use conic::{Answer, Conic, Direction, Point, Reason, Refusal, Stored};

const fn conic(a: i64, c: i64, f: i64) -> Conic {
    Conic {
        a,
        b: 0,
        c,
        d: 0,
        e: 0,
        f,
    }
}

const CIRCLE: Conic = conic(1, 1, -1);

fn refused<T>(number: u64) -> Result<T, Refusal> {
    Err(Refusal { number })
}

#[test]
fn solving() {
    assert_eq!(solve(CIRCLE), Ok(Answer::Point(Point { x: 0, y: 1, z: 1 })));
    assert_eq!(solve(conic(1, 1, 3)), Ok(Answer::None(Reason::Sign)));
    assert_eq!(solve(conic(1, 1, -3)), Ok(Answer::None(Reason::Prime(3))));
    assert_eq!(solve(conic(41, 0, 0)), refused(1));
    assert_eq!(solve(conic(i64::MIN, 0, 0)), refused(1));
    assert_eq!(solve(conic(1, 1, 0)), refused(2));
}

#[test]
fn directions() {
    let base = Point { x: 1, y: 0, z: 1 };
    let reached = Point { x: 3, y: 4, z: 5 };
    assert_eq!(point(CIRCLE, base, Direction { u: 1, v: -2 }), Ok(reached));
    assert_eq!(point(CIRCLE, base, Direction { u: 0, v: 0 }), refused(7));
    assert_eq!(
        direction(CIRCLE, base, reached),
        Ok(Direction { u: 1, v: -2 })
    );
    assert_eq!(direction(CIRCLE, base, base), Ok(Direction { u: 0, v: 1 }));
    assert_eq!(
        direction(CIRCLE, base, Point { x: 3, y: 4, z: 6 }),
        refused(9)
    );
}

#[test]
fn rows() {
    let mut out = [77; 40];
    assert_eq!(row(b"1 1 1 1 0 -1", &mut out), Ok(9));
    assert_eq!(&out[..10], b"P -4 5 3\nM");
    assert_eq!(row(b"1 1 1 1 0 -1", &mut out[..39]), refused(11));
}

#[test]
fn books() {
    let list = [
        1, 0, 1, 0, 0, 255, 1, 0, 1, 0, 0, 3, 1, 0, 1, 0, 0, 253, 1, 0, 1, 0, 0, 0,
    ];
    let mut buffer = [77; 64];
    assert_eq!(book_write(&list[..5], &mut buffer), refused(15));
    assert_eq!(book_write(&[], &mut buffer), Ok(2));
    assert_eq!(book_write(&list, &mut buffer), Ok(54));
    let book = &buffer[..54];
    assert_eq!(
        book_read(book, 0),
        Ok((CIRCLE, Stored::Point(Point { x: 0, y: 1, z: 1 })))
    );
    assert_eq!(
        book_read(book, 1),
        Ok((conic(1, 1, 3), Stored::None(Reason::Sign)))
    );
    assert_eq!(
        book_read(book, 2),
        Ok((conic(1, 1, -3), Stored::None(Reason::Prime(3))))
    );
    assert_eq!(book_read(book, 3), Ok((conic(1, 1, 0), Stored::Degenerate)));
    assert_eq!(book_read(book, 4), refused(16));
    assert_eq!(book_read(&book[..53], 0), refused(12));
}
