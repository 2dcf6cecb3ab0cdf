//! Text rows: the paper's whole output, faults, buffers and the cut at line feeds.

use second::generate::{rows, Kind};
use second::{row_into_buffer, row_text, whole_output};

#[test]
fn the_papers_six_rows() {
    let input = b"1 1 1 1 0 -1\n1 0 1 0 0 -3\n1 0 1 0 0 3\n1 0 1 0 0 0\n41 0 0 0 0 0\n1 0 1\n";
    let output = b"P -4 5 3\nN prime 3\nN sign\nR 2\nR 1\nR 10\n";
    assert_eq!(whole_output(input), output);
    assert_eq!(whole_output(&input[..input.len() - 1]), output);
}

#[test]
fn the_cut_at_line_feeds() {
    assert_eq!(whole_output(b""), b"");
    assert_eq!(whole_output(b"\n"), b"R 10\n");
    assert_eq!(whole_output(b"\n\n"), b"R 10\nR 10\n");
    assert_eq!(whole_output(b"x"), b"R 10\n");
    assert_eq!(whole_output(b"x\n"), b"R 10\n");
    assert_eq!(whole_output(b"x\n\n"), b"R 10\nR 10\n");
    assert_eq!(whole_output(b"\nx"), b"R 10\nR 10\n");
    assert_eq!(
        whole_output(b"1 0 1 0 0 -1\r\n1 0 1 0 0 -1\n"),
        b"R 10\nP 0 1 1\n"
    );
}

#[test]
fn rows_that_are_not_six_numbers() {
    for text in [
        &b""[..],
        b" ",
        b"-",
        b"1",
        b"1 0 1 0 0",
        b"1 0 1 0 0 -1 0",
        b" 1 0 1 0 0 -1",
        b"1 0 1 0 0 -1 ",
        b"1 0 1 0 0  -1",
        b"1 0  1 0 0",
        b"1 0 1 0 0 - 1",
        b"1 0 1 0 0 -",
        b"1 0 1 0 0 --1",
        b"1 0 1 0 0 +1",
        b"1 0 1 0 0 1-",
        b"1 0 1 0 0 0000001",
        b"1 0 1 0 0 -0000001",
        b"0000000 0 0 0 0 0",
        b"1 0 1 0 0 -1\r",
        b"1 0 1 0 0 -1\n",
        b"1 0 1 0 0\n-1",
        b"1\t0 1 0 0 -1",
        b"1 0 1 0 0 -1\0",
        b"1 0 1 0 0 \xb2",
        b"1 0 1 0 0 \xff",
        b"1,0,1,0,0,-1",
        b"1 0 1 0 0 1e0",
        b"1 0 1 0 0 1.0",
        b"1 0 1 0 0 :",
        b"1 0 1 0 0 /",
    ] {
        assert_eq!(row_text(text), b"R 10\n", "{}", text.escape_ascii());
    }
}

#[test]
fn unusual_rows_that_are_allowed() {
    for (text, row) in [
        (&b"000001 -0 01 -000000 0 -000001"[..], &b"P 0 1 1\n"[..]),
        (b"-0 -0 -0 -0 -0 -0", b"R 2\n"),
        (b"999999 0 0 0 0 0", b"R 1\n"),
        (b"-999999 -999999 -999999 -999999 -999999 -999999", b"R 1\n"),
        (b"0 0 0 0 0 000041", b"R 1\n"),
    ] {
        assert_eq!(row_text(text), row);
    }
}

#[test]
fn buffers() {
    let mut short = [7u8; 39];
    assert_eq!(row_into_buffer(b"1 0 1 0 0 -1", &mut short), Err(11));
    assert_eq!(row_into_buffer(b"junk", &mut short), Err(11));
    assert_eq!(row_into_buffer(b"", &mut []), Err(11));
    assert_eq!(short, [7u8; 39]);
    let mut enough = [7u8; 40];
    assert_eq!(row_into_buffer(b"1 0 1 0 0 -1", &mut enough), Ok(8));
    assert_eq!(&enough[..8], b"P 0 1 1\n");
    assert_eq!(enough[8..], [7u8; 32]);
    assert_eq!(row_into_buffer(b"1 0 1", &mut enough), Ok(5));
    assert_eq!(&enough[..9], b"R 10\n 1\n\x07");
}

#[test]
fn generated_rows_give_one_row_each() {
    for (kind, count) in [
        (Kind::Malformed, 20_000),
        (Kind::Outside, 2_000),
        (Kind::Mixed, 5_000),
    ] {
        let input = rows(kind, count, 3);
        assert_eq!(input, rows(kind, count, 3));
        assert_ne!(input, rows(kind, count, 4));
        assert_eq!(input.iter().filter(|byte| **byte == b'\n').count(), count);
        let output = whole_output(&input);
        let lines: Vec<&[u8]> = output.split_inclusive(|byte| *byte == b'\n').collect();
        assert_eq!(lines.len(), count);
        assert!(lines.iter().all(|line| line.len() <= 34));
        if kind == Kind::Outside {
            assert!(lines.iter().all(|line| *line == b"R 1\n"));
        }
    }
}
