//! Rows a second of the proved program and library, of the second program, and of PARI/GP's qfsolve where gp is
//! installed: medians of five in one run, as ratios to the second program's call.

use second::generate::spelled;
use second::prng::Prng;
use second::{Answer, Reason};
use std::fs::File;
use std::process::{Command, Stdio};
use std::time::Instant;

extern "C" {
    #[rustfmt::skip]
    fn conic_solve(a: i64, b: i64, c: i64, d: i64, e: i64, f: i64, point: *mut [i64; 3], prime: *mut u64) -> i64;
    fn conic_row(text: *const u8, text_length: usize, out: *mut u8, out_length: usize) -> i64;
}

const ROWS: usize = 100_000;
const GP_ROWS: usize = 5_000;
const SEED: u64 = 2026;

fn main() {
    let folder = std::env::args().nth(1).expect("the folder of what was built");
    let conics = drawn();
    let texts: Vec<Vec<u8>> = conics.iter().map(|six| spelled(*six)).collect();
    let file = format!("{folder}/bench-rows.txt");
    std::fs::write(&file, texts.join(&b'\n')).expect("the rows are written");
    println!("{ROWS} rows, coefficients -40 to 40, seed {SEED}; medians of five; 1.00 is the second program's call");
    let measure = second_call(&conics);
    told("second program, call", measure, measure);
    told("library, call", library_call(&conics), measure);
    told("library, row text", library_rows(&texts), measure);
    told("conics, program", program(&format!("{folder}/bin/conics"), &file), measure);
    told("second program, program", program(&format!("{folder}/bench/release/second_rows"), &file), measure);
    told("cat", program("cat", &file), measure);
    match gp(&conics[..GP_ROWS], &folder) {
        Some(seconds) => told("PARI/GP qfsolve", seconds * (ROWS / GP_ROWS) as f64, measure),
        None => println!("PARI/GP qfsolve: gp is not installed"),
    }
    split(&conics, &texts);
}

/// What a row costs on the average: conics that end by sign are levelled and no more, those that end by a prime take residues
/// too, those with a point walk the box besides; text is what a row costs above the call.
fn split(conics: &[[i64; 6]], texts: &[Vec<u8>]) {
    let of = |ends: fn(Answer) -> bool| -> f64 {
        let chosen: Vec<[i64; 6]> = conics.iter().copied().filter(|six| ends(second::solve(*six))).collect();
        library_call(&chosen) / chosen.len() as f64
    };
    let by_sign = of(|answer| answer == Answer::None(Reason::Sign));
    let by_prime = of(|answer| matches!(answer, Answer::None(Reason::Prime(_))));
    let with_point = of(|answer| matches!(answer, Answer::Point(_)));
    let text = (library_rows(texts) - library_call(conics)) / conics.len() as f64;
    println!("the cost of a row with a point, in parts of the whole:");
    let whole = with_point + text;
    for (name, part) in [
        ("levelling", by_sign),
        ("residues", by_prime - by_sign),
        ("box", with_point - by_prime),
        ("text", text),
    ] {
        println!("{name:<26} {:.2}", part / whole);
    }
}

/// Conics drawn evenly from the whole range.
fn drawn() -> Vec<[i64; 6]> {
    let mut prng = Prng::new(SEED);
    (0..ROWS).map(|_| std::array::from_fn(|_| prng.between(-40, 40))).collect()
}

fn told(name: &str, seconds: f64, measure: f64) {
    println!("{name:<26} {:>10.0} rows a second, ratio {:.2}", ROWS as f64 / seconds, measure / seconds);
}

fn median(mut work: impl FnMut()) -> f64 {
    let mut times: Vec<f64> = (0..5)
        .map(|_| {
            let start = Instant::now();
            work();
            start.elapsed().as_secs_f64()
        })
        .collect();
    times.sort_by(f64::total_cmp);
    times[2]
}

fn second_call(conics: &[[i64; 6]]) -> f64 {
    median(|| {
        for six in conics {
            std::hint::black_box(second::solve(*six));
        }
    })
}

fn library_call(conics: &[[i64; 6]]) -> f64 {
    let (mut point, mut prime) = ([0; 3], 0);
    median(|| {
        for [a, b, c, d, e, f] in conics {
            // Both places are valid, apart, and live through the call.
            std::hint::black_box(unsafe { conic_solve(*a, *b, *c, *d, *e, *f, &mut point, &mut prime) });
        }
    })
}

fn library_rows(texts: &[Vec<u8>]) -> f64 {
    let mut out = [0u8; 40];
    median(|| {
        for text in texts {
            // The text and the buffer are valid, apart, and live through the call.
            std::hint::black_box(unsafe { conic_row(text.as_ptr(), text.len(), out.as_mut_ptr(), out.len()) });
        }
    })
}

fn program(path: &str, file: &str) -> f64 {
    median(|| {
        let input = File::open(file).expect("the rows are there");
        let status = Command::new(path).stdin(input).stdout(Stdio::null()).status();
        assert!(status.expect("the program starts").success());
    })
}

/// gp's seconds for the conics' matrices, its start taken off; none where it is not installed.
fn gp(conics: &[[i64; 6]], folder: &str) -> Option<f64> {
    Command::new("gp").arg("--version").stdout(Stdio::null()).stderr(Stdio::null()).status().ok()?;
    let matrices: Vec<String> = conics
        .iter()
        .map(|[a, b, c, d, e, f]| format!("[{},{b},{d};{b},{},{e};{d},{e},{}]", 2 * a, 2 * c, 2 * f))
        .collect();
    let (empty, full) = (format!("{folder}/bench-empty.gp"), format!("{folder}/bench-conics.gp"));
    let list = format!("m=[{}];", matrices.join(","));
    std::fs::write(&empty, &list).expect("the script is written");
    std::fs::write(&full, list + "for(i=1,#m,if(matdet(m[i]),qfsolve(m[i])));").expect("the script is written");
    Some(script(&full) - script(&empty))
}

fn script(path: &str) -> f64 {
    median(|| {
        let input = File::open(path).expect("the script is there");
        let status = Command::new("gp").args(["-q", "-f"]).stdin(input).stdout(Stdio::null()).status();
        assert!(status.expect("gp starts").success());
    })
}
