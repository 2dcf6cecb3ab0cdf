//! Rows from standard input to answers on standard output, as the paper's program.

use std::io::{self, BufWriter, Read, Write};

fn main() -> io::Result<()> {
    let mut input = Vec::new();
    io::stdin().lock().read_to_end(&mut input)?;
    let mut output = BufWriter::new(io::stdout().lock());
    for row in second::row::rows_of(&input) {
        output.write_all(&second::row_text(row))?;
    }
    output.flush()
}
