//! The second program: document 01 once more, with request 1 of document 02, told by
//! its definitions.
//!
//! Standard input is read in full as a batch of records; standard output gets
//! one line a record.

mod batch;
mod breaches;
mod framing;
mod items;
mod jobs;
mod kinds;
mod refusal;
mod shapes;
mod sheet;
mod text;

use std::io::{self, BufWriter, Read, Write};

fn main() {
    if let Err(error) = answer_standard_input() {
        // The reader may be gone; then there is no one left to tell.
        let _ = writeln!(io::stderr(), "second: {}", error);
        std::process::exit(1);
    }
}

fn answer_standard_input() -> io::Result<()> {
    let mut input = Vec::new();
    io::stdin().lock().read_to_end(&mut input)?;
    let mut output = BufWriter::new(io::stdout().lock());
    batch::run(&input, &mut output)?;
    output.flush()
}
