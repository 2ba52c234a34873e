//! The second program's own tests. Run without arguments; the first failure
//! ends the run with a message and a non-zero status.

mod batch;
mod breaches;
mod framing;
mod items;
mod jobs;
mod kinds;
mod refusal;
mod shapes;
mod sheet;
mod text;

#[path = "tests/areas.rs"]
mod areas;
#[path = "tests/ask.rs"]
mod ask;
#[path = "tests/batches.rs"]
mod batches;
#[path = "tests/framed.rs"]
mod framed;
#[path = "tests/judge.rs"]
mod judge;
#[path = "tests/makers.rs"]
mod makers;
#[path = "tests/paper.rs"]
mod paper;
#[path = "tests/random.rs"]
mod random;
#[path = "tests/readings.rs"]
mod readings;
#[path = "tests/readings_breaches.rs"]
mod readings_breaches;
#[path = "tests/readings_sheets.rs"]
mod readings_sheets;
#[path = "tests/sheets.rs"]
mod sheets;
#[path = "tests/tally.rs"]
mod tally;

fn main() {
    let mut tally = tally::Tally::new();
    paper::run(&mut tally);
    readings::run(&mut tally);
    readings_sheets::run(&mut tally);
    readings_breaches::run(&mut tally);
    framed::run(&mut tally);
    areas::run(&mut tally);
    sheets::run(&mut tally);
    batches::run(&mut tally);
    println!("second: all {} cases passed", tally.cases());
}
