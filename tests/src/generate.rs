//! Writes a batch of records for the desk and the second program to answer.
//!
//!     generate JOBS SEED COUNT
//!
//! JOBS is one letter or more out of R (read), C (check) and W (write). The batch is the same
//! for the same three words: first the known cases, then records made up from the seed.

use std::io::{self, BufWriter, Write};
use std::process::exit;

mod areas;
mod attributes;
mod cases;
mod check_cases;
mod items;
mod messages;
mod random;
mod reader;
mod records;
mod sheet_cases;
mod sheets;
mod values;
mod wrong_items;

use random::Random;
use records::{any_record, known_records, Job};

struct Wanted {
    jobs: Vec<Job>,
    seed: u64,
    count: usize,
}

fn wanted(words: &[String]) -> Result<Wanted, String> {
    let (jobs, seed, count) = match words {
        [jobs, seed, count] => (jobs, seed, count),
        _ => return Err("usage: generate JOBS SEED COUNT".into()),
    };
    let jobs = jobs.chars().map(Job::of).collect::<Result<Vec<_>, _>>()?;
    if jobs.is_empty() {
        return Err("JOBS is one letter or more out of R, C and W".into());
    }
    let seed = seed.parse().map_err(|_| format!("SEED is a number, not {seed:?}"))?;
    let count = count.parse().map_err(|_| format!("COUNT is a number, not {count:?}"))?;
    Ok(Wanted { jobs, seed, count })
}

fn write_batch(wanted: &Wanted, out: &mut impl Write) -> io::Result<()> {
    let known = known_records(&wanted.jobs);
    for record in known.iter().take(wanted.count) {
        out.write_all(record)?;
    }
    let mut random = Random::new(wanted.seed);
    for _ in known.len()..wanted.count {
        out.write_all(&any_record(&mut random, &wanted.jobs))?;
    }
    out.flush()
}

fn main() {
    let words: Vec<String> = std::env::args().skip(1).collect();
    let answer = wanted(&words).and_then(|wanted| {
        let mut out = BufWriter::new(io::stdout().lock());
        write_batch(&wanted, &mut out).map_err(|error| error.to_string())
    });
    if let Err(reason) = answer {
        eprintln!("generate: {reason}");
        exit(1);
    }
}
