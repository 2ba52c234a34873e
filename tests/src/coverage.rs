//! Counts what the answers to a batch come to.
//!
//!     coverage BATCH ANSWERS
//!
//! Prints how often each refusal comes up in each job, then each breach by its rule and
//! number: how often in each kind, and how often with the rarest flags of any kind in which
//! it is possible. The status is 1 where a line of the book does not come up at all, or a
//! breach that no line gives does.

use std::collections::{BTreeMap, BTreeSet};
use std::process::exit;

mod lines;

use lines::{breaches, refusals, Line, FLAGS, KINDS};

#[derive(Default)]
struct Seen {
    refused: BTreeMap<(char, u32), usize>,
    short: BTreeMap<char, usize>,
    done: BTreeMap<char, usize>,
    breaches: BTreeMap<(u8, u8, Line), usize>,
}

impl Seen {
    fn count(&mut self, job: char, payload: &[u8], line: &str) {
        let mut words = line.split(' ');
        match words.next() {
            Some("refused") => {
                let number = words.next().and_then(|word| word.parse().ok()).unwrap_or(0);
                *self.refused.entry((job, number)).or_default() += 1;
            }
            Some("short") => *self.short.entry(job).or_default() += 1,
            _ => {
                *self.done.entry(job).or_default() += 1;
                if job == 'C' {
                    self.count_entries(payload[0], payload[1], line);
                }
            }
        }
    }

    /// Each rule and number of a list, once a list.
    fn count_entries(&mut self, kind: u8, flags: u8, line: &str) {
        let entry = |word: &str| u32::from_str_radix(word, 16).ok();
        let broken: BTreeSet<Line> = line
            .split_whitespace()
            .filter_map(entry)
            .map(|entry| ((entry >> 16 & 15) as u8, (entry >> 8) as u8, entry as u8))
            .collect();
        for line in broken {
            *self.breaches.entry((kind, flags, line)).or_default() += 1;
        }
    }

    fn breach(&self, kind: u8, flags: u8, line: Line) -> usize {
        self.breaches.get(&(kind, flags, line)).copied().unwrap_or(0)
    }
}

/// Job and payload of each record.
fn records(batch: &[u8]) -> Vec<(char, &[u8])> {
    let mut rest = batch;
    let mut records = Vec::new();
    while rest.len() >= 9 {
        let length = u32::from_be_bytes([rest[5], rest[6], rest[7], rest[8]]) as usize;
        let payload = match rest.get(9..9 + length) {
            Some(payload) => payload,
            None => break,
        };
        records.push((char::from(rest[0]), payload));
        rest = &rest[9 + length..];
    }
    records
}

/// Prints the refusals; how many that a job can give did not come up.
fn show_refusals(seen: &Seen) -> usize {
    let mut missing = 0;
    for job in ['R', 'C', 'W'] {
        let of = |counts: &BTreeMap<char, usize>| counts.get(&job).copied().unwrap_or(0);
        print!("{job}: done {}, short {}, refused", of(&seen.done), of(&seen.short));
        for &number in refusals(job) {
            let count = seen.refused.get(&(job, number)).copied().unwrap_or(0);
            missing += usize::from(count == 0);
            print!("  {number}: {count}");
        }
        println!();
    }
    missing
}

/// Prints the breaches; how many lines with a kind and flags did not come up.
fn show_breaches(seen: &Seen) -> usize {
    let mut rows: BTreeMap<Line, Vec<(u8, u8)>> = BTreeMap::new();
    for kind in KINDS {
        for flags in FLAGS {
            for line in breaches(kind, flags) {
                rows.entry(line).or_default().push((kind, flags));
            }
        }
    }
    println!("rule number   kind 1 kind 2 kind 3 kind 4 kind 5 kind 6   rarest flags");
    let mut missing = 0;
    for (&line, places) in &rows {
        let (rule, number, sub) = line;
        let name = if number == 26 { format!("3GPP {sub}") } else { number.to_string() };
        print!("{rule:>4} {name:<8}");
        for kind in KINDS {
            let count: usize = FLAGS.iter().map(|&flags| seen.breach(kind, flags, line)).sum();
            print!(" {count:>6}");
        }
        let counts = || places.iter().map(|&(kind, flags)| seen.breach(kind, flags, line));
        missing += counts().filter(|&count| count == 0).count();
        println!(" {:>14}", counts().min().unwrap_or(0));
    }
    println!("{} lines with kind and flags", rows.values().map(Vec::len).sum::<usize>());
    missing
}

/// How many breaches came up that no line gives.
fn unheard_of(seen: &Seen) -> usize {
    let given = |&(kind, flags, line): &(u8, u8, Line)| breaches(kind, flags).contains(&line);
    seen.breaches.keys().filter(|key| !given(key)).count()
}

fn main() {
    let paths: Vec<String> = std::env::args().skip(1).collect();
    let read = |path: &String| {
        std::fs::read(path).unwrap_or_else(|error| {
            eprintln!("coverage: {path}: {error}");
            exit(2)
        })
    };
    if paths.len() != 2 {
        eprintln!("usage: coverage BATCH ANSWERS");
        exit(2);
    }
    let (batch, answers) = (read(&paths[0]), read(&paths[1]));
    let answers = String::from_utf8_lossy(&answers);
    let records = records(&batch);
    let mut seen = Seen::default();
    for (&(job, payload), line) in records.iter().zip(answers.lines()) {
        seen.count(job, payload, line);
    }
    let missing = show_refusals(&seen) + show_breaches(&seen);
    let others = unheard_of(&seen);
    println!("{} records, {missing} lines missing, {others} breaches of no line", records.len());
    exit(i32::from(missing + others > 0 || answers.lines().count() != records.len()));
}
