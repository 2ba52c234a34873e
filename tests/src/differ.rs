//! Finds where two programs' answers to one batch differ.
//!
//!     differ BATCH FIRST SECOND
//!
//! The three are files: the batch and what each program printed for it. The first record
//! whose lines differ, or for which one of the lines is missing, is printed with its
//! octets and both lines, then how many records differ. The status is 1 where any does.

use std::process::exit;

/// The octets of each record, head included, as far as the batch is whole.
fn records(batch: &[u8]) -> Vec<&[u8]> {
    let mut rest = batch;
    let mut records = Vec::new();
    while rest.len() >= 9 {
        let length = u32::from_be_bytes([rest[5], rest[6], rest[7], rest[8]]) as usize;
        if rest.len() - 9 < length {
            break;
        }
        let (record, after) = rest.split_at(9 + length);
        records.push(record);
        rest = after;
    }
    records
}

/// The lines of an output; octets after the last line feed are a line of their own, marked.
fn lines(output: &[u8]) -> Vec<String> {
    let text = |line: &[u8]| String::from_utf8_lossy(line).into_owned();
    let mut lines: Vec<String> = output.split(|&octet| octet == b'\n').map(text).collect();
    if let Some(last) = lines.pop().filter(|last| !last.is_empty()) {
        lines.push(last + " (no line feed)");
    }
    lines
}

fn hexadecimal(octets: &[u8]) -> String {
    octets.iter().map(|octet| format!("{octet:02X}")).collect()
}

fn show(number: usize, records: &[&[u8]], first: Option<&String>, second: Option<&String>) {
    let line = |line: Option<&String>| line.map_or("(no line)".into(), |line| format!("{line:?}"));
    println!("record {number} (the first is 0):");
    match records.get(number) {
        Some(record) => {
            let (head, payload) = record.split_at(9);
            let room = u32::from_be_bytes([head[1], head[2], head[3], head[4]]);
            let job = char::from(head[0]);
            println!("  job {job}, room {room}, {} octets of payload", payload.len());
            println!("  octets: {} {}", hexadecimal(head), hexadecimal(payload));
        }
        None => println!("  there is no such record: a line too many"),
    }
    println!("  first:  {}", line(first));
    println!("  second: {}", line(second));
}

fn main() {
    let paths: Vec<String> = std::env::args().skip(1).collect();
    let read = |path: &String| {
        std::fs::read(path).unwrap_or_else(|error| {
            eprintln!("differ: {path}: {error}");
            exit(2)
        })
    };
    if paths.len() != 3 {
        eprintln!("usage: differ BATCH FIRST SECOND");
        exit(2);
    }
    let batch = read(&paths[0]);
    let records = records(&batch);
    let (first, second) = (lines(&read(&paths[1])), lines(&read(&paths[2])));
    let most = records.len().max(first.len()).max(second.len());
    let differs = |&k: &usize| first.get(k).is_none() || first.get(k) != second.get(k);
    let mut differing = (0..most).filter(|k| differs(k) || *k >= records.len());
    if let Some(number) = differing.next() {
        show(number, &records, first.get(number), second.get(number));
        println!("{} records, {} differences", records.len(), 1 + differing.count());
        exit(1);
    }
    println!("{} records, 0 differences", records.len());
}
