//! The batch format: records in, one line of text a record out.
//!
//! A record is a job octet, the room (32 bits, high octet first), a length n
//! (32 bits, high octet first) and n octets of payload.

use crate::jobs;
use crate::refusal::Refusal;
use crate::text;
use std::io::{self, Write};

/// Job octet, room, length.
const RECORD_HEAD: usize = 9;

/// One record as it stands in the input.
struct Record<'a> {
    job: u8,
    room: usize,
    payload: &'a [u8],
}

/// Answers every record in order. A broken record ends the run.
pub fn run(input: &[u8], output: &mut impl Write) -> io::Result<()> {
    let mut rest = input;
    let mut number: u64 = 0;
    while !rest.is_empty() {
        match cut_record(rest).and_then(|(record, after)| Some((answer(&record)?, after))) {
            Some((line, after)) => {
                writeln!(output, "{}", line)?;
                rest = after;
            }
            None => return writeln!(output, "broken {}", number),
        }
        number += 1;
    }
    Ok(())
}

/// The first record and what follows it; nothing where it passes the input's end.
fn cut_record(input: &[u8]) -> Option<(Record<'_>, &[u8])> {
    let head = input.get(..RECORD_HEAD)?;
    let room = number_of(&head[1..5]);
    let end = RECORD_HEAD.checked_add(number_of(&head[5..9]))?;
    let payload = input.get(RECORD_HEAD..end)?;
    Some((Record { job: head[0], room, payload }, &input[end..]))
}

/// Four octets as a number, high octet first.
fn number_of(octets: &[u8]) -> usize {
    octets.iter().fold(0, |number, &octet| (number << 8) | usize::from(octet))
}

/// The line of one record, without its line feed; nothing for another job octet.
fn answer(record: &Record) -> Option<String> {
    match record.job {
        b'C' => Some(check_line(record)),
        b'R' => Some(read_line(record)),
        b'W' => Some(write_line(record)),
        _ => None,
    }
}

fn check_line(record: &Record) -> String {
    match record.payload {
        [kind, flags, area @ ..] => match jobs::check(*kind, *flags, area, record.room) {
            Ok(list) => list_text(&list),
            Err(refusal) => refusal_text(refusal),
        },
        _ => "short".to_string(),
    }
}

fn read_line(record: &Record) -> String {
    match record.payload {
        [kind, flags, area @ ..] => match jobs::read(*kind, *flags, area, record.room) {
            Ok(sheet) => hexadecimal(&sheet),
            Err(refusal) => refusal_text(refusal),
        },
        _ => "short".to_string(),
    }
}

fn write_line(record: &Record) -> String {
    match jobs::write(record.payload, record.room) {
        Ok(written) => {
            format!("{} {} {}", written.kind, written.flags, hexadecimal(&written.area))
        }
        Err(refusal) => refusal_text(refusal),
    }
}

fn list_text(list: &[u32]) -> String {
    let entries: Vec<String> = list.iter().map(|entry| format!("{:08X}", entry)).collect();
    entries.join(" ")
}

fn refusal_text(refusal: Refusal) -> String {
    format!("refused {} {}", refusal.number, refusal.second)
}

fn hexadecimal(octets: &[u8]) -> String {
    text::digits_of(octets).into_iter().map(char::from).collect()
}
