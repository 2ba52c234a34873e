//! Records of a batch: job, room, length, payload.

use crate::areas::any_area;
use crate::messages::any_message;
use crate::random::Random;
use crate::reader::sheet_length;
use crate::sheets::any_sheet;
use crate::{cases, check_cases, sheet_cases};

/// A job: what its records carry and how their room is counted.
#[derive(Clone, Copy, PartialEq)]
pub enum Job {
    Read,
    Check,
    Write,
}

impl Job {
    /// The job of a letter, or why there is none.
    pub fn of(letter: char) -> Result<Job, String> {
        match letter {
            'R' => Ok(Job::Read),
            'C' => Ok(Job::Check),
            'W' => Ok(Job::Write),
            other => Err(format!("no job has the letter {other:?}")),
        }
    }

    fn letter(self) -> u8 {
        match self {
            Job::Read => b'R',
            Job::Check => b'C',
            Job::Write => b'W',
        }
    }
}

fn record(job: Job, room: u32, payload: &[u8]) -> Vec<u8> {
    let length = (payload.len() as u32).to_be_bytes();
    [&[job.letter()], room.to_be_bytes().as_slice(), &length, payload].concat()
}

/// The records that every batch begins with: each area once for each job and room, then
/// what is for the check alone, then the sheets.
pub fn known_records(jobs: &[Job]) -> Vec<Vec<u8>> {
    let mut records = Vec::new();
    for payload in cases::payloads() {
        for &job in jobs.iter().filter(|&&job| job != Job::Write) {
            for room in known_rooms(job, &payload) {
                records.push(record(job, room, &payload));
            }
        }
    }
    if jobs.contains(&Job::Check) {
        for (room, payload) in check_cases::cases() {
            records.push(record(Job::Check, room, &payload));
        }
    }
    if jobs.contains(&Job::Write) {
        for (room, payload) in sheet_cases::cases() {
            records.push(record(Job::Write, room, &payload));
        }
    }
    records
}

/// Ample room, and where the area is readable the rooms about what is needed. A list of
/// breaches has four or five entries in most of these cases, and fewer where the area is empty.
fn known_rooms(job: Job, payload: &[u8]) -> Vec<u32> {
    let needed = payload.get(2..).filter(|area| area.len() <= 4_076).and_then(sheet_length);
    match (job, needed) {
        (Job::Read, Some(length)) => vec![length as u32, length as u32 - 1, u32::MAX],
        (Job::Check, Some(9)) => vec![0, 1, 2, 3, 4, u32::MAX],
        (Job::Check, Some(_)) => vec![4, 5, u32::MAX],
        _ => vec![u32::MAX],
    }
}

/// A record made up from the random numbers.
pub fn any_record(random: &mut Random, jobs: &[Job]) -> Vec<u8> {
    let job = random.pick(jobs);
    if random.once_in(100) {
        let length = random.between(0, 1);
        return record(job, any_room(random, 0), &random.octets(length));
    }
    if job == Job::Write {
        let (sheet, needed) = any_sheet(random);
        return record(job, area_room(random, needed as u32), &sheet);
    }
    let mut payload = vec![kind(random), flags(random)];
    let (room, area) = match job {
        Job::Check => (list_room(random), any_message(random)),
        _ => {
            let area = any_area(random);
            (sheet_room(random, &area), area)
        }
    };
    payload.extend(area);
    record(job, room, &payload)
}

fn kind(random: &mut Random) -> u8 {
    if random.once_in(25) {
        random.pick(&[0, 7, 8, 255, 128, 129])
    } else {
        random.between(1, 6) as u8
    }
}

fn flags(random: &mut Random) -> u8 {
    if random.once_in(25) {
        random.pick(&[3, 7, 8, 9, 128, 255])
    } else {
        random.pick(&[0, 1, 2, 4, 5, 6])
    }
}

/// A room for the sheet, in octets: what is needed, one less, one more, or any. Where the
/// area is not readable no sheet is needed, and the room is about the area's length.
fn sheet_room(random: &mut Random, area: &[u8]) -> u32 {
    let needed = sheet_length(area).unwrap_or(9 + area.len()) as u32;
    match random.between(1, 24) {
        1..=9 => needed,
        10..=13 => needed - 1,
        14 | 15 => needed + 1,
        16 => random.between(0, needed as usize) as u32,
        17 => 9 + 2 * area.len() as u32,
        _ => any_room(random, needed),
    }
}

/// A room for the list, in entries: as small as lists are, or more than any list needs.
fn list_room(random: &mut Random) -> u32 {
    match random.between(1, 8) {
        1..=3 => random.between(0, 16) as u32,
        4 => any_room(random, 8_161),
        _ => u32::MAX,
    }
}

/// A room for the area, in octets: what is needed, one less, one more, none, or ample.
fn area_room(random: &mut Random, needed: u32) -> u32 {
    match random.between(1, 16) {
        1..=6 => needed,
        7 | 8 => needed.saturating_sub(1),
        9 => needed + 1,
        10 => 0,
        11 => any_room(random, needed),
        _ => u32::MAX,
    }
}

fn any_room(random: &mut Random, needed: u32) -> u32 {
    let any = random.word();
    random.pick(&[0, 1, 8, 9, 10, needed + 100, 8_161, 65_536, u32::MAX, u32::MAX, any])
}
