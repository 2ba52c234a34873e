//! The probes: what the second program is asked. They are the same whatever the page says, so
//! that a changed table cannot hide behind changed questions. Here those for the numbers.

use crate::book_area_probes::area_probes;
use crate::book_attributes::{Number, ALL_NUMBERS};
use crate::book_desk::Probe;
use crate::book_refusals::Job;
use crate::book_sheet_probes::sheet_probes;

pub const KINDS: [u8; 6] = [1, 2, 3, 4, 5, 6];
pub const FLAGS: [u8; 6] = [0, 1, 2, 4, 5, 6];
pub const AMPLE: u32 = u32::MAX;

/// An id of another vendor, with which the value of plain 26 begins.
const OTHER_VENDOR: [u8; 4] = [0x00, 0x00, 0x01, 0x37];

/// Numbers that are tried value by value and in pairs. All others are tried too, in areas of
/// many values.
const PLAIN_CLOSELY: [u8; 29] = [
    1, 2, 3, 4, 6, 7, 8, 9, 18, 24, 25, 26, 30, 31, 32, 40, 41, 42, 43, 44, 45, 46, 47, 48, 49, 60,
    61, 0, 33,
];
const THREE_GPP_CLOSELY: [u8; 15] = [0, 1, 2, 3, 4, 5, 6, 7, 8, 9, 10, 11, 12, 13, 18];

pub fn closely() -> Vec<Number> {
    let plain = PLAIN_CLOSELY.iter().map(|&number| Number(u16::from(number)));
    plain.chain(THREE_GPP_CLOSELY.iter().map(|&number| Number::three_gpp(number))).collect()
}

/// An attribute of this number; plain 26 gets another vendor's id before the value.
fn attribute(number: Number, value: &[u8]) -> Vec<u8> {
    if number == Number(26) {
        let longest = number.longest() - OTHER_VENDOR.len();
        // At least one octet follows the id.
        let value = if value.is_empty() { &[0] } else { &value[..value.len().min(longest)] };
        return number.attribute(&[OTHER_VENDOR.as_slice(), value].concat());
    }
    number.attribute(&value[..value.len().min(number.longest())])
}

pub fn probe_area(job: Job, kind: u8, flags: u8, area: &[u8]) -> Probe {
    Probe { job, room: AMPLE, payload: [&[kind, flags], area].concat() }
}

fn every_number() -> impl Iterator<Item = Number> {
    (0..ALL_NUMBERS as u16).map(Number)
}

fn every_kind_and_flags() -> impl Iterator<Item = (u8, u8)> {
    KINDS.iter().flat_map(|&kind| FLAGS.iter().map(move |&flags| (kind, flags)))
}

/// Every probe of the battery, the plainest first.
pub fn probes() -> Vec<Probe> {
    let mut probes = area_probes();
    probes.extend(alone());
    probes.extend(twice());
    probes.extend(all_but_one());
    probes.extend(one_by_one());
    probes.extend(pairs());
    probes.extend(many_values());
    probes.extend(sheet_probes());
    probes
}

/// Nothing, and every number alone: in every kind with all flags.
fn alone() -> Vec<Probe> {
    let mut probes = Vec::new();
    for (kind, flags) in every_kind_and_flags() {
        probes.push(probe_area(Job::Check, kind, flags, &[]));
        for number in every_number() {
            for value in [[].as_slice(), &[0; 4]] {
                let area = attribute(number, value);
                probes.push(probe_area(Job::Check, kind, flags, &area));
                if flags == 0 {
                    probes.push(probe_area(Job::Read, kind, flags, &area));
                }
            }
        }
    }
    probes
}

/// Every number twice, next to each other and apart, and three times.
fn twice() -> Vec<Probe> {
    let mut probes = Vec::new();
    for number in every_number() {
        let one = attribute(number, b"1");
        let far = Number(200).attribute(&[0; 250]);
        let areas =
            [[one.clone(), one.clone()].concat(), [&one, &far, &one].map(Vec::clone).concat()];
        for area in areas.iter().chain([&[one.as_slice(), &one, &one].concat()]) {
            probes.extend(KINDS.map(|kind| probe_area(Job::Check, kind, 0, area)));
            probes.push(probe_area(Job::Read, 1, 0, area));
        }
    }
    probes
}

/// A message of everything that is tried closely, and of all but one of them.
fn all_but_one() -> Vec<Probe> {
    let numbers = closely();
    let mut probes = Vec::new();
    for left_out in 0..=numbers.len() {
        let kept = numbers.iter().enumerate().filter(|(at, _)| *at != left_out);
        let area: Vec<u8> = kept.flat_map(|(_, &number)| attribute(number, &[0; 4])).collect();
        for (kind, flags) in every_kind_and_flags() {
            probes.push(probe_area(Job::Check, kind, flags, &area));
        }
    }
    probes
}

/// All pairs of what is tried closely, in every kind with all flags.
fn pairs() -> Vec<Probe> {
    let numbers = closely();
    let mut probes = Vec::new();
    for (at, &one) in numbers.iter().enumerate() {
        for &other in &numbers[at + 1..] {
            let area = [attribute(one, &[0; 4]), attribute(other, &[0; 4])].concat();
            for (kind, flags) in every_kind_and_flags() {
                probes.push(probe_area(Job::Check, kind, flags, &area));
            }
        }
    }
    probes
}

/// Each value in an area of its own, for what is tried closely.
fn one_by_one() -> Vec<Probe> {
    let values = values();
    let mut probes = Vec::new();
    for number in closely() {
        for value in &values {
            let area = attribute(number, value);
            probes.push(probe_area(Job::Read, 1, 0, &area));
            probes.push(probe_area(Job::Check, 1, 0, &area));
        }
        for area in areas_of(number, &values) {
            probes.extend(KINDS.map(|kind| probe_area(Job::Check, kind, 0, &area)));
        }
    }
    probes
}

/// Every value of every other number, many to an area.
fn many_values() -> Vec<Probe> {
    let values = values();
    let closely = closely();
    let mut probes = Vec::new();
    for number in every_number().filter(|number| !closely.contains(number)) {
        for area in areas_of(number, &values) {
            probes.push(probe_area(Job::Read, 1, 0, &area));
            probes.push(probe_area(Job::Check, 1, 0, &area));
        }
    }
    probes
}

/// As few areas as hold a number with each of these values.
fn areas_of(number: Number, values: &[Vec<u8>]) -> Vec<Vec<u8>> {
    let mut areas = vec![Vec::new()];
    for value in values {
        let attribute = attribute(number, value);
        if areas[areas.len() - 1].len() + attribute.len() > 4_076 {
            areas.push(Vec::new());
        }
        let last = areas.len() - 1;
        areas[last].extend(attribute);
    }
    areas
}

/// The values that every number is tried with.
fn values() -> Vec<Vec<u8>> {
    let mut values = of_many_lengths();
    values.extend((0..=255).map(|octet| vec![octet]));
    values.extend(four_octets());
    values.extend(digit_values());
    values.extend(qos_texts());
    values
}

/// Contents that are repeated up to a length.
const CONTENTS: [&[u8]; 9] =
    [&[0], &[255], b"0123456789", b"ABCDEF", b"abcdef", b"0A1B9F", b"0a9F", b"12 ", b"GHZ"];

fn of_many_lengths() -> Vec<Vec<u8>> {
    let short = 0..=36;
    let about_sixteens = (3..=9).flat_map(|count| [16 * count - 1, 16 * count, 16 * count + 1]);
    let lengths: Vec<usize> = short.chain(about_sixteens).chain([245, 246, 252, 253]).collect();
    let mut values = Vec::new();
    for content in CONTENTS {
        for &length in &lengths {
            values.push(content.iter().copied().cycle().take(length).collect());
        }
    }
    values
}

/// The numbers from 0 to 300, each bit beside a small number, and the greatest.
fn four_octets() -> Vec<Vec<u8>> {
    let small = 0..=300;
    let bits = (8..32).flat_map(|bit| [0, 1, 2, 7, 18, 255].map(|low| 1 << bit | low));
    let others = [u32::MAX, u32::MAX - 1, 0x7FFF_FFFF, 0x3030_3030];
    small.chain(bits).chain(others).map(|number: u32| number.to_be_bytes().to_vec()).collect()
}

/// Digits with one octet that is no digit, first, in the middle or last: those next to the
/// digits and letters too.
fn digit_values() -> Vec<Vec<u8>> {
    let mut values = Vec::new();
    for length in [1, 2, 5, 6, 7, 14, 15, 16, 17] {
        for place in [0, length / 2, length - 1] {
            for octet in *b"/:@AFG`afg -.\0\xB1\xFF" {
                let mut value = b"98765432109876543".to_vec();
                value.truncate(length);
                value[place] = octet;
                values.push(value);
            }
        }
    }
    values
}

/// Texts of either release, good and bad: another release, another dash, a digit less or more,
/// small letters, a space, an octet that is no digit at each place.
fn qos_texts() -> Vec<Vec<u8>> {
    let begins =
        ["98-", "99-", "97-", "00-", "9A-", "98", "99", "98 -", "98_", "99:", "98\u{2013}"];
    let mut values = Vec::new();
    for digits in ["0B921F", "0B921F7396FEFE74836874"] {
        for begin in begins {
            let texts = [digits.to_string(), digits.to_lowercase(), format!(" {digits}")];
            let counts = [digits[1..].to_string(), format!("A{digits}"), format!("{digits}0A")];
            for text in texts.iter().chain(&counts) {
                values.push(format!("{begin}{text}").into_bytes());
            }
        }
        for begin in ["98-", "99-"] {
            for place in 0..3 + digits.len() {
                let mut text = format!("{begin}{digits}").into_bytes();
                text[place] = b'G';
                values.push(text);
            }
        }
    }
    values
}
