//! Probes for writing: sheets with right and wrong heads, items and lengths.

use crate::book_desk::{sheet_head, Probe};
use crate::book_probes::{closely, AMPLE};
use crate::book_refusals::Job;
use crate::book_shapes::stored_length;

/// Items of each form that are written.
const GOOD_ITEMS: [&[u8]; 13] = [
    &[1, 0, 0, 3, 0x62, 0x6F, 0x62],
    &[33, 0, 0, 0],
    &[26, 0, 0, 6, 0, 0, 1, 0x37, 5, 6],
    &[26, 13, 1, 2, 0x30, 0x31],
    &[40, 0, 2, 4, 0, 0, 0, 2],
    &[8, 0, 3, 4, 10, 20, 30, 40],
    &[26, 18, 4, 6, 0x31, 0x01, 0x50],
    &[26, 8, 4, 5, 0x00, 0x10, 0x1F],
    &[44, 0, 5, 8, 10, 0, 0, 1, 0, 0, 0, 255],
    &[26, 5, 6, 4, 98, 0x0B, 0x92, 0x1F],
    &[26, 10, 7, 1, 15],
    &[26, 11, 7, 1, 255],
    &[26, 12, 7, 1, 9],
];

/// An item for each line of what 23 refuses, and more where a line has more than one edge.
const WRONG_ITEMS: [&[u8]; 36] = [
    &[1, 0, 8, 1, 0],
    &[1, 0, 255, 0],
    &[26, 1, 8, 1, 0],
    &[1, 0, 1, 1, 0],
    &[1, 0, 2, 4, 0, 0, 0, 1],
    &[40, 0, 3, 4, 0, 0, 0, 1],
    &[8, 0, 2, 4, 0, 0, 0, 1],
    &[26, 5, 0, 1, 0],
    &[26, 3, 3, 4, 0, 0, 0, 0],
    &[40, 0, 0, 4, 0, 0, 0, 1],
    &[31, 0, 0, 1, 0x31],
    &[26, 2, 1, 4, 0, 0, 0, 1],
    &[26, 12, 1, 1, 0x33],
    &[1, 1, 0, 1, 0x31],
    &[40, 255, 2, 4, 0, 0, 0, 1],
    &[26, 0, 0, 0],
    &[26, 0, 0, 4, 0, 0, 1, 0x37],
    &[26, 0, 0, 8, 0, 0, 0x28, 0xAF, 99, 4, 0, 0],
    &[26, 1, 0, 6, 0, 0, 1, 0x37, 5, 6],
    &[40, 0, 2, 3, 0, 0, 1],
    &[40, 0, 2, 5, 0, 0, 0, 0, 1],
    &[8, 0, 3, 0],
    &[44, 0, 5, 7, 0, 0, 0, 0, 0, 0, 0],
    &[44, 0, 5, 9, 0, 0, 0, 0, 0, 0, 0, 0, 0],
    &[26, 11, 7, 0],
    &[26, 11, 7, 2, 1, 2],
    &[31, 0, 4, 0],
    &[31, 0, 4, 16, 0, 0, 0, 0, 0, 0, 0, 0],
    &[26, 8, 4, 4, 0x12, 0x34],
    &[26, 8, 4, 7, 0x12, 0x34, 0x56, 0x7F],
    &[26, 8, 4, 6, 0x12, 0x3A, 0x56],
    &[26, 8, 4, 5, 0x12, 0x34, 0x50],
    &[26, 5, 6, 4, 97, 0, 0, 0],
    &[26, 5, 6, 12, 98, 0, 0, 0, 0, 0, 0, 0, 0, 0, 0, 0],
    &[26, 10, 7, 1, 16],
    &[26, 12, 7, 1, 10],
];

/// Contents that stored octets are tried with.
const STORED: [&[u8]; 8] = [
    &[0],
    &[255],
    &[0x31],
    &[0x12, 0x34, 0x5F],
    &[0x12, 0x3F],
    &[98, 0x0B, 0x92, 0x1F],
    &[99, 0x0B, 0x92, 0x1F],
    &[0, 0, 0x28, 0xAF, 5, 3, 7],
];

pub fn sheet_probes() -> Vec<Probe> {
    let mut probes = heads();
    probes.extend(ends());
    probes.extend(combined_items());
    probes.extend(great_lengths());
    probes.extend(items().iter().map(|item| write(&sheet(1, 0, &[item]))));
    probes
}

fn write(sheet: &[u8]) -> Probe {
    Probe { job: Job::Write, room: AMPLE, payload: sheet.to_vec() }
}

fn sheet(kind: u8, flags: u8, items: &[&[u8]]) -> Vec<u8> {
    [sheet_head(kind, flags, items.len()), items.concat()].concat()
}

/// Every octet of the head, of an empty sheet and of one with items, in turn any other; two
/// of them at once; heads cut short.
fn heads() -> Vec<Probe> {
    let mut probes = Vec::new();
    let wrong = [&[1, 0, 8, 1, 0][..]];
    for good in [sheet(1, 0, &[]), sheet(6, 5, &GOOD_ITEMS[..2]), sheet(2, 0, &wrong)] {
        probes.extend((0..=good.len()).map(|length| write(&good[..length])));
        for place in 0..7 {
            for octet in 0..=255 {
                let mut sheet = good.clone();
                sheet[place] = octet;
                probes.push(write(&sheet));
                sheet[5] = 7;
                probes.push(write(&sheet));
                sheet[6] = 3;
                probes.push(write(&sheet));
                probes.push(write(&sheet[..8]));
            }
        }
    }
    probes
}

/// Sheets cut at every place, with octets left over, with more or fewer items announced, and
/// with every small room.
fn ends() -> Vec<Probe> {
    let mut probes = Vec::new();
    for items in [&GOOD_ITEMS[..], &GOOD_ITEMS[1..2], &WRONG_ITEMS[..1], &GOOD_ITEMS[4..8]] {
        let whole = sheet(3, 4, items);
        probes.extend((9..whole.len()).map(|length| write(&whole[..length])));
        for left in 0..=6 {
            let longer = [whole.as_slice(), &[0; 6][..left]].concat();
            for more in [0, 1, 2, 255] {
                let mut announced = longer.clone();
                announced[8] = whole[8].wrapping_add(more).wrapping_sub(1);
                for room in (0..=40).chain([AMPLE]) {
                    probes.push(Probe { room, ..write(&announced) });
                }
            }
        }
    }
    probes
}

/// Every two items, one behind the other; whole, cut by an octet, and with one left over.
fn combined_items() -> Vec<Probe> {
    let all: Vec<&[u8]> = GOOD_ITEMS.iter().chain(&WRONG_ITEMS).copied().collect();
    let mut probes = Vec::new();
    for one in &all {
        for other in &all {
            let sheet = sheet(4, 0, &[one, other]);
            probes.push(write(&sheet));
            probes.push(write(&sheet[..sheet.len() - 1]));
            probes.push(write(&[sheet.as_slice(), &[0]].concat()));
            probes.push(Probe { room: 3, ..write(&sheet) });
        }
    }
    probes
}

/// Sheets of areas about 4,076 octets and far longer: as they are, with a wrong item last,
/// with an octet left over, with an item missing.
fn great_lengths() -> Vec<Probe> {
    let mut probes = Vec::new();
    let two: &[u8] = GOOD_ITEMS[1];
    let five: &[u8] = GOOD_ITEMS[0];
    for count in [2_034, 2_035, 2_036, 2_037, 2_038, 2_039, 3_000, 60_000] {
        for last in [two, five, WRONG_ITEMS[0]] {
            let mut items = vec![two; count - 1];
            items.push(last);
            let whole = sheet(2, 0, &items);
            let longer = [whole.as_slice(), &[0]].concat();
            let cut = &whole[..whole.len() - 1];
            for room in [0, 4_075, 4_076, 4_077, AMPLE] {
                for sheet in [&whole, &longer, cut] {
                    probes.push(Probe { room, ..write(sheet) });
                }
            }
        }
    }
    probes
}

/// Items of every number that is tried closely, of every form and of many counts.
fn items() -> Vec<Vec<u8>> {
    let counts = [0, 1, 2, 3, 4, 5, 6, 7, 8, 9, 12, 15, 16, 17, 246, 247, 253, 254, 255];
    let mut items = Vec::new();
    for [first, sub] in closely().iter().map(|number| number.octets()) {
        for (form, count) in (0..=9).flat_map(|form| counts.map(|count| (form, count))) {
            for content in STORED {
                let stored = content.iter().copied().cycle().take(stored_length(form, count));
                let item: Vec<u8> = [first, sub, form, count].into_iter().chain(stored).collect();
                items.push(item);
            }
        }
    }
    items.extend(GOOD_ITEMS.iter().chain(&WRONG_ITEMS).map(|item| item.to_vec()));
    items
}
