//! The cases of the check that every batch begins with: room, then kind, flags and area. The
//! areas of `cases.rs` are checked as well; here is what needs other kinds and flags.

use crate::attributes::{plain, three_gpp};

const FLAGS: [u8; 6] = [0, 1, 2, 4, 5, 6];

/// Room and payload, in order.
pub fn cases() -> Vec<(u32, Vec<u8>)> {
    let mut cases = Vec::new();
    for kind in 1..=6 {
        for flags in FLAGS {
            cases.extend([2, 3, u32::MAX].map(|room| (room, vec![kind, flags])));
        }
        for flags in [0, 4] {
            for area in areas() {
                cases.push((u32::MAX, [&[kind, flags], area.as_slice()].concat()));
            }
        }
    }
    cases
}

fn areas() -> Vec<Vec<u8>> {
    let mut areas = vec![
        allowed_values(),
        every_plain_number_twice(),
        every_three_gpp_number(0, 127),
        every_three_gpp_number(128, 255),
        [three_gpp(1, b"1"), plain(7, &[0, 0, 0, 7]), plain(1, b"u")].concat(),
        [three_gpp(7, &[10, 0, 0, 1]), plain(1, b"u")].concat(),
        [plain(7, b"7"), three_gpp(3, b"0")].concat(),
        [plain(7, &[0, 0, 0, 7]), three_gpp(3, &[0, 0, 0, 1])].concat(),
        [plain(3, &[0; 17]), plain(4, &[0; 4]), plain(2, &[0; 16])].concat(),
        [plain(2, b""), plain(32, b"n"), plain(3, b"")].concat(),
    ];
    areas.extend(statuses());
    areas.extend(whole_messages());
    areas
}

/// All that an ON or OFF is asked for, with a status that is absent, right in one kind, of none, of
/// another size, given twice, or the value of a sub-attribute that has its number.
fn statuses() -> Vec<Vec<u8>> {
    let mut areas = vec![
        vec![],
        plain(40, b""),
        plain(40, &[0, 0, 7]),
        plain(40, &[0, 0, 0, 8, 0]),
        plain(40, &[7, 0, 0, 0]),
        [plain(40, &[0, 0, 0, 7]), plain(40, &[0, 0, 0, 8])].concat(),
        three_gpp(40, &[0, 0, 0, 7]),
    ];
    areas.extend([0, 1, 2, 3, 7, 8, 255].map(|status| plain(40, &[0, 0, 0, status])));
    areas.iter().map(|status| [&plain(4, &[10, 0, 0, 1]), status.as_slice()].concat()).collect()
}

/// Each value at the bounds of what is allowed.
fn allowed_values() -> Vec<u8> {
    let bounds = [(6, 1, 3), (7, 6, 8), (45, 0, 3), (49, 0, 2), (49, 17, 19), (40, 0, 9)];
    let mut area = Vec::new();
    for (number, low, high) in bounds {
        for value in low..=high {
            area.extend(plain(number, &[0, 0, 0, value]));
        }
        area.extend(plain(number, &[1, 0, 0, low + 1]));
    }
    for value in [0, 1, 255] {
        area.extend(three_gpp(3, &[0, 0, 0, value]));
        area.extend(three_gpp(11, &[value]));
    }
    area.extend(b"0123459".iter().flat_map(|&digit| three_gpp(12, &[digit])));
    area
}

/// Every plain number but 26, empty, and all of them again.
fn every_plain_number_twice() -> Vec<u8> {
    let all: Vec<u8> = (0..=255).filter(|&number| number != 26).flat_map(|n| [n, 2]).collect();
    all.repeat(2)
}

/// 3GPP numbers from low to high, most of them twice, and the plain ones 1 to 12 between.
fn every_three_gpp_number(low: u8, high: u8) -> Vec<u8> {
    let of = |low, high| (low..=high).flat_map(|number| three_gpp(number, b"1"));
    let between = (1..=12).flat_map(|number| plain(number, b"1"));
    of(low, high).chain(between).chain(of(low, high)).collect()
}

/// A message that lacks nothing in any kind, and the same with each attribute left out.
fn whole_messages() -> Vec<Vec<u8>> {
    let attributes = [
        plain(1, b"user"),
        plain(2, &[7; 16]),
        plain(4, &[10, 0, 0, 1]),
        plain(7, &[0, 0, 0, 7]),
        plain(8, &[10, 0, 0, 2]),
        plain(30, b"apn"),
        plain(40, &[0, 0, 0, 2]),
        plain(44, b"0A000001000000FF"),
        plain(60, b"12345"),
        plain(25, b"class"),
        three_gpp(3, &[0, 0, 0, 0]),
        plain(3, &[7; 17]),
    ];
    let mut messages = vec![attributes.concat()];
    for lacking in 0..attributes.len() {
        let rest = [&attributes[..lacking], &attributes[lacking + 1..]].concat();
        messages.push(rest.concat());
    }
    messages
}
