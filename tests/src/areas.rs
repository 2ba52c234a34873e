//! Attribute areas: well framed, damaged, filled to a length, random.

use crate::attributes::{plain, three_gpp, three_gpp_with, vendor, THREE_GPP};
use crate::random::Random;
use crate::values::{any_number, value, Number};

/// Other vendors' ids, most of them one octet away from 10415.
const OTHER_VENDORS: [[u8; 4]; 7] = [
    [0x00, 0x00, 0x28, 0xAE],
    [0x00, 0x00, 0x29, 0xAF],
    [0x00, 0x01, 0x28, 0xAF],
    [0x01, 0x00, 0x28, 0xAF],
    [0x00, 0x28, 0xAF, 0x00],
    [0x00, 0x00, 0x00, 0x09],
    [0xFF, 0xFF, 0xFF, 0xFF],
];

/// An area of any sort. Most are under 200 octets.
pub fn any_area(random: &mut Random) -> Vec<u8> {
    match random.between(1, 10_000) {
        1 => long(random, 65_500, 70_000),
        2..=40 => long(random, 4_078, 9_000),
        41..=160 => at_the_edge(random),
        161..=360 => {
            let length = random.between(200, 2_000);
            filled(random, length)
        }
        361..=900 => {
            let length = random.between(0, 60);
            random.octets(length)
        }
        901..=1_900 => altered(random),
        1_901..=4_400 => damaged(random),
        _ => small(random),
    }
}

/// A readable area but for its length: most are small, some are about 4,076 octets or
/// longer, few over 65,535.
pub fn readable(random: &mut Random) -> Vec<u8> {
    let length = match random.between(1, 10_000) {
        1 | 2 => random.between(65_500, 70_000),
        3..=150 => random.between(4_077, 6_000),
        151..=300 => random.pick(&[4_074, 4_075, 4_076, 4_076, 4_077, 4_077, 4_078]),
        301..=450 => random.between(200, 2_000),
        _ => return small(random),
    };
    filled(random, length)
}

/// The number with a value made for it.
pub fn attribute(random: &mut Random, number: Number) -> Vec<u8> {
    let value = value(random, number);
    match number {
        Number::Plain(number) => plain(number, &value),
        Number::ThreeGpp(number) => three_gpp(number, &value),
        Number::OtherVendor => vendor(random.pick(&OTHER_VENDORS), &value),
    }
}

/// So many readable attributes; now and then one carries the number of an earlier one.
fn attributes(random: &mut Random, count: usize) -> Vec<u8> {
    let mut area = Vec::new();
    let mut numbers = Vec::new();
    for _ in 0..count {
        let mut number = any_number(random);
        if !numbers.is_empty() && random.once_in(5) {
            number = random.pick(&numbers);
        }
        numbers.push(number);
        area.extend(attribute(random, number));
    }
    area
}

fn small(random: &mut Random) -> Vec<u8> {
    let count = random.pick(&[0, 1, 1, 2, 2, 3, 3, 4, 5, 6, 8, 10]);
    attributes(random, count)
}

/// A well framed area of exactly this length, two octets or more: empty attributes (the
/// longest sheet for its area), the longest ones, or a mixture.
fn filled(random: &mut Random, length: usize) -> Vec<u8> {
    let style = random.between(1, 4);
    let mut area = Vec::new();
    while area.len() < length {
        let left = length - area.len();
        let next = match style {
            1 => vec![random.pick(&[0, 1, 25, 31, 44, 255]), 2],
            2 => plain(random.pick(&[0, 1, 25, 31, 44, 255]), &random.octets(253)),
            _ => attributes(random, 1),
        };
        if next.len() == left || next.len() + 2 <= left {
            area.extend(next);
        } else {
            let rest = if left <= 255 { left } else { left / 2 };
            area.extend(plain(30, &random.octets(rest - 2)));
        }
    }
    area
}

/// Around 4,076 octets; now and then the last octet is one too many or is missing.
fn at_the_edge(random: &mut Random) -> Vec<u8> {
    let length = random.pick(&[4_074, 4_075, 4_075, 4_076, 4_076, 4_076, 4_077, 4_077, 4_078]);
    match random.between(1, 6) {
        1 => {
            let mut area = filled(random, length - 1);
            area.push(random.octet());
            area
        }
        2 => {
            let mut area = filled(random, length + 1);
            area.pop();
            area
        }
        _ => filled(random, length),
    }
}

/// Over 4,076 octets, well framed or not.
fn long(random: &mut Random, low: usize, high: usize) -> Vec<u8> {
    let length = random.between(low, high);
    if random.once_in(2) {
        filled(random, length)
    } else {
        random.octets(length)
    }
}

/// A readable area with one octet changed, lost, or put in.
fn altered(random: &mut Random) -> Vec<u8> {
    let count = random.between(1, 5);
    let mut area = attributes(random, count);
    let place = random.between(0, area.len() - 1);
    match random.between(1, 5) {
        1 => area[place] = area[place].wrapping_add(1),
        2 => area[place] = area[place].wrapping_sub(1),
        3 => area[place] = random.octet(),
        4 => drop(area.remove(place)),
        _ => area.insert(place, random.octet()),
    }
    area
}

/// An attribute that fails by one of the refusals 4 to 8, first in the area or after
/// readable ones, and readable ones or any octets after it where that is possible.
fn damaged(random: &mut Random) -> Vec<u8> {
    let before = random.pick(&[0, 0, 1, 2, 3, 6]);
    let mut area = attributes(random, before);
    let (broken, last) = match random.between(4, 8) {
        4 => (vec![random.pick(&[0, 1, 4, 26, 255])], true),
        5 => (vec![random.pick(&[0, 1, 4, 26, 255]), random.pick(&[0, 1])], false),
        6 => (passing_the_end(random), true),
        7 => (short_vendor(random), false),
        _ => (broken_sub_attribute(random), false),
    };
    area.extend(broken);
    if !last {
        let after = random.between(0, 12);
        area.extend(if random.once_in(2) {
            attributes(random, after / 5)
        } else {
            random.octets(after)
        });
    }
    area
}

/// An attribute whose length passes the area's end, most often by one octet.
fn passing_the_end(random: &mut Random) -> Vec<u8> {
    let number = any_number(random);
    let mut broken = attribute(random, number);
    match random.between(1, 4) {
        1 => {
            let kept = random.between(2, broken.len());
            broken.truncate(kept);
            broken[1] = random.pick(&[kept + 1, kept + 1, 255]).min(255) as u8;
        }
        2 => broken = vec![26, random.pick(&[3, 6, 7, 8, 255])],
        3 => broken[1] = 255,
        _ => {}
    }
    // what still ends where it should loses its last octet, or says one more
    if broken[1] as usize == broken.len() {
        if broken.len() > 2 && random.once_in(2) {
            broken.pop();
        } else {
            broken[1] = (broken.len() + 1).min(255) as u8;
        }
    }
    broken
}

/// Type 26 with length 2 to 6.
fn short_vendor(random: &mut Random) -> Vec<u8> {
    let id = random.pick(&[THREE_GPP, THREE_GPP, OTHER_VENDORS[0], OTHER_VENDORS[5]]);
    plain(26, &id[..random.pick(&[0, 1, 2, 3, 4, 4, 4])])
}

/// Vendor 10415 with a broken sub-attribute layout: n = 7, m one off, m = 0 or 1, m = 249
/// with n = 255, other pairs about n = 254 and 255.
fn broken_sub_attribute(random: &mut Random) -> Vec<u8> {
    let number = random.between(0, 19) as u8;
    let count = random.pick(&[0, 1, 2, 4, 5, 9, 15, 25]);
    let value = random.octets(count);
    let right = value.len() + 2;
    match random.between(1, 16) {
        1..=3 => vendor(THREE_GPP, &[number]),
        4..=6 => three_gpp_with(number, right + 1, &value),
        7..=9 => three_gpp_with(number, right - 1, &value),
        10 => three_gpp_with(number, 0, &value),
        11 => three_gpp_with(number, random.pick(&[248, 249, 255]), &value),
        12 => three_gpp_with(number, right + 6, &value),
        13 | 14 => {
            let m = random.pick(&[249, 249, 248, 247, 255]);
            three_gpp_with(number, m, &random.octets(247))
        }
        15 => three_gpp_with(number, random.pick(&[247, 249]), &random.octets(246)),
        _ => three_gpp_with(number, random.pick(&[246, 248]), &random.octets(245)),
    }
}
