//! Makers of inputs: values near every shape, areas, and broken areas.

use crate::judge::Piece;
use crate::random::Random;

pub const FLAGS: [u8; 6] = [0, 1, 2, 4, 5, 6];
const ID: [u8; 4] = [0, 0, 0x28, 0xAF];

/// Numbers a rule or a shape speaks of, with some neighbours of them.
const PLAIN: &[u8] = &[
    0, 1, 2, 3, 4, 5, 6, 7, 8, 9, 10, 17, 18, 19, 24, 25, 27, 29, 30, 31, 32, 33, 39, 40, 41, 42,
    43, 44, 45, 46, 47, 48, 49, 50, 59, 60, 61, 62, 255,
];
const GPP: &[u8] = &[0, 1, 2, 3, 4, 5, 6, 7, 8, 9, 10, 11, 12, 13, 14, 17, 18, 19, 26, 255];
/// Four-octet numbers at the bounds of the allowed values.
const NUMBERS: &[u32] = &[0, 1, 2, 3, 6, 7, 8, 9, 18, 19, 255, 0x0100_0002, 0x0700_0000];
/// Octets just outside the digits.
const NEARLY: &[u8] = b"/:@G`afg- \x00\xFF";

pub fn kind(random: &mut Random) -> u8 {
    random.between(1, 6) as u8
}

/// Any piece: plain, 3GPP, or another vendor's.
pub fn piece(random: &mut Random) -> Piece {
    match random.below(16) {
        0..=8 => {
            let number = if random.once_in(5) { random.octet() } else { random.pick(PLAIN) };
            piece_of(random, false, number)
        }
        _ => {
            let number = if random.once_in(5) { random.octet() } else { random.pick(GPP) };
            piece_of(random, true, number)
        }
    }
}

/// A piece that carries the number. A plain 26 is another vendor's.
pub fn piece_of(random: &mut Random, gpp: bool, number: u8) -> Piece {
    let value =
        if !gpp && number == 26 { other_vendor(random) } else { value(random, gpp, number) };
    Piece { gpp, number, value }
}

/// An id that differs from 10415, often in one bit only, then at least one octet.
fn other_vendor(random: &mut Random) -> Vec<u8> {
    let mut value = ID.to_vec();
    let spot = random.below(4);
    value[spot] ^= 1 << random.below(8);
    let length = random.pick(&[1, 2, 3, 7, 100, 248, 249]);
    value.extend(random.octets(length));
    if length > 1 && random.once_in(2) {
        value[5] = length as u8;
    }
    value
}

fn value(random: &mut Random, gpp: bool, number: u8) -> Vec<u8> {
    let most = if gpp { 246 } else { 253 };
    let mut value = match random.below(10) {
        0 => {
            let length = random.below(24);
            random.octets(length)
        }
        1 => {
            let length = random.below(30);
            digits(random, length, 10)
        }
        2 => {
            let length = most - random.below(3);
            random.octets(length)
        }
        _ => good(random, gpp, number),
    };
    match random.below(8) {
        0 => value.push(random.pick(b"0A\x00")),
        1 => drop(value.pop()),
        2 if !value.is_empty() => {
            let spot = random.below(value.len());
            value[spot] = random.pick(NEARLY);
        }
        _ => {}
    }
    value.truncate(most);
    value
}

/// A value that meets the number's shape, or a few octets where it has none.
fn good(random: &mut Random, gpp: bool, number: u8) -> Vec<u8> {
    match (gpp, number) {
        (false, 6 | 7 | 40..=43 | 45..=49 | 61) | (true, 2 | 3) => {
            random.pick(NUMBERS).to_be_bytes().to_vec()
        }
        (false, 4 | 8 | 9) | (true, 4 | 6 | 7) => random.octets(4),
        (false, 31) | (true, 1) => {
            let length = random.pick(&[1, 2, 5, 6, 13, 14, 15, 15, 16]);
            digits(random, length, 10)
        }
        (false, 44) => digits(random, 16, 16),
        (true, 5) => qos_profile(random),
        (true, 8 | 9 | 18) => {
            let length = random.pick(&[4, 5, 5, 6, 6, 7]);
            digits(random, length, 10)
        }
        (true, 10) => digits(random, 1, 16),
        (true, 11) => vec![random.pick(&[255, 255, 254, 0, 48, 15])],
        (true, 12) => digits(random, 1, 10),
        (false, 2) => {
            let length = random.pick(&[0, 16, 24, 32, 64, 112, 128, 144]);
            random.octets(length)
        }
        (false, 3) => random.octets(17),
        _ => {
            let length = random.below(6);
            random.octets(length)
        }
    }
}

fn digits(random: &mut Random, length: usize, base: usize) -> Vec<u8> {
    (0..length).map(|_| random.pick(&b"0123456789ABCDEF"[..base])).collect()
}

fn qos_profile(random: &mut Random) -> Vec<u8> {
    let (release, length) = random.pick(&[
        ("98-", 6),
        ("99-", 22),
        ("98-", 6),
        ("99-", 22),
        ("98-", 22),
        ("99-", 6),
        ("97-", 6),
        ("98 ", 6),
        ("98-", 5),
        ("99-", 21),
        ("", 11),
    ]);
    let mut value = release.as_bytes().to_vec();
    value.extend(digits(random, length, 16));
    value
}

/// The octets of a piece.
pub fn octets(piece: &Piece) -> Vec<u8> {
    let length = piece.value.len() as u8;
    let mut octets = if piece.gpp {
        let mut head = vec![26, length + 8];
        head.extend(ID);
        head.extend([piece.number, length + 2]);
        head
    } else {
        vec![piece.number, length + 2]
    };
    octets.extend(&piece.value);
    octets
}

/// The octets of all pieces, one after the other.
pub fn joined(pieces: &[Piece]) -> Vec<u8> {
    pieces.iter().flat_map(octets).collect()
}

/// Some pieces, many of them repeating the number of an earlier one, near or far.
pub fn pieces(random: &mut Random, most: usize) -> Vec<Piece> {
    let wanted = random.below(most + 1);
    let mut made: Vec<Piece> = Vec::new();
    let mut length = 0;
    for _ in 0..wanted {
        let next = if !made.is_empty() && random.once_in(3) {
            let spot = random.below(made.len());
            let (gpp, number) = (made[spot].gpp, made[spot].number);
            piece_of(random, gpp, number)
        } else {
            piece(random)
        };
        length += octets(&next).len();
        if length > 4076 {
            break;
        }
        made.push(next);
    }
    made
}

/// Pieces that fill an area to exactly the length; the length is not 1.
pub fn filling(random: &mut Random, length: usize) -> Vec<Piece> {
    let mut made = Vec::new();
    let mut left = length;
    while left > 0 {
        let most = left.min(255);
        let mut size = if random.once_in(2) { most } else { random.between(2, most) };
        if left - size == 1 {
            size = if size > 2 { size - 1 } else { 3 };
        }
        let number = random.pick(&[1, 5, 30, 40, 200]);
        made.push(Piece { gpp: false, number, value: random.octets(size - 2) });
        left -= size;
    }
    made
}

/// A broken area, and the refusal that it was broken for.
pub fn broken(random: &mut Random) -> (Vec<u8>, u32, usize) {
    let mut area = joined(&pieces(random, 6));
    area.truncate(if area.len() > 3000 { 0 } else { area.len() });
    let place = area.len();
    let number = random.between(4, 8) as u32;
    match number {
        4 => area.push(random.octet()),
        5 => {
            area.extend([any_type(random), random.below(2) as u8]);
            let after = random.below(9);
            area.extend(random.octets(after));
        }
        6 => {
            let length = random.between(3, 255);
            area.extend([any_type(random), length as u8]);
            let there = if random.once_in(2) { length - 3 } else { random.below(length - 2) };
            area.extend(vendor_like(random, there));
        }
        7 => {
            let length = random.between(2, 6);
            area.extend([26, length as u8]);
            area.extend(vendor_like(random, length - 2));
            let after = random.below(9);
            area.extend(random.octets(after));
        }
        _ => {
            area.extend(broken_layout(random));
            let after = random.below(9);
            area.extend(random.octets(after));
        }
    }
    (area, number, place)
}

fn any_type(random: &mut Random) -> u8 {
    if random.once_in(3) {
        26
    } else {
        random.octet()
    }
}

/// So many octets that begin like a 3GPP attribute does.
fn vendor_like(random: &mut Random, length: usize) -> Vec<u8> {
    let mut octets = ID.to_vec();
    octets.extend(random.octets(252));
    octets.truncate(length);
    octets
}

/// A type 26 of vendor 10415 whose string is not one sub-attribute.
fn broken_layout(random: &mut Random) -> Vec<u8> {
    let length = random.pick(&[7, 8, 9, 10, 20, 100, 253, 254, 255]);
    let m = match random.below(6) {
        0 => 0,
        1 => 1,
        2 => length - 7,
        3 => length - 5,
        4 => random.below(256),
        _ => length - 6,
    };
    // A length that would be right is kept only where it is over 248 or has no octet.
    let m = if m == length - 6 && (8..=254).contains(&length) { m + 1 } else { m };
    let mut octets = vec![26, length as u8];
    octets.extend(ID);
    octets.extend([random.pick(GPP), m as u8]);
    octets.resize(length.max(8), b'1');
    octets.truncate(length);
    octets
}
