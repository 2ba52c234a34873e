//! Values that meet a number's shape, or nearly miss it.

use crate::attributes::{PLAIN_LIMIT, THREE_GPP_LIMIT};
use crate::random::Random;

/// What an attribute carries: a plain number, a 3GPP number, or another vendor's string.
#[derive(Clone, Copy)]
pub enum Number {
    Plain(u8),
    ThreeGpp(u8),
    OtherVendor,
}

/// The plain numbers that the book names.
const PLAIN: [u8; 30] = [
    1, 2, 3, 4, 6, 7, 8, 9, 18, 24, 25, 30, 31, 32, 40, 41, 42, 43, 44, 45, 46, 47, 48, 49, 60, 61,
    31, 44, 31, 44,
];

/// The 3GPP numbers that it names.
const THREE_GPP: [u8; 17] = [1, 2, 3, 4, 5, 6, 7, 8, 9, 10, 11, 12, 18, 1, 5, 5, 8];

/// The shapes, as far as they make a difference to how values are made up.
enum Shape {
    FourOctets,
    Digits(usize, usize),
    Hexadecimal,
    Qos,
    OneHexadecimal,
    OneOctet,
    OneDecimal,
    Lengths(&'static [usize]),
}

fn shape(number: Number) -> Shape {
    match number {
        Number::Plain(4 | 6..=9 | 40..=43 | 45..=49 | 61) => Shape::FourOctets,
        Number::Plain(31) => Shape::Digits(1, 15),
        Number::Plain(44) => Shape::Hexadecimal,
        Number::Plain(2) => Shape::Lengths(&[0, 15, 16, 16, 17, 32, 112, 127, 128, 129, 144]),
        Number::Plain(3) => Shape::Lengths(&[0, 16, 17, 17, 18]),
        Number::Plain(60) => Shape::Lengths(&[0, 4, 5, 5, 6, 16]),
        Number::Plain(_) => Shape::Lengths(&[0, 1, 1, 2, 4, 8, 20]),
        Number::ThreeGpp(1) => Shape::Digits(1, 15),
        Number::ThreeGpp(2..=4 | 6 | 7) => Shape::FourOctets,
        Number::ThreeGpp(5) => Shape::Qos,
        Number::ThreeGpp(8 | 9 | 18) => Shape::Digits(5, 6),
        Number::ThreeGpp(10) => Shape::OneHexadecimal,
        Number::ThreeGpp(11) => Shape::OneOctet,
        Number::ThreeGpp(12) => Shape::OneDecimal,
        Number::ThreeGpp(_) => Shape::Lengths(&[0, 1, 2, 4, 5, 16]),
        Number::OtherVendor => Shape::Lengths(&[1, 1, 2, 3, 7, 20]),
    }
}

/// A number that the book names, or now and then any other.
pub fn any_number(random: &mut Random) -> Number {
    let number = match random.between(1, 20) {
        1..=8 => Number::Plain(random.pick(&PLAIN)),
        9..=16 => Number::ThreeGpp(random.pick(&THREE_GPP)),
        17 => Number::Plain(random.octet()),
        18 => Number::ThreeGpp(random.pick(&[0, 13, 14, 15, 16, 17, 19, 26, 255])),
        19 => Number::ThreeGpp(random.octet()),
        _ => Number::OtherVendor,
    };
    match number {
        Number::Plain(26) => Number::OtherVendor,
        other => other,
    }
}

/// One of the numbers that the book names, each as often as another.
pub fn named_number(random: &mut Random) -> Number {
    let place = random.between(0, 38);
    match PLAIN[..26].get(place) {
        Some(&number) => Number::Plain(number),
        None => Number::ThreeGpp(THREE_GPP[place - 26]),
    }
}

/// A value that meets the number's shape, if it has one; allowed or not.
pub fn meeting_value(random: &mut Random, number: Number) -> Vec<u8> {
    match shape(number) {
        Shape::FourOctets => {
            let any = random.between(0, 20) as u8;
            vec![0, 0, 0, random.pick(&[0, 1, 2, 3, 7, 8, any, any])]
        }
        Shape::Digits(low, high) => {
            let count = random.between(low, high);
            (0..count).map(|_| random.pick(b"0123456789")).collect()
        }
        Shape::Hexadecimal => hexadecimal(random, 16),
        Shape::Qos => {
            let (release, count) = random.pick(&[(b"98-", 6), (b"99-", 22)]);
            [release.as_slice(), &hexadecimal(random, count)].concat()
        }
        Shape::OneHexadecimal => hexadecimal(random, 1),
        Shape::OneOctet => vec![random.pick(&[255, 255, 0, 254])],
        Shape::OneDecimal => vec![random.pick(b"0120123456789")],
        Shape::Lengths(_) => {
            let length = meeting_length(random, number);
            random.octets(length)
        }
    }
}

/// A length that meets the number's length rule, if it has one.
fn meeting_length(random: &mut Random, number: Number) -> usize {
    let any = random.between(1, 20);
    match number {
        Number::Plain(2) => random.pick(&[16, 16, 16, 32, 128]),
        Number::Plain(3) => 17,
        Number::Plain(60) => random.pick(&[5, 16]),
        _ => any,
    }
}

/// A value for the number; now and then one made for some other number, or one of the
/// greatest length or one octet less.
pub fn value(random: &mut Random, number: Number) -> Vec<u8> {
    let limit = match number {
        Number::Plain(_) => PLAIN_LIMIT,
        Number::ThreeGpp(_) => THREE_GPP_LIMIT,
        Number::OtherVendor => PLAIN_LIMIT - 4,
    };
    match random.between(1, 120) {
        1 => {
            let length = limit - random.between(0, 1);
            random.octets(length)
        }
        2..=9 => {
            let other = any_number(random);
            let value = shaped(random, shape(other));
            if value.is_empty() {
                vec![0]
            } else {
                value
            }
        }
        _ => shaped(random, shape(number)),
    }
}

fn shaped(random: &mut Random, shape: Shape) -> Vec<u8> {
    match shape {
        Shape::FourOctets => four_octets(random),
        Shape::Digits(low, high) => digits(random, low, high),
        Shape::Hexadecimal => {
            let count = random.pick(&[16, 16, 16, 16, 16, 16, 0, 8, 15, 17, 32]);
            let text = hexadecimal(random, count);
            perhaps_spoiled(random, text)
        }
        Shape::Qos => qos(random),
        Shape::OneHexadecimal => one_of(random, b"0123456789ABCDEF/:@Gafg\x00\x0A"),
        Shape::OneOctet => one_of(random, &[0, 1, 254, 255, 255, 128, b'0', b'F']),
        Shape::OneDecimal => one_of(random, b"01234567890123/:AF\x00\x01\x02"),
        Shape::Lengths(lengths) => {
            let length = random.pick(lengths);
            random.octets(length)
        }
    }
}

/// Four octets, or one too few or too many; the number is small, or small but for one
/// octet, or any.
fn four_octets(random: &mut Random) -> Vec<u8> {
    let length = random.pick(&[4, 4, 4, 4, 4, 4, 4, 4, 3, 5, 0, 8]);
    if length != 4 || random.once_in(3) {
        return random.octets(length);
    }
    let mut number = vec![0, 0, 0, random.between(0, 20) as u8];
    if random.once_in(4) {
        number[random.between(0, 2)] = random.pick(&[1, 255]);
    }
    number
}

/// From one digit too few to one too many, the bounds more often.
fn digits(random: &mut Random, low: usize, high: usize) -> Vec<u8> {
    let inside = random.between(low, high);
    let count = random.pick(&[low - 1, low, low, inside, inside, high - 1, high, high, high + 1]);
    let text = (0..count).map(|_| random.pick(b"0123456789")).collect();
    perhaps_spoiled(random, text)
}

fn hexadecimal(random: &mut Random, count: usize) -> Vec<u8> {
    (0..count).map(|_| random.pick(b"0123456789ABCDEF")).collect()
}

/// One octet out of these, or no octet, or two.
fn one_of(random: &mut Random, from: &[u8]) -> Vec<u8> {
    let count = random.pick(&[1, 1, 1, 1, 1, 1, 0, 2]);
    (0..count).map(|_| random.pick(from)).collect()
}

/// "98-" and 6 hexadecimal digits or "99-" and 22; or the other's length, one digit too
/// few or too many, another release, another dash or none.
fn qos(random: &mut Random) -> Vec<u8> {
    let (release, right, swapped) = random.pick(&[(b"98", 6, 22), (b"99", 22, 6)]);
    let count = match random.between(1, 12) {
        1 | 2 => swapped,
        3 => right - 1,
        4 => right + 1,
        _ => right,
    };
    let mut text = release.to_vec();
    if random.once_in(10) {
        text = random.pick(&[b"97", b"00", b"89", b"9A", b"88", b"bc"]).to_vec();
    }
    let mut dash: &[u8] = b"-";
    if random.once_in(8) {
        dash = random.pick(&[b"".as_slice(), b".", b",", b"_", b"\x96", b" - ", b"--", b"0"]);
    }
    text.extend_from_slice(dash);
    text.extend(hexadecimal(random, count));
    perhaps_spoiled(random, text)
}

/// The text as it is, or with lower-case letters, or with one octet that is just outside
/// the digits or the letters.
fn perhaps_spoiled(random: &mut Random, mut text: Vec<u8>) -> Vec<u8> {
    match random.between(1, 12) {
        1 => text.make_ascii_lowercase(),
        2 if !text.is_empty() => {
            let place = random.between(0, text.len() - 1);
            text[place] = random.pick(b"/:@AFG`afg -\x00\x09\xB0\xFF");
        }
        3 if !text.is_empty() => {
            let last = text.len() - 1;
            text[last] = random.pick(b"/:@AFG`afg -\x00\x09\xB0\xFF");
        }
        _ => {}
    }
    text
}
