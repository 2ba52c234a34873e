//! Shapes of values, as the column Shape has them, and how a form stores a value.

use crate::book_cells::{decimal, print_octets, range};

/// How many octets or digits: from the first count to the last, by steps.
#[derive(Clone, Copy)]
pub struct Counts {
    first: usize,
    step: usize,
    last: usize,
}

impl Counts {
    /// 17; 1 to 15; 16, 32, .. 128.
    fn of(text: &str) -> Option<Counts> {
        let (first, step, last) = if let Some(count) = decimal(text) {
            (count, 1, count)
        } else if let Some((first, last)) = range(text) {
            (first, 1, last)
        } else {
            let (begin, last) = text.split_once(", .. ")?;
            let (first, second) = begin.split_once(", ")?;
            let (first, second, last) = (decimal(first)?, decimal(second)?, decimal(last)?);
            let step = second.checked_sub(first).filter(|&step| step > 0)?;
            // The last count is one that the steps come to.
            last.checked_sub(first).filter(|way| way % step == 0)?;
            (first, step, last)
        };
        Some(Counts { first: first as usize, step: step as usize, last: last as usize })
    }

    fn has(self, count: usize) -> bool {
        count >= self.first && count <= self.last && (count - self.first) % self.step == 0
    }

    fn is_one(self) -> bool {
        self.first == 1 && self.last == 1
    }
}

#[derive(Clone, Copy)]
pub enum Shape {
    Any,
    Number,
    Address,
    Octets(Counts),
    Digits(Counts),
    Hexadecimal(Counts),
    Qos,
}

impl Shape {
    pub fn of(text: &str) -> Option<Shape> {
        match text {
            "any" => return Some(Shape::Any),
            "number" => return Some(Shape::Number),
            "IPv4 address" => return Some(Shape::Address),
            "QoS text" => return Some(Shape::Qos),
            _ => {}
        }
        let before = |one: &str, more: &str| {
            text.strip_suffix(more).or(text.strip_suffix(one)).map(str::to_string)
        };
        if let Some(least) = before(" octet or more", " octets or more") {
            let first = decimal(&least)? as usize;
            return Some(Shape::Octets(Counts { first, step: 1, last: usize::MAX }));
        }
        if let Some(counts) = before(" octet", " octets") {
            return Counts::of(&counts).map(Shape::Octets);
        }
        if let Some(counts) = before(" hexadecimal digit", " hexadecimal digits") {
            return Counts::of(&counts).map(Shape::Hexadecimal);
        }
        before(" digit", " digits").and_then(|counts| Counts::of(&counts)).map(Shape::Digits)
    }

    pub fn is_met(self, value: &[u8]) -> bool {
        match self {
            Shape::Any => true,
            Shape::Number | Shape::Address => value.len() == 4,
            Shape::Octets(counts) => counts.has(value.len()),
            Shape::Digits(counts) => {
                counts.has(value.len()) && value.iter().all(u8::is_ascii_digit)
            }
            Shape::Hexadecimal(counts) => counts.has(value.len()) && is_hexadecimal(value),
            Shape::Qos => is_qos_text(value),
        }
    }

    /// What an allowed value is compared with, of a value that meets the shape; nothing
    /// where the shape gives no number.
    pub fn number(self, value: &[u8]) -> Option<u64> {
        match self {
            Shape::Number | Shape::Address => {
                Some(value.iter().fold(0, |number, &octet| number << 8 | u64::from(octet)))
            }
            Shape::Octets(counts) if counts.is_one() => Some(u64::from(value[0])),
            Shape::Digits(counts) | Shape::Hexadecimal(counts) if counts.is_one() => {
                Some(u64::from(digit_value(value[0])))
            }
            _ => None,
        }
    }

    /// The stored octet of form 7 for an octet of the value.
    fn octet_to_store(self, octet: u8) -> u8 {
        match self {
            Shape::Digits(_) | Shape::Hexadecimal(_) => digit_value(octet),
            _ => octet,
        }
    }

    /// The value's octet for a stored octet of form 7.
    fn octet_stored_as(self, octet: u8) -> u8 {
        match self {
            Shape::Digits(_) | Shape::Hexadecimal(_) if octet < 10 => b'0' + octet,
            Shape::Digits(_) | Shape::Hexadecimal(_) if octet < 16 => b'A' + octet - 10,
            // No digit stands for more than 15. An octet 0 is no digit and misses the shape.
            Shape::Digits(_) | Shape::Hexadecimal(_) => 0,
            _ => octet,
        }
    }
}

fn is_hexadecimal(value: &[u8]) -> bool {
    value.iter().all(|octet| octet.is_ascii_digit() || (b'A'..=b'F').contains(octet))
}

fn is_qos_text(value: &[u8]) -> bool {
    let digits = match value.get(..3) {
        Some(b"98-") => 6,
        Some(b"99-") => 22,
        _ => return false,
    };
    value.len() == 3 + digits && is_hexadecimal(&value[3..])
}

/// What a digit stands for; of another octet the low half, so that every value has an answer.
fn digit_value(octet: u8) -> u8 {
    if (b'A'..=b'F').contains(&octet) {
        octet - b'A' + 10
    } else {
        octet & 15
    }
}

/// The stored octets of a value, in a form.
pub fn stored(form: u8, shape: Shape, value: &[u8]) -> Vec<u8> {
    match form {
        4 | 5 => two_to_an_octet(value),
        6 => {
            let text = value.get(..2).unwrap_or(&[0, 0]);
            let release = digit_value(text[0]) * 10 + digit_value(text[1]);
            [&[release], two_to_an_octet(value.get(3..).unwrap_or(&[])).as_slice()].concat()
        }
        7 => value.iter().map(|&octet| shape.octet_to_store(octet)).collect(),
        _ => value.to_vec(),
    }
}

/// The digits in halves of octets, the first in the high half; a last half that is left is 15.
fn two_to_an_octet(digits: &[u8]) -> Vec<u8> {
    let half = |digit: Option<&u8>| digit.map_or(15, |&digit| digit_value(digit));
    digits.chunks(2).map(|pair| half(pair.first()) << 4 | half(pair.get(1))).collect()
}

/// How many octets an item of this form and count stores.
pub fn stored_length(form: u8, count: u8) -> usize {
    let count = usize::from(count);
    if form == 4 {
        (count + 1) / 2
    } else {
        count
    }
}

/// A value that is stored so, where there is one: stored again it has to give the same octets.
pub fn value_stored_so(form: u8, shape: Shape, count: u8, stored: &[u8]) -> Option<Vec<u8>> {
    let halves = |octets: &[u8]| -> Vec<u8> {
        octets.iter().flat_map(|octet| [octet >> 4, octet & 15]).collect()
    };
    match form {
        0..=3 => Some(stored.to_vec()),
        // A half of 10 or more becomes an octet that is no digit.
        4 => Some(halves(stored).iter().take(usize::from(count)).map(|half| b'0' + half).collect()),
        5 => Some(print_octets(stored).into_bytes()),
        6 => {
            let (release, rest) = stored.split_first()?;
            Some(format!("{release}-{}", print_octets(rest)).into_bytes())
        }
        7 => Some(stored.iter().map(|&octet| shape.octet_stored_as(octet)).collect()),
        _ => None,
    }
}
