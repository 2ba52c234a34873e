//! Shapes: what the value of a number must look like.

use crate::framing::Number::{self, Gpp, Plain};
use crate::text;

/// The shapes of document 01, each with the form it has in a sheet.
#[derive(Clone, Copy, Debug, PartialEq, Eq)]
pub enum Shape {
    /// Form 0 with a length rule: at least so many octets.
    AtLeast(usize),
    /// Form 0 with a length rule: exactly so many octets.
    Exactly(usize),
    /// Form 0 with a length rule: one to eight blocks of 16 octets.
    HiddenPassword,
    /// Form 2: a number of four octets.
    FourOctetNumber,
    /// Form 3: an address of four octets.
    Address,
    /// Form 4: from so many to so many decimal digits.
    Digits(usize, usize),
    /// Form 5: exactly so many hexadecimal digits.
    HexadecimalText(usize),
    /// Form 6: "98-" and 6 hexadecimal digits, or "99-" and 22.
    QosProfile,
    /// Form 7: a hexadecimal digit, stored as its value.
    OneHexadecimalDigit,
    /// Form 7: any one octet as it stands.
    OneOctet,
    /// Form 7: a decimal digit, stored as its value.
    OneDecimalDigit,
}

/// The shape of a number, where it has one.
pub fn shape_of(number: Number) -> Option<Shape> {
    match number {
        Plain(attribute_type) => plain_shape(attribute_type),
        Gpp(sub) => gpp_shape(sub),
    }
}

fn plain_shape(attribute_type: u8) -> Option<Shape> {
    match attribute_type {
        6 | 7 | 40..=43 | 45..=49 | 61 => Some(Shape::FourOctetNumber),
        4 | 8 | 9 => Some(Shape::Address),
        31 => Some(Shape::Digits(1, 15)),
        44 => Some(Shape::HexadecimalText(16)),
        1 | 18 | 24 | 25 | 30 | 32 => Some(Shape::AtLeast(1)),
        2 => Some(Shape::HiddenPassword),
        3 => Some(Shape::Exactly(17)),
        60 => Some(Shape::AtLeast(5)),
        _ => None,
    }
}

fn gpp_shape(sub: u8) -> Option<Shape> {
    match sub {
        1 => Some(Shape::Digits(1, 15)),
        2 | 3 => Some(Shape::FourOctetNumber),
        4 | 6 | 7 => Some(Shape::Address),
        5 => Some(Shape::QosProfile),
        8 | 9 | 18 => Some(Shape::Digits(5, 6)),
        10 => Some(Shape::OneHexadecimalDigit),
        11 => Some(Shape::OneOctet),
        12 => Some(Shape::OneDecimalDigit),
        _ => None,
    }
}

/// Whether the value meets the shape.
pub fn meets(shape: Shape, value: &[u8]) -> bool {
    let length = value.len();
    match shape {
        Shape::AtLeast(least) => length >= least,
        Shape::Exactly(octets) => length == octets,
        Shape::HiddenPassword => (16..=128).contains(&length) && length % 16 == 0,
        Shape::FourOctetNumber | Shape::Address => length == 4,
        Shape::Digits(least, most) => (least..=most).contains(&length) && all_decimal(value),
        Shape::HexadecimalText(digits) => length == digits && all_hexadecimal(value),
        Shape::QosProfile => is_qos_profile(value),
        Shape::OneHexadecimalDigit => length == 1 && all_hexadecimal(value),
        Shape::OneOctet => length == 1,
        Shape::OneDecimalDigit => length == 1 && all_decimal(value),
    }
}

/// The form under which a value that meets the shape is stored.
pub fn form_of(shape: Shape) -> u8 {
    match shape {
        Shape::AtLeast(_) | Shape::Exactly(_) | Shape::HiddenPassword => 0,
        Shape::FourOctetNumber => 2,
        Shape::Address => 3,
        Shape::Digits(_, _) => 4,
        Shape::HexadecimalText(_) => 5,
        Shape::QosProfile => 6,
        Shape::OneHexadecimalDigit | Shape::OneOctet | Shape::OneDecimalDigit => 7,
    }
}

fn all_decimal(value: &[u8]) -> bool {
    value.iter().all(|&octet| text::is_decimal(octet))
}

fn all_hexadecimal(value: &[u8]) -> bool {
    value.iter().all(|&octet| text::is_hexadecimal(octet))
}

fn is_qos_profile(value: &[u8]) -> bool {
    let release_98 = value.starts_with(b"98-") && value.len() == 3 + 6;
    let release_99 = value.starts_with(b"99-") && value.len() == 3 + 22;
    (release_98 || release_99) && all_hexadecimal(&value[3..])
}
