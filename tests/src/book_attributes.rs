//! Attributes and the numbers they are known by.

use crate::book_cells::decimal;

/// Type 26 belongs to plain attributes only with another vendor's id.
pub const VENDOR_TYPE: u8 = 26;
pub const THREE_GPP_ID: [u8; 4] = [0x00, 0x00, 0x28, 0xAF];
const LONGEST_PLAIN: usize = 253;
const LONGEST_THREE_GPP: usize = 246;

/// What an attribute is known by: below 256 its type, from 256 on the number of a 3GPP
/// sub-attribute.
#[derive(Clone, Copy, PartialEq)]
pub struct Number(pub u16);

pub const ALL_NUMBERS: usize = 512;

impl Number {
    pub fn three_gpp(number: u8) -> Number {
        Number(256 + u16::from(number))
    }

    pub fn is_three_gpp(self) -> bool {
        self.0 >= 256
    }

    /// Type and sub-attribute number.
    pub fn octets(self) -> [u8; 2] {
        if self.is_three_gpp() {
            [VENDOR_TYPE, self.0 as u8]
        } else {
            [self.0 as u8, 0]
        }
    }

    /// 44; 3GPP 3.
    pub fn of(text: &str) -> Option<Number> {
        let octet = |text: &str| decimal(text).and_then(|number| u8::try_from(number).ok());
        match text.strip_prefix("3GPP ") {
            Some(number) => octet(number).map(Number::three_gpp),
            None => octet(text).map(|number| Number(u16::from(number))),
        }
    }

    pub fn text(self) -> String {
        match self.octets() {
            [VENDOR_TYPE, sub] if self.is_three_gpp() => format!("3GPP {sub}"),
            [plain, _] => plain.to_string(),
        }
    }

    /// The longest value that an attribute of this number can have.
    pub fn longest(self) -> usize {
        if self.is_three_gpp() {
            LONGEST_THREE_GPP
        } else {
            LONGEST_PLAIN
        }
    }

    /// The attribute with this value.
    pub fn attribute(self, value: &[u8]) -> Vec<u8> {
        let length = value.len() as u8 + 2;
        let [first, sub] = self.octets();
        if self.is_three_gpp() {
            [&[first, length + 6], THREE_GPP_ID.as_slice(), &[sub, length], value].concat()
        } else {
            [&[first, length], value].concat()
        }
    }
}

pub struct Attribute<'a> {
    pub place: usize,
    pub number: Number,
    pub value: &'a [u8],
}
