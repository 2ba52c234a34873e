//! Framing: an area is cut into attributes, and an attribute is put together.

use crate::refusal::{self, refuse, Refusal};

/// Vendor-Specific.
pub const VENDOR_SPECIFIC: u8 = 26;
/// Vendor 10415 as four octets, high octet first.
pub const VENDOR_3GPP: [u8; 4] = 10_415_u32.to_be_bytes();
/// The longest area that is read or written.
pub const LONGEST_AREA: usize = 4_076;
/// The greatest sub-attribute length m.
const LONGEST_SUB_ATTRIBUTE: usize = 248;

/// The number an attribute carries. Another vendor's type 26 is plain.
#[derive(Clone, Copy, Debug, PartialEq, Eq)]
pub enum Number {
    Plain(u8),
    Gpp(u8),
}

impl Number {
    /// Type and sub-attribute number, as items and entries name them.
    pub fn type_and_sub(self) -> (u8, u8) {
        match self {
            Number::Plain(attribute_type) => (attribute_type, 0),
            Number::Gpp(sub) => (VENDOR_SPECIFIC, sub),
        }
    }
}

/// One well framed attribute. A 3GPP value is that of the sub-attribute;
/// another vendor's value begins with the vendor id.
#[derive(Clone, Copy, Debug, PartialEq, Eq)]
pub struct Attribute<'a> {
    pub place: usize,
    pub number: Number,
    pub value: &'a [u8],
}

/// All attributes of the area, or the refusal of the first that fails.
pub fn attributes(area: &[u8]) -> Result<Vec<Attribute<'_>>, Refusal> {
    let mut found = Vec::new();
    let mut place = 0;
    while place < area.len() {
        let octets = cut(area, place)?;
        found.push(attribute(octets, place)?);
        place += octets.len();
    }
    Ok(found)
}

/// The octets of the attribute that starts at the place: refusals 4, 5, 6.
fn cut(area: &[u8], place: usize) -> Result<&[u8], Refusal> {
    let rest = &area[place..];
    if rest.len() == 1 {
        return refuse(refusal::LONE_OCTET, place);
    }
    let length = usize::from(rest[1]);
    if length < 2 {
        return refuse(refusal::LENGTH_BELOW_TWO, place);
    }
    if length > rest.len() {
        return refuse(refusal::PASSES_AREA_END, place);
    }
    Ok(&rest[..length])
}

/// What the octets of one attribute carry: refusals 7, 8.
fn attribute(octets: &[u8], place: usize) -> Result<Attribute<'_>, Refusal> {
    let plain = Attribute { place, number: Number::Plain(octets[0]), value: &octets[2..] };
    if octets[0] != VENDOR_SPECIFIC {
        return Ok(plain);
    }
    if octets.len() < 7 {
        return refuse(refusal::VENDOR_TOO_SHORT, place);
    }
    let (vendor, string) = octets[2..].split_at(4);
    if vendor != VENDOR_3GPP {
        return Ok(plain);
    }
    if !is_one_sub_attribute(string) {
        return refuse(refusal::SUB_ATTRIBUTE_BROKEN, place);
    }
    Ok(Attribute { place, number: Number::Gpp(string[0]), value: &string[2..] })
}

/// The string is number, length m and value, of an m that is permitted and fills it.
fn is_one_sub_attribute(string: &[u8]) -> bool {
    match string.get(1) {
        None => false,
        Some(&m) => {
            let m = usize::from(m);
            (2..=LONGEST_SUB_ATTRIBUTE).contains(&m) && m == string.len()
        }
    }
}

/// Type, length, value; nothing where the length does not go into an octet.
pub fn plain_octets(attribute_type: u8, value: &[u8]) -> Option<Vec<u8>> {
    let length = u8::try_from(value.len().checked_add(2)?).ok()?;
    let mut octets = vec![attribute_type, length];
    octets.extend_from_slice(value);
    Some(octets)
}

/// Type 26 of vendor 10415 with one sub-attribute; nothing where a length
/// does not go into an octet. Whether the result is readable is not judged here.
pub fn gpp_octets(sub: u8, value: &[u8]) -> Option<Vec<u8>> {
    let mut string = VENDOR_3GPP.to_vec();
    string.extend(plain_octets(sub, value)?);
    plain_octets(VENDOR_SPECIFIC, &string)
}
