//! Items: the item an attribute gives, and the attribute that gives an item.

use crate::framing::{self, Attribute, Number, VENDOR_SPECIFIC};
use crate::shapes::{form_of, meets, shape_of, Shape};
use crate::text;

/// Type, sub-attribute number, form, count.
pub const ITEM_HEAD: usize = 4;

/// The item of one attribute, as octets of a sheet.
pub fn item_of(attribute: &Attribute) -> Vec<u8> {
    let (attribute_type, sub) = attribute.number.type_and_sub();
    let (form, count, stored) = match shape_met(attribute) {
        Some(shape) => shaped(shape, attribute.value),
        None => as_it_stands(raw_form(attribute.number), attribute.value),
    };
    let mut item = vec![attribute_type, sub, form, count];
    item.extend(stored);
    item
}

/// The number's shape, where the value meets it.
pub fn shape_met(attribute: &Attribute) -> Option<Shape> {
    shape_of(attribute.number).filter(|&shape| meets(shape, attribute.value))
}

/// The form of a value that meets no shape.
fn raw_form(number: Number) -> u8 {
    match number {
        Number::Plain(_) => 0,
        Number::Gpp(_) => 1,
    }
}

/// Form, count and stored octets of a value that meets its shape.
fn shaped(shape: Shape, value: &[u8]) -> (u8, u8, Vec<u8>) {
    let form = form_of(shape);
    match shape {
        Shape::Digits(_, _) => (form, octet_count(value), text::packed(value)),
        Shape::HexadecimalText(_) => as_it_stands(form, &text::packed(value)),
        Shape::QosProfile => as_it_stands(form, &packed_qos_profile(value)),
        Shape::OneHexadecimalDigit | Shape::OneDecimalDigit => {
            let stored: Vec<u8> = value.iter().map(|&digit| text::worth(digit)).collect();
            as_it_stands(form, &stored)
        }
        _ => as_it_stands(form, value),
    }
}

fn as_it_stands(form: u8, stored: &[u8]) -> (u8, u8, Vec<u8>) {
    (form, octet_count(stored), stored.to_vec())
}

/// A framed value has at most 253 octets, so its length is one octet.
fn octet_count(octets: &[u8]) -> u8 {
    u8::try_from(octets.len()).unwrap_or(u8::MAX)
}

/// Release octet 98 or 99, then the digits after the dash as octets.
fn packed_qos_profile(value: &[u8]) -> Vec<u8> {
    let release = text::worth(value[0]) * 10 + text::worth(value[1]);
    let mut stored = vec![release];
    stored.extend(text::packed(&value[3..]));
    stored
}

/// How many octets an item stores. An unknown form stores its count.
pub fn stored_octets(form: u8, count: u8) -> usize {
    let count = usize::from(count);
    match form {
        4 => (count + 1) / 2,
        _ => count,
    }
}

/// The attribute that gives exactly this item, or nothing. The item is a whole
/// one: its head, and as many stored octets as form and count ask for.
///
/// This is the meaning of refusal 23 itself: each attribute that could stand
/// behind the item is built and read, and only the item's own octets count.
pub fn attribute_giving(item: &[u8]) -> Option<Vec<u8>> {
    attributes_behind(item).into_iter().find(|octets| gives(octets, item))
}

/// Whether the octets are one readable attribute that gives the item.
fn gives(octets: &[u8], item: &[u8]) -> bool {
    match framing::attributes(octets) {
        Ok(read) => read.len() == 1 && item_of(&read[0]) == item,
        Err(_) => false,
    }
}

/// Each value behind the item, as a plain attribute and, for type 26, as a 3GPP one.
fn attributes_behind(item: &[u8]) -> Vec<Vec<u8>> {
    let (attribute_type, sub) = (item[0], item[1]);
    let mut candidates = Vec::new();
    for value in values_behind(item) {
        candidates.extend(framing::plain_octets(attribute_type, &value));
        if attribute_type == VENDOR_SPECIFIC {
            candidates.extend(framing::gpp_octets(sub, &value));
        }
    }
    candidates
}

/// The values that the form could have come from. Unknown forms come from none.
fn values_behind(item: &[u8]) -> Vec<Vec<u8>> {
    let (form, count) = (item[2], usize::from(item[3]));
    let stored = &item[ITEM_HEAD..];
    match form {
        0..=3 => vec![stored.to_vec()],
        4 => vec![text::digits_of(stored).into_iter().take(count).collect()],
        5 => vec![text::digits_of(stored)],
        6 => qos_profile_text(stored).into_iter().collect(),
        7 => vec![stored.to_vec(), stored.iter().map(|&half| text::digit(half)).collect()],
        _ => Vec::new(),
    }
}

/// The release in decimal, a dash, and the digits of the other octets.
fn qos_profile_text(stored: &[u8]) -> Option<Vec<u8>> {
    let (release, profile) = stored.split_first()?;
    let mut value = format!("{}-", release).into_bytes();
    value.extend(text::digits_of(profile));
    Some(value)
}
