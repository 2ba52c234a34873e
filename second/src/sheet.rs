//! The sheet: its head, its items, and the way back to an area.

use crate::framing::Attribute;
use crate::items::{attribute_giving, item_of, stored_octets, ITEM_HEAD};
use crate::kinds::{flags_allowed, kind_allowed};
use crate::refusal::{self, refuse, Refusal};

/// Mark GIR, then version 1 as 16 bits.
const MARK_AND_VERSION: [u8; 5] = [0x47, 0x49, 0x52, 0x00, 0x01];
/// Mark, version, kind, flags, number of items.
pub const SHEET_HEAD: usize = 9;

/// What a sheet says: kind, flags, area.
#[derive(Clone, Debug, PartialEq, Eq)]
pub struct Written {
    pub kind: u8,
    pub flags: u8,
    pub area: Vec<u8>,
}

/// The sheet of the attributes: nine octets, then one item per attribute in area
/// order. An area holds at most 2,038 attributes, so their number has 16 bits.
pub fn sheet_of(kind: u8, flags: u8, attributes: &[Attribute]) -> Vec<u8> {
    let number_of_items = u16::try_from(attributes.len()).unwrap_or(u16::MAX);
    let mut sheet = MARK_AND_VERSION.to_vec();
    sheet.extend([kind, flags]);
    sheet.extend(number_of_items.to_be_bytes());
    for attribute in attributes {
        sheet.extend(item_of(attribute));
    }
    sheet
}

/// The kind, flags and area a sheet stands for, however long the area may be:
/// refusals 20 to 23.
pub fn area_of(sheet: &[u8]) -> Result<Written, Refusal> {
    let (kind, flags, number_of_items) = head_of(sheet)?;
    let mut area = Vec::new();
    let mut place = SHEET_HEAD;
    for _ in 0..number_of_items {
        let item = cut_item(sheet, place)?;
        match attribute_giving(item) {
            Some(octets) => area.extend(octets),
            None => return refuse(refusal::ITEM_GIVEN_BY_NONE, place),
        }
        place += item.len();
    }
    if place < sheet.len() {
        return refuse(refusal::PASSES_SHEET_END, place);
    }
    Ok(Written { kind, flags, area })
}

/// Kind, flags and number of items: refusals 20, 21.
fn head_of(sheet: &[u8]) -> Result<(u8, u8, u16), Refusal> {
    if sheet.len() < SHEET_HEAD || !sheet.starts_with(&MARK_AND_VERSION) {
        return refuse(refusal::NOT_A_SHEET, 0);
    }
    let (kind, flags) = (sheet[5], sheet[6]);
    if !kind_allowed(kind) || !flags_allowed(flags) {
        return refuse(refusal::SHEET_KIND_OR_FLAGS, 0);
    }
    Ok((kind, flags, u16::from_be_bytes([sheet[7], sheet[8]])))
}

/// Head and stored octets of the item at the place, measured by form and count
/// as given: refusal 22 where either passes the sheet's end.
fn cut_item(sheet: &[u8], place: usize) -> Result<&[u8], Refusal> {
    let rest = &sheet[place..];
    if rest.len() < ITEM_HEAD {
        return refuse(refusal::PASSES_SHEET_END, place);
    }
    let length = ITEM_HEAD + stored_octets(rest[2], rest[3]);
    if rest.len() < length {
        return refuse(refusal::PASSES_SHEET_END, place);
    }
    Ok(&rest[..length])
}
