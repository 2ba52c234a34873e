//! The refusal book: each refusal is a number and a second number.

/// A refusal. The second number is a place, a length, or how much was needed.
#[derive(Clone, Copy, Debug, PartialEq, Eq)]
pub struct Refusal {
    pub number: u32,
    pub second: usize,
}

/// Gives the refusal as the answer.
pub fn refuse<T>(number: u32, second: usize) -> Result<T, Refusal> {
    Err(Refusal { number, second })
}

/// Kind not 1 to 6.
pub const KIND: u32 = 1;
/// Flags not allowed.
pub const FLAGS: u32 = 2;
/// Area over 4,076 octets; second number its length.
pub const AREA_TOO_LONG: u32 = 3;
/// One octet left where an attribute should start; second number its place.
pub const LONE_OCTET: u32 = 4;
/// Length octet below 2; second number the attribute's place.
pub const LENGTH_BELOW_TWO: u32 = 5;
/// Length passes the area's end; second number the attribute's place.
pub const PASSES_AREA_END: u32 = 6;
/// Type 26 with length below 7; second number the attribute's place.
pub const VENDOR_TOO_SHORT: u32 = 7;
/// Vendor 10415, sub-attribute layout broken; second number the attribute's place.
pub const SUB_ATTRIBUTE_BROKEN: u32 = 8;
/// Sheet longer than its buffer; second number the octets needed.
pub const NO_ROOM_FOR_SHEET: u32 = 9;
/// List longer than its buffer; second number the entries needed.
pub const NO_ROOM_FOR_LIST: u32 = 10;
/// Sheet under 9 octets, wrong mark or version.
pub const NOT_A_SHEET: u32 = 20;
/// Kind or flags in the sheet not allowed.
pub const SHEET_KIND_OR_FLAGS: u32 = 21;
/// An item passes the sheet's end, or octets remain after the last item;
/// second number the item's place, or that of the first remaining octet.
pub const PASSES_SHEET_END: u32 = 22;
/// An item that no readable attribute gives; second number the item's place.
pub const ITEM_GIVEN_BY_NONE: u32 = 23;
/// Area to be written over 4,076 octets; second number its length.
pub const WRITTEN_TOO_LONG: u32 = 24;
/// Area longer than its buffer; second number the octets needed.
pub const NO_ROOM_FOR_AREA: u32 = 25;
