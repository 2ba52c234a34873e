//! Attributes, built octet by octet. Nothing here stops a value from being too long for
//! its length octet: the callers keep to the limits below.

/// The vendor id 10415, high octet first.
pub const THREE_GPP: [u8; 4] = [0x00, 0x00, 0x28, 0xAF];

/// The longest plain value: length 255.
pub const PLAIN_LIMIT: usize = 253;

/// The longest 3GPP value: m = 248, n = 254.
pub const THREE_GPP_LIMIT: usize = 246;

/// Type, length, value; length counts all the attribute's octets.
pub fn plain(number: u8, value: &[u8]) -> Vec<u8> {
    let mut attribute = vec![number, (value.len() + 2) as u8];
    attribute.extend_from_slice(value);
    attribute
}

/// Type 26: the vendor id, then the vendor's string.
pub fn vendor(id: [u8; 4], string: &[u8]) -> Vec<u8> {
    plain(26, &[&id, string].concat())
}

/// Vendor 10415: the string is one sub-attribute, number, length m, value.
pub fn three_gpp(number: u8, value: &[u8]) -> Vec<u8> {
    three_gpp_with(number, value.len() + 2, value)
}

/// The same with an m that need not be right.
pub fn three_gpp_with(number: u8, m: usize, value: &[u8]) -> Vec<u8> {
    vendor(THREE_GPP, &[&[number, m as u8], value].concat())
}
