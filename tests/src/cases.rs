//! The cases that every batch begins with: kind, flags and area. A case found by hand
//! joins one of the lists here.

use crate::attributes::{plain, three_gpp, three_gpp_with, vendor, THREE_GPP};

/// Area A of the book's worked cases.
pub const A: [u8; 19] = [
    0x04, 0x06, 0x0A, 0x00, 0x00, 0x01, 0x1A, 0x0D, 0x00, 0x00, 0x28, 0xAF, 0x08, 0x07, 0x30, 0x30,
    0x31, 0x30, 0x31,
];

/// The payloads in order.
pub fn payloads() -> Vec<Vec<u8>> {
    let mut all = seen_at_the_desk();
    all.extend([vec![], vec![1], vec![0], vec![255], vec![0, 0], vec![7, 3], vec![6, 7]]);
    let areas = [plain_shapes(), three_gpp_shapes(), qos_shapes(), framing()].concat();
    all.extend(areas.iter().map(|area| payload(1, 0, area)));
    all.extend(great_lengths());
    all
}

fn payload(kind: u8, flags: u8, area: &[u8]) -> Vec<u8> {
    [&[kind, flags], area].concat()
}

/// P1 to P10. P1 and P2 are one payload, P3 the same area in kind 3.
fn seen_at_the_desk() -> Vec<Vec<u8>> {
    vec![
        payload(4, 0, &A),
        payload(3, 0, &A),
        payload(1, 0, &[]),
        payload(4, 0, &[]),
        payload(1, 0, &[0x04]),
        payload(1, 0, &[0x04, 0x01]),
        payload(1, 0, &[0x1A, 0x07]),
        payload(1, 0, &[0x1A, 0x06, 0x00, 0x00, 0x28, 0xAF]),
        payload(1, 3, &[]),
    ]
}

/// Plain numbers at the bounds of their shapes.
fn plain_shapes() -> Vec<Vec<u8>> {
    let mut areas = vec![
        plain(31, b""),
        plain(31, b"5"),
        plain(31, b"0123456789"),
        plain(31, b"012345678901234"),
        plain(31, b"0123456789012345"),
        plain(31, b"01234:6789"),
        plain(31, b"+4912345"),
        plain(44, b"0A000001000000FF"),
        plain(44, b"0a000001000000ff"),
        plain(44, b"0A000001000000F"),
        plain(44, b"0A000001000000FF0"),
        plain(44, b"0A000001000000FG"),
        [plain(31, b"12"), plain(31, b"123")].concat(),
        plain(0, b""),
        plain(255, b"\xFF"),
    ];
    for number in [4, 6, 7, 8, 9, 40, 41, 42, 43, 45, 46, 47, 48, 49, 61] {
        areas.push(plain(number, &[0, 0, 0]));
        areas.push(plain(number, &[0, 0, 0, 2]));
        areas.push(plain(number, &[0, 0, 0, 2, 0]));
    }
    areas
}

/// 3GPP numbers at the bounds of their shapes, the QoS profile aside.
fn three_gpp_shapes() -> Vec<Vec<u8>> {
    let mut areas = vec![
        three_gpp(0, b""),
        three_gpp(0, b"123456"),
        three_gpp(1, b""),
        three_gpp(1, b"7"),
        three_gpp(1, b"001010123456789"),
        three_gpp(1, b"0010101234567890"),
        three_gpp(1, b"00101012345678F"),
        three_gpp(31, b"12345"),
    ];
    for number in [2, 3, 4, 6, 7] {
        areas.push(three_gpp(number, &[10, 0, 0]));
        areas.push(three_gpp(number, &[10, 0, 0, 1]));
        areas.push(three_gpp(number, &[10, 0, 0, 1, 0]));
    }
    for number in [8, 9, 18] {
        for text in ["0010", "00101", "001010", "0010100", "0010F"] {
            areas.push(three_gpp(number, text.as_bytes()));
        }
    }
    for number in [10, 11, 12] {
        for text in ["", "0", "2", "3", "9", "A", "F", "G", "f", ":", "/", "\0", "00"] {
            areas.push(three_gpp(number, text.as_bytes()));
        }
        areas.push(three_gpp(number, &[255]));
    }
    areas
}

/// 3GPP 5, and the same texts for the numbers on either side of it.
fn qos_shapes() -> Vec<Vec<u8>> {
    let texts = [
        "98-0A1B2C",
        "98-0a1b2c",
        "98-0A1B2",
        "98-0A1B2C3",
        "98.0A1B2C",
        "98 - 0A1B2C",
        "97-0A1B2C",
        "98-0123456789ABCDEF012345",
        "99-0123456789ABCDEF012345",
        "99-0123456789ABCDEF01234",
        "99-0123456789ABCDEF0123456",
        "99-0123456789ABCDEF01234g",
        "99-0A1B2C",
        "99_0123456789ABCDEF012345",
    ];
    let of = |number| texts.iter().map(move |text| three_gpp(number, text.as_bytes()));
    of(5).chain(of(4).take(1)).chain(of(6).take(1)).collect()
}

/// The framing at its bounds, first in the area and after area A.
fn framing() -> Vec<Vec<u8>> {
    let mut areas = vec![
        three_gpp(13, &[0x41; 246]),
        three_gpp_with(13, 249, &[0x41; 247]),
        three_gpp_with(13, 248, &[0x41; 247]),
        three_gpp_with(13, 249, &[0x41; 246]),
        three_gpp_with(13, 247, &[0x41; 246]),
        three_gpp_with(13, 0, &[]),
        three_gpp_with(13, 1, &[]),
        three_gpp_with(13, 3, &[]),
        three_gpp_with(13, 4, b"1"),
        vendor(THREE_GPP, &[1]),
        vendor(THREE_GPP, &[]),
        vendor([0, 0, 0x28, 0xAE], &[]),
        vendor([0, 0, 0x28, 0xAE], &[1]),
        vendor([1, 0, 0x28, 0xAF], &[1]),
        vendor([0, 0, 0x28, 0xAE], &[0x41; 249]),
        plain(25, &[0x41; 253]),
        vec![26],
        vec![26, 0],
        vec![26, 1],
        vec![26, 2],
        vec![26, 6, 0, 0, 0x28],
        vec![26, 8, 0, 0, 0x28, 0xAF, 1],
        vec![4, 255],
    ];
    let after: Vec<_> = areas.iter().map(|area| [&A, area.as_slice()].concat()).collect();
    areas.extend(after);
    areas
}

/// Areas about 4,076 octets, and lengths that look smaller in 16 bits.
fn great_lengths() -> Vec<Vec<u8>> {
    vec![
        payload(1, 0, &[25, 2].repeat(2_038)),
        payload(1, 0, &[[25, 2].repeat(2_037).as_slice(), &[25]].concat()),
        payload(1, 0, &[[25, 2].repeat(2_037).as_slice(), &[25, 3]].concat()),
        payload(1, 0, &[[25, 2].repeat(2_037).as_slice(), &[25, 3, 0]].concat()),
        payload(1, 0, &[25; 4_077]),
        payload(0, 0, &[25; 4_077]),
        payload(1, 8, &[25; 4_077]),
        payload(1, 0, &[25, 2].repeat(32_768)),
        payload(1, 0, &[25, 2].repeat(32_768 + 2_038)),
        payload(0, 0, &[25, 2].repeat(32_768)),
    ]
}
