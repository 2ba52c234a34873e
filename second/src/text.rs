//! Digits as ASCII text. Hexadecimal letters are upper case only.

/// 0 to 9.
pub fn is_decimal(octet: u8) -> bool {
    (b'0'..=b'9').contains(&octet)
}

/// 0 to 9 and A to F.
pub fn is_hexadecimal(octet: u8) -> bool {
    is_decimal(octet) || (b'A'..=b'F').contains(&octet)
}

/// What the digit is worth, 0 to 15. Asked of hexadecimal digits only.
pub fn worth(digit: u8) -> u8 {
    match digit {
        b'A'..=b'F' => digit - b'A' + 10,
        _ => digit & 0x0F,
    }
}

/// The digit for the low half of the octet.
pub fn digit(half: u8) -> u8 {
    b"0123456789ABCDEF"[usize::from(half & 0x0F)]
}

/// The two digits of each octet, high half first.
pub fn digits_of(octets: &[u8]) -> Vec<u8> {
    octets.iter().flat_map(|&octet| [digit(octet >> 4), digit(octet)]).collect()
}

/// Each two digits turned into one octet; an odd last low half is 15.
pub fn packed(digits: &[u8]) -> Vec<u8> {
    let pack = |pair: &[u8]| match pair {
        [high, low] => (worth(*high) << 4) | worth(*low),
        [high] => (worth(*high) << 4) | 15,
        _ => 0,
    };
    digits.chunks(2).map(pack).collect()
}
