//! What cells are made of: numbers, lists of numbers, octets.

/// A decimal number, with or without commas between the thousands: 4,076.
pub fn decimal(text: &str) -> Option<u64> {
    let digits: String = text.split(',').collect();
    let plain = digits.bytes().all(|digit| digit.is_ascii_digit());
    if plain && !text.starts_with(',') && !text.ends_with(',') {
        digits.parse().ok()
    } else {
        None
    }
}

/// Decimal numbers: 0, 1, 2.
pub fn decimals(text: &str) -> Option<Vec<u64>> {
    text.split(", ").map(decimal).collect()
}

/// Two decimal numbers, the first not above the second: 1 to 6.
pub fn range(text: &str) -> Option<(u64, u64)> {
    let (low, high) = text.split_once(" to ")?;
    let (low, high) = (decimal(low)?, decimal(high)?);
    (low <= high).then_some((low, high))
}

/// So many hexadecimal digits with capital letters, as a number.
pub fn hexadecimal(text: &str, digits: usize) -> Option<u32> {
    let capital = |digit: u8| digit.is_ascii_digit() || (b'A'..=b'F').contains(&digit);
    if text.len() == digits && text.bytes().all(capital) {
        u32::from_str_radix(text, 16).ok()
    } else {
        None
    }
}

/// Octets with a space between: 47 49 52.
pub fn octets(text: &str) -> Option<Vec<u8>> {
    text.split(' ').map(|word| hexadecimal(word, 2).map(|octet| octet as u8)).collect()
}

/// Octets as the programs print them: 474952.
pub fn print_octets(octets: &[u8]) -> String {
    const DIGITS: &[u8; 16] = b"0123456789ABCDEF";
    let mut text = String::with_capacity(octets.len() * 2);
    for octet in octets {
        text.push(char::from(DIGITS[usize::from(octet >> 4)]));
        text.push(char::from(DIGITS[usize::from(octet & 15)]));
    }
    text
}

/// Octets as the page has them, with spaces: 47 49 52.
pub fn show_octets(octets: &[u8]) -> String {
    let words: Vec<String> = octets.iter().map(|octet| format!("{octet:02X}")).collect();
    words.join(" ")
}
