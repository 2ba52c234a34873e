//! The items of an area, read plainly from the paper: a third reading of it, from which
//! sheets are made up and the room that a sheet needs is reckoned.

use crate::attributes::{THREE_GPP, THREE_GPP_LIMIT};
use crate::items::Item;

/// The items, or nothing where the framing is broken. The area's length is not judged.
pub fn items(area: &[u8]) -> Option<Vec<Item>> {
    let mut rest = area;
    let mut items = Vec::new();
    while !rest.is_empty() {
        let n = *rest.get(1)? as usize;
        if n < 2 || n > rest.len() {
            return None;
        }
        items.push(item(rest[0], &rest[2..n])?);
        rest = &rest[n..];
    }
    Some(items)
}

/// The sheet's length, or nothing where the framing is broken.
pub fn sheet_length(area: &[u8]) -> Option<usize> {
    Some(9 + items(area)?.iter().map(|item| 4 + item.stored.len()).sum::<usize>())
}

fn item(number: u8, value: &[u8]) -> Option<Item> {
    if number != 26 {
        return Some(plain_item(number, value));
    }
    if value.len() < 5 {
        return None;
    }
    if value[..4] != THREE_GPP {
        return Some(Item::plain(26, 0, value));
    }
    let string = &value[4..];
    if string.len() < 2 || string.len() > THREE_GPP_LIMIT + 2 || string[1] as usize != string.len()
    {
        return None;
    }
    Some(three_gpp_item(string[0], &string[2..]))
}

/// The item of a plain value, other than type 26.
pub fn plain_item(number: u8, value: &[u8]) -> Item {
    let four = value.len() == 4;
    match number {
        6 | 7 | 40..=43 | 45..=49 | 61 if four => Item::plain(number, 2, value),
        4 | 8 | 9 if four => Item::plain(number, 3, value),
        31 if is_digits(value, 1, 15) => Item::plain(number, 4, &packed(value)).digits(value.len()),
        44 if value.len() == 16 && is_hexadecimal(value) => {
            Item::plain(number, 5, &from_hexadecimal(value))
        }
        _ => Item::plain(number, 0, value),
    }
}

/// The item of a 3GPP value.
pub fn three_gpp_item(number: u8, value: &[u8]) -> Item {
    let stored = match (number, value) {
        (2 | 3, [_, _, _, _]) => return Item::three_gpp(number, 2, value),
        (4 | 6 | 7, [_, _, _, _]) => return Item::three_gpp(number, 3, value),
        (1, digits) if is_digits(digits, 1, 15) => packed(digits),
        (8 | 9 | 18, digits) if is_digits(digits, 5, 6) => packed(digits),
        (5, text) if is_qos(text) => {
            let release = [90 + text[1] - b'0'];
            return Item::three_gpp(5, 6, &[&release, &from_hexadecimal(&text[3..])[..]].concat());
        }
        (10, [digit]) if is_hexadecimal(value) => {
            return Item::three_gpp(10, 7, &[hexadecimal_digit(*digit)]);
        }
        (11, [_]) => return Item::three_gpp(11, 7, value),
        (12, [digit]) if digit.is_ascii_digit() => {
            return Item::three_gpp(12, 7, &[digit - b'0']);
        }
        _ => return Item::three_gpp(number, 1, value),
    };
    Item::three_gpp(number, 4, &stored).digits(value.len())
}

/// "98-" and 6 hexadecimal digits or "99-" and 22.
fn is_qos(text: &[u8]) -> bool {
    let count = match text.get(..3) {
        Some(b"98-") => 6,
        Some(b"99-") => 22,
        _ => return false,
    };
    text.len() == 3 + count && is_hexadecimal(&text[3..])
}

/// Digits two to an octet, high half first, and 15 beside an odd last one.
fn packed(digits: &[u8]) -> Vec<u8> {
    let half = |digit: u8| digit - b'0';
    let low = |pair: &[u8]| pair.get(1).map_or(15, |&digit| half(digit));
    digits.chunks(2).map(|pair| half(pair[0]) << 4 | low(pair)).collect()
}

fn from_hexadecimal(text: &[u8]) -> Vec<u8> {
    let pair = |pair: &[u8]| hexadecimal_digit(pair[0]) << 4 | hexadecimal_digit(pair[1]);
    text.chunks(2).map(pair).collect()
}

fn hexadecimal_digit(octet: u8) -> u8 {
    match octet {
        b'A'..=b'F' => octet - b'A' + 10,
        _ => octet - b'0',
    }
}

fn is_digits(value: &[u8], low: usize, high: usize) -> bool {
    (low..=high).contains(&value.len()) && value.iter().all(u8::is_ascii_digit)
}

fn is_hexadecimal(value: &[u8]) -> bool {
    value.iter().all(|octet| matches!(octet, b'0'..=b'9' | b'A'..=b'F'))
}
