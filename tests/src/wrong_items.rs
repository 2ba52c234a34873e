//! Items that no readable attribute gives, each by one line of the book; a few come out
//! right, as the neighbours of the wrong ones.

use crate::attributes::{PLAIN_LIMIT, THREE_GPP, THREE_GPP_LIMIT};
use crate::items::Item;
use crate::random::Random;
use crate::reader::{plain_item, three_gpp_item};
use crate::values::{meeting_value, named_number, Number};

/// The numbers that have a form of their own.
const PLAIN_SHAPED: [u8; 17] = [4, 6, 7, 8, 9, 31, 40, 41, 42, 43, 44, 45, 46, 47, 48, 49, 61];
const THREE_GPP_SHAPED: [u8; 13] = [1, 2, 3, 4, 5, 6, 7, 8, 9, 10, 11, 12, 18];

pub fn wrong_item(random: &mut Random) -> Item {
    match random.between(1, 15) {
        1 | 2 => raw_for_shaped(random),
        3 | 4 => shaped_for_raw(random),
        5 => over_long(random),
        6 => sub_number_on_plain(random),
        7 | 8 => type_26_in_form_0(random),
        9 | 10 => digits(random),
        11 => qos(random),
        12 => one_octet(random),
        13 => four_octets_or_session_id(random),
        14 => unknown_form(random),
        _ => other_family(random),
    }
}

/// Any number that the book names, with a value that meets its shape.
fn shaped(random: &mut Random) -> (Number, Vec<u8>) {
    let number = named_number(random);
    let value = meeting_value(random, number);
    (number, value)
}

/// A value that stands as it is, though it may meet its shape.
fn raw(number: Number, value: &[u8]) -> Item {
    match number {
        Number::Plain(number) => Item::plain(number, 0, value),
        Number::ThreeGpp(number) => Item::three_gpp(number, 1, value),
        Number::OtherVendor => Item::plain(26, 0, value),
    }
}

fn right(number: Number, value: &[u8]) -> Item {
    match number {
        Number::Plain(number) => plain_item(number, value),
        Number::ThreeGpp(number) => three_gpp_item(number, value),
        Number::OtherVendor => Item::plain(26, 0, value),
    }
}

/// Wrong where the number has a form of its own; numbers with a length rule are right so.
fn raw_for_shaped(random: &mut Random) -> Item {
    let number = if random.once_in(2) {
        Number::Plain(random.pick(&PLAIN_SHAPED))
    } else {
        Number::ThreeGpp(random.pick(&THREE_GPP_SHAPED))
    };
    let value = meeting_value(random, number);
    raw(number, &value)
}

/// The stored octets of one number under another, in the form of the first.
fn shaped_for_raw(random: &mut Random) -> Item {
    let (number, value) = shaped(random);
    let mut item = right(number, &value);
    if item.number == 26 {
        item.sub = random.pick(&[0, 1, 2, 3, 4, 5, 6, 8, 10, 11, 12, 13, 17, 18, 19, 255]);
    } else {
        item.number = random.pick(&[0, 1, 4, 5, 6, 8, 10, 25, 30, 31, 32, 39, 44, 50, 60, 61, 255]);
    }
    item
}

/// A value as long as it may be, or longer.
fn over_long(random: &mut Random) -> Item {
    if random.once_in(2) {
        let length = random.pick(&[PLAIN_LIMIT, PLAIN_LIMIT + 1, PLAIN_LIMIT + 2]);
        Item::plain(random.pick(&[0, 1, 25, 26, 31, 44, 255]), 0, &random.octets(length))
    } else {
        let length = random.between(THREE_GPP_LIMIT, 255);
        Item::three_gpp(random.pick(&[0, 1, 5, 13, 255]), 1, &random.octets(length))
    }
}

fn sub_number_on_plain(random: &mut Random) -> Item {
    let (number, value) = shaped(random);
    let item = match number {
        Number::Plain(number) => plain_item(number, &value),
        _ => Item::plain(26, 0, &[&[0, 0, 0x28, 0xAE], value.as_slice()].concat()),
    };
    Item { sub: random.pick(&[1, 1, 8, 255]), ..item }
}

/// Fewer than five octets, vendor 10415, or a vendor one octet away from it.
fn type_26_in_form_0(random: &mut Random) -> Item {
    let mut value = THREE_GPP.to_vec();
    let length = random.pick(&[1, 2, 5, 9]);
    value.extend(random.octets(length));
    match random.between(1, 4) {
        1 => {
            value[3] = random.pick(&[0xAF, 0xAE, 0]);
            value.truncate(random.between(0, 4));
        }
        2 => value[random.between(0, 3)] ^= random.pick(&[1, 128, 255]),
        3 => value = [THREE_GPP.as_slice(), &[8, 7], b"00101"].concat(),
        _ => {}
    }
    Item::plain(26, 0, &value)
}

/// Digits: wrong padding half, a half above 9, a count that the number does not have.
fn digits(random: &mut Random) -> Item {
    let item = Item::plain(31, 4, &[]);
    let sub = random.pick(&[0, 1, 8, 9, 18]);
    let number = if sub == 0 { 31 } else { 26 };
    let few = random.once_in(2);
    let count = if few { random.pick(&[0, 1, 4, 5, 6, 7]) } else { random.between(0, 17) };
    let mut halves: Vec<u8> = (0..count).map(|_| random.between(0, 9) as u8).collect();
    match random.between(1, 3) {
        1 if count > 0 => halves[random.between(0, count - 1)] = random.between(10, 15) as u8,
        2 if count > 0 => halves[count - 1] = random.pick(&[10, 14, 15]),
        _ => {}
    }
    if count % 2 == 1 {
        let padding = random.between(0, 14) as u8;
        halves.push(random.pick(&[15, 15, 14, 0, padding]));
    }
    let stored = halves.chunks(2).map(|pair| pair[0] << 4 | pair[1]).collect();
    Item { number, sub, stored, ..item }.digits(count)
}

/// Form 6 with other release octets or counts.
fn qos(random: &mut Random) -> Item {
    let count = random.pick(&[0, 1, 3, 4, 4, 4, 5, 11, 12, 12, 12, 13]);
    let mut stored = random.octets(count);
    if let Some(release) = stored.first_mut() {
        *release = random.pick(&[98, 98, 99, 99, 97, 100, 0, 0x98, 0x99, b'9']);
    }
    Item::three_gpp(random.pick(&[5, 5, 5, 5, 4, 6]), 6, &stored)
}

/// Form 7 out of range, or with another count.
fn one_octet(random: &mut Random) -> Item {
    let count = random.pick(&[1, 1, 1, 1, 1, 0, 2]);
    let any = random.octet();
    let octet = random.pick(&[0, 2, 9, 10, 15, 16, 48, 57, 65, 255, any]);
    Item::three_gpp(random.pick(&[10, 10, 11, 12, 12, 9, 13]), 7, &vec![octet; count])
}

/// Forms 2, 3 and 5 with a count that they do not have, or under the other's number.
fn four_octets_or_session_id(random: &mut Random) -> Item {
    let any = random.between(0, 17);
    let form = random.pick(&[2, 3, 5]);
    let count = random.pick(&[3, 4, 4, 5, 7, 8, 8, 9, 16, any]);
    let stored = random.octets(count);
    if random.once_in(2) {
        Item::plain(random.pick(&[4, 6, 7, 8, 9, 40, 44, 44, 61]), form, &stored)
    } else {
        Item::three_gpp(random.pick(&[2, 3, 4, 5, 6, 7]), form, &stored)
    }
}

/// Forms 8 to 255.
fn unknown_form(random: &mut Random) -> Item {
    let (number, value) = shaped(random);
    let any = random.between(8, 255) as u8;
    Item { form: random.pick(&[8, 8, 9, 16, 128, 255, any]), ..right(number, &value) }
}

/// A plain item in form 1, or a 3GPP one in form 0.
fn other_family(random: &mut Random) -> Item {
    let number = named_number(random);
    let length = random.pick(&[0, 1, 5, 6, 9]);
    let value = random.octets(length);
    match number {
        Number::ThreeGpp(number) => Item::three_gpp(number, 0, &value),
        Number::Plain(number) => Item::plain(number, 1, &value),
        Number::OtherVendor => Item::plain(26, 1, &value),
    }
}
