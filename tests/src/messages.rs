//! Areas for the check: messages that hold what the tables ask for but for some numbers,
//! repeats near and far, and values that are allowed or not.

use crate::areas::{any_area, attribute};
use crate::attributes::{plain, three_gpp};
use crate::random::Random;
use crate::values::{meeting_value, named_number, Number};

/// The numbers that some line of rules 5 to 7 asks for or forbids together.
const ASKED_FOR: [Number; 15] = [
    Number::Plain(1),
    Number::Plain(2),
    Number::Plain(3),
    Number::Plain(4),
    Number::Plain(7),
    Number::Plain(8),
    Number::Plain(25),
    Number::Plain(30),
    Number::Plain(32),
    Number::Plain(40),
    Number::Plain(44),
    Number::Plain(60),
    Number::ThreeGpp(3),
    Number::ThreeGpp(7),
    Number::ThreeGpp(11),
];

/// An area for the check, of any sort. Most are under 300 octets.
pub fn any_message(random: &mut Random) -> Vec<u8> {
    match random.between(1, 1_000) {
        1 => two_octets_each(random),
        2..=12 => far_repeat(random),
        13..=150 => any_area(random),
        151..=230 => context(random),
        _ => message(random),
    }
}

/// Most of what is asked for, or little of it, then other numbers, some of them perhaps
/// twice or more often, in any order.
fn message(random: &mut Random) -> Vec<u8> {
    let lacking = random.pick(&[2, 2, 4, 8, 16]);
    let full = random.once_in(4);
    let mut numbers: Vec<Number> =
        ASKED_FOR.into_iter().filter(|_| random.once_in(lacking) == full).collect();
    for _ in 0..random.between(0, 8) {
        numbers.push(named_number(random));
    }
    for _ in 0..random.pick(&[0, 0, 1, 1, 2]) {
        let twice = named_number(random);
        let again = if numbers.is_empty() { twice } else { random.pick(&numbers) };
        numbers.extend(random.pick(&[[again, again], [again, twice], [twice, twice]]));
    }
    shuffle(random, &mut numbers);
    numbers.into_iter().flat_map(|number| valued(random, number)).collect()
}

fn shuffle(random: &mut Random, numbers: &mut [Number]) {
    for k in (1..numbers.len()).rev() {
        numbers.swap(k, random.between(0, k));
    }
}

/// The number with a value that meets its shape, with any, or with none.
fn valued(random: &mut Random, number: Number) -> Vec<u8> {
    if random.once_in(2) {
        return attribute(random, number);
    }
    let mut value = meeting_value(random, number);
    if random.once_in(6) {
        value.clear();
    }
    match number {
        Number::Plain(number) => plain(number, &value),
        Number::ThreeGpp(number) => three_gpp(number, &value),
        Number::OtherVendor => attribute(random, number),
    }
}

/// Plain 7 and 3GPP 7, and a PDP type that is good, bad, misshapen or absent.
fn context(random: &mut Random) -> Vec<u8> {
    let seven = random.pick(&[&[7, 6, 0, 0, 0, 7][..], &[7, 6, 0, 0, 0, 1], &[7, 2], &[]]).to_vec();
    let gateway = match random.between(1, 3) {
        1 => three_gpp(7, &[10, 0, 0, 1]),
        2 => three_gpp(7, b""),
        _ => vec![],
    };
    let pdp_type = match random.between(1, 6) {
        1 | 2 => vec![],
        3 => three_gpp(3, &[0, 0, 0, 0]),
        4 => three_gpp(3, &[0, 0, 0, 1]),
        5 => three_gpp(3, b"0"),
        _ => plain(3, &[0; 17]),
    };
    let rest = message(random);
    let mut parts = [seven, gateway, pdp_type];
    let turn = random.between(0, 2);
    parts.rotate_left(turn);
    let rest = if random.once_in(2) { rest } else { vec![] };
    [&parts[0][..], &rest, &parts[1], &parts[2]].concat()
}

/// The same number hundreds of attributes apart, others that may not repeat or may between.
fn far_repeat(random: &mut Random) -> Vec<u8> {
    let number = named_number(random);
    let between = random.between(100, 900);
    let filler = random.pick(&[&[5, 2][..], &[0, 2], &[25, 3, 1], &[18, 3, 65], &[255, 2]]);
    let mut area = valued(random, number);
    area.extend(filler.repeat(between));
    area.extend(valued(random, number));
    if random.once_in(2) {
        area.extend(message(random));
    }
    area
}

/// 2,038 attributes of two octets: one number, two in turn, or any.
fn two_octets_each(random: &mut Random) -> Vec<u8> {
    let pair = [random.pick(&[1, 5, 25, 31, 44, 255]), random.pick(&[2, 3, 8, 60])];
    let style = random.between(1, 3);
    let any = |random: &mut Random| match random.octet() {
        26 => 27,
        number => number,
    };
    let number = |random: &mut Random, k: usize| match style {
        1 => pair[0],
        2 => pair[k % 2],
        _ => any(random),
    };
    (0..2_038).flat_map(|k| [number(random, k), 2]).collect()
}
