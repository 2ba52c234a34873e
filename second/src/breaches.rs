//! Breaches: the seven rules, each line of document 01 written out; rule 6 as request 1
//! of document 02 amends it.
//!
//! The list is a set of entries: what two clauses of a rule say of one attribute is
//! therefore one breach, and the list comes out rising.

use crate::framing::Attribute;
use crate::framing::Number::{self, Gpp, Plain};
use crate::items::shape_met;
use crate::kinds::{is_on_or_off, is_session_accounting};
use crate::kinds::{ACCESS_REQUEST, CHAP, CLASS_RECEIVED, PAP, START, STOP};
use crate::shapes::{shape_of, Shape};
use std::collections::BTreeSet;

/// What the rules look at.
pub struct Case<'a> {
    pub kind: u8,
    pub flags: u8,
    pub area_length: usize,
    pub attributes: &'a [Attribute<'a>],
}

/// The set of all entries.
pub fn breaches(case: &Case) -> BTreeSet<u32> {
    let mut entries = BTreeSet::new();
    for (index, attribute) in case.attributes.iter().enumerate() {
        let broken = [
            (1, misses_its_shape(attribute)),
            (2, value_not_allowed(case.kind, attribute)),
            (3, repeats_an_earlier_one(case, index)),
            (4, not_permitted(case.kind, case.flags, attribute.number)),
        ];
        for (rule, _) in broken.iter().filter(|(_, is_broken)| *is_broken) {
            entries.insert(entry(attribute.place, *rule, attribute.number));
        }
    }
    for (rule, numbers) in [(5, excluded(case)), (6, mandatory(case)), (7, conditional(case))] {
        for number in numbers {
            entries.insert(entry(case.area_length, rule, number));
        }
    }
    entries
}

/// Place, rule, type and sub-attribute number as one number. A place is at most
/// 4,076, so the entry never passes 32 bits.
fn entry(place: usize, rule: u32, number: Number) -> u32 {
    let (attribute_type, sub) = number.type_and_sub();
    let name = u32::from(attribute_type) * 256 + u32::from(sub);
    (place as u32) * 1_048_576 + rule * 65_536 + name
}

/// Rule 1: it has a shape and misses it.
fn misses_its_shape(attribute: &Attribute) -> bool {
    shape_of(attribute.number).is_some() && shape_met(attribute).is_none()
}

/// Rule 2: shape met, value not allowed.
fn value_not_allowed(kind: u8, attribute: &Attribute) -> bool {
    match (shape_met(attribute), attribute.value) {
        (Some(Shape::FourOctetNumber), &[a, b, c, d]) => {
            !number_allowed(kind, attribute.number, u32::from_be_bytes([a, b, c, d]))
        }
        (Some(Shape::OneOctet), &[octet]) => attribute.number == Gpp(11) && octet != 255,
        (Some(Shape::OneDecimalDigit), &[digit]) => {
            attribute.number == Gpp(12) && !(b'0'..=b'2').contains(&digit)
        }
        _ => false,
    }
}

/// The allowed values of the four-octet numbers.
fn number_allowed(kind: u8, number: Number, value: u32) -> bool {
    match number {
        Plain(6) => value == 2,
        Plain(7) => value == 7,
        Plain(45) => value == 1 || value == 2,
        Plain(49) => (1..=18).contains(&value),
        Plain(40) => status_allowed(kind, value),
        Gpp(3) => value == 0,
        _ => true,
    }
}

/// Acct-Status-Type names the kind of an accounting message; kind 1 is free.
fn status_allowed(kind: u8, value: u32) -> bool {
    match kind {
        2 => value == 1,
        3 => value == 2,
        4 => value == 7,
        5 => value == 8,
        6 => value == 3,
        _ => true,
    }
}

/// Rule 3: an earlier attribute carries the same number.
fn repeats_an_earlier_one(case: &Case, index: usize) -> bool {
    let number = case.attributes[index].number;
    let earlier = &case.attributes[..index];
    comes_once(number) && earlier.iter().any(|attribute| attribute.number == number)
}

/// The numbers for which rule 3 stands.
fn comes_once(number: Number) -> bool {
    match number {
        Plain(attribute_type) => {
            matches!(attribute_type, 1..=4 | 6..=9 | 30..=32 | 40..=49 | 60 | 61)
        }
        Gpp(sub) => matches!(sub, 1..=12 | 18),
    }
}

/// Rule 4: not permitted here.
fn not_permitted(kind: u8, flags: u8, number: Number) -> bool {
    match number {
        Gpp(11) if kind != STOP => true,
        Gpp(1..=12) | Gpp(18) => is_on_or_off(kind),
        Plain(2) | Plain(3) | Plain(18) | Plain(24) => kind != ACCESS_REQUEST,
        Plain(25) => is_session_accounting(kind) && flags & CLASS_RECEIVED == 0,
        _ => false,
    }
}

/// An attribute counts as present whatever its value.
fn present(case: &Case, number: Number) -> bool {
    case.attributes.iter().any(|attribute| attribute.number == number)
}

fn absent(case: &Case, number: Number) -> bool {
    !present(case, number)
}

/// Rule 5: both passwords in kind 1; it names 3.
fn excluded(case: &Case) -> Vec<Number> {
    let both = present(case, Plain(2)) && present(case, Plain(3));
    if case.kind == ACCESS_REQUEST && both {
        vec![Plain(3)]
    } else {
        Vec::new()
    }
}

/// Rule 6: mandatory and absent. ON and OFF want their status, 40, and no session id.
fn mandatory(case: &Case) -> Vec<Number> {
    let wanted: &[u8] = if case.kind == ACCESS_REQUEST {
        &[1, 30]
    } else if is_session_accounting(case.kind) {
        &[8, 30, 40, 44]
    } else {
        &[40]
    };
    let wanted = wanted.iter().map(|&attribute_type| Plain(attribute_type));
    wanted.filter(|&number| absent(case, number)).collect()
}

/// Rule 7: conditional and absent.
fn conditional(case: &Case) -> Vec<Number> {
    let access_request = case.kind == ACCESS_REQUEST;
    let has = |flag: u8| case.flags & flag != 0;
    let in_a_session = access_request || is_session_accounting(case.kind);
    let conditions = [
        (Plain(4), absent(case, Plain(32))),
        (Plain(2), access_request && has(PAP)),
        (Plain(3), access_request && has(CHAP)),
        (Plain(60), access_request && has(CHAP)),
        (Plain(25), case.kind == START && has(CLASS_RECEIVED)),
        (Gpp(3), in_a_session && present(case, Plain(7))),
    ];
    let wanted = conditions.iter().filter(|(_, holds)| *holds).map(|(number, _)| *number);
    wanted.filter(|&number| absent(case, number)).collect()
}
