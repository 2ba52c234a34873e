//! Properties of writing, over small sheets in full and over damaged sheets.

use crate::jobs;
use crate::judge;
use crate::makers;
use crate::random::Random;
use crate::refusal::Refusal;
use crate::tally::Tally;
use std::collections::BTreeSet;

const ROOM: usize = 100_000;
const DAMAGED_SHEETS: usize = 200_000;
const MADE_UP_SHEETS: usize = 150_000;
const LONG_SHEETS: usize = 2_000;

pub fn run(tally: &mut Tally) {
    small_items(tally);
    damaged_sheets(tally, &mut Random::from_seed(6));
    made_up_sheets(tally, &mut Random::from_seed(7));
    long_sheets(tally, &mut Random::from_seed(10));
}

/// Every item of count 0 or 1 that some attribute gives. Such an item comes from
/// a value of at most one octet, so reading all of those finds them all.
fn small_items_given() -> BTreeSet<Vec<u8>> {
    let mut given = BTreeSet::new();
    let values = (0..=255).map(|octet| vec![octet]).chain([Vec::new()]);
    for value in values {
        for number in 0..=255 {
            for gpp in [false, true] {
                let piece = judge::Piece { gpp, number, value: value.clone() };
                if let Ok(sheet) = jobs::read(1, 0, &makers::octets(&piece), ROOM) {
                    given.insert(sheet[9..].to_vec());
                }
            }
        }
    }
    given
}

/// Every item of count 0 or 1, forms 0 to 9, for each plain number and for each
/// 3GPP number: written exactly when an attribute gives it.
fn small_items(tally: &mut Tally) {
    let given = small_items_given();
    tally.holds(given.len() > 100_000, || "few small items are given".to_string());
    for number in 0..=255 {
        for (attribute_type, sub) in [(number, 0), (26, number), (6, number)] {
            for form in 0..=9 {
                small_item(tally, &given, &[attribute_type, sub, form, 0]);
                for octet in 0..=255 {
                    small_item(tally, &given, &[attribute_type, sub, form, 1, octet]);
                }
            }
        }
    }
}

fn small_item(tally: &mut Tally, given: &BTreeSet<Vec<u8>>, item: &[u8]) {
    let mut sheet = vec![0x47, 0x49, 0x52, 0, 1, 1, 0, 0, 1];
    sheet.extend(item);
    tally.case();
    let about = || format!("item {:02X?}", item);
    match jobs::write(&sheet, ROOM) {
        Ok(written) => {
            tally.holds(given.contains(item), about);
            tally.same(jobs::read(1, 0, &written.area, ROOM), Ok(sheet.clone()), about);
        }
        Err(refusal) => {
            tally.holds(!given.contains(item), about);
            tally.same(refusal, Refusal { number: 23, second: 9 }, about);
        }
    }
}

/// Sheets of areas, damaged in one to three ways.
fn damaged_sheets(tally: &mut Tally, random: &mut Random) {
    for _ in 0..DAMAGED_SHEETS {
        let pieces = makers::pieces(random, 5);
        let (kind, flags) = (makers::kind(random), random.pick(&makers::FLAGS));
        let mut sheet = judge::sheet(kind, flags, &pieces);
        for _ in 0..random.between(1, 3) {
            damage(random, &mut sheet);
        }
        one_sheet(tally, random, &sheet);
    }
}

fn damage(random: &mut Random, sheet: &mut Vec<u8>) {
    match random.below(12) {
        0 => {
            let length = random.below(sheet.len() + 1);
            sheet.truncate(length);
        }
        1 => drop(sheet.pop()),
        2 => sheet.push(random.octet()),
        3 => {
            let spot = random.below(sheet.len() + 1);
            sheet.insert(spot, random.octet());
        }
        4 => {
            // The number of items, one more or one less.
            if let Some(octet) = sheet.get_mut(8) {
                *octet = octet.wrapping_add(random.pick(&[1, 255]));
            }
        }
        5..=8 => damage_an_item(random, sheet),
        _ => {
            if !sheet.is_empty() {
                let spot = random.below(sheet.len());
                sheet[spot] ^= 1 << random.below(8);
            }
        }
    }
}

/// Changes type, sub-attribute number, form, count or a stored octet of an item.
fn damage_an_item(random: &mut Random, sheet: &mut [u8]) {
    let places = item_places(sheet);
    if places.is_empty() {
        return;
    }
    let place = random.pick(&places);
    let spot = place + random.pick(&[0, 1, 2, 2, 3, 3, 4, 5]);
    let value = match spot - place {
        0 => random.pick(&[26, 31, 44, 6, 4, 5, 1]),
        1 => random.below(20) as u8,
        2 => random.below(10) as u8,
        3 => random.pick(&[0, 1, 3, 4, 5, 6, 8, 12, 15, 16, 246, 247, 253, 254, 255]),
        _ => random.pick(&[0, 0x0F, 0x10, 0x3F, 0xA0, 0x99, 98, 99, 255]),
    };
    if let Some(octet) = sheet.get_mut(spot) {
        *octet = value;
    }
}

/// Where items seem to start.
fn item_places(sheet: &[u8]) -> Vec<usize> {
    let mut places = Vec::new();
    let mut place = 9;
    while place + 4 <= sheet.len() {
        places.push(place);
        let count = usize::from(sheet[place + 3]);
        place += 4 + if sheet[place + 2] == 4 { count / 2 + count % 2 } else { count };
    }
    places
}

/// Sheets of items that no area was read for, mostly with the right measure.
fn made_up_sheets(tally: &mut Tally, random: &mut Random) {
    for _ in 0..MADE_UP_SHEETS {
        let items = random.below(4);
        let mut sheet = vec![0x47, 0x49, 0x52, 0, 1, makers::kind(random), 0, 0, items as u8];
        for _ in 0..items {
            sheet.extend(made_up_item(random));
        }
        one_sheet(tally, random, &sheet);
    }
}

fn made_up_item(random: &mut Random) -> Vec<u8> {
    let piece = makers::piece(random);
    let names = if piece.gpp { [26, piece.number] } else { [piece.number, 0] };
    let form = if random.once_in(3) { u8::from(piece.gpp) } else { random.below(9) as u8 };
    let count = match form {
        0 | 1 => random.pick(&[0, 1, 4, 5, 9, 15, 16, 246, 247, 253, 254, 255]),
        2 | 3 => random.pick(&[4, 4, 4, 3, 5]),
        4 => random.pick(&[1, 2, 4, 5, 6, 7, 14, 15, 16]),
        5 => random.pick(&[8, 8, 7, 9, 16]),
        6 => random.pick(&[4, 12, 3, 11]),
        _ => random.pick(&[1, 1, 0, 2]),
    };
    let measure = if form == 4 { (usize::from(count) + 1) / 2 } else { usize::from(count) };
    let mut item = names.to_vec();
    item.extend([form, count]);
    item.extend((0..measure).map(|at| stored_octet(random, form, at, measure)));
    if form == 4 && count % 2 == 1 && !random.once_in(4) {
        let last = item.len() - 1;
        item[last] |= 15;
    }
    item
}

fn stored_octet(random: &mut Random, form: u8, at: usize, measure: usize) -> u8 {
    match form {
        0 | 1 if at < 4 => random.pick(&[0, 0, 0x28, 0xAF, 0x31]),
        0 | 1 => random.pick(b"0123456789ABCDEFa"),
        4 => (random.below(10) * 16 + random.below(10)) as u8,
        6 if at == 0 => random.pick(&[if measure == 4 { 98 } else { 99 }, 98, 99]),
        7 => random.below(20) as u8,
        _ => random.octet(),
    }
}

/// Sheets of areas about the limit of 4,076 octets, some of them damaged.
fn long_sheets(tally: &mut Tally, random: &mut Random) {
    for _ in 0..LONG_SHEETS {
        let length = random.between(4_066, 4_086);
        let pieces = makers::filling(random, length);
        let mut sheet = judge::sheet(makers::kind(random), 0, &pieces);
        if random.once_in(4) {
            damage(random, &mut sheet);
        }
        one_sheet(tally, random, &sheet);
    }
}

/// All properties of writing one sheet.
fn one_sheet(tally: &mut Tally, random: &mut Random, sheet: &[u8]) {
    tally.case();
    let room = if random.once_in(8) { random.below(60) } else { ROOM };
    let about = || format!("room {} sheet {:02X?}", room, sheet);
    let got = jobs::write(sheet, room);
    match &got {
        Ok(written) => {
            let again = jobs::read(written.kind, written.flags, &written.area, ROOM);
            tally.same(again, Ok(sheet.to_vec()), about);
            tally.holds(written.area.len() <= room, about);
        }
        Err(refusal) => {
            tally.holds((20..=25).contains(&refusal.number), about);
            let in_the_sheet = refusal.number < 24 && refusal.second <= sheet.len();
            let beyond_room = refusal.number == 25 && refusal.second > room;
            tally.holds(in_the_sheet || beyond_room || refusal.number == 24, about);
        }
    }
    let brief = got
        .map(|written| (written.kind, written.flags, written.area.len()))
        .map_err(|refusal| (refusal.number, refusal.second));
    tally.same(brief, judge::write(sheet, room), about);
}
