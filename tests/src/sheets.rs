//! Sheets to be written: those of readable areas, and what is one change or two away.

use crate::areas::readable;
use crate::items::{Item, Sheet};
use crate::random::Random;
use crate::reader::items;
use crate::wrong_items::wrong_item;

/// A sheet's octets, and the length of the area that it was made from.
pub fn any_sheet(random: &mut Random) -> (Vec<u8>, usize) {
    if random.once_in(200) {
        let length = random.between(0, 40);
        return (random.octets(length), length);
    }
    let area = readable(random);
    let kind = random.between(1, 6) as u8;
    let flags = random.pick(&[0, 1, 2, 4, 5, 6]);
    let mut sheet = Sheet::new(kind, flags, items(&area).unwrap_or_default());
    let changes = random.pick(&[0, 0, 0, 1, 1, 1, 1, 1, 1, 1, 1, 1, 2, 2]);
    let last_of_octets = changes > 0 && random.once_in(6);
    for _ in usize::from(last_of_octets)..changes {
        change(random, &mut sheet);
    }
    let mut octets = sheet.octets();
    if last_of_octets {
        change_octets(random, &mut octets);
    }
    (octets, area.len())
}

fn change(random: &mut Random, sheet: &mut Sheet) {
    match random.between(1, 20) {
        1..=3 => change_head(random, sheet),
        4 => change_announced(random, sheet),
        5..=8 => put_wrong_item(random, sheet),
        9 => leave_octets(random, sheet),
        _ if sheet.items.is_empty() => put_wrong_item(random, sheet),
        _ => {
            let place = random.between(0, sheet.items.len() - 1);
            change_item(random, &mut sheet.items[place]);
        }
    }
}

/// Mark, version, kind or flags.
fn change_head(random: &mut Random, sheet: &mut Sheet) {
    let place = random.pick(&[0, 1, 2, 3, 4, 5, 5, 6, 6]);
    let any = random.octet();
    sheet.head[place] = match place {
        5 => random.pick(&[0, 7, 8, 255, any]),
        6 => random.pick(&[3, 7, 8, 9, 128, any]),
        _ => {
            let octet = sheet.head[place];
            random.pick(&[octet.wrapping_add(1), octet.wrapping_sub(1), octet ^ 32, any])
        }
    };
}

/// More items announced than there are, or fewer.
fn change_announced(random: &mut Random, sheet: &mut Sheet) {
    let count = sheet.items.len();
    let any = random.word() as usize;
    let announced = [count + 1, count.wrapping_sub(1), count + 1, 0, 65_535, count + 256, any];
    sheet.announce(random.pick(&announced));
}

/// A wrong item in the place of another, or between others, counted in the head.
fn put_wrong_item(random: &mut Random, sheet: &mut Sheet) {
    let item = wrong_item(random);
    let place = random.between(0, sheet.items.len());
    if place < sheet.items.len() && random.once_in(2) {
        sheet.items[place] = item;
    } else {
        sheet.items.insert(place, item);
        sheet.announce(sheet.items.len());
    }
}

/// Octets after the last item: a few of any sort, or an item that the head does not count.
fn leave_octets(random: &mut Random, sheet: &mut Sheet) {
    sheet.after = match random.between(1, 3) {
        1 => vec![random.octet()],
        2 => {
            let count = random.between(2, 12);
            random.octets(count)
        }
        _ => vec![4, 0, 3, 4, 10, 0, 0, 1],
    };
}

/// One field of an item. The stored octets then follow the count, or do not.
fn change_item(random: &mut Random, item: &mut Item) {
    let any = random.octet();
    match random.between(1, 12) {
        1 => item.number = random.pick(&[1, 4, 8, 26, 31, 44, any]),
        2 => item.sub = random.pick(&[0, 1, 5, 10, any, item.sub.wrapping_add(1)]),
        3 | 4 => {
            let form = item.form;
            item.form = random.pick(&[form ^ 1, form.wrapping_add(1), 0, 1, 2, 3, 4, 5, 6, 7, any]);
        }
        5..=8 => change_count(random, item),
        9..=11 => change_stored(random, item),
        _ => change_last_half(random, item),
    }
}

fn change_count(random: &mut Random, item: &mut Item) {
    let count = item.count;
    let changed = [count.wrapping_add(1), count.wrapping_sub(1), 0, 255, count.wrapping_add(2)];
    item.count = random.pick(&[changed[0], changed[1], changed[0], changed[1]]);
    if random.once_in(3) {
        item.count = random.pick(&changed);
    }
    if random.once_in(2) {
        item.stored.resize(item.announced(), random.pick(&[0, b'1', 255]));
    }
}

fn change_stored(random: &mut Random, item: &mut Item) {
    if item.stored.is_empty() {
        return;
    }
    let place = random.between(0, item.stored.len() - 1);
    let octet = item.stored[place];
    let any = random.octet();
    let changed = [octet.wrapping_add(1), octet.wrapping_sub(1), octet ^ 16, any];
    item.stored[place] = random.pick(&changed);
}

/// The low half of the last octet, or the high one: padding, and halves above 9.
fn change_last_half(random: &mut Random, item: &mut Item) {
    let half = random.pick(&[0, 9, 10, 14, 15]);
    if let Some(last) = item.stored.last_mut() {
        *last = if random.once_in(3) { half << 4 | *last & 15 } else { *last & 0xF0 | half };
    }
}

/// The sheet's octets cut at any place, often inside the head or by one; or one lost, put
/// in or changed.
fn change_octets(random: &mut Random, octets: &mut Vec<u8>) {
    if octets.is_empty() {
        return;
    }
    let place = random.between(0, octets.len() - 1);
    match random.between(1, 10) {
        1 | 2 => octets.truncate(random.between(0, 9)),
        3 => octets.truncate(octets.len() - 1),
        4..=7 => octets.truncate(place),
        8 => drop(octets.remove(place)),
        9 => octets.insert(place, random.octet()),
        _ => octets[place] = random.octet(),
    }
}
