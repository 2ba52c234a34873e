//! A second judgement, by tables, that shares no code with the program.
//!
//! Pieces say what an area was made of, so nothing here has to frame an area.

use std::collections::BTreeSet;

/// What one attribute was made from. Another vendor's value begins with the id.
#[derive(Clone, Debug)]
pub struct Piece {
    pub gpp: bool,
    pub number: u8,
    pub value: Vec<u8>,
}

/// One row of shapes: a prefix, then a number of units. A unit is D for a decimal
/// digit, H for a hexadecimal digit, and a dot for any octet.
struct Row {
    gpp: bool,
    numbers: &'static [u8],
    form: u8,
    prefix: &'static str,
    unit: char,
    lengths: &'static [usize],
}

const fn row(
    gpp: bool,
    numbers: &'static [u8],
    form: u8,
    prefix: &'static str,
    unit: char,
    lengths: &'static [usize],
) -> Row {
    Row { gpp, numbers, form, prefix, unit, lengths }
}

const TO_15: &[usize] = &[1, 2, 3, 4, 5, 6, 7, 8, 9, 10, 11, 12, 13, 14, 15];
const SIXTEENS: &[usize] = &[16, 32, 48, 64, 80, 96, 112, 128];

/// Empty lengths stand for any length.
const ROWS: &[Row] = &[
    row(false, &[6, 7, 40, 41, 42, 43, 45, 46, 47, 48, 49, 61], 2, "", '.', &[4]),
    row(false, &[4, 8, 9], 3, "", '.', &[4]),
    row(false, &[31], 4, "", 'D', TO_15),
    row(false, &[44], 5, "", 'H', &[16]),
    row(false, &[1, 18, 24, 25, 30, 32], 0, ".", '.', &[]),
    row(false, &[2], 0, "", '.', SIXTEENS),
    row(false, &[3], 0, "", '.', &[17]),
    row(false, &[60], 0, ".....", '.', &[]),
    row(true, &[1], 4, "", 'D', TO_15),
    row(true, &[2, 3], 2, "", '.', &[4]),
    row(true, &[4, 6, 7], 3, "", '.', &[4]),
    row(true, &[5], 6, "98-", 'H', &[6]),
    row(true, &[5], 6, "99-", 'H', &[22]),
    row(true, &[8, 9, 18], 4, "", 'D', &[5, 6]),
    row(true, &[10], 7, "", 'H', &[1]),
    row(true, &[11], 7, "", '.', &[1]),
    row(true, &[12], 7, "", 'D', &[1]),
];

impl Row {
    fn is_of(&self, gpp: bool, number: u8) -> bool {
        self.gpp == gpp && self.numbers.contains(&number)
    }

    fn fits(&self, value: &[u8]) -> bool {
        let before = self.prefix.len();
        if value.len() < before {
            return false;
        }
        let length = value.len() - before;
        let prefix = self.prefix.bytes().zip(value).all(|(p, &v)| p == b'.' || p == v);
        let units = value[before..].iter().all(|&octet| unit_fits(self.unit, octet));
        prefix && units && (self.lengths.is_empty() || self.lengths.contains(&length))
    }
}

fn unit_fits(unit: char, octet: u8) -> bool {
    match unit {
        'D' => b"0123456789".contains(&octet),
        'H' => b"0123456789ABCDEF".contains(&octet),
        _ => true,
    }
}

/// The form that the tables give a value.
pub fn form(gpp: bool, number: u8, value: &[u8]) -> u8 {
    let fitting = ROWS.iter().find(|row| row.is_of(gpp, number) && row.fits(value));
    fitting.map_or(u8::from(gpp), |row| row.form)
}

fn has_shape(gpp: bool, number: u8) -> bool {
    ROWS.iter().any(|row| row.is_of(gpp, number))
}

fn meets_shape(piece: &Piece) -> bool {
    ROWS.iter().any(|row| row.is_of(piece.gpp, piece.number) && row.fits(&piece.value))
}

/// The sheet of the pieces.
pub fn sheet(kind: u8, flags: u8, pieces: &[Piece]) -> Vec<u8> {
    let items = pieces.len();
    let mut sheet = vec![b'G', b'I', b'R', 0, 1, kind, flags, (items / 256) as u8, items as u8];
    for piece in pieces {
        let form = form(piece.gpp, piece.number, &piece.value);
        let (count, stored) = packed(form, piece);
        let names = if piece.gpp { [26, piece.number] } else { [piece.number, 0] };
        sheet.extend(names);
        sheet.extend([form, count as u8]);
        sheet.extend(stored);
    }
    sheet
}

fn packed(form: u8, piece: &Piece) -> (usize, Vec<u8>) {
    let value = &piece.value;
    let length = value.len();
    match form {
        4 => {
            let half = |i: usize| value.get(i).map_or(15, |digit| digit - 48);
            (length, (0..length).step_by(2).map(|i| half(i) * 16 + half(i + 1)).collect())
        }
        5 => (8, from_text(value)),
        6 => {
            let mut stored = vec![if value[1] == b'8' { 98 } else { 99 }];
            stored.extend(from_text(&value[3..]));
            (stored.len(), stored)
        }
        7 if piece.number != 11 => {
            let text: String = value.iter().map(|&octet| octet as char).collect();
            (1, vec![u8::from_str_radix(&text, 16).expect("one digit")])
        }
        _ => (length, value.clone()),
    }
}

fn from_text(text: &[u8]) -> Vec<u8> {
    let text = std::str::from_utf8(text).expect("digits");
    let pairs = (0..text.len()).step_by(2).map(|i| &text[i..i + 2]);
    pairs.map(|pair| u8::from_str_radix(pair, 16).expect("two digits")).collect()
}

/// Values allowed: 3GPP or not, number, kinds, first and last value.
const ALLOWED: &[(bool, u8, &[u8], u32, u32)] = &[
    (false, 6, &[1, 2, 3, 4, 5, 6], 2, 2),
    (false, 7, &[1, 2, 3, 4, 5, 6], 7, 7),
    (false, 45, &[1, 2, 3, 4, 5, 6], 1, 2),
    (false, 49, &[1, 2, 3, 4, 5, 6], 1, 18),
    (false, 40, &[2], 1, 1),
    (false, 40, &[3], 2, 2),
    (false, 40, &[4], 7, 7),
    (false, 40, &[5], 8, 8),
    (false, 40, &[6], 3, 3),
    (true, 3, &[1, 2, 3, 4, 5, 6], 0, 0),
    (true, 11, &[1, 2, 3, 4, 5, 6], 255, 255),
    (true, 12, &[1, 2, 3, 4, 5, 6], 0x30, 0x32),
];

/// Numbers not permitted: 3GPP or not, numbers, kinds, the flag that permits them.
const BARRED: &[(bool, &[u8], &[u8], u8)] = &[
    (true, &[11], &[1, 2, 4, 5, 6], 0),
    (true, &[1, 2, 3, 4, 5, 6, 7, 8, 9, 10, 11, 12, 18], &[4, 5], 0),
    (false, &[2, 3, 18, 24], &[2, 3, 4, 5, 6], 0),
    (false, &[25], &[2, 3, 6], 4),
];

const ONCE_PLAIN: &[u8] =
    &[1, 2, 3, 4, 6, 7, 8, 9, 30, 31, 32, 40, 41, 42, 43, 44, 45, 46, 47, 48, 49, 60, 61];
const ONCE_GPP: &[u8] = &[1, 2, 3, 4, 5, 6, 7, 8, 9, 10, 11, 12, 18];

/// Numbers wanted: rule, 3GPP or not, number, kinds, the flag that makes it so.
const WANTED: &[(u32, bool, u8, &[u8], u8)] = &[
    (6, false, 1, &[1], 0),
    (6, false, 30, &[1, 2, 3, 6], 0),
    (6, false, 8, &[2, 3, 6], 0),
    (6, false, 40, &[2, 3, 4, 5, 6], 0),
    (6, false, 44, &[2, 3, 6], 0),
    (7, false, 2, &[1], 1),
    (7, false, 3, &[1], 2),
    (7, false, 60, &[1], 2),
    (7, false, 25, &[2], 4),
];

/// The list of the pieces, which fill an area of the given length.
pub fn list(kind: u8, flags: u8, pieces: &[Piece], length: usize) -> Vec<u32> {
    let mut list = Vec::new();
    let mut seen = BTreeSet::new();
    let mut place = 0;
    for piece in pieces {
        let name = (piece.gpp, piece.number);
        let again = !seen.insert(name);
        for rule in rules_broken(kind, flags, piece, again) {
            list.push(entry(place, rule, name));
        }
        place += piece.value.len() + if piece.gpp { 8 } else { 2 };
    }
    list.extend(at_the_end(kind, flags, &seen, length));
    list.sort_unstable();
    list
}

fn rules_broken(kind: u8, flags: u8, piece: &Piece, again: bool) -> Vec<u32> {
    let mut rules = Vec::new();
    if has_shape(piece.gpp, piece.number) && !meets_shape(piece) {
        rules.push(1);
    } else if !value_allowed(kind, piece) {
        rules.push(2);
    }
    let once = if piece.gpp { ONCE_GPP } else { ONCE_PLAIN };
    if again && once.contains(&piece.number) {
        rules.push(3);
    }
    let barred = |row: &&(bool, &[u8], &[u8], u8)| {
        row.0 == piece.gpp && row.1.contains(&piece.number) && row.2.contains(&kind)
    };
    if BARRED.iter().filter(barred).any(|row| flags & row.3 == 0) {
        rules.push(4);
    }
    rules
}

fn value_allowed(kind: u8, piece: &Piece) -> bool {
    let number = piece.value.iter().fold(0_u64, |n, &octet| (n << 8) | u64::from(octet));
    let of_piece = |row: &&(bool, u8, &[u8], u32, u32)| {
        row.0 == piece.gpp && row.1 == piece.number && row.2.contains(&kind)
    };
    let within = |row: &(bool, u8, &[u8], u32, u32)| {
        u64::from(row.3) <= number && number <= u64::from(row.4)
    };
    ALLOWED.iter().filter(of_piece).all(within)
}

fn at_the_end(kind: u8, flags: u8, seen: &BTreeSet<(bool, u8)>, length: usize) -> Vec<u32> {
    let mut list = Vec::new();
    for &(rule, gpp, number, kinds, flag) in WANTED {
        let wanted = kinds.contains(&kind) && flags & flag == flag;
        if wanted && !seen.contains(&(gpp, number)) {
            list.push(entry(length, rule, (gpp, number)));
        }
    }
    if !seen.contains(&(false, 4)) && !seen.contains(&(false, 32)) {
        list.push(entry(length, 7, (false, 4)));
    }
    if seen.contains(&(false, 7)) && !seen.contains(&(true, 3)) && kind != 4 && kind != 5 {
        list.push(entry(length, 7, (true, 3)));
    }
    if kind == 1 && seen.contains(&(false, 2)) && seen.contains(&(false, 3)) {
        list.push(entry(length, 5, (false, 3)));
    }
    list
}

fn entry(place: usize, rule: u32, name: (bool, u8)) -> u32 {
    let (attribute_type, sub) = if name.0 { (26, name.1) } else { (name.1, 0) };
    (place as u32) << 20 | rule << 16 | u32::from(attribute_type) << 8 | u32::from(sub)
}

/// What writing a sheet must give: kind, flags and the area's length, or a refusal.
pub fn write(sheet: &[u8], room: usize) -> Result<(u8, u8, usize), (u32, usize)> {
    if sheet.len() < 9 || sheet[..3] != *b"GIR" || sheet[3] != 0 || sheet[4] != 1 {
        return Err((20, 0));
    }
    if ![1, 2, 3, 4, 5, 6].contains(&sheet[5]) || sheet[6] & 3 == 3 || sheet[6] > 6 {
        return Err((21, 0));
    }
    let (mut at, mut length) = (9, 0);
    for _ in 0..usize::from(sheet[7]) * 256 + usize::from(sheet[8]) {
        if sheet.len() - at < 4 {
            return Err((22, at));
        }
        let half = sheet[at + 2] == 4;
        let count = usize::from(sheet[at + 3]);
        let stored = if half { count / 2 + count % 2 } else { count };
        if sheet.len() - at - 4 < stored {
            return Err((22, at));
        }
        match attribute_length(&sheet[at..at + 4 + stored]) {
            Some(octets) => length += octets,
            None => return Err((23, at)),
        }
        at += 4 + stored;
    }
    match () {
        _ if at < sheet.len() => Err((22, at)),
        _ if length > 4076 => Err((24, length)),
        _ if length > room => Err((25, length)),
        _ => Ok((sheet[5], sheet[6], length)),
    }
}

/// The length of the attribute that gives the item, judged from the table of
/// forms; nothing where no attribute gives it.
pub fn attribute_length(item: &[u8]) -> Option<usize> {
    let (attribute_type, sub, form, count) = (item[0], item[1], item[2], usize::from(item[3]));
    let stored = &item[4..];
    let gpp = attribute_type == 26 && form != 0;
    if !gpp && sub != 0 {
        return None;
    }
    let number = if gpp { sub } else { attribute_type };
    let head = if gpp { 8 } else { 2 };
    match form {
        0 | 1 => raw_length(gpp, number, form, stored).map(|length| head + length),
        2..=7 => {
            let mut rows = ROWS.iter().filter(|row| row.is_of(gpp, number) && row.form == form);
            rows.find_map(|row| unpacked_length(row, form, count, stored)).map(|n| head + n)
        }
        _ => None,
    }
}

fn raw_length(gpp: bool, number: u8, form_given: u8, stored: &[u8]) -> Option<usize> {
    let most = if gpp { 246 } else { 253 };
    let vendor = !gpp && number == 26;
    let bad_vendor = vendor && (stored.len() < 5 || stored[..4] == [0x00, 0x00, 0x28, 0xAF]);
    let only_form = form(gpp, number, stored) == form_given;
    if stored.len() <= most && !bad_vendor && only_form {
        Some(stored.len())
    } else {
        None
    }
}

fn unpacked_length(row: &Row, form: u8, count: usize, stored: &[u8]) -> Option<usize> {
    let (length, good) = match form {
        2 | 3 => (4, count == 4),
        4 => (count, halves_good(count, stored)),
        5 => (16, count == 8),
        6 => {
            let (digits, release) = if row.prefix == "98-" { (6, 98) } else { (22, 99) };
            (digits, count == digits / 2 + 1 && stored[0] == release)
        }
        _ => {
            let limit = if row.unit == 'D' { 9 } else { 15 };
            (1, count == 1 && (row.unit == '.' || stored[0] <= limit))
        }
    };
    if good && row.lengths.contains(&length) {
        Some(row.prefix.len() + length)
    } else {
        None
    }
}

fn halves_good(count: usize, stored: &[u8]) -> bool {
    let half = |i: usize| if i % 2 == 0 { stored[i / 2] / 16 } else { stored[i / 2] % 16 };
    let digits = (0..count).all(|i| half(i) <= 9);
    digits && (count % 2 == 0 || half(count) == 15)
}
