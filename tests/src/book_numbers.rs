//! The table of the numbers: what it says of an attribute, and from that the list of an area's
//! breaches and the item of an attribute.

use crate::book_attributes::{Attribute, Number, ALL_NUMBERS, THREE_GPP_ID, VENDOR_TYPE};
use crate::book_cells::{decimal, hexadecimal, range};
use crate::book_page::{fault, Fault, Held, Page, Row};
use crate::book_presence::{Presence, Presences};
use crate::book_shapes::{stored, stored_length, value_stored_so, Shape};

const USER_PASSWORD: Number = Number(2);
const CHAP_PASSWORD: Number = Number(3);

enum Allowed {
    Any,
    Range(u64, u64),
    /// For each kind the one value, or nothing where every value goes.
    ByKind([Option<u64>; 6]),
}

impl Allowed {
    /// Names of kinds are those of the table's head, '2 START' and the others.
    fn of(text: &str) -> Option<Allowed> {
        if text == "any" {
            return Some(Allowed::Any);
        }
        if let Some(value) = decimal(text) {
            return Some(Allowed::Range(value, value));
        }
        if let Some((low, high)) = range(text) {
            return Some(Allowed::Range(low, high));
        }
        let mut values = [None; 6];
        for part in text.split(", ") {
            let (name, value) = part.split_once(' ')?;
            let head = Held::Numbers.head();
            let kind = head[PRESENCE_COLUMN..ONCE_COLUMN].iter().position(|c| &c[2..] == name)?;
            if values[kind].replace(decimal(value)?).is_some() {
                return None;
            }
        }
        Some(Allowed::ByKind(values))
    }

    fn has(&self, kind: u8, number: Option<u64>) -> bool {
        match self {
            Allowed::Any => true,
            Allowed::Range(low, high) => number.map_or(false, |n| n >= *low && n <= *high),
            Allowed::ByKind(values) => {
                values[usize::from(kind) - 1].map_or(true, |value| number == Some(value))
            }
        }
    }
}

pub struct NumberRow {
    pub line: usize,
    /// Nothing in the two rows for all other numbers.
    pub number: Option<Number>,
    pub entry: Option<u32>,
    shape: Shape,
    form: u8,
    allowed: Allowed,
    presence: [Presence; 6],
    once: bool,
}

const PRESENCE_COLUMN: usize = 6;
const ONCE_COLUMN: usize = 12;

/// A cell's meaning, or that the test does not know it.
fn known<T>(meaning: Option<T>, row: &Row, column: usize) -> Result<T, Fault> {
    let head = Held::Numbers.head();
    meaning.map_or_else(
        || fault(row.line, format!("'{}' is not known in {}", row.cells[column], head[column])),
        Ok,
    )
}

fn presences(row: &Row, is_other: bool, words: &Presences) -> Result<[Presence; 6], Fault> {
    let mut presences = [Presence::default(); 6];
    for (column, presence) in (PRESENCE_COLUMN..ONCE_COLUMN).zip(&mut presences) {
        *presence = known(words.meaning(&row.cells[column]), row, column)?;
        if is_other && presence.absent.is_some() {
            let what = format!("'{}' cannot be said of all other numbers", row.cells[column]);
            return fault(row.line, what);
        }
    }
    Ok(presences)
}

fn number_row(row: &Row, words: &Presences) -> Result<NumberRow, Fault> {
    let is_other = row.cells[0] == "other" || row.cells[0] == "3GPP other";
    let (number, entry) = if is_other {
        if !row.cells[1].is_empty() {
            return fault(row.line, "the row for all other numbers has no Entry");
        }
        (None, None)
    } else {
        let number = known(Number::of(&row.cells[0]), row, 0)?;
        (Some(number), Some(known(hexadecimal(&row.cells[1], 4), row, 1)?))
    };
    let form = decimal(&row.cells[4]).filter(|&form| form < 8).map(|form| form as u8);
    let once = match row.cells[ONCE_COLUMN].as_str() {
        "once" => Some(true),
        "any" => Some(false),
        _ => None,
    };
    Ok(NumberRow {
        line: row.line,
        number,
        entry,
        shape: known(Shape::of(&row.cells[3]), row, 3)?,
        form: known(form, row, 4)?,
        allowed: known(Allowed::of(&row.cells[5]), row, 5)?,
        presence: presences(row, is_other, words)?,
        once: known(once, row, ONCE_COLUMN)?,
    })
}

pub struct Numbers {
    pub rows: Vec<NumberRow>,
    /// For each number the index of its row, or of the row for all others.
    row_of: Vec<usize>,
}

impl Numbers {
    pub fn of(page: &Page) -> Result<Numbers, Fault> {
        let table = page.table(Held::Numbers);
        let words = Presences::of(page)?;
        let rows = table.rows.iter().map(|row| number_row(row, &words));
        let rows: Vec<NumberRow> = rows.collect::<Result<_, _>>()?;
        let other = |name: &str| {
            let mut found = (0..rows.len()).filter(|&at| table.rows[at].cells[0] == name);
            match (found.next(), found.next()) {
                (Some(at), None) => Ok(at),
                _ => fault(table.line, format!("the table should have one row '{name}'")),
            }
        };
        let mut row_of = vec![other("other")?; ALL_NUMBERS / 2];
        row_of.resize(ALL_NUMBERS, other("3GPP other")?);
        for (at, row) in rows.iter().enumerate() {
            let number = match row.number {
                Some(number) => number,
                None => continue,
            };
            let of = &mut row_of[usize::from(number.0)];
            if rows[*of].number.is_some() {
                return fault(row.line, format!("{} has two rows", number.text()));
            }
            *of = at;
        }
        Ok(Numbers { rows, row_of })
    }

    pub fn row(&self, number: Number) -> &NumberRow {
        &self.rows[self.row_of[usize::from(number.0)]]
    }

    /// The words 'number' and 'IPv4 address' ask the same of a value. What tells them apart
    /// is the form.
    pub fn forms_that_do_not_fit(&self) -> Vec<Fault> {
        let fits = |row: &&NumberRow| match row.shape {
            Shape::Number => row.form == 2,
            Shape::Address => row.form == 3,
            _ => true,
        };
        let what = "a number has form 2 and an IPv4 address form 3".to_string();
        let wrong = self.rows.iter().filter(|row| !fits(row));
        wrong.map(|row| Fault { line: row.line, what: what.clone() }).collect()
    }

    /// The item that an attribute is read into.
    pub fn item(&self, number: Number, value: &[u8]) -> Vec<u8> {
        let row = self.row(number);
        let form = match row.shape.is_met(value) {
            true => row.form,
            false => u8::from(number.is_three_gpp()),
        };
        let octets = stored(form, row.shape, value);
        let count = if form == 4 { value.len() } else { octets.len() };
        let [first, sub] = number.octets();
        [&[first, sub, form, count as u8], octets.as_slice()].concat()
    }

    /// The attribute that is read into this very item, where there is one.
    pub fn attribute(&self, item: &[u8]) -> Option<Vec<u8>> {
        let [first, sub, form, count] = [item[0], item[1], item[2], item[3]];
        let number = match first {
            VENDOR_TYPE if form != 0 => Number::three_gpp(sub),
            _ => Number(u16::from(first)),
        };
        let octets = &item[4..4 + stored_length(form, count)];
        let value = value_stored_so(form, self.row(number).shape, count, octets)?;
        let is_vendor = number == Number(u16::from(VENDOR_TYPE));
        if is_vendor && (value.len() < 5 || value[..4] == THREE_GPP_ID) {
            return None;
        }
        let fits = value.len() <= number.longest() && self.item(number, &value) == item;
        fits.then(|| number.attribute(&value))
    }

    /// The list of an area's breaches, as entries.
    pub fn list(&self, kind: u8, flags: u8, area: &[Attribute], length: usize) -> Vec<u32> {
        let mut there = [false; ALL_NUMBERS];
        let mut list = Vec::new();
        for attribute in area {
            there[usize::from(attribute.number.0)] = true;
        }
        let is_there = |number: Number| there[usize::from(number.0)];
        let mut before = [false; ALL_NUMBERS];
        for attribute in area {
            let row = self.row(attribute.number);
            let before = std::mem::replace(&mut before[usize::from(attribute.number.0)], true);
            let [shape, value] = row.breaks_by_value(kind, attribute.value);
            let once = (row.once && before).then_some(3);
            let presence = row.presence[usize::from(kind) - 1].broken_there(flags, is_there);
            let broken = [shape, value, once, presence].into_iter().flatten();
            list.extend(broken.map(|rule| entry(attribute.place, rule, row, attribute.number)));
        }
        if kind == 1 && is_there(USER_PASSWORD) && is_there(CHAP_PASSWORD) {
            list.push(entry(length, 5, self.row(CHAP_PASSWORD), CHAP_PASSWORD));
        }
        for row in &self.rows {
            if let Some(number) = row.number.filter(|&number| !is_there(number)) {
                let broken = row.presence[usize::from(kind) - 1].broken_absent(flags, is_there);
                list.extend(broken.map(|rule| entry(length, rule, row, number)));
            }
        }
        list.sort_unstable();
        list.dedup();
        list
    }
}

/// An entry; the number's digits are those of the column Entry.
fn entry(place: usize, rule: u32, row: &NumberRow, number: Number) -> u32 {
    let octets = number.octets();
    let digits = row.entry.unwrap_or(u32::from(octets[0]) << 8 | u32::from(octets[1]));
    (place as u32) << 20 | rule << 16 | digits
}

impl NumberRow {
    /// The rules 1 and 2, each where a value breaks it.
    fn breaks_by_value(&self, kind: u8, value: &[u8]) -> [Option<u32>; 2] {
        let met = self.shape.is_met(value);
        let allowed = !met || self.allowed.has(kind, self.shape.number(value));
        [(!met).then_some(1), (!allowed).then_some(2)]
    }
}
