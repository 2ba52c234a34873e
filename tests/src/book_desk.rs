//! The desk as the page's tables tell it: what it answers where it is asked something.

use crate::book_attributes::{Attribute, Number, THREE_GPP_ID, VENDOR_TYPE};
use crate::book_cells::print_octets;
use crate::book_numbers::Numbers;
use crate::book_page::{Fault, Page};
use crate::book_refusals::{AskedOfArea, AskedOfSheet, Job, Refusals};
use crate::book_shapes::stored_length;

/// Something asked: kind, flags and area, or a sheet, with room for the answer.
#[derive(Clone, PartialEq, Eq, Hash)]
pub struct Probe {
    pub job: Job,
    pub room: u32,
    pub payload: Vec<u8>,
}

impl Probe {
    /// As a record of a batch.
    pub fn record(&self) -> Vec<u8> {
        let letter = match self.job {
            Job::Read => b'R',
            Job::Check => b'C',
            Job::Write => b'W',
        };
        let length = (self.payload.len() as u32).to_be_bytes();
        [&[letter], self.room.to_be_bytes().as_slice(), &length, &self.payload].concat()
    }
}

/// An area cut into its attributes.
pub struct Cut<'a> {
    /// Where attributes begin, up to the first that cannot be passed.
    pub places: Vec<usize>,
    pub attributes: Vec<Attribute<'a>>,
    /// Whether the cutting came to the area's end.
    pub whole: bool,
}

pub fn cut(area: &[u8]) -> Cut<'_> {
    let mut cut = Cut { places: Vec::new(), attributes: Vec::new(), whole: false };
    let mut place = 0;
    while place < area.len() {
        cut.places.push(place);
        let rest = &area[place..];
        let length = rest.get(1).map_or(0, |&length| usize::from(length));
        if length < 2 || length > rest.len() {
            return cut;
        }
        let is_three_gpp = rest[0] == VENDOR_TYPE && length >= 8 && rest[2..6] == THREE_GPP_ID;
        let (number, value) = if is_three_gpp {
            (Number::three_gpp(rest[6]), &rest[8..length])
        } else {
            (Number(u16::from(rest[0])), &rest[2..length])
        };
        cut.attributes.push(Attribute { place, number, value });
        place += length;
    }
    cut.whole = true;
    cut
}

/// The head of a sheet.
pub fn sheet_head(kind: u8, flags: u8, items: usize) -> Vec<u8> {
    let count = items as u16;
    [b"GIR", [0, 1, kind, flags].as_slice(), &count.to_be_bytes()].concat()
}

pub struct Book {
    pub numbers: Numbers,
    pub refusals: Refusals,
}

impl Book {
    pub fn of(page: &Page) -> Result<Book, Fault> {
        Ok(Book { numbers: Numbers::of(page)?, refusals: Refusals::of(page)? })
    }

    /// The line that the tables give for an answer.
    pub fn answer(&self, probe: &Probe) -> String {
        match probe.job {
            Job::Read | Job::Check => self.answer_for_area(probe),
            Job::Write => self.answer_for_sheet(probe),
        }
    }

    fn answer_for_area(&self, probe: &Probe) -> String {
        let (kind, flags, area) = (probe.payload[0], probe.payload[1], &probe.payload[2..]);
        let cut = cut(area);
        let (mut sheet, mut list) = (Vec::new(), Vec::new());
        if probe.job == Job::Read {
            sheet = self.sheet(kind, flags, &cut.attributes);
        } else if (1..=6).contains(&kind) {
            list = self.numbers.list(kind, flags, &cut.attributes, area.len());
        }
        let asked = AskedOfArea {
            kind,
            flags,
            area,
            room: probe.room as usize,
            places: &cut.places,
            octets_needed: (cut.whole && probe.job == Job::Read).then_some(sheet.len()),
            entries_needed: (cut.whole && probe.job == Job::Check).then_some(list.len()),
        };
        match (self.refusals.of_area(probe.job, &asked), probe.job) {
            (Some(refusal), _) => refusal,
            (None, Job::Read) => print_octets(&sheet),
            (None, _) => {
                let words: Vec<String> = list.iter().map(|entry| format!("{entry:08X}")).collect();
                words.join(" ")
            }
        }
    }

    fn sheet(&self, kind: u8, flags: u8, attributes: &[Attribute]) -> Vec<u8> {
        let mut sheet = sheet_head(kind, flags, attributes.len());
        for attribute in attributes {
            sheet.extend(self.numbers.item(attribute.number, attribute.value));
        }
        sheet
    }

    fn answer_for_sheet(&self, probe: &Probe) -> String {
        let sheet = &probe.payload;
        let octet = |place: usize| sheet.get(place).copied().unwrap_or(0);
        let announced = u16::from_be_bytes([octet(7), octet(8)]);
        let (mut place, mut items, mut area) = (9, Vec::new(), Vec::new());
        let mut whole = true;
        for _ in 0..announced {
            let rest = sheet.get(place..).unwrap_or(&[]);
            let length = rest.get(..4).map(|head| 4 + stored_length(head[2], head[3]));
            if let Some(length) = length.filter(|&length| length <= rest.len()) {
                let attribute = self.numbers.attribute(&rest[..length]);
                items.push((place, attribute.is_some()));
                area.extend(attribute.unwrap_or_default());
                place += length;
            } else {
                // What is not there whole is judged by its length alone.
                items.push((place.min(sheet.len()), true));
                whole = false;
                break;
            }
        }
        let left = (whole && place < sheet.len()).then_some(place);
        let (room, area_length) = (probe.room as usize, area.len());
        let asked = AskedOfSheet { sheet, room, items: &items, left, area_length };
        let done = || format!("{} {} {}", octet(5), octet(6), print_octets(&area));
        self.refusals.of_sheet(&asked).unwrap_or_else(done)
    }
}
