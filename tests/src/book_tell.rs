//! Differences in words: the line of the page they speak against, what was asked, both answers.

use crate::book_attributes::{Number, VENDOR_TYPE};
use crate::book_cells::{print_octets, show_octets};
use crate::book_desk::{cut, Book, Probe};
use crate::book_page::{Fault, Held, Page};
use crate::book_refusals::Job;
use crate::book_shapes::stored_length;

/// As much of a text as fits a line.
fn short(text: &str) -> String {
    const LONGEST: usize = 160;
    if text.len() <= LONGEST {
        return format!("'{text}'");
    }
    let begin: String = text.chars().take(LONGEST).collect();
    format!("'{begin}..' ({} signs)", text.len())
}

fn show(octets: &[u8]) -> String {
    const MOST: usize = 40;
    match octets.len() {
        0 => "of no octets".to_string(),
        length if length <= MOST => show_octets(octets),
        length => format!("{} .. ({length} octets)", show_octets(&octets[..MOST])),
    }
}

fn asked(probe: &Probe) -> String {
    let room = match probe.room {
        u32::MAX => String::new(),
        room => format!(", room {room}"),
    };
    let payload = &probe.payload;
    match probe.job {
        Job::Write => format!("write{room}, sheet {}", show(payload)),
        job => {
            let (word, kind, flags) = (job.word(), payload[0], payload[1]);
            format!("{word}, kind {kind}, flags {flags}{room}, area {}", show(&payload[2..]))
        }
    }
}

/// A refusal's number and second number.
fn refusal(line: &str) -> Option<(u64, usize)> {
    let (number, second) = line.strip_prefix("refused ")?.split_once(' ')?;
    Some((number.parse().ok()?, second.parse().unwrap_or(0)))
}

/// Whether this is no refusal, or one at another place.
fn is_elsewhere(refusal: Option<(u64, usize)>, place: usize) -> bool {
    refusal.map_or(true, |(_, other)| other != place)
}

pub struct Teller<'a> {
    pub page: &'a Page,
    pub book: &'a Book,
}

impl Teller<'_> {
    pub fn tell(&self, probe: &Probe, ours: &str, second: &str) -> Fault {
        let found = match (refusal(ours), refusal(second)) {
            (None, None) if probe.job == Job::Check => self.by_entry(ours, second),
            (None, None) if probe.job == Job::Read => self.by_item(probe, second),
            (Some((23, one)), Some((23, other))) if one != other => {
                self.by_written_item(probe, one.min(other))
            }
            (Some((23, place)), other) | (other, Some((23, place)))
                if is_elsewhere(other, place) =>
            {
                self.by_written_item(probe, place)
            }
            _ => None,
        };
        let (line, about) = found.unwrap_or_else(|| (self.refusal_line(probe, ours, second), None));
        let both = format!("the page says {}, the second program {}", short(ours), short(second));
        let what = format!("{}: {}", asked(probe), about.unwrap_or(both));
        Fault { line, what }
    }

    fn refusal_line(&self, probe: &Probe, ours: &str, second: &str) -> usize {
        let line = |text| {
            let (number, _) = refusal(text)?;
            self.book.refusals.line_of(probe.job, number)
        };
        line(ours).or_else(|| line(second)).unwrap_or(self.page.table(Held::Refusals).line)
    }

    /// The first entry that only one of the lists has, and the row of its number.
    fn by_entry(&self, ours: &str, second: &str) -> Option<(usize, Option<String>)> {
        let has = |list: &str, entry: &str| list.split(' ').any(|other| other == entry);
        let only = |list: &str, other: &str| {
            let mut entries = list.split(' ').filter(|entry| !entry.is_empty());
            entries.find(|entry| !has(other, entry)).map(str::to_string)
        };
        let (entry, about) = match (only(second, ours), only(ours, second)) {
            (Some(entry), _) => (entry.clone(), format!("the page does not give {entry}")),
            (None, Some(entry)) => (entry.clone(), format!("only the page gives {entry}")),
            (None, None) => return None,
        };
        let digits = u32::from_str_radix(entry.get(4..)?, 16).ok()?;
        let numbers = &self.book.numbers;
        let row = numbers.rows.iter().find(|row| row.entry == Some(digits));
        let number = match digits.to_be_bytes() {
            [_, _, VENDOR_TYPE, sub] => Number::three_gpp(sub),
            [_, _, plain, _] => Number(u16::from(plain)),
        };
        let lists =
            format!("the page's list is {}, the second program's {}", short(ours), short(second));
        Some((row.unwrap_or(numbers.row(number)).line, Some(format!("{about}; {lists}"))))
    }

    /// The first attribute that the two read into different items.
    fn by_item(&self, probe: &Probe, second: &str) -> Option<(usize, Option<String>)> {
        let mut rest = second.get(18..)?;
        for attribute in cut(&probe.payload[2..]).attributes {
            let numbers = &self.book.numbers;
            let item = print_octets(&numbers.item(attribute.number, attribute.value));
            match rest.strip_prefix(item.as_str()) {
                Some(behind) => rest = behind,
                None => {
                    let line = numbers.row(attribute.number).line;
                    let octet = |at: usize| u8::from_str_radix(rest.get(at..at + 2)?, 16).ok();
                    let length = 4 + stored_length(octet(4)?, octet(6)?);
                    let theirs = rest.get(..2 * length)?;
                    let about = format!(
                        "the page's item of {} is {item}, the second program's {theirs}",
                        attribute.number.text()
                    );
                    return Some((line, Some(about)));
                }
            }
        }
        None
    }

    /// The row of the number of the item at this place, which only one of the two takes.
    fn by_written_item(&self, probe: &Probe, place: usize) -> Option<(usize, Option<String>)> {
        let number = match *probe.payload.get(place..place + 2)? {
            [VENDOR_TYPE, sub] => Number::three_gpp(sub),
            [plain, _] => Number(u16::from(plain)),
            _ => return None,
        };
        Some((self.book.numbers.row(number).line, None))
    }
}
