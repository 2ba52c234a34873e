//! The table of the refusals: which row applies to what is asked, and the first of them.

use crate::book_cells::{decimal, decimals, octets};
use crate::book_page::{fault, Fault, Held, Page, Row};
use crate::book_shapes::stored_length;

#[derive(Clone, Copy, PartialEq, Eq, Hash)]
pub enum Job {
    Read,
    Check,
    Write,
}

impl Job {
    pub fn of(word: &str) -> Option<Job> {
        match word {
            "read" => Some(Job::Read),
            "check" => Some(Job::Check),
            "write" => Some(Job::Write),
            _ => None,
        }
    }

    pub fn word(self) -> &'static str {
        match self {
            Job::Read => "read",
            Job::Check => "check",
            Job::Write => "write",
        }
    }
}

/// What a row is about; what the words of its cell When say.
#[derive(Clone, Copy, PartialEq)]
enum About {
    Kind,
    Flags,
    AreaTooLong,
    OctetLeft,
    LengthTooSmall,
    BehindTheArea,
    VendorTooShort,
    SubAttribute,
    SheetRoom,
    ListRoom,
    Head,
    HeadKindAndFlags,
    BehindTheSheet,
    NoAttribute,
    LeftOver,
    WrittenTooLong,
    AreaRoom,
}

const AREA_JOBS: &[Job] = &[Job::Read, Job::Check];

/// The words of When, and in which jobs they can come true. A # stands for a number or a
/// list of numbers, a $ for octets; they are what the row's test goes by.
const WHEN: [(About, &str, &[Job]); 17] = [
    (About::Kind, "the kind is not one of # to #", AREA_JOBS),
    (About::Flags, "the flags are not one of #", AREA_JOBS),
    (About::AreaTooLong, "the area has more than # octets", AREA_JOBS),
    (About::OctetLeft, "only # octet is left where an attribute would begin", AREA_JOBS),
    (About::LengthTooSmall, "an attribute's length n is less than #", AREA_JOBS),
    (About::BehindTheArea, "an attribute goes on behind the end of the area", AREA_JOBS),
    (About::VendorTooShort, "an attribute of type # has a length n of less than #", AREA_JOBS),
    (
        About::SubAttribute,
        "type #, vendor #, and no sub-attribute fills it: m is not # to #, or not n - #",
        AREA_JOBS,
    ),
    (About::SheetRoom, "the sheet is longer than the buffer", &[Job::Read]),
    (About::ListRoom, "the list is longer than the buffer", &[Job::Check]),
    (
        About::Head,
        "the sheet has less than # octets, or does not begin with $, or its version is not #",
        &[Job::Write],
    ),
    (
        About::HeadKindAndFlags,
        "the sheet's kind is not one of # to #, or its flags are not one of #",
        &[Job::Write],
    ),
    (
        About::BehindTheSheet,
        "an item's head of # octets, or what it stores, goes on behind the end of the sheet",
        &[Job::Write],
    ),
    (About::NoAttribute, "no readable attribute gives the item, see below", &[Job::Write]),
    (About::LeftOver, "behind the last item octets are left over", &[Job::Write]),
    (About::WrittenTooLong, "the area to be written has more than # octets", &[Job::Write]),
    (About::AreaRoom, "the area is longer than the buffer", &[Job::Write]),
];

/// The numbers that stand in the text where the words have # or $, if it has these words.
fn numbers_among(words: &str, text: &str) -> Option<Vec<Vec<u64>>> {
    let gap = |words: &str| words.find(['#', '$']);
    let at = match gap(words) {
        Some(at) => at,
        None => return (words == text).then(Vec::new),
    };
    let rest = text.strip_prefix(&words[..at])?;
    let behind = &words[at + 1..];
    let until = &behind[..gap(behind).unwrap_or(behind.len())];
    let end = if until.is_empty() { rest.len() } else { rest.find(until)? };
    let numbers = match &words[at..=at] {
        "#" => decimals(&rest[..end])?,
        _ => octets(&rest[..end])?.into_iter().map(u64::from).collect(),
    };
    let mut all = vec![numbers];
    all.extend(numbers_among(behind, &rest[end..])?);
    Some(all)
}

/// What the second number is.
#[derive(Clone, Copy)]
enum Second {
    Fixed(u64),
    AreaLength,
    AttributePlace,
    OctetsNeeded,
    EntriesNeeded,
    ItemPlace,
    LeftPlace,
}

pub const SECOND_WORDS: [&str; 6] = [
    "the area's length",
    "place of the attribute",
    "octets needed",
    "entries needed",
    "place of the item",
    "place of the first one left",
];

impl Second {
    fn of(text: &str) -> Option<Second> {
        match text {
            "the area's length" => Some(Second::AreaLength),
            "place of the attribute" => Some(Second::AttributePlace),
            "octets needed" => Some(Second::OctetsNeeded),
            "entries needed" => Some(Second::EntriesNeeded),
            "place of the item" => Some(Second::ItemPlace),
            "place of the first one left" => Some(Second::LeftPlace),
            _ => decimal(text).map(Second::Fixed),
        }
    }
}

pub struct Refusal {
    pub line: usize,
    pub number: u64,
    about: About,
    numbers: Vec<Vec<u64>>,
    second: Second,
    jobs: Vec<Job>,
    step: u64,
}

fn refusal(row: &Row) -> Result<Refusal, Fault> {
    let head = Held::Refusals.head();
    let unknown = |column: usize| Fault {
        line: row.line,
        what: format!("'{}' is not known in {}", row.cells[column], head[column]),
    };
    let when = WHEN.iter().find_map(|(about, words, jobs)| {
        numbers_among(words, &row.cells[1]).map(|numbers| (*about, numbers, *jobs))
    });
    let (about, numbers, possible) = when.ok_or_else(|| unknown(1))?;
    let jobs: Option<Vec<Job>> = row.cells[3].split(", ").map(Job::of).collect();
    let jobs = jobs.ok_or_else(|| unknown(3))?;
    if let Some(job) = jobs.iter().find(|job| !possible.contains(job)) {
        return fault(row.line, format!("this cannot come true in the job {}", job.word()));
    }
    Ok(Refusal {
        line: row.line,
        number: decimal(&row.cells[0]).ok_or_else(|| unknown(0))?,
        about,
        numbers,
        second: Second::of(&row.cells[2]).ok_or_else(|| unknown(2))?,
        jobs,
        step: decimal(&row.cells[4]).ok_or_else(|| unknown(4))?,
    })
}

impl Refusal {
    /// Attributes and items are gone over from the left, each tested by all rows of the step.
    fn goes_over(&self) -> Option<&'static str> {
        match self.about {
            About::OctetLeft
            | About::LengthTooSmall
            | About::BehindTheArea
            | About::VendorTooShort
            | About::SubAttribute => Some("attributes"),
            About::BehindTheSheet | About::NoAttribute => Some("items"),
            _ => None,
        }
    }

    fn one(&self, at: usize) -> u64 {
        self.numbers[at][0]
    }

    fn is_not_one_of(&self, at: usize, number: u8) -> bool {
        !self.numbers[at].contains(&u64::from(number))
    }

    fn is_outside(&self, at: usize, number: u64) -> bool {
        number < self.one(at) || number > self.one(at + 1)
    }

    /// Whether the row applies to the attribute that would begin here; the rest of the area.
    fn applies_to_attribute(&self, rest: &[u8]) -> bool {
        if self.about == About::OctetLeft {
            return rest.len() as u64 == self.one(0);
        }
        let (first, length) = match rest {
            [first, length, ..] => (u64::from(*first), u64::from(*length)),
            _ => return false,
        };
        match self.about {
            About::LengthTooSmall => length < self.one(0),
            About::BehindTheArea => length > rest.len() as u64,
            About::VendorTooShort => first == self.one(0) && length < self.one(1),
            About::SubAttribute => first == self.one(0) && self.has_no_sub_attribute(length, rest),
            _ => false,
        }
    }

    /// Refusal 8, for an attribute of its type: the vendor's id is there and is the one named,
    /// and m is not there or is a wrong one.
    fn has_no_sub_attribute(&self, length: u64, rest: &[u8]) -> bool {
        let id = |octets: &[u8]| octets.iter().fold(0, |id, &octet| id << 8 | u64::from(octet));
        if length < 6 || rest.get(2..6).map(id) != Some(self.one(1)) {
            return false;
        }
        match rest.get(7) {
            Some(&m) if length >= 8 => {
                let m = u64::from(m);
                self.is_outside(2, m) || m + self.one(4) != length
            }
            _ => true,
        }
    }

    /// Whether the row applies to the item that should begin here; the rest of the sheet.
    fn applies_to_item(&self, rest: &[u8], gives_attribute: bool) -> bool {
        match self.about {
            About::BehindTheSheet => {
                let stored = rest.get(..4).map_or(0, |head| stored_length(head[2], head[3]));
                (rest.len() as u64) < self.one(0) || rest.len() < 4 + stored && rest.len() >= 4
            }
            About::NoAttribute => !gives_attribute,
            _ => false,
        }
    }

    fn applies_to_area(&self, asked: &AskedOfArea) -> bool {
        match self.about {
            About::Kind => self.is_outside(0, u64::from(asked.kind)),
            About::Flags => self.is_not_one_of(0, asked.flags),
            About::AreaTooLong => asked.area.len() as u64 > self.one(0),
            About::SheetRoom => asked.octets_needed.map_or(false, |needed| needed > asked.room),
            About::ListRoom => asked.entries_needed.map_or(false, |needed| needed > asked.room),
            _ => false,
        }
    }

    fn applies_to_sheet(&self, asked: &AskedOfSheet) -> bool {
        let sheet = asked.sheet;
        match self.about {
            About::Head => {
                let mark: Vec<u8> = self.numbers[1].iter().map(|&octet| octet as u8).collect();
                let version = sheet.get(3..5).map(|v| u64::from(v[0]) << 8 | u64::from(v[1]));
                (sheet.len() as u64) < self.one(0)
                    || !sheet.starts_with(&mark)
                    || version != Some(self.one(2))
            }
            About::HeadKindAndFlags => {
                let kind = sheet.get(5).map_or(false, |&kind| self.is_outside(0, u64::from(kind)));
                kind || sheet.get(6).map_or(false, |&flags| self.is_not_one_of(2, flags))
            }
            About::LeftOver => asked.left.is_some(),
            About::WrittenTooLong => asked.area_length as u64 > self.one(0),
            About::AreaRoom => asked.area_length > asked.room,
            _ => false,
        }
    }
}

/// What reading or checking is asked.
pub struct AskedOfArea<'a> {
    pub kind: u8,
    pub flags: u8,
    pub area: &'a [u8],
    pub room: usize,
    /// The places where attributes begin, up to the first that cannot be passed.
    pub places: &'a [usize],
    pub octets_needed: Option<usize>,
    pub entries_needed: Option<usize>,
}

/// What writing is asked.
pub struct AskedOfSheet<'a> {
    pub sheet: &'a [u8],
    pub room: usize,
    /// The places where items begin, up to the first that cannot be passed, and whether some
    /// attribute gives the item.
    pub items: &'a [(usize, bool)],
    /// The place of the first octet left over behind the last item.
    pub left: Option<usize>,
    pub area_length: usize,
}

/// A refusal that was found to apply: the row, and the place it applies at.
type Found<'a> = (&'a Refusal, usize);

/// The first of those that apply: by step, then from the left, then in the table's order.
fn first<'a>(found: impl Iterator<Item = Found<'a>>) -> Option<Found<'a>> {
    found.min_by_key(|(refusal, place)| (refusal.step, *place))
}

fn print(refusal: &Refusal, second: Option<u64>) -> String {
    match second {
        Some(second) => format!("refused {} {second}", refusal.number),
        None => format!("refused {} without a second number", refusal.number),
    }
}

pub struct Refusals {
    pub rows: Vec<Refusal>,
}

impl Refusals {
    pub fn of(page: &Page) -> Result<Refusals, Fault> {
        let table = page.table(Held::Refusals);
        let rows: Vec<Refusal> = table.rows.iter().map(refusal).collect::<Result<_, _>>()?;
        for job in [Job::Read, Job::Check, Job::Write] {
            steps_are_clear(&rows, job)?;
        }
        Ok(Refusals { rows })
    }

    fn of_job(&self, job: Job) -> impl Iterator<Item = &Refusal> {
        self.rows.iter().filter(move |row| row.jobs.contains(&job))
    }

    pub fn line_of(&self, job: Job, number: u64) -> Option<usize> {
        self.of_job(job).find(|row| row.number == number).map(|row| row.line)
    }

    /// The line that refuses to read or to check, where one does.
    pub fn of_area(&self, job: Job, asked: &AskedOfArea) -> Option<String> {
        let whole = self.of_job(job).filter(|row| row.applies_to_area(asked)).map(|row| (row, 0));
        let attributes = asked.places.iter().flat_map(|&place| {
            let rest = &asked.area[place..];
            let rows = self.of_job(job).filter(|row| row.applies_to_attribute(rest));
            rows.map(move |row| (row, place))
        });
        let (refusal, place) = first(whole.chain(attributes))?;
        let second = match refusal.second {
            Second::Fixed(number) => Some(number),
            Second::AreaLength => Some(asked.area.len()).map(|length| length as u64),
            Second::AttributePlace => refusal.goes_over().map(|_| place as u64),
            Second::OctetsNeeded => asked.octets_needed.map(|needed| needed as u64),
            Second::EntriesNeeded => asked.entries_needed.map(|needed| needed as u64),
            Second::ItemPlace | Second::LeftPlace => None,
        };
        Some(print(refusal, second))
    }

    /// The line that refuses to write, where one does.
    pub fn of_sheet(&self, asked: &AskedOfSheet) -> Option<String> {
        let rows = || self.of_job(Job::Write);
        let whole = rows().filter(|row| row.applies_to_sheet(asked)).map(|row| (row, 0));
        let items = asked.items.iter().flat_map(|&(place, gives_attribute)| {
            let rest = &asked.sheet[place..];
            let rows = rows().filter(move |row| row.applies_to_item(rest, gives_attribute));
            rows.map(move |row| (row, place))
        });
        let (refusal, place) = first(whole.chain(items))?;
        let second = match refusal.second {
            Second::Fixed(number) => Some(number),
            Second::AreaLength | Second::OctetsNeeded => Some(asked.area_length as u64),
            Second::ItemPlace => refusal.goes_over().map(|_| place as u64),
            Second::LeftPlace => asked.left.map(|place| place as u64),
            Second::AttributePlace | Second::EntriesNeeded => None,
        };
        Some(print(refusal, second))
    }
}

/// The steps of a job count from 1 without a gap, and no two rows have the same one, but for
/// those that go over attributes or over items together.
fn steps_are_clear(rows: &[Refusal], job: Job) -> Result<(), Fault> {
    let mut rows: Vec<&Refusal> = rows.iter().filter(|row| row.jobs.contains(&job)).collect();
    rows.sort_by_key(|row| row.step);
    let mut before: Option<&Refusal> = None;
    for row in rows {
        let last = before.map_or(0, |before| before.step);
        let together = row.goes_over().is_some()
            && before.map_or(false, |before| before.goes_over() == row.goes_over());
        let wanted = if together { last } else { last + 1 };
        if row.step != wanted {
            let what = format!("step {} of the job {} should be {wanted}", row.step, job.word());
            return fault(row.line, what);
        }
        before = Some(row);
    }
    Ok(())
}
