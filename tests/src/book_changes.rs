//! Changes of the page, each of one cell or row that is held: the comparison has to notice
//! every one of them.

use crate::book_cells::{decimal, hexadecimal, octets, show_octets};
use crate::book_page::{Held, Page, Row, HELD};
use crate::book_refusals::SECOND_WORDS;

pub enum Edit {
    /// Another text in this column.
    Cell(usize, String),
    /// The texts of this column in this row and the next, changed over.
    SwapCell(usize),
    /// This row and the next, changed over.
    SwapRow,
    Remove,
}

pub struct Change {
    /// Nothing for the area called A.
    pub held: Option<Held>,
    pub row: usize,
    edit: Edit,
}

impl Change {
    /// The page with this change.
    pub fn made_in(&self, page: &Page) -> Page {
        let mut page = page.clone();
        let held = match self.held {
            Some(held) => held,
            None => {
                if let Edit::Cell(column, text) = &self.edit {
                    page.area.cells[*column] = text.clone();
                }
                return page;
            }
        };
        let rows = &mut page.table_mut(held).rows;
        match &self.edit {
            Edit::Cell(column, text) => rows[self.row].cells[*column] = text.clone(),
            Edit::SwapCell(column) => {
                let text = std::mem::take(&mut rows[self.row].cells[*column]);
                let next = std::mem::replace(&mut rows[self.row + 1].cells[*column], text);
                rows[self.row].cells[*column] = next;
            }
            Edit::SwapRow => rows.swap(self.row, self.row + 1),
            Edit::Remove => {
                rows.remove(self.row);
            }
        }
        page
    }

    /// The line of the page, and the change in words.
    pub fn tell(&self, page: &Page) -> (usize, String) {
        let held = match self.held {
            Some(held) => held,
            None => return (page.area.line, "another octet in A".to_string()),
        };
        let row = &page.table(held).rows[self.row];
        let what = match &self.edit {
            Edit::Cell(column, text) => {
                format!("'{text}' for '{}' in {}", row.cells[*column], held.head()[*column])
            }
            Edit::SwapCell(column) => {
                format!("{} changed over with the next row", held.head()[*column])
            }
            Edit::SwapRow => "the row changed over with the next".to_string(),
            Edit::Remove => "the row removed".to_string(),
        };
        (row.line, what)
    }
}

/// Every change that is tried.
pub fn changes(page: &Page) -> Vec<Change> {
    let mut changes = Vec::new();
    for held in HELD {
        let rows = &page.table(held).rows;
        for (at, row) in rows.iter().enumerate() {
            let edits = match held {
                Held::Refusals => refusal_edits(row, rows.get(at + 1)),
                Held::Numbers => number_edits(row, rows.get(at + 1), page),
                Held::Presence => presence_edits(row, rows),
                Held::Forms => form_edits(row, rows),
                Held::Sheet => sheet_edits(row),
                Held::Entries => entry_edits(row),
                Held::Cases => case_edits(row, rows.get(at + 1), rows),
            };
            let change = |edit| Change { held: Some(held), row: at, edit };
            changes.extend(edits.into_iter().map(change));
        }
    }
    let octets = octets_moved(&page.area.cells[0]);
    let change = |text| Change { held: None, row: 0, edit: Edit::Cell(0, text) };
    changes.extend(octets.into_iter().map(change));
    changes
}

/// The texts with one of the decimal numbers one more or one less.
fn numbers_moved(text: &str) -> Vec<String> {
    let words: Vec<&str> = text.split(' ').collect();
    let mut texts = Vec::new();
    for (at, word) in words.iter().enumerate() {
        let number = word.trim_end_matches([',', ':']);
        if let Some(value) = decimal(number) {
            for moved in [Some(value + 1), value.checked_sub(1)].into_iter().flatten() {
                let mut others: Vec<String> = words.iter().map(|word| word.to_string()).collect();
                others[at] = format!("{moved}{}", &word[number.len()..]);
                texts.push(others.join(" "));
            }
        }
    }
    texts
}

/// The texts with one of the octets one more or one less.
fn octets_moved(text: &str) -> Vec<String> {
    let octets = octets(text).unwrap_or_default();
    let mut texts = Vec::new();
    for at in 0..octets.len() {
        for by in [1, 255] {
            let mut moved = octets.clone();
            moved[at] = moved[at].wrapping_add(by);
            texts.push(show_octets(&moved));
        }
    }
    texts
}

/// The texts with one of the hexadecimal digits one more or one less.
fn digits_moved(text: &str) -> Vec<String> {
    let mut texts = Vec::new();
    for at in 0..text.len() {
        if let Some(digit) = text.get(at..=at).and_then(|digit| hexadecimal(digit, 1)) {
            for by in [1, 15] {
                texts.push(format!("{}{:X}{}", &text[..at], (digit + by) % 16, &text[at + 1..]));
            }
        }
    }
    texts
}

/// The other words of a column.
fn others<'a>(words: impl IntoIterator<Item = &'a str>, text: &str) -> Vec<String> {
    let mut others: Vec<String> = words.into_iter().map(str::to_string).collect();
    others.sort();
    others.dedup();
    others.retain(|word| word != text);
    others
}

fn cells(column: usize, texts: Vec<String>) -> impl Iterator<Item = Edit> {
    texts.into_iter().map(move |text| Edit::Cell(column, text))
}

fn refusal_edits(row: &Row, next: Option<&Row>) -> Vec<Edit> {
    let mut edits = vec![Edit::Remove];
    edits.extend(cells(0, numbers_moved(&row.cells[0])));
    let mut when = numbers_moved(&row.cells[1]);
    // With n = 7 no octet is left for m, so m = 1 is never met and this bound says the same.
    when.retain(|text| !text.contains("m is not 1 to 248"));
    edits.extend(cells(1, when));
    edits.extend(cells(1, parts_of_flags_left_out(&row.cells[1])));
    let mut second = others(SECOND_WORDS, &row.cells[2]);
    second.extend(numbers_moved(&row.cells[2]));
    if row.cells[3] == "write" {
        // In writing, the octets needed are those of the area.
        let same = ["the area's length", "octets needed"];
        second.retain(|word| {
            !same.contains(&row.cells[2].as_str()) || !same.contains(&word.as_str())
        });
    }
    edits.extend(cells(2, second));
    let jobs = ["read", "check", "write", "read, check", "read, write", "check, write"];
    edits.extend(cells(3, others(jobs, &row.cells[3])));
    edits.extend(cells(4, numbers_moved(&row.cells[4])));
    if let Some(next) = next {
        let differs = |column: &usize| next.cells[*column] != row.cells[*column];
        edits.extend([0, 4].into_iter().filter(differs).map(Edit::SwapCell));
        // Of 4, 5 and 6 no two are true of the same attribute, so their order says nothing.
        if row.cells[0] == "6" || row.cells[0] == "7" {
            edits.push(Edit::SwapRow);
        }
    }
    edits
}

/// The texts with one of the flags left out, where they are listed at the end.
fn parts_of_flags_left_out(text: &str) -> Vec<String> {
    let words = "flags are not one of ";
    let (begin, flags) = match text.find(words) {
        Some(at) => text.split_at(at + words.len()),
        None => return Vec::new(),
    };
    parts_left_out(flags, ", ").iter().map(|flags| format!("{begin}{flags}")).collect()
}

fn number_edits(row: &Row, next: Option<&Row>, page: &Page) -> Vec<Edit> {
    let rows = &page.table(Held::Numbers).rows;
    let words = || page.table(Held::Presence).rows.iter().map(|row| row.cells[0].as_str());
    let column = |at: usize| rows.iter().map(move |row| row.cells[at].as_str());
    let mut edits = vec![Edit::Remove];
    edits.extend(cells(0, numbers_moved(&row.cells[0])));
    edits.extend(cells(1, digits_moved(&row.cells[1])));
    edits.extend(cells(3, others(column(3), &row.cells[3])));
    edits.extend(cells(3, numbers_moved(&row.cells[3])));
    edits.extend(cells(4, others(["0", "1", "2", "3", "4", "5", "6", "7"], &row.cells[4])));
    edits.extend(cells(5, others(column(5).chain(["0 to 14"]), &row.cells[5])));
    edits.extend(cells(5, numbers_moved(&row.cells[5])));
    edits.extend(cells(5, parts_left_out(&row.cells[5], ", ")));
    for kind in 6..12 {
        let mut words = others(words(), &row.cells[kind]);
        // A 7 cannot be absent where a 7 is there.
        words.retain(|word| row.cells[0] != "7" || word != "if 7");
        edits.extend(cells(kind, words));
    }
    edits.extend(cells(12, others(["once", "any"], &row.cells[12])));
    if next.is_some() {
        edits.extend([Edit::SwapCell(0), Edit::SwapCell(1)]);
    }
    edits
}

fn presence_edits(row: &Row, rows: &[Row]) -> Vec<Edit> {
    let mut edits = vec![Edit::Remove];
    for column in 0..3 {
        let words = rows.iter().map(|row| row.cells[column].as_str());
        edits.extend(cells(column, others(words, &row.cells[column])));
        edits.extend(cells(column, numbers_moved(&row.cells[column])));
    }
    edits
}

/// The texts with one of the parts left out, of several.
fn parts_left_out(text: &str, between: &str) -> Vec<String> {
    let parts: Vec<&str> = text.split(between).collect();
    let left_out = |at: usize| {
        let kept = parts.iter().enumerate().filter(|(part, _)| *part != at);
        kept.map(|(_, part)| *part).collect::<Vec<_>>().join(between)
    };
    (0..parts.len()).filter(|_| parts.len() > 1).map(left_out).collect()
}

fn form_edits(row: &Row, rows: &[Row]) -> Vec<Edit> {
    let mut edits = Vec::new();
    edits.extend(cells(0, numbers_moved(&row.cells[0])));
    edits.extend(cells(2, octets_moved(&row.cells[2])));
    edits.extend(cells(3, octets_moved(&row.cells[3])));
    // One of several rows of the same form is an example that may be left out.
    if rows.iter().filter(|other| other.cells[0] == row.cells[0]).count() == 1 {
        edits.push(Edit::Remove);
    }
    edits
}

fn sheet_edits(row: &Row) -> Vec<Edit> {
    let mut edits = vec![Edit::Remove];
    edits.extend(cells(0, numbers_moved(&row.cells[0])));
    edits.extend(cells(1, octets_moved(&row.cells[1])));
    edits
}

/// A row is an example, so none is removed.
fn entry_edits(row: &Row) -> Vec<Edit> {
    let mut edits = Vec::new();
    edits.extend(cells(0, digits_moved(&row.cells[0])));
    edits.extend(cells(1, digits_moved(&row.cells[1])));
    edits.extend(cells(2, numbers_moved(&row.cells[2])));
    edits.extend(cells(3, numbers_moved(&row.cells[3])));
    let (digits, name) = row.cells[3].split_once(", ").unwrap_or(("", ""));
    let digits = digits_moved(digits).into_iter().map(|digits| format!("{digits}, {name}"));
    edits.extend(cells(3, digits.collect()));
    edits
}

/// Only changes that make a case untrue. The last one is an example that may be left out.
fn case_edits(row: &Row, next: Option<&Row>, rows: &[Row]) -> Vec<Edit> {
    let mut edits = kind_and_flags_edits(row);
    // A wrong kind and wrong flags are refused whatever the area is.
    if is_taken(row) {
        let alike =
            rows.iter().filter(|other| (other.cells[1] == "write") == (row.cells[1] == "write"));
        edits.extend(cells(4, others(alike.map(|other| other.cells[4].as_str()), &row.cells[4])));
    }
    if row.cells[5].starts_with("refused") {
        edits.extend(cells(5, numbers_moved(&row.cells[5])));
    } else {
        edits.extend(cells(5, digits_moved(&row.cells[5])));
        edits.extend(cells(5, parts_left_out(&row.cells[5], " ")));
        // A refusal is the same in both jobs, a sheet or list is not.
        edits.extend(cells(1, others(["read", "check", "read, check"], &row.cells[1])));
    }
    if next.is_some() {
        edits.extend([Edit::SwapCell(0), Edit::Remove]);
    }
    edits
}

/// Whether kind and flags are such as are not refused; those of a sheet stand in the sheet.
fn is_taken(row: &Row) -> bool {
    let among = |words: &[&str], column: usize| words.contains(&row.cells[column].as_str());
    let kind = among(&["1", "2", "3", "4", "5", "6", "–"], 2);
    kind && among(&["0", "1", "2", "4", "5", "6", "–"], 3)
}

/// An ON and an OFF get the same list, and flags are mostly without effect, so kinds and flags
/// become such as are refused, or such as are not; in a sheet that is read they show.
fn kind_and_flags_edits(row: &Row) -> Vec<Edit> {
    let mut edits = Vec::new();
    if is_taken(row) {
        edits.extend(cells(2, others(["0", "7"], &row.cells[2])));
        edits.extend(cells(3, others(["3", "7", "8"], &row.cells[3])));
    } else {
        let right =
            |column: usize| ["1", "2", "4"].map(|text| Edit::Cell(column, text.to_string()));
        edits.extend(right(if row.cells[3] == "0" { 2 } else { 3 }));
    }
    if row.cells[1] == "read" && !row.cells[5].starts_with("refused") {
        edits.extend(cells(2, numbers_moved(&row.cells[2])));
        edits.extend(cells(3, numbers_moved(&row.cells[3])));
    }
    edits
}
