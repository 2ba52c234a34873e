//! The tables of single answers: the item form by form, the whole sheet, the worked cases, and
//! how an entry is read.

use crate::book_attributes::Number;
use crate::book_cells::{decimal, decimals, hexadecimal, octets, print_octets, range};
use crate::book_desk::{sheet_head, Probe};
use crate::book_numbers::Numbers;
use crate::book_page::{Fault, Held, Page, Row};
use crate::book_probes::{probe_area, AMPLE, KINDS};
use crate::book_refusals::Job;

/// Asks the second program.
pub type Ask<'a> = &'a mut dyn FnMut(Probe) -> String;

/// The cases that the custodian gave; others follow them.
const GIVEN_CASES: usize = 10;

/// What these tables say otherwise than the second program, or than each other. Which
/// questions are asked does not depend on the answers.
pub fn differences(page: &Page, numbers: &Numbers, ask: Ask) -> Vec<Fault> {
    let mut faults = Vec::new();
    for row in &page.table(Held::Forms).rows {
        faults.extend(form_row(row, ask));
    }
    faults.extend(forms_without_a_row(page));
    for (at, row) in page.table(Held::Cases).rows.iter().enumerate() {
        faults.extend(case_row(row, at, page, ask));
    }
    faults.extend(number_of_cases(page));
    faults.extend(whole_sheet(page));
    for row in &page.table(Held::Entries).rows {
        faults.extend(entry_row(row, numbers).err());
    }
    faults
}

fn unknown(row: &Row, column: usize, held: Held) -> Fault {
    let head = held.head()[column];
    let head = if head.is_empty() { "the column without a name" } else { head };
    Fault { line: row.line, what: format!("'{}' is not known in {head}", row.cells[column]) }
}

fn differ(row: &Row, what: &str, page: &str, second: &str) -> Option<Fault> {
    let what = format!("{what}: the page says '{page}', the second program '{second}'");
    (page != second).then_some(Fault { line: row.line, what })
}

/// An attribute is read into its item and written back from it, in every kind.
fn form_row(row: &Row, ask: Ask) -> Vec<Fault> {
    let form = decimal(&row.cells[0]);
    let (attribute, item) = match (octets(&row.cells[2]), octets(&row.cells[3])) {
        (Some(attribute), Some(item)) if item.len() >= 4 => (attribute, item),
        (None, _) => return vec![unknown(row, 2, Held::Forms)],
        _ => return vec![unknown(row, 3, Held::Forms)],
    };
    let mut faults = Vec::new();
    if form != Some(u64::from(item[2])) {
        let what = format!("form {} has an item of form {}", row.cells[0], item[2]);
        faults.push(Fault { line: row.line, what });
    }
    for kind in KINDS {
        let sheet = [sheet_head(kind, 0, 1), item.clone()].concat();
        let read = ask(probe_area(Job::Read, kind, 0, &attribute));
        faults.extend(differ(row, "the attribute is read", &print_octets(&sheet), &read));
        let wrote = ask(Probe { job: Job::Write, room: AMPLE, payload: sheet });
        let line = format!("{kind} 0 {}", print_octets(&attribute));
        faults.extend(differ(row, "the item is written", &line, &wrote));
    }
    faults
}

fn forms_without_a_row(page: &Page) -> Vec<Fault> {
    let table = page.table(Held::Forms);
    let missing = (0..8).filter(|form: &u64| {
        !table.rows.iter().any(|row| decimal(&row.cells[0]).as_ref() == Some(form))
    });
    let fault =
        |form| Fault { line: table.line, what: format!("the table has no row of form {form}") };
    missing.map(fault).collect()
}

/// The area or the sheet of a case: A, a dash for none, or octets.
fn case_octets(row: &Row, page: &Page) -> Option<Vec<u8>> {
    match row.cells[4].as_str() {
        "A" => octets(&page.area.cells[0]),
        "–" => Some(Vec::new()),
        text => octets(text),
    }
}

/// What a case asks, of each of its jobs; or the column that is not known. A sheet has its kind
/// and flags in itself, and a dash stands for them.
fn case_probes(row: &Row, page: &Page) -> Result<Vec<Probe>, usize> {
    let octets = case_octets(row, page).ok_or(4_usize)?;
    let column = |at: usize| row.cells[at].as_str();
    if column(1) == "write" {
        let wrong = [2, 3].into_iter().find(|&at| column(at) != "–");
        let probe = Probe { job: Job::Write, room: AMPLE, payload: octets };
        return wrong.map_or(Ok(vec![probe]), Err);
    }
    let octet = |at: usize| decimal(column(at)).and_then(|n| u8::try_from(n).ok()).ok_or(at);
    let (kind, flags) = (octet(2)?, octet(3)?);
    let area_job = |word| Job::of(word).filter(|&job| job != Job::Write).ok_or(1_usize);
    let jobs: Vec<Job> = column(1).split(", ").map(area_job).collect::<Result<_, _>>()?;
    Ok(jobs.into_iter().map(|job| probe_area(job, kind, flags, &octets)).collect())
}

fn case_row(row: &Row, at: usize, page: &Page, ask: Ask) -> Vec<Fault> {
    let probes = match case_probes(row, page) {
        Ok(probes) => probes,
        Err(column) => return vec![unknown(row, column, Held::Cases)],
    };
    let name = match at.checked_sub(GIVEN_CASES) {
        None => format!("P{}", at + 1),
        Some(behind) => format!("E{}", behind + 1),
    };
    let mut faults = Vec::new();
    if row.cells[0] != name {
        let what = format!("{} should be {name}", row.cells[0]);
        faults.push(Fault { line: row.line, what });
    }
    for probe in probes {
        let what = format!("{name}, {}", probe.job.word());
        faults.extend(differ(row, &what, &row.cells[5], &ask(probe)));
    }
    faults
}

fn number_of_cases(page: &Page) -> Option<Fault> {
    let table = page.table(Held::Cases);
    let what = format!("the table has {} cases and not {GIVEN_CASES}", table.rows.len());
    (table.rows.len() < GIVEN_CASES).then_some(Fault { line: table.line, what })
}

/// How many octets a row of the whole sheet has, and its first place: 0 to 2; 3, 4.
fn places(text: &str) -> Option<(u64, u64)> {
    let pair = |numbers: Vec<u64>| match numbers[..] {
        [one] => Some((one, one)),
        [one, other] if other == one + 1 => Some((one, other)),
        _ => None,
    };
    range(text).or_else(|| decimals(text).and_then(pair))
}

/// The octets of the table end to end are P1's answer, at the places that it names.
fn whole_sheet(page: &Page) -> Vec<Fault> {
    let table = page.table(Held::Sheet);
    let mut sheet = Vec::new();
    for row in &table.rows {
        let (places, octets) = match (places(&row.cells[0]), octets(&row.cells[1])) {
            (Some(places), Some(octets)) => (places, octets),
            (None, _) => return vec![unknown(row, 0, Held::Sheet)],
            _ => return vec![unknown(row, 1, Held::Sheet)],
        };
        let first = sheet.len() as u64;
        sheet.extend(octets);
        if (first, sheet.len() as u64) != (places.0, places.1 + 1) {
            let what = format!("these octets stand at {first} to {}", sheet.len() - 1);
            return vec![Fault { line: row.line, what }];
        }
    }
    let is_p1 = |row: &&Row| row.cells[0] == "P1";
    let answer = page.table(Held::Cases).rows.iter().find(is_p1).map(|row| row.cells[5].as_str());
    let sheet = print_octets(&sheet);
    let what = format!("the octets are {sheet}, and P1's answer {}", answer.unwrap_or("is absent"));
    (answer != Some(&sheet)).then_some(Fault { line: table.line, what }).into_iter().collect()
}

/// The entry's digits are the place, the rule and the number that the other cells name.
fn entry_row(row: &Row, numbers: &Numbers) -> Result<(), Fault> {
    let cell = |column: usize| row.cells[column].as_str();
    let unknown = |column: usize| unknown(row, column, Held::Entries);
    let digits = cell(0).strip_prefix('`').and_then(|text| text.strip_suffix('`')).unwrap_or("");
    hexadecimal(digits, 8).ok_or_else(|| unknown(0))?;
    let (place, place_in_decimal) = cell(1).split_once(" = ").ok_or_else(|| unknown(1))?;
    let place_number = hexadecimal(place, 3).ok_or_else(|| unknown(1))?;
    let (number_digits, name) = cell(3).split_once(", ").ok_or_else(|| unknown(3))?;
    let number = Number::of(name).ok_or_else(|| unknown(3))?;
    let entry = numbers.row(number).entry.map(|entry| format!("{entry:04X}"));
    let rule = decimal(cell(2)).filter(|rule| (1..=7).contains(rule)).ok_or_else(|| unknown(2))?;
    let what = if decimal(place_in_decimal) != Some(u64::from(place_number)) {
        format!("{place} is {place_number} in decimal")
    } else if digits != format!("{place}{rule}{number_digits}") {
        format!("{digits} is not {place} {rule} {number_digits}")
    } else if entry.as_deref() != Some(number_digits) {
        format!("{name} is not {number_digits} in the table of the numbers")
    } else {
        return Ok(());
    };
    Err(Fault { line: row.line, what })
}
