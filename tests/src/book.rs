//! Holds the tables of docs/BOOK.md against the answers of the second program.
//!
//!     book ask PAGE                writes the batch that the second program is to answer
//!     book judge PAGE ANSWERS      compares its answers with what the tables say
//!
//! Where the page agrees with the answers, it is changed in memory, one cell after the other,
//! and each changed page has to disagree with them: what is not noticed is not held.

use std::cmp::Reverse;
use std::collections::{BTreeMap, HashMap, HashSet};
use std::io::{self, BufWriter, Write};
use std::iter;
use std::process::exit;

mod book_area_probes;
mod book_attributes;
mod book_cells;
mod book_changes;
mod book_desk;
mod book_numbers;
mod book_page;
mod book_presence;
mod book_probes;
mod book_refusals;
mod book_samples;
mod book_shapes;
mod book_sheet_probes;
mod book_tell;

use book_attributes::{Number, ALL_NUMBERS};
use book_changes::{changes, Change};
use book_desk::{cut, Book, Probe};
use book_numbers::Numbers;
use book_page::{Fault, Held, Page, Row, HELD};
use book_probes::probes;
use book_refusals::Job;
use book_tell::Teller;

/// How many lines of the page are told of where answers differ.
const TOLD: usize = 12;

/// What the examples of these pages ask, each question once.
fn questions(pages: impl Iterator<Item = Page>, numbers: &Numbers) -> Vec<Probe> {
    let mut asked = Vec::new();
    let mut known = HashSet::new();
    for page in pages {
        let mut ask = |probe: Probe| {
            if known.insert(probe.clone()) {
                asked.push(probe);
            }
            String::new()
        };
        book_samples::differences(&page, numbers, &mut ask);
    }
    asked
}

/// The page, and all that its examples are changed to.
fn pages_with_examples(page: &Page) -> impl Iterator<Item = Page> + '_ {
    let changed = changes(page).into_iter().filter(is_in_examples);
    iter::once(page.clone()).chain(changed.map(move |change| change.made_in(page)))
}

/// Whether a change is one of the examples, and not of what all probes are judged by.
fn is_in_examples(change: &Change) -> bool {
    !matches!(change.held, Some(Held::Numbers | Held::Presence | Held::Refusals))
}

fn ask(page: &Page, numbers: &Numbers) -> io::Result<()> {
    let mut out = BufWriter::new(io::stdout().lock());
    let questions = questions(pages_with_examples(page), numbers);
    for probe in probes().iter().chain(&questions) {
        out.write_all(&probe.record())?;
    }
    out.flush()
}

/// The second program's answers.
struct Answers<'a> {
    probes: Vec<Probe>,
    lines: Vec<&'a str>,
    /// The answers to what the page's examples ask.
    examples: HashMap<Probe, &'a str>,
    /// For each number the probes that have it, the shortest first.
    with_number: Vec<Vec<usize>>,
    /// For each job and refusal the probes that are refused so, the shortest first. Those
    /// that are not refused stand under 0.
    refused: HashMap<(Job, u64), Vec<usize>>,
}

impl<'a> Answers<'a> {
    fn of(text: &'a str, page: &Page, numbers: &Numbers) -> Result<Answers<'a>, String> {
        let (probes, questions) = (probes(), questions(pages_with_examples(page), numbers));
        let mut lines: Vec<&str> = text.lines().collect();
        let asked = probes.len() + questions.len();
        if lines.len() != asked {
            return Err(format!("{asked} were asked and {} answered", lines.len()));
        }
        let examples = questions.into_iter().zip(lines.split_off(probes.len())).collect();
        let mut with_number = vec![Vec::new(); ALL_NUMBERS];
        let mut refused: HashMap<(Job, u64), Vec<usize>> = HashMap::new();
        let mut by_length: Vec<usize> = (0..probes.len()).collect();
        by_length.sort_by_key(|&at| probes[at].payload.len());
        for at in by_length {
            let probe = &probes[at];
            let refusal =
                lines[at].strip_prefix("refused ").and_then(|rest| rest.split(' ').next());
            let refusal = refusal.map_or(0, |number| number.parse().unwrap_or(0));
            refused.entry((probe.job, refusal)).or_default().push(at);
            for number in numbers_in(probe).into_iter().filter(|_| refusal == 0) {
                with_number[usize::from(number.0)].push(at);
            }
        }
        Ok(Answers { probes, lines, examples, with_number, refused })
    }

    fn differs(&self, book: &Book, at: usize) -> bool {
        book.answer(&self.probes[at]) != self.lines[at]
    }

    fn differences_in_examples(&self, page: &Page, numbers: &Numbers) -> Vec<Fault> {
        let mut ask = |probe: Probe| self.examples[&probe].to_string();
        book_samples::differences(page, numbers, &mut ask)
    }
}

/// The numbers that an area has; of a long one, which mostly has one number only, the first.
fn numbers_in(probe: &Probe) -> Vec<Number> {
    const LONG: usize = 64;
    if probe.job == Job::Write {
        return Vec::new();
    }
    let area = &probe.payload[2..];
    let attributes = cut(area).attributes;
    let looked_at = if area.len() > LONG { attributes.len().min(1) } else { attributes.len() };
    let mut numbers: Vec<Number> = Vec::new();
    for attribute in &attributes[..looked_at] {
        if !numbers.contains(&attribute.number) {
            numbers.push(attribute.number);
        }
    }
    numbers
}

/// Everything in which the page differs from the answers, by its line: how often, and the
/// first.
fn differences(page: &Page, book: &Book, answers: &Answers) -> BTreeMap<usize, (usize, String)> {
    let teller = Teller { page, book };
    let mut told: BTreeMap<usize, (usize, String)> = BTreeMap::new();
    let mut add = |fault: Fault| told.entry(fault.line).or_insert((0, fault.what)).0 += 1;
    for (probe, second) in answers.probes.iter().zip(&answers.lines) {
        let ours = book.answer(probe);
        if ours != *second {
            add(teller.tell(probe, &ours, second));
        }
    }
    answers.differences_in_examples(page, &book.numbers).into_iter().for_each(&mut add);
    book.numbers.forms_that_do_not_fit().into_iter().for_each(&mut add);
    told
}

/// The probes that a change of the numbers or the refusals most likely shows in: groups of
/// them, of each its shortest first.
fn likely<'a>(change: &Change, page: &Page, answers: &'a Answers) -> Vec<&'a [usize]> {
    const SHORTEST: usize = 100;
    let rows = |held| page.table(held).rows.iter().skip(change.row).take(2);
    let groups: Vec<&[usize]> = match change.held {
        Some(Held::Numbers) => {
            let numbers = rows(Held::Numbers).filter_map(number_looked_at).chain(Number::of("7"));
            numbers.map(|number| answers.with_number[usize::from(number.0)].as_slice()).collect()
        }
        Some(Held::Presence) => vec![&answers.refused[&(Job::Check, 0)]],
        _ => {
            let numbers = rows(Held::Refusals).filter_map(|row| book_cells::decimal(&row.cells[0]));
            let jobs = [Job::Write, Job::Read, Job::Check];
            let keys = numbers.chain([0]).flat_map(|number| jobs.map(|job| (job, number)));
            keys.filter_map(|key| answers.refused.get(&key)).map(Vec::as_slice).collect()
        }
    };
    let begins = groups.iter().map(|group| &group[..group.len().min(SHORTEST)]);
    begins.chain(groups.iter().copied()).collect()
}

/// The number of a row, and one of those that have no row for the rows of all others.
fn number_looked_at(row: &Row) -> Option<Number> {
    match row.cells[0].as_str() {
        "other" => Number::of("33"),
        "3GPP other" => Number::of("3GPP 13"),
        text => Number::of(text),
    }
}

/// Whether the comparison notices a change.
fn is_noticed(change: &Change, page: &Page, answers: &Answers) -> bool {
    let changed = change.made_in(page);
    let book = match Book::of(&changed) {
        Ok(book) => book,
        Err(_) => return true,
    };
    if is_in_examples(change) {
        return !answers.differences_in_examples(&changed, &book.numbers).is_empty();
    }
    let mut first = likely(change, page, answers).into_iter().flatten();
    first.any(|&at| answers.differs(&book, at))
        || !book.numbers.forms_that_do_not_fit().is_empty()
        || !answers.differences_in_examples(page, &book.numbers).is_empty()
        || (0..answers.probes.len()).any(|at| answers.differs(&book, at))
}

/// Prints differences, the line with the most of them first: the others may be what comes of it.
fn tell(name: &str, told: BTreeMap<usize, (usize, String)>) {
    let mut told: Vec<(usize, (usize, String))> = told.into_iter().collect();
    told.sort_by_key(|(_, (count, _))| Reverse(*count));
    for (line, (count, first)) in told.iter().take(TOLD) {
        match count {
            1 => eprintln!("{name}:{line}: {first}"),
            _ => eprintln!("{name}:{line}: {first} ({count} differences, this is the first)"),
        }
    }
    let count: usize = told.iter().map(|(_, (count, _))| count).sum();
    eprintln!("book: {count} differences; lines of the page: {}", told.len());
}

/// Holds the page against the answers; what to print, and whether all is well.
fn judge(name: &str, page: &Page, book: &Book, answers: &Answers) -> bool {
    let told = differences(page, book, answers);
    if !told.is_empty() {
        tell(name, told);
        return false;
    }
    let changes = changes(page);
    let missed: Vec<&Change> =
        changes.iter().filter(|change| !is_noticed(change, page, answers)).collect();
    for change in &missed {
        let (line, what) = change.tell(page);
        eprintln!("{name}:{line}: a change is not noticed: {what}");
    }
    let examples = questions(iter::once(page.clone()), &book.numbers);
    let count = answers.lines.len() + examples.len();
    let (rows, tables) = (page.rows(), HELD.len());
    let held = format!("{rows} rows of {tables} tables, {count} answers, 0 differences");
    match missed.len() {
        0 => println!("book: {held}; {} altered tables, all noticed", changes.len()),
        n => eprintln!("book: {held}; {} altered tables, {n} not noticed", changes.len()),
    }
    missed.is_empty()
}

fn run(words: &[String]) -> Result<bool, String> {
    let read = |path: &String| std::fs::read_to_string(path).map_err(|e| format!("{path}: {e}"));
    let (name, answers) = match words {
        [job, page] if job == "ask" => (page, None),
        [job, page, answers] if job == "judge" => (page, Some(answers)),
        _ => return Err("usage: book ask PAGE, or book judge PAGE ANSWERS".into()),
    };
    let told = |fault: Fault| format!("{name}:{}: {}", fault.line, fault.what);
    let page = Page::of(&read(name)?).map_err(told)?;
    let book = Book::of(&page).map_err(told)?;
    match answers {
        None => ask(&page, &book.numbers).map(|()| true).map_err(|error| error.to_string()),
        Some(path) => {
            let text = read(path)?;
            let answers = Answers::of(&text, &page, &book.numbers)?;
            Ok(judge(name, &page, &book, &answers))
        }
    }
}

fn main() {
    let words: Vec<String> = std::env::args().skip(1).collect();
    match run(&words) {
        Ok(true) => {}
        Ok(false) => exit(1),
        Err(reason) => {
            eprintln!("book: {reason}");
            exit(1);
        }
    }
}
