//! The page docs/BOOK.md: the tables that are held, their rows and cells, each with its line.

/// What is wrong with a line of the page, counted from 1.
pub struct Fault {
    pub line: usize,
    pub what: String,
}

pub fn fault<T>(line: usize, what: impl Into<String>) -> Result<T, Fault> {
    Err(Fault { line, what: what.into() })
}

#[derive(Clone)]
pub struct Row {
    pub line: usize,
    pub cells: Vec<String>,
}

#[derive(Clone)]
pub struct Table {
    /// The line of the table's head.
    pub line: usize,
    pub rows: Vec<Row>,
}

/// A table that is held.
#[derive(Clone, Copy, PartialEq)]
pub enum Held {
    Refusals,
    Forms,
    Sheet,
    Numbers,
    Presence,
    Entries,
    Cases,
}

/// In the order of the variants.
pub const HELD: [Held; 7] = [
    Held::Refusals,
    Held::Forms,
    Held::Sheet,
    Held::Numbers,
    Held::Presence,
    Held::Entries,
    Held::Cases,
];

impl Held {
    /// The heading that the table stands under.
    fn heading(self) -> &'static str {
        match self {
            Held::Refusals => "Refusals",
            Held::Forms | Held::Sheet => "The item, form by form",
            Held::Numbers | Held::Presence => "The numbers",
            Held::Entries => "Reading an entry",
            Held::Cases => "Worked cases",
        }
    }

    /// The cells of the table's head.
    pub fn head(self) -> Vec<&'static str> {
        let head = match self {
            Held::Refusals => "No.|When|Second number|Jobs|Step",
            Held::Forms => "Form|Stores|Attribute in the area|Item in the sheet",
            Held::Sheet => "Octets of the sheet||Say",
            Held::Numbers => {
                "No.|Entry|Name|Shape|Form|Allowed values\
                 |1 Access|2 START|3 STOP|4 ON|5 OFF|6 Interim|Often"
            }
            Held::Presence => "Presence|Absent|There",
            Held::Entries => "Entry|Place|Rule|Number|In words",
            Held::Cases => "Case|Job|Kind|Flags|Area, or sheet|Answer",
        };
        head.split('|').collect()
    }
}

#[derive(Clone)]
pub struct Page {
    tables: Vec<Table>,
    /// The area called A: one cell with its octets.
    pub area: Row,
}

impl Page {
    pub fn of(text: &str) -> Result<Page, Fault> {
        let lines: Vec<&str> = text.lines().collect();
        let tables = HELD.iter().map(|&held| table(&lines, held)).collect::<Result<_, _>>()?;
        Ok(Page { tables, area: area_called_a(&lines)? })
    }

    pub fn table(&self, held: Held) -> &Table {
        &self.tables[held as usize]
    }

    pub fn table_mut(&mut self, held: Held) -> &mut Table {
        &mut self.tables[held as usize]
    }

    pub fn rows(&self) -> usize {
        self.tables.iter().map(|table| table.rows.len()).sum()
    }
}

/// The cells of a table's line, or nothing where it is no line of a table.
fn cells(line: &str) -> Option<Vec<String>> {
    let inner = line.trim().strip_prefix('|')?.strip_suffix('|')?;
    Some(inner.split('|').map(|cell| cell.trim().to_string()).collect())
}

fn is_rule_under_a_head(line: &str) -> bool {
    line.starts_with("|-") && line.chars().all(|sign| sign == '|' || sign == '-')
}

/// The lines under a heading, up to the next heading: from which index to which.
fn section(lines: &[&str], heading: &str) -> Result<(usize, usize), Fault> {
    let is_heading = |line: &str| line.starts_with('#');
    let named = |line: &str| is_heading(line) && line.trim_start_matches('#').trim() == heading;
    let start = match lines.iter().position(|line| named(line)) {
        Some(start) => start,
        None => return fault(lines.len(), format!("the page has no heading '{heading}'")),
    };
    let behind = lines[start + 1..].iter().position(|line| is_heading(line));
    Ok((start, behind.map_or(lines.len(), |count| start + 1 + count)))
}

fn table(lines: &[&str], held: Held) -> Result<Table, Fault> {
    let (from, to) = section(lines, held.heading())?;
    let wanted = held.head();
    let heads: Vec<usize> = (from..to.saturating_sub(1))
        .filter(|&at| cells(lines[at]).is_some() && is_rule_under_a_head(lines[at + 1]))
        .collect();
    let head = |at: usize| cells(lines[at]).unwrap_or_default();
    let whole = heads.iter().find(|&&at| head(at) == wanted);
    let begun = heads.iter().find(|&&at| head(at)[0] == wanted[0]);
    match (whole, begun) {
        (Some(&at), _) => Ok(Table { line: at + 1, rows: rows(lines, at, wanted.len())? }),
        (None, Some(&at)) => {
            fault(at + 1, format!("the table's head should be | {} |", wanted.join(" | ")))
        }
        (None, None) => fault(
            from + 1,
            format!("no table under this heading has the head | {} |", wanted.join(" | ")),
        ),
    }
}

/// The rows of the table with its head at this index.
fn rows(lines: &[&str], head: usize, width: usize) -> Result<Vec<Row>, Fault> {
    let mut rows = Vec::new();
    for (at, text) in lines.iter().enumerate().skip(head + 2) {
        if !text.trim_start().starts_with('|') {
            break;
        }
        let cells = cells(text).unwrap_or_default();
        if cells.len() != width {
            let what = format!("the row has {} cells, the table's head {width}", cells.len());
            return fault(at + 1, what);
        }
        rows.push(Row { line: at + 1, cells });
    }
    if rows.is_empty() {
        return fault(head + 1, "the table has no rows");
    }
    Ok(rows)
}

fn area_called_a(lines: &[&str]) -> Result<Row, Fault> {
    let (from, to) = section(lines, Held::Sheet.heading())?;
    let begin = "**A whole sheet.** The area `";
    for (at, text) in lines.iter().enumerate().take(to).skip(from) {
        if let Some((octets, _)) = text.strip_prefix(begin).and_then(|rest| rest.split_once('`')) {
            return Ok(Row { line: at + 1, cells: vec![octets.to_string()] });
        }
    }
    fault(from + 1, format!("no line under this heading begins with {begin}"))
}
