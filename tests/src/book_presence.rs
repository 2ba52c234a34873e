//! The words of the six columns of kinds, as the table under the numbers explains them: which
//! rule a number breaks by being absent, and which by being there.

use crate::book_attributes::Number;
use crate::book_cells::decimal;
use crate::book_page::{fault, Fault, Held, Page};

#[derive(Clone, Copy)]
enum Where {
    Always,
    FlagsHave(u8),
    FlagsHaveNot(u8),
    Absent(Number),
    There(Number),
}

#[derive(Clone, Copy)]
pub struct Breaks {
    rule: u32,
    at: Where,
}

impl Breaks {
    fn of(text: &str) -> Option<Breaks> {
        let text = text.strip_prefix("breaks rule ")?;
        let (rule, rest) = text.split_once(' ').unwrap_or((text, ""));
        let between = |begin: &str, end: &str| {
            rest.strip_prefix(begin).and_then(|rest| rest.strip_suffix(end)).map(str::to_string)
        };
        let flags = |text: String| decimal(&text).and_then(|flags| u8::try_from(flags).ok());
        let at = if rest.is_empty() {
            Where::Always
        } else if let Some(text) = between("where the flags have ", "") {
            Where::FlagsHave(flags(text)?)
        } else if let Some(text) = between("unless the flags have ", "") {
            Where::FlagsHaveNot(flags(text)?)
        } else if let Some(text) = between("where ", " is absent too") {
            Where::Absent(Number::of(&text)?)
        } else {
            let text =
                between("where a plain ", " (Framed-Protocol) is there, whatever its value")?;
            Where::There(Number::of(&text)?)
        };
        Some(Breaks { rule: decimal(rule)? as u32, at })
    }

    fn rule(self, flags: u8, is_there: impl Fn(Number) -> bool) -> Option<u32> {
        let holds = match self.at {
            Where::Always => true,
            Where::FlagsHave(wanted) => flags & wanted == wanted,
            Where::FlagsHaveNot(wanted) => flags & wanted != wanted,
            Where::Absent(number) => !is_there(number),
            Where::There(number) => is_there(number),
        };
        holds.then_some(self.rule)
    }
}

/// What a word says of a number in a kind.
#[derive(Clone, Copy, Default)]
pub struct Presence {
    pub absent: Option<Breaks>,
    there: Option<Breaks>,
}

impl Presence {
    /// The rule that the number breaks by being absent.
    pub fn broken_absent(self, flags: u8, is_there: impl Fn(Number) -> bool) -> Option<u32> {
        self.absent.and_then(|breaks| breaks.rule(flags, is_there))
    }

    /// The rule that the number breaks by being there.
    pub fn broken_there(self, flags: u8, is_there: impl Fn(Number) -> bool) -> Option<u32> {
        self.there.and_then(|breaks| breaks.rule(flags, is_there))
    }
}

/// The words with their meanings.
pub struct Presences(Vec<(String, Presence)>);

impl Presences {
    pub fn of(page: &Page) -> Result<Presences, Fault> {
        let mut words: Vec<(String, Presence)> = Vec::new();
        for row in &page.table(Held::Presence).rows {
            let meaning = |column: usize| match row.cells[column].as_str() {
                "" => Ok(None),
                text => match Breaks::of(text) {
                    Some(breaks) => Ok(Some(breaks)),
                    None => fault(row.line, format!("'{text}' is not known")),
                },
            };
            let word = &row.cells[0];
            if words.iter().any(|(other, _)| other == word) {
                return fault(row.line, format!("'{word}' has two rows"));
            }
            words.push((word.clone(), Presence { absent: meaning(1)?, there: meaning(2)? }));
        }
        Ok(Presences(words))
    }

    pub fn meaning(&self, word: &str) -> Option<Presence> {
        self.0.iter().find(|(other, _)| other == word).map(|(_, meaning)| *meaning)
    }
}
