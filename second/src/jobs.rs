//! The desk's three jobs, each with the room its answer may take.

use crate::breaches::{breaches, Case};
use crate::framing::{attributes, Attribute, LONGEST_AREA};
use crate::kinds::{flags_allowed, kind_allowed};
use crate::refusal::{self, refuse, Refusal};
use crate::sheet::{area_of, sheet_of, Written};

/// Read: kind, flags and area give a sheet.
pub fn read(kind: u8, flags: u8, area: &[u8], room: usize) -> Result<Vec<u8>, Refusal> {
    let attributes = admit(kind, flags, area)?;
    let sheet = sheet_of(kind, flags, &attributes);
    if sheet.len() > room {
        return refuse(refusal::NO_ROOM_FOR_SHEET, sheet.len());
    }
    Ok(sheet)
}

/// Check: the same inputs give the list of breaches, rising.
pub fn check(kind: u8, flags: u8, area: &[u8], room: usize) -> Result<Vec<u32>, Refusal> {
    let attributes = admit(kind, flags, area)?;
    let case = Case { kind, flags, area_length: area.len(), attributes: &attributes };
    let list: Vec<u32> = breaches(&case).into_iter().collect();
    if list.len() > room {
        return refuse(refusal::NO_ROOM_FOR_LIST, list.len());
    }
    Ok(list)
}

/// Write: a sheet gives back kind, flags and area.
pub fn write(sheet: &[u8], room: usize) -> Result<Written, Refusal> {
    let written = area_of(sheet)?;
    let length = written.area.len();
    if length > LONGEST_AREA {
        return refuse(refusal::WRITTEN_TOO_LONG, length);
    }
    if length > room {
        return refuse(refusal::NO_ROOM_FOR_AREA, length);
    }
    Ok(written)
}

/// What read and check refuse alike: 1, 2, 3, then 4 to 8.
fn admit(kind: u8, flags: u8, area: &[u8]) -> Result<Vec<Attribute<'_>>, Refusal> {
    if !kind_allowed(kind) {
        return refuse(refusal::KIND, 0);
    }
    if !flags_allowed(flags) {
        return refuse(refusal::FLAGS, 0);
    }
    if area.len() > LONGEST_AREA {
        return refuse(refusal::AREA_TOO_LONG, area.len());
    }
    attributes(area)
}
