//! The desk's three jobs for callers in Rust: read an attribute area into a sheet, check it, and
//! write a sheet back. docs/BOOK.md says what each does, and what every refusal and entry means.
//!
//! The library behind it, `target/staticlib/libdesk.a` (`include/archive`), is proved: every
//! input is answered, none stops the program, and each answer is the one that the book
//! gives. What is not proved is that the declarations below agree with it; the test beside this
//! file runs them. All of the crate's `unsafe` is here. The archive links into x86-64 programs:
//!
//! ```text
//! rustc -L native=target/staticlib -l static=desk caller.rs      # with `mod gir;`
//! ```
//!
//! Nothing is allocated by `read`, `check` and `write`, nothing is kept after they return, and
//! there is no state between calls. `sheet_of`, `breaches_of` and `message_of` give the same
//! answers in vectors of their own.

/// The longest area that is read, checked or written.
pub const LONGEST_AREA: usize = 4076;

/// No list of breaches is longer.
pub const LONGEST_LIST: usize = 6126;

/// Room that is enough for the sheet of an area of `octets` octets.
pub const fn sheet_room(octets: usize) -> usize {
    if octets > LONGEST_AREA {
        9 + 2 * LONGEST_AREA
    } else {
        9 + 2 * octets
    }
}

/// A refusal of the book: its number, and the second number that goes with it.
#[derive(Clone, Copy, Debug, PartialEq, Eq)]
pub struct Refusal {
    pub number: u32,
    pub second: u64,
}

/// One breach, as its entry in a list says it.
#[derive(Clone, Copy, Debug, PartialEq, Eq)]
pub struct Breach {
    /// Of the attribute for rules 1 to 4, the area's length for rules 5 to 7.
    pub place: u32,
    /// 1 to 7.
    pub rule: u8,
    /// The attribute's type; 26 for vendor 10415.
    pub attribute: u8,
    /// The sub-attribute's number, 0 if there is none.
    pub sub: u8,
}

impl Breach {
    /// What an entry says: 12 bits of place, 4 of the rule, 8 of the type, 8 of the sub-attribute.
    pub const fn of(entry: u32) -> Breach {
        Breach {
            place: entry / 1_048_576,
            rule: (entry / 65_536 % 16) as u8,
            attribute: (entry / 256 % 256) as u8,
            sub: (entry % 256) as u8,
        }
    }
}

/// What a sheet was written to: the area, which stands at the start of the lent buffer, with the
/// kind and flags.
#[derive(Clone, Copy, Debug, PartialEq, Eq)]
pub struct Written<'a> {
    pub area: &'a [u8],
    pub kind: u32,
    pub flags: u32,
}

/// The same with an area of its own.
#[derive(Clone, Debug, PartialEq, Eq)]
pub struct Message {
    pub area: Vec<u8>,
    pub kind: u32,
    pub flags: u32,
}

/// Reads the area into the start of `sheet`, and gives that part. Refuses by 1, by 2, by 3, then
/// attribute by attribute by 4 to 8, then by 9; then `sheet` is as it was. `sheet_room` says how
/// much room is always enough.
pub fn read<'a>(
    area: &[u8],
    kind: u32,
    flags: u32,
    sheet: &'a mut [u8],
) -> Result<&'a [u8], Refusal> {
    // Both slices are good for their lengths, and the borrows keep them apart.
    let answer = unsafe {
        gir_read(area.as_ptr(), area.len(), kind, flags, sheet.as_mut_ptr(), sheet.len())
    };
    let length = answer.length()?;
    Ok(&sheet[..length])
}

/// Checks the area; its breaches go to the start of `list` in rising order, and that part is
/// given. Refuses as `read` does, with 10 for 9; then `list` is as it was. `LONGEST_LIST` entries
/// are always room enough. `Breach::of` tells what an entry says.
pub fn check<'a>(
    area: &[u8],
    kind: u32,
    flags: u32,
    list: &'a mut [u32],
) -> Result<&'a [u32], Refusal> {
    let answer =
        unsafe { gir_check(area.as_ptr(), area.len(), kind, flags, list.as_mut_ptr(), list.len()) };
    let length = answer.length()?;
    Ok(&list[..length])
}

/// Writes the area that the sheet was read from to the start of `area`. Refuses by 20, 21, then
/// items from the left by 22 or 23, then octets that remain by 22, then 24, 25; then `area` is as
/// it was. `LONGEST_AREA` octets are always room enough.
pub fn write<'a>(sheet: &[u8], area: &'a mut [u8]) -> Result<Written<'a>, Refusal> {
    let answer = unsafe { gir_write(sheet.as_ptr(), sheet.len(), area.as_mut_ptr(), area.len()) };
    let length = answer.length()?;
    Ok(Written { area: &area[..length], kind: answer.kind, flags: answer.flags })
}

/// The sheet of an area.
pub fn sheet_of(area: &[u8], kind: u32, flags: u32) -> Result<Vec<u8>, Refusal> {
    let mut sheet = vec![0; sheet_room(area.len())];
    let length = read(area, kind, flags, &mut sheet)?.len();
    sheet.truncate(length);
    Ok(sheet)
}

/// The breaches of an area, in rising order of their entries.
pub fn breaches_of(area: &[u8], kind: u32, flags: u32) -> Result<Vec<Breach>, Refusal> {
    let mut list = vec![0; LONGEST_LIST];
    let entries = check(area, kind, flags, &mut list)?;
    Ok(entries.iter().map(|&entry| Breach::of(entry)).collect())
}

/// The area, kind and flags of a sheet.
pub fn message_of(sheet: &[u8]) -> Result<Message, Refusal> {
    let mut area = vec![0; LONGEST_AREA];
    let written = write(sheet, &mut area)?;
    let (length, kind, flags) = (written.area.len(), written.kind, written.flags);
    area.truncate(length);
    Ok(Message { area, kind, flags })
}

/// `gir_answer` of include/gir.h.
#[repr(C)]
struct Answer {
    refused: u32,
    number: u32,
    second: u64,
    length: u64,
    kind: u32,
    flags: u32,
}

impl Answer {
    /// The octets or entries written, or the refusal.
    fn length(&self) -> Result<usize, Refusal> {
        match self.refused {
            0 => Ok(self.length as usize),
            _ => Err(Refusal { number: self.number, second: self.second }),
        }
    }
}

extern "C" {
    fn gir_read(
        area: *const u8,
        area_len: usize,
        kind: u32,
        flags: u32,
        sheet: *mut u8,
        room: usize,
    ) -> Answer;
    fn gir_check(
        area: *const u8,
        area_len: usize,
        kind: u32,
        flags: u32,
        list: *mut u32,
        room: usize,
    ) -> Answer;
    fn gir_write(sheet: *const u8, sheet_len: usize, area: *mut u8, room: usize) -> Answer;
}
