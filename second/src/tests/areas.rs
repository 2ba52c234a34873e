//! Properties of reading, checking and writing back, over generated areas.

use crate::jobs;
use crate::judge::{self, Piece};
use crate::makers;
use crate::random::Random;
use crate::refusal::Refusal;
use crate::sheet::Written;
use crate::tally::Tally;

const ROOM: usize = 100_000;
const SINGLE_AREAS: usize = 160;
const MIXED_AREAS: usize = 150_000;
const LONG_AREAS: usize = 400;

pub fn run(tally: &mut Tally) {
    single_attributes(tally, &mut Random::from_seed(1));
    mixed_areas(tally, &mut Random::from_seed(2));
    long_areas(tally, &mut Random::from_seed(3));
}

/// Each number by itself, many times.
fn single_attributes(tally: &mut Tally, random: &mut Random) {
    for number in 0..=255 {
        for gpp in [false, true] {
            for _ in 0..SINGLE_AREAS {
                let piece = makers::piece_of(random, gpp, number);
                one_area(tally, random, &[piece]);
            }
        }
    }
}

fn mixed_areas(tally: &mut Tally, random: &mut Random) {
    for _ in 0..MIXED_AREAS {
        let pieces = makers::pieces(random, 10);
        one_area(tally, random, &pieces);
    }
}

/// Areas up to the limit, and the lab area of 2,038 two-octet attributes.
fn long_areas(tally: &mut Tally, random: &mut Random) {
    for _ in 0..LONG_AREAS {
        let pieces = makers::pieces(random, 600);
        one_area(tally, random, &pieces);
        let length = random.between(4_000, 4_076);
        let pieces = makers::filling(random, length);
        one_area(tally, random, &pieces);
    }
    for number in [5, 30] {
        let piece = Piece { gpp: false, number, value: Vec::new() };
        one_area(tally, random, &vec![piece; 2_038]);
    }
}

/// All properties of one readable area.
fn one_area(tally: &mut Tally, random: &mut Random, pieces: &[Piece]) {
    let (kind, flags) = (makers::kind(random), random.pick(&makers::FLAGS));
    let area = makers::joined(pieces);
    tally.case();
    sheet_is_right(tally, kind, flags, &area, pieces);
    list_is_right(tally, kind, flags, &area, pieces);
}

fn about(what: &str, kind: u8, flags: u8, area: &[u8]) -> String {
    format!("{}: kind {} flags {} area {:02X?}", what, kind, flags, area)
}

fn sheet_is_right(tally: &Tally, kind: u8, flags: u8, area: &[u8], pieces: &[Piece]) {
    let about = |what: &str| about(what, kind, flags, area);
    let sheet = judge::sheet(kind, flags, pieces);
    let needed = sheet.len();
    tally.same(jobs::read(kind, flags, area, ROOM), Ok(sheet.clone()), || about("the sheet"));
    tally.same(jobs::read(kind, flags, area, needed), Ok(sheet.clone()), || about("exact room"));
    let refused = Err(Refusal { number: 9, second: needed });
    tally.same(jobs::read(kind, flags, area, needed - 1), refused, || about("9"));
    tally.holds(needed <= 9 + 2 * area.len(), || about("length of the sheet"));
    let length = area.len();
    let back = Ok(Written { kind, flags, area: area.to_vec() });
    tally.same(jobs::write(&sheet, length), back, || about("return trip"));
    if length > 0 {
        let refused = Err(Refusal { number: 25, second: length });
        tally.same(jobs::write(&sheet, length - 1), refused, || about("25"));
    }
}

fn list_is_right(tally: &Tally, kind: u8, flags: u8, area: &[u8], pieces: &[Piece]) {
    let about = |what: &str| about(what, kind, flags, area);
    let list = jobs::check(kind, flags, area, ROOM).unwrap_or_default();
    let want = judge::list(kind, flags, pieces, area.len());
    tally.holds(list == want, || {
        format!("{}\n  got  {:08X?}\n  want {:08X?}", about("the list"), list, want)
    });
    tally.holds(list.windows(2).all(|pair| pair[0] < pair[1]), || about("rising"));
    let rules = list.iter().map(|entry| entry >> 16 & 15);
    tally.holds(rules.into_iter().all(|rule| (1..=7).contains(&rule)), || about("rules"));
    let needed = list.len();
    tally.same(jobs::check(kind, flags, area, needed), Ok(list), || about("exact room"));
    if needed > 0 {
        let refused = Err(Refusal { number: 10, second: needed });
        tally.same(jobs::check(kind, flags, area, needed - 1), refused, || about("10"));
    }
}
