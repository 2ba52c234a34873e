//! Framing over whole ranges, and the order of refusals 1 to 8.

use crate::jobs;
use crate::makers;
use crate::random::Random;
use crate::refusal::Refusal;
use crate::tally::Tally;

const ROOM: usize = 100_000;
const BROKEN_AREAS: usize = 60_000;

pub fn run(tally: &mut Tally) {
    every_type_and_length(tally);
    every_sub_length(tally);
    every_kind_and_flags(tally);
    broken_areas(tally, &mut Random::from_seed(4));
    too_long_areas(tally, &mut Random::from_seed(5));
}

/// Read and check must both refuse so, or both not refuse.
fn both(tally: &Tally, kind: u8, flags: u8, area: &[u8], want: Option<(u32, usize)>) {
    let want = want.map(|(number, second)| Refusal { number, second });
    let read = jobs::read(kind, flags, area, ROOM).err();
    let check = jobs::check(kind, flags, area, ROOM).err();
    let about = |job: &str| format!("{} of kind {} flags {} area {:02X?}", job, kind, flags, area);
    tally.same(read, want, || about("read"));
    tally.same(check, want, || about("check"));
}

/// One attribute of each type and length octet, with one octet too few, exactly
/// enough, and one too many. The vendor is 0.
fn every_type_and_length(tally: &mut Tally) {
    for attribute_type in 0..=255_u8 {
        for length in 0..=255_usize {
            for there in [length.max(1) - 1, length, length + 1] {
                let mut area = vec![0; there];
                let head = [attribute_type, length as u8];
                area.iter_mut().zip(head).for_each(|(octet, given)| *octet = given);
                let want = match () {
                    _ if there == 0 => None,
                    _ if there == 1 => Some((4, 0)),
                    _ if length < 2 => Some((5, 0)),
                    _ if there < length => Some((6, 0)),
                    _ if attribute_type == 26 && length < 7 => Some((7, 0)),
                    _ if there > length => Some((4, length)),
                    _ => None,
                };
                tally.case();
                both(tally, 1, 0, &area, want);
            }
        }
    }
}

/// Vendor 10415 with every length n and every m.
fn every_sub_length(tally: &mut Tally) {
    for n in 7..=255_usize {
        for m in 0..=255_usize {
            let mut area = vec![26, n as u8, 0, 0, 0x28, 0xAF, 99, m as u8];
            area.resize(n, 0x31);
            let good = n >= 8 && n <= 254 && m == n - 6;
            tally.case();
            both(tally, 1, 0, &area, if good { None } else { Some((8, 0)) });
        }
    }
}

/// Every kind and flags octet, with a good area and with a broken one.
fn every_kind_and_flags(tally: &mut Tally) {
    for kind in 0..=255_u8 {
        for flags in 0..=255_u8 {
            let want = match (kind, flags) {
                (0 | 7..=255, _) => Some((1, 0)),
                (_, 3 | 7..=255) => Some((2, 0)),
                _ => None,
            };
            tally.case();
            both(tally, kind, flags, &[], want);
            both(tally, kind, flags, &[5, 2, 5], want.or(Some((4, 2))));
        }
    }
}

/// Areas broken at a known place for a known reason.
fn broken_areas(tally: &mut Tally, random: &mut Random) {
    for _ in 0..BROKEN_AREAS {
        let (area, number, place) = makers::broken(random);
        let (kind, flags) = (makers::kind(random), random.pick(&makers::FLAGS));
        tally.case();
        both(tally, kind, flags, &area, Some((number, place)));
        for room in [0, 1] {
            let want = Refusal { number, second: place };
            let about = || format!("framing before room, area {:02X?}", area);
            tally.same(jobs::read(kind, flags, &area, room), Err(want), about);
            tally.same(jobs::check(kind, flags, &area, room), Err(want), about);
        }
    }
}

/// Areas about the limit of 4,076, whole or broken.
fn too_long_areas(tally: &mut Tally, random: &mut Random) {
    for length in (4_060..4_100).chain([5_000, 65_536, 70_001]) {
        let whole = makers::joined(&makers::filling(random, length));
        tally.case();
        both(tally, 1, 0, &whole, if length > 4_076 { Some((3, length)) } else { None });
        let zeros = vec![0; length];
        let want = if length > 4_076 { (3, length) } else { (5, 0) };
        both(tally, 6, 6, &zeros, Some(want));
        both(tally, 0, 0, &zeros, Some((1, 0)));
        both(tally, 1, 3, &zeros, Some((2, 0)));
    }
}
