//! Probes for the refusals of reading and checking: each at its edges, and two faults at once.

use crate::book_desk::Probe;
use crate::book_probes::{probe_area, AMPLE};
use crate::book_refusals::Job;

const AREA_JOBS: [Job; 2] = [Job::Read, Job::Check];

/// Attributes that can be read: plain, 3GPP, another vendor's.
const GOOD: [&[u8]; 3] =
    [&[33, 3, 0], &[26, 9, 0, 0, 0x28, 0xAF, 99, 3, 0], &[26, 8, 0, 0, 0x01, 0x37, 5, 6]];

/// The area of the page's example, and a short message.
const SMALL_AREAS: [&[u8]; 6] = [
    &[],
    &[33, 2],
    &[1, 5, 0x62, 0x6F, 0x62],
    &[4, 6, 10, 0, 0, 1, 26, 13, 0, 0, 0x28, 0xAF, 8, 7, 0x30, 0x30, 0x31, 0x30, 0x31],
    &[31, 5, 0x31, 0x32, 0x33, 40, 6, 0, 0, 0, 9, 40, 6, 0, 0, 0, 9, 18, 2],
    &[26, 9, 0, 0, 0x28, 0xAF, 11, 3, 1, 7, 6, 0, 0, 0, 7, 2, 3, 1, 3, 3, 1],
];

pub fn area_probes() -> Vec<Probe> {
    let mut probes = kinds_and_flags();
    for area in broken_areas() {
        probes.extend(AREA_JOBS.map(|job| probe_area(job, 1, 0, &area)));
    }
    probes.extend(great_lengths());
    probes.extend(conflicts());
    probes.extend(rooms());
    probes
}

/// Every kind, every flags number, and both of them wrong.
fn kinds_and_flags() -> Vec<Probe> {
    let mut probes = Vec::new();
    for job in AREA_JOBS {
        for number in 0..=255 {
            probes.push(probe_area(job, number, 0, &[]));
            probes.push(probe_area(job, 1, number, &[]));
            probes.push(probe_area(job, number, 3, &[]));
            probes.push(probe_area(job, number, number, SMALL_AREAS[2]));
        }
    }
    probes
}

/// Attributes of every small length where every small number of octets is left.
fn small_attributes() -> Vec<Vec<u8>> {
    let mut areas = Vec::new();
    for begin in [1, 25, 26, 27, 33] {
        for length in 0..=10_u8 {
            for id in [[0, 0, 0x28, 0xAF], [0, 0, 0x28, 0xAE]] {
                let whole =
                    [[begin, length].as_slice(), &id, &[1, length.wrapping_sub(6), 33, 2]].concat();
                areas.extend((1..=whole.len()).map(|left| whole[..left].to_vec()));
            }
        }
    }
    areas
}

/// Type 26 and its neighbours with each vendor's id, lengths n and m at their edges.
fn vendor_attributes() -> Vec<Vec<u8>> {
    let ids: [[u8; 4]; 7] = [
        [0, 0, 0x28, 0xAF],
        [0, 0, 0x28, 0xAE],
        [0, 0, 0x28, 0xB0],
        [0, 0, 0x29, 0xAF],
        [0, 1, 0x28, 0xAF],
        [1, 0, 0x28, 0xAF],
        [0, 0, 0x01, 0x37],
    ];
    let mut areas = Vec::new();
    for begin in [25, 26, 27] {
        for id in ids {
            for n in [7, 8, 9, 10, 11, 16, 252, 253, 254, 255] {
                for m in sub_lengths(n) {
                    let mut area = [[begin, n].as_slice(), &id, &[7, m]].concat();
                    area.resize(usize::from(n), 0);
                    areas.push(area);
                }
            }
        }
    }
    areas
}

/// Lengths m to be tried in an attribute of length n.
fn sub_lengths(n: u8) -> Vec<u8> {
    let mut lengths = vec![0, 1, 2, 3, 4, 246, 247, 248, 249, 250, 255];
    lengths.extend((3..=9).map(|less| n.saturating_sub(less)));
    lengths
}

/// Faults that end an area, and such that can be passed over.
fn faults() -> Vec<Vec<u8>> {
    vec![
        vec![1],
        vec![26],
        vec![1, 0],
        vec![26, 1],
        vec![1, 9],
        vec![26, 6],
        vec![26, 9, 0, 0, 0x28, 0xAF],
        vec![26, 2],
        vec![26, 6, 0, 0, 0x28, 0xAF],
        vec![26, 6, 0, 0, 0x01, 0x37],
        vec![26, 7, 0, 0, 0x28, 0xAF, 1],
        vec![26, 8, 0, 0, 0x28, 0xAF, 1, 3],
        vec![26, 9, 0, 0, 0x28, 0xAF, 1, 2, 0],
    ]
}

/// Broken areas and their readable neighbours, alone and behind a good attribute; and each
/// fault before each other, with and without a good attribute between.
fn broken_areas() -> Vec<Vec<u8>> {
    let mut areas = small_attributes();
    areas.extend(vendor_attributes());
    let behind: Vec<Vec<u8>> = areas.iter().map(|area| [GOOD[0], area].concat()).collect();
    areas.extend(behind);
    for one in faults() {
        areas.extend(GOOD.map(|good| [good, &one].concat()));
        for other in faults() {
            areas.push([one.as_slice(), &other].concat());
            areas.extend(GOOD.map(|good| [one.as_slice(), good, &other].concat()));
            areas.extend(GOOD.map(|good| [good, one.as_slice(), &other].concat()));
        }
    }
    areas
}

/// A readable area of this length: attributes of two octets and a last one of two or three.
fn area_of(length: usize) -> Vec<u8> {
    let mut area = [33, 2].repeat(length / 2);
    if length % 2 == 1 {
        let end = area.len();
        area[end - 1] = 3;
        area.push(0);
    }
    area
}

/// Lengths about 4,076 and far above, readable and broken first or last.
fn great_lengths() -> Vec<Probe> {
    let mut probes = Vec::new();
    for length in [4_070, 4_075, 4_076, 4_077, 4_078, 5_000, 8_153, 66_000] {
        let good = area_of(length);
        let broken_first = [[33, 0].as_slice(), &good[2..]].concat();
        let broken_last = [&area_of(length - 1), [33].as_slice()].concat();
        for area in [good, broken_first, broken_last] {
            for (kind, flags) in [(1, 0), (4, 6), (0, 0), (7, 3), (1, 3)] {
                for job in AREA_JOBS {
                    for room in [0, 1, 2, 3, 2 * length as u32, AMPLE] {
                        probes.push(Probe { room, ..probe_area(job, kind, flags, &area) });
                    }
                }
            }
        }
    }
    probes
}

/// Kind and flags wrong, alone and together, with each broken area and with little room.
fn conflicts() -> Vec<Probe> {
    let mut areas = faults();
    areas.extend(SMALL_AREAS.map(<[u8]>::to_vec));
    let mut probes = Vec::new();
    for area in areas {
        for (kind, flags) in [(0, 0), (7, 0), (1, 3), (6, 7), (0, 3), (7, 8), (1, 0)] {
            for job in AREA_JOBS {
                for room in [0, 1, AMPLE] {
                    probes.push(Probe { room, ..probe_area(job, kind, flags, &area) });
                }
            }
        }
    }
    probes
}

/// Every room from none to more than is needed.
fn rooms() -> Vec<Probe> {
    let mut probes = Vec::new();
    for area in SMALL_AREAS {
        for kind in [1, 2, 4] {
            for job in AREA_JOBS {
                for room in 0..=64 {
                    probes.push(Probe { room, ..probe_area(job, kind, 0, area) });
                }
            }
        }
    }
    probes
}
