//! The lines of the book that a batch should reach: which refusals a job can give, and
//! which breaches are possible in a kind with some flags.

/// A breach without its place: rule, type, sub-attribute number.
pub type Line = (u8, u8, u8);

pub const KINDS: [u8; 6] = [1, 2, 3, 4, 5, 6];
pub const FLAGS: [u8; 6] = [0, 1, 2, 4, 5, 6];

const PLAIN_ONCE: [u8; 22] =
    [1, 2, 3, 4, 6, 7, 8, 9, 30, 31, 32, 40, 41, 42, 43, 44, 45, 46, 47, 48, 49, 60];
const THREE_GPP: [u8; 13] = [1, 2, 3, 4, 5, 6, 7, 8, 9, 10, 11, 12, 18];

/// The refusal numbers of a job.
pub fn refusals(job: char) -> &'static [u32] {
    match job {
        'R' => &[1, 2, 3, 4, 5, 6, 7, 8, 9],
        'C' => &[1, 2, 3, 4, 5, 6, 7, 8, 10],
        _ => &[20, 21, 22, 23, 24, 25],
    }
}

/// Every breach that is possible in this kind with these flags.
pub fn breaches(kind: u8, flags: u8) -> Vec<Line> {
    let plain = |rule: u8, numbers: &[u8]| numbers.iter().map(move |&n| (rule, n, 0)).collect();
    let three_gpp =
        |rule: u8, numbers: &[u8]| numbers.iter().map(move |&n| (rule, 26, n)).collect();
    let lines: [Vec<Line>; 12] = [
        plain(1, &PLAIN_ONCE),
        plain(1, &[18, 24, 25, 61]),
        three_gpp(1, &THREE_GPP),
        plain(2, if kind == 1 { &[6, 7, 45, 49] } else { &[6, 7, 40, 45, 49] }),
        three_gpp(2, &[3, 11, 12]),
        plain(3, &PLAIN_ONCE),
        plain(3, &[61]),
        three_gpp(3, &THREE_GPP),
        three_gpp(4, not_permitted_three_gpp(kind)),
        plain(4, not_permitted_plain(kind, flags)),
        plain(6, mandatory(kind)),
        ends(kind, flags),
    ];
    lines.concat()
}

fn not_permitted_three_gpp(kind: u8) -> &'static [u8] {
    match kind {
        4 | 5 => &THREE_GPP,
        3 => &[],
        _ => &[11],
    }
}

fn not_permitted_plain(kind: u8, flags: u8) -> &'static [u8] {
    match kind {
        1 => &[],
        2 | 3 | 6 if flags & 4 == 0 => &[2, 3, 18, 24, 25],
        _ => &[2, 3, 18, 24],
    }
}

fn mandatory(kind: u8) -> &'static [u8] {
    match kind {
        1 => &[1, 30],
        4 | 5 => &[40],
        _ => &[8, 30, 40, 44],
    }
}

/// Rules 5 and 7.
fn ends(kind: u8, flags: u8) -> Vec<Line> {
    let mut lines = vec![(7, 4, 0)];
    if kind == 1 {
        lines.push((5, 3, 0));
    }
    if kind == 1 && flags & 1 != 0 {
        lines.push((7, 2, 0));
    }
    if kind == 1 && flags & 2 != 0 {
        lines.extend([(7, 3, 0), (7, 60, 0)]);
    }
    if kind == 2 && flags & 4 != 0 {
        lines.push((7, 25, 0));
    }
    if kind != 4 && kind != 5 {
        lines.push((7, 26, 3));
    }
    lines
}
