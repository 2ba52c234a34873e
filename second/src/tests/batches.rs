//! Generated batches: every record is answered as it is by itself, in order, up to
//! the first broken one, and no input whatever stops the program.

use crate::ask;
use crate::judge;
use crate::makers;
use crate::random::Random;
use crate::tally::Tally;

const BATCHES: usize = 20_000;
const RUBBISH: usize = 20_000;

pub fn run(tally: &mut Tally) {
    cut_batches(tally, &mut Random::from_seed(8));
    rubbish(tally, &mut Random::from_seed(9));
}

/// Records end to end, cut at any octet.
fn cut_batches(tally: &mut Tally, random: &mut Random) {
    for _ in 0..BATCHES {
        let records: Vec<Vec<u8>> = (0..random.below(5)).map(|_| record(random)).collect();
        let whole: usize = records.iter().map(Vec::len).sum();
        let cut = if random.once_in(2) { whole } else { random.below(whole + 1) };
        let mut input = records.concat();
        input.truncate(cut);
        tally.case();
        tally.same(ask::output(&input), wanted(&records, cut), || format!("batch {:02X?}", input));
    }
}

/// The lines of the records that end before the cut; a broken one where it cuts.
fn wanted(records: &[Vec<u8>], cut: usize) -> String {
    let mut lines = String::new();
    let mut end = 0;
    for (number, record) in records.iter().enumerate() {
        if end == cut {
            break;
        }
        end += record.len();
        let line = ask::output(record);
        if end > cut || line == "broken 0\n" {
            lines.push_str(&format!("broken {}\n", number));
            break;
        }
        lines.push_str(&line);
    }
    lines
}

fn record(random: &mut Random) -> Vec<u8> {
    let (kind, flags) = (makers::kind(random), random.pick(&makers::FLAGS));
    let pieces = makers::pieces(random, 3);
    let room = random.pick(&[0, 1, 2, 20, ask::ROOMY]);
    match random.below(12) {
        0 => ask::record(random.pick(b"CR"), room, &[kind][..random.below(2)]),
        1 => ask::record(random.pick(b"cX\0"), room, &[kind, flags]),
        2..=4 => ask::record(b'W', room, &judge::sheet(kind, flags, &pieces)),
        _ => {
            let mut payload = vec![kind, flags];
            payload.extend(makers::joined(&pieces));
            ask::record(random.pick(b"CR"), room, &payload)
        }
    }
}

/// Octets without any order in them, as batch and as payload of each job.
fn rubbish(tally: &mut Tally, random: &mut Random) {
    for _ in 0..RUBBISH {
        let length = random.below(40);
        let mut octets = random.octets(length);
        tally.case();
        tally.holds(ask::output(&octets).ends_with('\n') || length == 0, || "rubbish".to_string());
        if octets.len() > 2 {
            octets[0] = makers::kind(random);
            octets[1] = random.pick(&makers::FLAGS);
        }
        for job in [b'C', b'R', b'W'] {
            let line = ask::output(&ask::record(job, ask::ROOMY, &octets));
            let one_line = line.matches('\n').count() == 1 && line.ends_with('\n');
            tally.holds(one_line, || format!("rubbish {:02X?}", octets));
        }
    }
}
