//! P1 to P10 of document 01, P2 and P5 as request 1 of document 02 amends them, and the
//! corners of the batch format.

use crate::ask::{check, line, octets, output, read, record, write, ROOMY};
use crate::tally::Tally;

const A: &str = "04 06 0A 00 00 01 1A 0D 00 00 28 AF 08 07 30 30 31 30 31";
const SHEET_OF_A: &str = "474952000104000002040003040A0000011A08040500101F";
/// The list of A in kind 4.
const LIST_OF_A: &str = "00641A08 01362800";
/// An ON without a breach.
const CLEAN_ON: &str = "04 00 04 06 00 00 00 00 28 06 00 00 00 07";

pub fn run(tally: &mut Tally) {
    seen_at_the_desk(tally);
    batch_lines(tally);
    batch_rooms(tally);
    batch_broken(tally);
}

fn seen_at_the_desk(tally: &mut Tally) {
    tally.line("P1", read(&format!("04 00 {}", A)), SHEET_OF_A);
    tally.line("P2", check(&format!("04 00 {}", A)), LIST_OF_A);
    let four = "01360800 01361E00 01362800 01362C00";
    tally.line("P3", check(&format!("03 00 {}", A)), four);
    tally.line("P4", check("01 00"), "00060100 00061E00 00070400");
    tally.line("P5", check("04 00"), "00062800 00070400");
    let refused = [
        ("P6", "01 00 04", "refused 4 0"),
        ("P7", "01 00 04 01", "refused 5 0"),
        ("P8", "01 00 1A 07", "refused 6 0"),
        ("P9", "01 00 1A 06 00 00 28 AF", "refused 7 0"),
        ("P10", "01 03", "refused 2 0"),
    ];
    for (name, payload, want) in refused {
        tally.line(name, read(payload), want);
        tally.line(name, check(payload), want);
    }
    let back = "4 0 04060A0000011A0D000028AF08073030313031";
    tally.line("P1 written back", write(SHEET_OF_A), back);
}

fn batch_lines(tally: &mut Tally) {
    tally.line("check of nothing", check(""), "short");
    tally.line("check of a kind alone", check("01"), "short");
    tally.line("short before refusal 1", check("09"), "short");
    tally.line("read of nothing", read(""), "short");
    tally.line("read of a kind alone", read("01"), "short");
    tally.line("write knows no short", write(""), "refused 20 0");
    tally.line("empty list", check(CLEAN_ON), "");
    tally.line("empty area read", read("01 00"), "474952000101000000");
    tally.line("empty area written", write("47 49 52 00 01 01 00 00 00"), "1 0 ");
    tally.line("flags in decimal", write("47 49 52 00 01 06 06 00 00"), "6 6 ");
    tally.line("no record", output(b""), "");
    let mut both = record(b'C', ROOMY, &octets(CLEAN_ON));
    both.extend(record(b'W', ROOMY, b""));
    both.extend(record(b'C', ROOMY, &octets("04 00")));
    tally.line("lines in order", output(&both), "\nrefused 20 0\n00062800 00070400\n");
}

fn batch_rooms(tally: &mut Tally) {
    let payload = octets(&format!("04 00 {}", A));
    let sheet = octets(SHEET_OF_A);
    tally.line("room for the list", line(b'C', 2, &payload), LIST_OF_A);
    tally.line("no room for the list", line(b'C', 1, &payload), "refused 10 2");
    tally.line("no room at all", line(b'C', 0, &payload), "refused 10 2");
    tally.line("room for the sheet", line(b'R', 24, &payload), SHEET_OF_A);
    tally.line("no room for the sheet", line(b'R', 23, &payload), "refused 9 24");
    let back = "4 0 04060A0000011A0D000028AF08073030313031";
    tally.line("room for the area", line(b'W', 19, &sheet), back);
    tally.line("no room for the area", line(b'W', 18, &sheet), "refused 25 19");
    tally.line("greatest room", line(b'C', u32::MAX, &payload), LIST_OF_A);
    tally.line("an empty list wants no room", line(b'C', 0, &octets(CLEAN_ON)), "");
    tally.line("room is in entries", line(b'C', 3, &[1, 0]), "00060100 00061E00 00070400");
    tally.line("entries needed", line(b'C', 2, &[1, 0]), "refused 10 3");
}

fn batch_broken(tally: &mut Tally) {
    let good = record(b'C', ROOMY, &[4, 0]);
    tally.line("another job", output(b"X"), "broken 0\n");
    tally.line("small letter", output(&record(b'c', 9, &[4, 0])), "broken 0\n");
    for cut in 1..good.len() {
        let got = output(&good[..cut]);
        tally.line("record cut short", got, "broken 0\n");
        let mut second = good.clone();
        second.extend(&good[..cut]);
        tally.line("second record cut", output(&second), "00062800 00070400\nbroken 1\n");
    }
    let mut far = b"R\0\0\0\x01".to_vec();
    far.extend([0xFF; 4]);
    far.extend(b"octets");
    tally.line("length far past the end", output(&far), "broken 0\n");
    let mut ended = good.clone();
    ended.extend(record(b'Z', 0, b""));
    ended.extend(&good);
    tally.line("nothing after a broken one", output(&ended), "00062800 00070400\nbroken 1\n");
}
