//! Hand-written edge cases: one for each line of document 01 that a reader could
//! take two ways, wherever a line can be tested. Here: programs and framing.

use crate::ask::{check, items, read, write};
use crate::tally::Tally;

pub fn run(tally: &mut Tally) {
    programs(tally);
    framing(tally);
}

fn programs(tally: &mut Tally) {
    let list = "00660100 00661E00 00670300 00670400 00671A03 00673C00";
    tally.line("rule 7 rises: 3, 4, 26/3, 60", check("01 02 07 06 00 00 00 07"), list);
    let list = "00660100 00661E00 00670200 00670400 00671A03";
    tally.line("rule 7 rises: 2, 4, 26/3", check("01 01 07 06 00 00 00 07"), list);
    let list = "00660800 00661E00 00662800 00662C00 00670400 00671900 00671A03";
    tally.line("rule 7 rises: 4, 25, 26/3", check("02 04 07 06 00 00 00 07"), list);
    let over = "05 02 ".repeat(2_050);
    tally.line("1 before 3", check(&format!("00 00 {}", over)), "refused 1 0");
    tally.line("1 before 2", check("07 03"), "refused 1 0");
    tally.line("2 before 3", check(&format!("01 07 {}", over)), "refused 2 0");
    tally.line("3 with the length", check(&format!("01 00 {}", over)), "refused 3 4100");
    tally.line("3 in reading", read(&format!("01 00 {}", over)), "refused 3 4100");
    let broken = format!("01 00 05 01 {}", over);
    tally.line("3 before 5", read(&broken), "refused 3 4102");
    let long = "00".repeat(70_001);
    tally.line("3 counts to the end", read(&format!("01 00 {}", long)), "refused 3 70001");
    tally.line("2 before framing", check("01 03 04"), "refused 2 0");
    let sheet = read("06 05 1F 05 31 32 33 2C 03 61");
    tally.line("read, then write", write(&sheet), "6 5 1F053132332C0361");
}

fn framing(tally: &mut Tally) {
    tally.line("4 at the lone octet", items("05 02 1A"), "refused 4 2");
    tally.line("5 before 6", items("1A 00"), "refused 5 0");
    tally.line("6 before 7", items("1A 06 00 00 28"), "refused 6 0");
    tally.line("6 before 8", items("1A 09 00 00 28 AF 01 02"), "refused 6 0");
    tally.line("7 without a look at the vendor", items("1A 06 00 00 00 09"), "refused 7 0");
    tally.line("7 at the least length", items("1A 02"), "refused 7 0");
    tally.line("10415 with n = 7 is 8", items("1A 07 00 00 28 AF 01"), "refused 8 0");
    tally.line("other vendor with n = 7", items("1A 07 00 00 28 AE 01"), "1A000005000028AE01");
    tally.line("first vendor octet", items("1A 07 01 00 28 AF 01"), "1A000005010028AF01");
    tally.line("second vendor octet", items("1A 07 00 01 28 AF 01"), "1A000005000128AF01");
    tally.line("third vendor octet", items("1A 07 00 00 29 AF 01"), "1A000005000029AF01");
    tally.line("m too small", items("1A 09 00 00 28 AF 01 02 00"), "refused 8 0");
    tally.line("m too great", items("1A 09 00 00 28 AF 01 04 00"), "refused 8 0");
    tally.line("m below 2", items("1A 08 00 00 28 AF 01 01"), "refused 8 0");
    let two = "1A 0C 00 00 28 AF 0B 03 FF 0B 03 FF";
    tally.line("two sub-attributes in one", items(two), "refused 8 0");
    let value = "AA".repeat(246);
    let read_254 = items(&format!("1A FE 00 00 28 AF 63 F8 {}", value));
    tally.line("n = 254 is read", read_254, &format!("1A6301F6{}", value));
    let n_255 = items(&format!("1A FF 00 00 28 AF 63 F9 {} AA", value));
    tally.line("n = 255 is refused", n_255, "refused 8 0");
    tally.line("the left one fails first", items("05 02 1A 06 00 00 28 AF 05 00"), "refused 7 2");
    tally.line("8 left of 5", items("1A 07 00 00 28 AF 01 05 00"), "refused 8 0");
    tally.line("type 0 is readable", items("00 03 07"), "0000000107");
    tally.line("ends at the area's end", items("FF 02"), "FF000000");
}
