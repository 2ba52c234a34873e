//! Hand-written edge cases of breaches, rule by rule, and of request 1 of document 02.

use crate::ask::{check, gpp, line, octets, plain, ROOMY};
use crate::tally::Tally;

/// ON and OFF, each with the value its status must have.
const ON_AND_OFF: [(u8, u32); 2] = [(4, 7), (5, 8)];
/// A 32, so that an ON or OFF wants its status only.
const NAS: &str = "20 03 41";

pub fn run(tally: &mut Tally) {
    shapes_checked(tally);
    values_checked(tally);
    status_checked(tally);
    repeats(tally);
    permitted(tally);
    at_the_end(tally);
    status_wanted(tally);
    status_present(tally);
    status_again(tally);
    status_elsewhere(tally);
    status_in_order(tally);
    status_in_other_kinds(tally);
}

/// A check whose list is shown without the entries that stand at the area's end.
fn list_within(kind: u8, flags: u8, area: &str) -> String {
    let area = octets(area);
    let end = format!("{:03X}", area.len());
    let mut payload = vec![kind, flags];
    payload.extend(area);
    let list = line(b'C', ROOMY, &payload);
    let within: Vec<&str> = list.split(' ').filter(|entry| !entry.starts_with(&end)).collect();
    within.join(" ")
}

/// An Acct-Status-Type in hexadecimal.
fn status(value: u32) -> String {
    format!("28 06 {:08X}", value)
}

/// A check with flags 0, its whole list.
fn list(kind: u8, area: &str) -> String {
    check(&format!("{:02X} 00 {}", kind, area))
}

fn shapes_checked(tally: &mut Tally) {
    let missed = [
        "01 02", "02 02", "12 02", "18 02", "19 02", "1E 02", "20 02", "03 02", "1F 02", "2C 02",
        "06 02", "07 02", "28 02", "29 02", "2A 02", "2B 02", "2D 02", "2E 02", "2F 02", "30 02",
        "31 02", "3D 02", "04 02", "08 02", "09 02",
    ];
    for area in missed {
        let want = format!("0001{}00", &area[..2]);
        tally.line("rule 1, plain and empty", list_within(1, 0, area), &want);
    }
    for sub in 1..=12 {
        let mut want = format!("00011A{:02X}", sub);
        if sub == 11 {
            want.push_str(" 00041A0B");
        }
        tally.line("rule 1, 3GPP and empty", list_within(1, 0, &gpp(sub, "")), &want);
    }
    for sub in [0, 13, 14, 15, 16, 17, 19, 20, 255] {
        tally.line("3GPP without a shape", list_within(1, 0, &gpp(sub, "")), "");
    }
    let password = |n: usize| list_within(1, 0, &plain(2, &"p".repeat(n)));
    for (octets, want) in [(15, "00010200"), (16, ""), (17, "00010200"), (128, "")] {
        tally.line("password", password(octets), want);
    }
    tally.line("password of 144", password(144), "00010200");
    let chap = |n: usize| list_within(1, 0, &plain(3, &"p".repeat(n)));
    for (octets, want) in [(16, "00010300"), (17, ""), (18, "00010300")] {
        tally.line("CHAP password", chap(octets), want);
    }
    tally.line("challenge of 4", list_within(1, 0, &plain(60, "1234")), "00013C00");
    tally.line("challenge of 5", list_within(1, 0, &plain(60, "12345")), "");
}

fn values_checked(tally: &mut Tally) {
    let number = |kind: u8, attribute_type: u8, value: u32| {
        list_within(kind, 0, &format!("{:02X}06{:08X}", attribute_type, value))
    };
    for (attribute_type, value, want) in [
        (6, 2, ""),
        (6, 1, "00020600"),
        (7, 7, ""),
        (7, 6, "00020700"),
        (45, 0, "00022D00"),
        (45, 1, ""),
        (45, 2, ""),
        (45, 3, "00022D00"),
        (49, 0, "00023100"),
        (49, 1, ""),
        (49, 18, ""),
        (49, 19, "00023100"),
        (49, 0x0100_0001, "00023100"),
        (41, 99, ""),
        (61, 99, ""),
    ] {
        tally.line("allowed number", number(1, attribute_type, value), want);
    }
    let pdp = |value: u8| list_within(1, 0, &format!("1A0C000028AF0306000000{:02X}", value));
    tally.line("PDP type 0", pdp(0), "");
    tally.line("PDP type 1", pdp(1), "00021A03");
    let stop = |octet: u8| list_within(3, 0, &format!("1A09000028AF0B03{:02X}", octet));
    tally.line("11 is 255", stop(255), "");
    tally.line("11 is 254", stop(254), "00021A0B");
    for (text, want) in [("0", ""), ("2", ""), ("3", "00021A0C"), ("9", "00021A0C")] {
        tally.line("12 is 0 to 2", list_within(1, 0, &gpp(12, text)), want);
    }
    tally.line("a missed shape is rule 1 alone", list_within(1, 0, "06 05 00 00 09"), "00010600");
}

fn status_checked(tally: &mut Tally) {
    for (kind, allowed) in [(2, 1), (3, 2), (4, 7), (5, 8), (6, 3)] {
        for value in 0..10 {
            let got = list_within(kind, 0, &format!("2806000000{:02X}", value));
            let want = if value == allowed { "" } else { "00022800" };
            tally.line("40 by kind", got, want);
        }
    }
    for value in 0..10 {
        let got = list_within(1, 0, &format!("2806000000{:02X}", value));
        tally.line("40 is free in kind 1", got, "");
    }
    tally.line("40 in kind 1 has four octets", list_within(1, 0, "28 03 01"), "00012800");
}

fn repeats(tally: &mut Tally) {
    tally.line("neighbours", list_within(1, 0, "1E 03 31 1E 03 31"), "00331E00");
    tally.line("far apart", list_within(1, 0, "1E 03 31 05 02 1E 03 31"), "00531E00");
    let thrice = list_within(1, 0, "1E 03 31 05 02 1E 03 31 05 02 1E 03 31");
    tally.line("at every later one", thrice, "00531E00 00A31E00");
    let misshapen = list_within(1, 0, "1E 02 1E 03 31");
    tally.line("a misshapen one is there", misshapen, "00011E00 00231E00");
    for number in 0..=255_u8 {
        let listed = matches!(number, 1..=4 | 6..=9 | 30..=32 | 40..=49 | 60 | 61);
        let body = if number == 26 { "07 00 00 00 01 00" } else { "02" };
        let area = format!("{:02X} {} {:02X} {}", number, body, number, body);
        let got = list_within(1, 0, &area).contains(&format!("3{:02X}00", number));
        tally.line("rule 3, plain", got.to_string(), &listed.to_string());
        let listed = matches!(number, 1..=12 | 18);
        let area = format!("{}{}", gpp(number, ""), gpp(number, ""));
        let got = list_within(1, 0, &area).contains(&format!("0831A{:02X}", number));
        tally.line("rule 3, 3GPP", got.to_string(), &listed.to_string());
    }
    let mixed = format!("07 06 00 00 00 07 {}", gpp(7, "addr"));
    tally.line("plain against 3GPP", list_within(1, 0, &mixed), "");
    let three = format!("{}{}", gpp(11, ""), gpp(11, ""));
    let want = "00011A0B 00041A0B 00811A0B 00831A0B 00841A0B";
    tally.line("1, 3 and 4 at one place, two clauses once", list_within(4, 0, &three), want);
}

fn permitted(tally: &mut Tally) {
    for kind in 1..=6 {
        for sub in 0..=255_u8 {
            let listed = matches!(sub, 1..=12 | 18);
            let barred = if sub == 11 { kind != 3 } else { listed && (kind == 4 || kind == 5) };
            let got = list_within(kind, 0, &gpp(sub, "")).contains(&format!("041A{:02X}", sub));
            tally.line("rule 4, 3GPP", got.to_string(), &barred.to_string());
        }
        for number in (0..=255_u8).filter(|&number| number != 26) {
            for flags in [0, 1, 2, 4, 5, 6] {
                let request_only = matches!(number, 2 | 3 | 18 | 24) && kind != 1;
                let class = number == 25 && matches!(kind, 2 | 3 | 6) && flags < 4;
                let area = format!("{:02X} 02", number);
                let got = list_within(kind, flags, &area).contains(&format!("04{:02X}00", number));
                tally.line("rule 4, plain", got.to_string(), &(request_only || class).to_string());
            }
        }
    }
}

fn at_the_end(tally: &mut Tally) {
    let both = "02 02 03 02";
    tally.line(
        "rule 5 names 3",
        check(&format!("01 00 {}", both)),
        "00010200 00210300 00450300 00460100 00461E00 00470400",
    );
    tally.line(
        "rule 5 in kind 1 only",
        check(&format!("04 00 {}", both)),
        "00010200 00040200 00210300 00240300 00462800 00470400",
    );
    tally.line("32 will do for 4", check("04 00 20 03 41 28 06 00 00 00 07"), "");
    tally.line("a misshapen 4 is present", check("04 00 04 02"), "00010400 00262800");
    let clean = "01 03 41 1E 03 31 20 03 41";
    tally.line("clean request", check(&format!("01 00 {}", clean)), "");
    tally.line("PAP wants 2", check(&format!("01 01 {}", clean)), "00970200");
    tally.line("CHAP wants 3 and 60", check(&format!("01 02 {}", clean)), "00970300 00973C00");
    tally.line("a Class flag in kind 1", check(&format!("01 04 {}", clean)), "");
    tally.line("flags in ON", check("04 06 20 03 41 28 06 00 00 00 07"), "");
    let session = "08 06 00 00 00 00 1E 03 31 20 03 41 28 06 00 00 00";
    let id = plain(44, "0000000000000000");
    for (kind, status) in [(2, "01"), (3, "02"), (6, "03")] {
        let area = format!("{} {} {}", session, status, id);
        tally.line("clean session", check(&format!("{:02X} 00 {}", kind, area)), "");
        let want = if kind == 2 { "02471900" } else { "" };
        tally.line("Class in START only", check(&format!("{:02X} 04 {}", kind, area)), want);
        tally.line("PAP is of kind 1", check(&format!("{:02X} 01 {}", kind, area)), "");
    }
    framed_protocol(tally);
}

fn framed_protocol(tally: &mut Tally) {
    let base = "20 03 41 01 03 41 1E 03 31";
    let framed = format!("{} 07 06 00 00 00 07", base);
    tally.line("7 wants 3GPP 3", check(&format!("01 00 {}", framed)), "00F71A03");
    let misshapen = format!("{} 07 02", base);
    tally.line(
        "a misshapen 7 wants it",
        check(&format!("01 00 {}", misshapen)),
        "00910700 00B71A03",
    );
    let gateway = format!("{} {}", base, gpp(7, "addr"));
    tally.line("3GPP 7 wants nothing", check(&format!("01 00 {}", gateway)), "");
    let bad = format!("{} {}", framed, gpp(3, "\0\0\0\u{1}"));
    tally.line("a bad PDP type is not absent", check(&format!("01 00 {}", bad)), "00F21A03");
    let short = format!("{} {}", framed, gpp(3, ""));
    tally.line(
        "a misshapen PDP type is not absent",
        check(&format!("01 00 {}", short)),
        "00F11A03",
    );
    for (kind, own) in ON_AND_OFF {
        let on = format!("{:02X} 00 20 03 41 07 06 00 00 00 07 {}", kind, status(own));
        tally.line("3GPP 3 not wanted in ON and OFF", check(&on), "");
    }
    for kind in [2, 3, 6] {
        let area = format!("{:02X} 00 07 06 00 00 00 07", kind);
        let want = "00660800 00661E00 00662800 00662C00 00670400 00671A03";
        tally.line("3GPP 3 in a session", check(&area), want);
    }
}

/// Request 1: 40 is mandatory in ON and OFF, and 44 is not.
fn status_wanted(tally: &mut Tally) {
    let id = plain(44, "0000000000000000");
    let fifteen = format!("05FF{}", "11".repeat(253)).repeat(15);
    let filler = format!("{} 05F8{}", fifteen, "11".repeat(246));
    for (kind, own) in ON_AND_OFF {
        let own = status(own);
        tally.line("clean, no 44", list(kind, &format!("{} {}", NAS, own)), "");
        tally.line("clean, status first", list(kind, &format!("{} {}", own, NAS)), "");
        let whole = format!("04 06 0A 00 00 01 1E 03 31 {}", NAS);
        tally.line("clean, 4, 30 and 32", list(kind, &format!("{} {}", whole, own)), "");
        tally.line("clean, with 44", list(kind, &format!("{} {} {}", NAS, own, id)), "");
        let misshapen = list(kind, &format!("{} {} 2C 02", NAS, own));
        tally.line("44 keeps its shape", misshapen, "00912C00");
        let twice = list(kind, &format!("{} {} {} {}", NAS, own, id, id));
        tally.line("44 comes once", twice, "01B32C00");
        tally.line("no status", list(kind, NAS), "00362800");
        tally.line("no status, 4, 30 and 32", list(kind, &whole), "00C62800");
        tally.line("no status, 44 there", list(kind, &format!("{} {}", NAS, id)), "01562800");
        let longest = list(kind, &format!("{} {}", NAS, filler));
        tally.line("no status in 4,076 octets", longest, "FEC62800");
    }
}

/// A status that is wrong in value or shape is there all the same.
fn status_present(tally: &mut Tally) {
    for (kind, own) in ON_AND_OFF {
        let of_other_kinds = [1, 2, 3, 7, 8].into_iter().filter(|&value| value != own);
        for value in of_other_kinds.chain([0, 4, 5, 6, 9, 15, 255, u32::MAX]) {
            let got = list(kind, &format!("{} {}", NAS, status(value)));
            tally.line("a wrong status is rule 2 and there", got, "00322800");
        }
        for high in [0x0000_0100, 0x0001_0000, 0x0100_0000, 0x8000_0000] {
            let got = list(kind, &format!("{} {}", NAS, status(high + own)));
            tally.line("all four octets of the status count", got, "00322800");
        }
        for shift in [8, 16, 24] {
            let got = list(kind, &format!("{} {}", NAS, status(own << shift)));
            tally.line("the status stands in the last octet", got, "00322800");
        }
        let (three, five) = (format!("28 05 {:06X}", own), format!("28 07 {:010X}", own));
        for misshapen in ["28 02", &format!("28 03 {:02X}", own), &three, &five] {
            let got = list(kind, &format!("{} {}", NAS, misshapen));
            tally.line("a misshapen status is rule 1 and there", got, "00312800");
        }
    }
}

/// A second status is rule 3, whatever the first one was.
fn status_again(tally: &mut Tally) {
    for (kind, right) in ON_AND_OFF {
        let (right, wrong) = (status(right), status(1));
        for (shows, statuses, want) in [
            ("two right ones", [&right, &right], "00932800"),
            ("a wrong one, then a right one", [&wrong, &right], "00322800 00932800"),
            ("a right one, then a wrong one", [&right, &wrong], "00922800 00932800"),
            ("two wrong ones", [&wrong, &wrong], "00322800 00922800 00932800"),
        ] {
            let area = format!("{} {} {}", NAS, statuses[0], statuses[1]);
            tally.line(shows, list(kind, &area), want);
        }
        let misshapen = list(kind, &format!("{} 28 02 {}", NAS, right));
        tally.line("a misshapen one, then a right one", misshapen, "00312800 00532800");
        let apart = list(kind, &format!("{} {} {}", right, NAS, right));
        tally.line("a status apart from the first", apart, "00932800");
    }
}

/// A 40 inside a type 26 is no status.
fn status_elsewhere(tally: &mut Tally) {
    for (kind, own) in ON_AND_OFF {
        let sub = format!("1A 0C 00 00 28 AF {}", status(own));
        let other = format!("1A 0C 00 00 00 09 {}", status(own));
        for (shows, inside) in [("3GPP 40", &sub), ("another vendor's 40", &other)] {
            tally.line(shows, list(kind, &format!("{} {}", NAS, inside)), "00F62800");
            let beside = list(kind, &format!("{} {} {}", NAS, inside, status(own)));
            tally.line(shows, beside, "");
        }
        let wrong = list(kind, &format!("{} {}", NAS, gpp(40, "")));
        tally.line("3GPP 40 has no shape", wrong, "00B62800");
    }
}

/// The entry comes after those of rules 1 to 4 and before rule 7; flags add nothing.
fn status_in_order(tally: &mut Tally) {
    for (kind, own) in ON_AND_OFF {
        for flags in [0, 1, 2, 4, 5, 6] {
            let list = |area: &str| check(&format!("{:02X} {:02X} {}", kind, flags, area));
            tally.line("empty", list(""), "00062800 00070400");
            tally.line("clean", list(&format!("{} {}", NAS, status(own))), "");
            tally.line("status alone", list(&status(own)), "00670400");
            tally.line("32 alone", list(NAS), "00362800");
            tally.line("7 wants nothing", list("07 06 00 00 00 07"), "00662800 00670400");
            let both = "00010200 00040200 00210300 00240300 00462800 00470400";
            tally.line("no rule 5 before it", list("02 02 03 02"), both);
            tally.line("Class is permitted", list("19 03 41"), "00362800 00370400");
            let location = format!("04 06 0A 00 00 01 {}", gpp(8, "00101"));
            tally.line("rule 4 before it", list(&location), "00641A08 01362800");
        }
    }
}

/// Request 1 says nothing of the other kinds.
fn status_in_other_kinds(tally: &mut Tally) {
    let request = "01 03 41 1E 03 31 20 03 41";
    tally.line("not wanted in kind 1", list(1, request), "");
    tally.line("kind 1, empty", list(1, ""), "00060100 00061E00 00070400");
    for value in [0, 1, 2, 3, 7, 8, 9, 255, 0x0100_0007, u32::MAX] {
        let got = list(1, &format!("{} {}", request, status(value)));
        tally.line("any value in kind 1", got, "");
    }
    let twice = list(1, &format!("{} {} {}", request, status(7), status(7)));
    tally.line("kind 1, but once", twice, "00F32800");
    for kind in [2, 3, 6] {
        let want = "00060800 00061E00 00062800 00062C00 00070400";
        tally.line("a session wants what it did", list(kind, ""), want);
    }
}
