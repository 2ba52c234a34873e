//! Hand-written edge cases of sheets: forms, items, and the order of refusals.

use crate::ask::{gpp, items, line, octets, plain, write, write_items};
use crate::tally::Tally;

pub fn run(tally: &mut Tally) {
    forms(tally);
    forms_missed(tally);
    only_form(tally);
    item_limits(tally);
    digits_stored(tally);
    item_measure(tally);
    sheet_head(tally);
    sheet_end(tally);
    long_areas_written(tally);
}

fn forms(tally: &mut Tally) {
    tally.line("98 is 62", items(&gpp(5, "98-0A1B2C")), "1A050604620A1B2C");
    let text = "99-0123456789ABCDEF012345";
    tally.line("99 is 63", items(&gpp(5, text)), "1A05060C630123456789ABCDEF012345");
    tally.line("3GPP number 0", items(&gpp(0, "x")), "1A00010178");
    tally.line("3GPP number 0, empty", items(&gpp(0, "")), "1A000100");
    tally.line(
        "form 5 counts octets",
        items(&plain(44, "0A0000010000ABCD")),
        "2C0005080A0000010000ABCD",
    );
    tally.line("form 4, odd", items(&plain(31, "123")), "1F000403123F");
    tally.line("form 4, even", items(&plain(31, "1234")), "1F0004041234");
    tally.line("five digits are five", items(&gpp(8, "00101")), "1A08040500101F");
    tally.line("six digits are six", items(&gpp(8, "001010")), "1A080406001010");
    tally.line("15 digits", items(&gpp(1, "001010123456789")), "1A01040F001010123456789F");
    tally.line("NSAPI", items(&gpp(10, "F")), "1A0A07010F");
    tally.line("NSAPI, digit", items(&gpp(10, "5")), "1A0A070105");
    tally.line("11 as it stands", items("1A 09 00 00 28 AF 0B 03 FF"), "1A0B0701FF");
    tally.line("11 is no digit", items(&gpp(11, "5")), "1A0B070135");
    tally.line("12 is one digit", items(&gpp(12, "3")), "1A0C070103");
    tally.line("form 2", items("06 06 00 00 00 63"), "0600020400000063");
    tally.line("form 3", items("09 06 FF FF FF 00"), "09000304FFFFFF00");
    tally.line(
        "3GPP 7 is an address",
        items("1A 0C 00 00 28 AF 07 06 0A 00 00 01"),
        "1A0703040A000001",
    );
    tally.line("length rules are form 0", items(&plain(1, "ab")), "010000026162");
    tally.line("length rule missed, form 0", items("03 03 01"), "0300000101");
}

fn forms_missed(tally: &mut Tally) {
    let hex = |text: &str| -> String { text.bytes().map(|o| format!("{:02X}", o)).collect() };
    for (shows, sub, text) in [
        ("16 digits", 1, "0010101234567890"),
        ("no digit", 1, ""),
        ("four digits", 8, "0010"),
        ("seven digits", 18, "0010101"),
        ("small letter in QoS", 5, "98-0a1B2C"),
        ("a space for the dash", 5, "98 0A1B2C"),
        ("98 with 22", 5, "98-0123456789ABCDEF012345"),
        ("99 with 6", 5, "99-0A1B2C"),
        ("97 is no release", 5, "97-0A1B2C"),
        ("release alone", 5, "98-"),
        ("NSAPI, small letter", 10, "f"),
        ("12 is no letter", 12, "A"),
        ("12 of three octets", 12, "000"),
        ("no shape", 13, "0800"),
    ] {
        let want = format!("1A{:02X}01{:02X}{}", sub, text.len(), hex(text));
        tally.line(shows, items(&gpp(sub, text)), &want);
    }
    for (shows, attribute_type, text) in [
        ("16 digits", 31, "1234567890123456"),
        ("no digit", 31, ""),
        ("small letter in 44", 44, "0A0000010000ABCd"),
        ("15 digits in 44", 44, "0A0000010000ABC"),
        ("17 digits in 44", 44, "0A0000010000ABCDE"),
        ("44 is no number", 44, "1234"),
        ("three octets", 6, "123"),
        ("five octets", 4, "12345"),
        ("no shape", 5, "1234"),
    ] {
        let want = format!("{:02X}0000{:02X}{}", attribute_type, text.len(), hex(text));
        tally.line(shows, items(&plain(attribute_type, text)), &want);
    }
}

fn only_form(tally: &mut Tally) {
    tally.line("number in form 0", write_items(1, "06 00 00 04 00 00 00 02"), "refused 23 9");
    tally.line("3 octets in form 0", write_items(1, "06 00 00 03 00 00 02"), "1 0 0605000002");
    tally.line("address in form 2", write_items(1, "04 00 02 04 0A 00 00 01"), "refused 23 9");
    tally.line("number in form 3", write_items(1, "06 00 03 04 0A 00 00 01"), "refused 23 9");
    tally.line("digits in form 0", write_items(1, "1F 00 00 02 31 32"), "refused 23 9");
    tally.line("letters in form 0", write_items(1, "1F 00 00 02 31 41"), "1 0 1F043141");
    tally.line("3GPP digits in form 1", write_items(1, "1A 01 01 02 31 32"), "refused 23 9");
    tally.line("one octet in form 1", write_items(1, "1A 0B 01 01 FF"), "refused 23 9");
    tally.line("NSAPI in form 1", write_items(1, "1A 0A 01 01 41"), "refused 23 9");
    tally.line("NSAPI, small letter", write_items(1, "1A 0A 01 01 61"), "1 0 1A09000028AF0A0361");
    tally.line("plain item in form 1", write_items(1, "05 00 01 01 00"), "refused 23 9");
    tally.line("form 2 on no number", write_items(1, "05 00 02 04 00 00 00 00"), "refused 23 9");
    tally.line("length rule not tested", write_items(1, "03 00 00 01 07"), "1 0 030307");
    tally.line("empty User-Name", write_items(1, "01 00 00 00"), "1 0 0102");
    tally.line("3GPP in form 0", write_items(1, "1A 01 00 05 00 00 00 01 00"), "refused 23 9");
    let hidden = "1A 00 00 07 00 00 28 AF 0B 03 FF";
    tally.line("10415 hidden in form 0", write_items(1, hidden), "refused 23 9");
    let odd = "1A 00 00 06 00 00 28 AF 0B 03";
    tally.line("10415 broken in form 0", write_items(1, odd), "refused 23 9");
    tally.line("26 with four octets", write_items(1, "1A 00 00 04 00 00 00 01"), "refused 23 9");
    let five = "1A 00 00 05 00 00 00 01 00";
    tally.line("26 with five octets", write_items(1, five), "1 0 1A070000000100");
    tally.line("26, empty", write_items(1, "1A 00 00 00"), "refused 23 9");
    tally.line("3GPP number 0", write_items(1, "1A 00 01 00"), "1 0 1A08000028AF0002");
    for kind in 1..=6 {
        let sheet = format!("47 49 52 00 01 {:02X} 00 00 01 28 00 02 04 00 00 00 63", kind);
        let want = format!("{} 0 280600000063", kind);
        tally.line("forms do not depend on the kind", write(&sheet), &want);
    }
}

fn item_limits(tally: &mut Tally) {
    let value = |octets: usize| "5A".repeat(octets);
    let plain = |count: usize| write_items(1, &format!("05 00 00 {:02X} {}", count, value(count)));
    tally.line("plain value of 253", plain(253), &format!("1 0 05FF{}", value(253)));
    tally.line("plain value of 254", plain(254), "refused 23 9");
    tally.line("plain value of 255", plain(255), "refused 23 9");
    let gpp = |count: usize| write_items(1, &format!("1A 63 01 {:02X} {}", count, value(count)));
    let head = "1AFE000028AF63F8";
    tally.line("3GPP value of 246", gpp(246), &format!("1 0 {}{}", head, value(246)));
    tally.line("3GPP value of 247", gpp(247), "refused 23 9");
    tally.line("3GPP value of 255", gpp(255), "refused 23 9");
    tally.line("sub-number on a plain item", write_items(1, "05 01 00 00"), "refused 23 9");
    tally.line("sub-number on a number", write_items(1, "06 02 02 04 00 00 00 02"), "refused 23 9");
    tally.line(
        "sub-number on another vendor",
        write_items(1, "1A 01 00 05 00 00 00 01 00"),
        "refused 23 9",
    );
    tally.line("NSAPI 15", write_items(1, "1A 0A 07 01 0F"), "1 0 1A09000028AF0A0346");
    tally.line("NSAPI 16", write_items(1, "1A 0A 07 01 10"), "refused 23 9");
    tally.line("11, any octet", write_items(1, "1A 0B 07 01 00"), "1 0 1A09000028AF0B0300");
    tally.line("12 stored 9", write_items(1, "1A 0C 07 01 09"), "1 0 1A09000028AF0C0339");
    tally.line("12 stored 10", write_items(1, "1A 0C 07 01 0A"), "refused 23 9");
    tally.line("12 stored as text", write_items(1, "1A 0C 07 01 31"), "refused 23 9");
    tally.line("form 7 on 9", write_items(1, "1A 09 07 01 01"), "refused 23 9");
    tally.line("release 97", write_items(1, "1A 05 06 04 61 00 00 00"), "refused 23 9");
    tally.line(
        "98 with eleven",
        write_items(1, &format!("1A 05 06 0C 62 {}", "00".repeat(11))),
        "refused 23 9",
    );
    tally.line("99 with three", write_items(1, "1A 05 06 04 63 00 00 00"), "refused 23 9");
    tally.line("98 in hexadecimal", write_items(1, "1A 05 06 04 98 00 00 00"), "refused 23 9");
}

fn digits_stored(tally: &mut Tally) {
    tally.line("odd, last half 15", write_items(1, "1F 00 04 03 12 3F"), "1 0 1F05313233");
    tally.line("odd, last half 0", write_items(1, "1F 00 04 03 12 30"), "refused 23 9");
    tally.line("even, last half 15", write_items(1, "1F 00 04 04 12 3F"), "refused 23 9");
    tally.line("a half of 10", write_items(1, "1F 00 04 02 1A"), "refused 23 9");
    tally.line("a first half of 10", write_items(1, "1F 00 04 02 A1"), "refused 23 9");
    tally.line("count 0 in form 4", write_items(1, "1F 00 04 00"), "refused 23 9");
    tally.line("count 0 in form 2", write_items(1, "06 00 02 00"), "refused 23 9");
    tally.line("count 0 in form 5", write_items(1, "2C 00 05 00"), "refused 23 9");
    tally.line("count 0 in form 6", write_items(1, "1A 05 06 00"), "refused 23 9");
    tally.line("count 0 in form 7", write_items(1, "1A 0B 07 00"), "refused 23 9");
    tally.line("16 digits", write_items(1, "1F 00 04 10 12 34 56 78 90 12 34 56"), "refused 23 9");
    tally.line(
        "five as six with a zero",
        write_items(1, "1A 08 04 06 00 10 10"),
        "1 0 1A0E000028AF0808303031303130",
    );
    tally.line("four for MCC-MNC", write_items(1, "1A 08 04 04 00 10"), "refused 23 9");
    tally.line("seven for MCC-MNC", write_items(1, "1A 08 04 07 00 10 12 3F"), "refused 23 9");
}

fn item_measure(tally: &mut Tally) {
    tally.line("unknown form, all there", write_items(1, "05 00 08 02 00 00"), "refused 23 9");
    tally.line("unknown form passes the end", write_items(1, "05 00 08 02 00"), "refused 22 9");
    tally.line("form 255, nothing stored", write_items(1, "05 00 FF 00"), "refused 23 9");
    tally.line("form 2 of five, short", write_items(1, "06 00 02 05 00 00 00 00"), "refused 22 9");
    tally.line(
        "form 2 of five, there",
        write_items(1, "06 00 02 05 00 00 00 00 00"),
        "refused 23 9",
    );
    tally.line(
        "form 4 of 255, 127 there",
        write_items(1, &format!("1F 00 04 FF {}", "11".repeat(127))),
        "refused 22 9",
    );
    tally.line(
        "form 4 of 255, 128 there",
        write_items(1, &format!("1F 00 04 FF {}", "11".repeat(128))),
        "refused 23 9",
    );
    tally.line(
        "plain 254 passes the end",
        write_items(1, &format!("05 00 00 FE {}", "11".repeat(253))),
        "refused 22 9",
    );
    tally.line("sub-number and no octets", write_items(1, "05 01 00 01"), "refused 22 9");
    tally.line("form 4, half rounded up", write_items(1, "1F 00 04 03 12"), "refused 22 9");
    tally.line("head cut after three", write_items(1, "05 00 00"), "refused 22 9");
    tally.line("head cut after one", write_items(1, "05"), "refused 22 9");
}

fn sheet_head(tally: &mut Tally) {
    tally.line("eight octets", write("47 49 52 00 01 01 00 00"), "refused 20 0");
    tally.line("mark", write("47 49 53 00 01 01 00 00 00"), "refused 20 0");
    tally.line("mark, first octet", write("67 49 52 00 01 01 00 00 00"), "refused 20 0");
    tally.line("version 2", write("47 49 52 00 02 01 00 00 00"), "refused 20 0");
    tally.line("version, high octet", write("47 49 52 01 01 01 00 00 00"), "refused 20 0");
    tally.line("20 before 21", write("47 49 52 00 00 09 09 00 00"), "refused 20 0");
    tally.line("kind 0", write("47 49 52 00 01 00 00 00 00"), "refused 21 0");
    tally.line("kind 7", write("47 49 52 00 01 07 00 00 00"), "refused 21 0");
    tally.line("flags 3", write("47 49 52 00 01 01 03 00 00"), "refused 21 0");
    tally.line("flags 7", write("47 49 52 00 01 01 07 00 00"), "refused 21 0");
    tally.line("flags 8", write("47 49 52 00 01 01 08 00 00"), "refused 21 0");
    tally.line("21 before 22", write("47 49 52 00 01 07 00 00 01"), "refused 21 0");
}

fn sheet_end(tally: &mut Tally) {
    tally.line("more items announced", write_items(2, "05 00 00 00"), "refused 22 13");
    tally.line("items announced, none there", write_items(1, ""), "refused 22 9");
    tally.line("high octet of the number", write_items(256, ""), "refused 22 9");
    tally.line("fewer items announced", write_items(1, "05 00 00 00 05 00 00 00"), "refused 22 13");
    tally.line("no items, one octet", write_items(0, "00"), "refused 22 9");
    tally.line("23 before octets remain", write_items(1, "05 01 00 00 00"), "refused 23 9");
    tally.line("earlier 23 before later 22", write_items(2, "05 00 09 00 05"), "refused 23 9");
    tally.line("earlier 22 ends it", write_items(2, "05 00 00 09 05 00 09 00"), "refused 22 9");
    tally.line("23 at the second", write_items(2, "05 00 00 01 07 05 01 00 00"), "refused 23 14");
}

fn long_areas_written(tally: &mut Tally) {
    let item = |count: usize| format!("0500 00{:02X}{}", count, "11".repeat(count));
    let fifteen: String = item(253).repeat(15);
    let fits = format!("{}{}", fifteen, item(249));
    let over = format!("{}{}", fifteen, item(250));
    let area =
        format!("{}05FB{}", format!("05FF{}", "11".repeat(253)).repeat(15), "11".repeat(249));
    tally.line("4,076 is written", write_items(16, &fits), &format!("1 0 {}", area));
    tally.line("4,077 is refused", write_items(16, &over), "refused 24 4077");
    let sheet = octets(&format!("47 49 52 00 01 01 00 0010 {}", over));
    tally.line("24 before 25", line(b'W', 0, &sheet), "refused 24 4077");
    let sheet = octets(&format!("47 49 52 00 01 01 00 0010 {}", fits));
    tally.line("25 with the octets", line(b'W', 4075, &sheet), "refused 25 4076");
    let many = item(253).repeat(300);
    tally.line("24 past 16 bits", write_items(300, &many), "refused 24 76500");
    let most = "05 00 00 00".repeat(65_535);
    tally.line("most items of all", write_items(65_535, &most), "refused 24 131070");
    let remain = write_items(300, &format!("{}05", many));
    tally.line("remaining octets before 24", remain, "refused 22 77109");
    let last = write_items(301, &format!("{}05010000", many));
    tally.line("23 before 24", last, "refused 23 77109");
}
