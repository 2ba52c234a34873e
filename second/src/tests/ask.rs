//! Asks the program through its batch entry, so that the text lines count too.

use crate::batch;

/// Room enough for any answer here.
pub const ROOMY: u32 = 1_000_000;

/// Octets from hexadecimal digits; spaces are for the eye.
pub fn octets(text: &str) -> Vec<u8> {
    let digits: Vec<u32> = text.chars().filter_map(|c| c.to_digit(16)).collect();
    digits.chunks(2).map(|pair| (pair[0] * 16 + pair[1]) as u8).collect()
}

/// One record of the batch.
pub fn record(job: u8, room: u32, payload: &[u8]) -> Vec<u8> {
    let mut record = vec![job];
    record.extend(room.to_be_bytes());
    record.extend((payload.len() as u32).to_be_bytes());
    record.extend(payload);
    record
}

/// All the text that a batch gives.
pub fn output(input: &[u8]) -> String {
    let mut output = Vec::new();
    batch::run(input, &mut output).expect("a vector takes every line");
    String::from_utf8(output).expect("answers are ASCII")
}

/// The line of one record, its line feed cut off.
pub fn line(job: u8, room: u32, payload: &[u8]) -> String {
    let output = output(&record(job, room, payload));
    match output.strip_suffix('\n') {
        Some(line) => line.to_string(),
        None => format!("no line feed after {:?}", output),
    }
}

/// Check of kind octet, flags octet and area, given in hexadecimal.
pub fn check(payload: &str) -> String {
    line(b'C', ROOMY, &octets(payload))
}

/// Read of kind octet, flags octet and area, given in hexadecimal.
pub fn read(payload: &str) -> String {
    line(b'R', ROOMY, &octets(payload))
}

/// Write of a sheet, given in hexadecimal.
pub fn write(sheet: &str) -> String {
    line(b'W', ROOMY, &octets(sheet))
}

/// Write of a sheet of kind 1 and flags 0 with these items.
pub fn write_items(number: u16, items: &str) -> String {
    write(&format!("47 49 52 00 01 01 00 {:04X} {}", number, items))
}

/// The items of the sheet of an area, kind 1 and flags 0, in hexadecimal.
pub fn items(area: &str) -> String {
    let line = read(&format!("01 00 {}", area));
    line.get(18..).map(str::to_string).unwrap_or(line)
}

/// A 3GPP attribute in hexadecimal: sub-attribute number, then a text as value.
pub fn gpp(sub: u8, value: &str) -> String {
    let m = value.len() + 2;
    let digits: String = value.bytes().map(|octet| format!("{:02X}", octet)).collect();
    format!("1A{:02X}000028AF{:02X}{:02X}{}", m + 6, sub, m, digits)
}

/// A plain attribute in hexadecimal: type, then a text as value.
pub fn plain(attribute_type: u8, value: &str) -> String {
    let digits: String = value.bytes().map(|octet| format!("{:02X}", octet)).collect();
    format!("{:02X}{:02X}{}", attribute_type, value.len() + 2, digits)
}
