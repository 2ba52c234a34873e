//! Takes the payloads out of a batch.
//!
//!     payloads BATCH FOLDER
//!
//! Each payload becomes a file of the folder, named by its record's number in six digits; one that
//! is the same as the payload before it is passed over.

use std::{env, fs, io, path::Path};

fn payloads(batch: &[u8]) -> Vec<&[u8]> {
    let mut rest = batch;
    let mut payloads = Vec::new();
    while rest.len() >= 9 {
        let length = u32::from_be_bytes([rest[5], rest[6], rest[7], rest[8]]) as usize;
        let (payload, after) = rest[9..].split_at(length);
        payloads.push(payload);
        rest = after;
    }
    payloads
}

fn main() -> io::Result<()> {
    let words: Vec<String> = env::args().skip(1).collect();
    let (batch, folder) = match &words[..] {
        [batch, folder] => (batch, folder),
        _ => panic!("payloads BATCH FOLDER"),
    };
    let batch = fs::read(batch)?;
    let payloads = payloads(&batch);
    for (number, payload) in payloads.iter().enumerate() {
        if number == 0 || payloads[number - 1] != *payload {
            fs::write(Path::new(folder).join(format!("{number:06}")), payload)?;
        }
    }
    Ok(())
}
