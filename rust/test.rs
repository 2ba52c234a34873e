//! A caller in Rust: P1 to P10, each entry's refusals, rooms of one octet or entry less, lent
//! buffers after a refusal, and the return trips, through `gir.rs` and the proved archive.
#![deny(unsafe_code)]

#[allow(unsafe_code)]
mod gir;

use gir::{breaches_of, check, message_of, read, sheet_of, write, Breach, Message, Refusal};

const A: [u8; 19] = [
    0x04, 0x06, 0x0A, 0x00, 0x00, 0x01, 0x1A, 0x0D, 0x00, 0x00, 0x28, 0xAF, 0x08, 0x07, 0x30, 0x30,
    0x31, 0x30, 0x31,
];
const A_SHEET: [u8; 24] = [
    0x47, 0x49, 0x52, 0x00, 0x01, 0x04, 0x00, 0x00, 0x02, 0x04, 0x00, 0x03, 0x04, 0x0A, 0x00, 0x00,
    0x01, 0x1A, 0x08, 0x04, 0x05, 0x00, 0x10, 0x1F,
];

fn refusal<T>(number: u32, second: u64) -> Result<T, Refusal> {
    Err(Refusal { number, second })
}

/// Read and check refuse alike, and change nothing.
fn refuse(area: &[u8], kind: u32, flags: u32, number: u32, second: u64) {
    let (mut sheet, mut list) = ([0xA5; 64], [0xA5A5_A5A5; 16]);
    assert_eq!(read(area, kind, flags, &mut sheet), refusal(number, second));
    assert_eq!(check(area, kind, flags, &mut list), refusal(number, second));
    assert_eq!((sheet, list), ([0xA5; 64], [0xA5A5_A5A5; 16]));
}

#[test]
fn seen_at_the_desk() {
    let listed = |area: &[u8], kind| check(area, kind, 0, &mut [0; 8]).map(<[u32]>::to_vec);
    assert_eq!(sheet_of(&A, 4, 0), Ok(A_SHEET.to_vec()));
    assert_eq!(listed(&A, 4), Ok(vec![0x00641A08, 0x01362800]));
    assert_eq!(listed(&A, 3), Ok(vec![0x01360800, 0x01361E00, 0x01362800, 0x01362C00]));
    assert_eq!(listed(&[], 1), Ok(vec![0x00060100, 0x00061E00, 0x00070400]));
    assert_eq!(listed(&[], 4), Ok(vec![0x00062800, 0x00070400]));
    refuse(&[0x04], 1, 0, 4, 0);
    refuse(&[0x04, 0x01], 1, 0, 5, 0);
    refuse(&[0x1A, 0x07], 1, 0, 6, 0);
    refuse(&[0x1A, 0x06, 0x00, 0x00, 0x28, 0xAF], 1, 0, 7, 0);
    refuse(&[], 1, 3, 2, 0);
}

#[test]
fn other_refusals() {
    refuse(&A, 0, 0, 1, 0);
    refuse(&A, 257, 0, 1, 0);
    refuse(&A, 1, 256, 2, 0);
    refuse(&[0; 4077], 1, 0, 3, 4077);
    refuse(&[26, 7, 0, 0, 40, 175, 8], 1, 0, 8, 0);
    assert_eq!(message_of(&A_SHEET[..8]), refusal(20, 0));
    let with = |place: usize, octet| {
        let mut sheet = A_SHEET;
        sheet[place] = octet;
        message_of(&sheet)
    };
    assert_eq!(with(4, 2), refusal(20, 0));
    assert_eq!(with(5, 7), refusal(21, 0));
    assert_eq!(with(8, 1), refusal(22, 17));
    assert_eq!(with(11, 8), refusal(23, 9));
    let mut many = vec![0x47, 0x49, 0x52, 0, 1, 1, 0, 7, 247];
    (0..2039).for_each(|_| many.extend([5, 0, 0, 0]));
    assert_eq!(message_of(&many), refusal(24, 4078));
}

#[test]
fn one_less_room() {
    let mut sheet = [0xA5; 30];
    assert_eq!(read(&A, 4, 0, &mut sheet[..23]), refusal(9, 24));
    assert_eq!(sheet, [0xA5; 30]);
    assert_eq!(read(&A, 4, 0, &mut sheet[..24]), Ok(&A_SHEET[..]));
    assert_eq!(sheet[24..], [0xA5; 6]);
    let mut list = [7; 6];
    assert_eq!(check(&A, 3, 0, &mut list[..3]), refusal(10, 4));
    assert_eq!(list, [7; 6]);
    assert_eq!(check(&A, 3, 0, &mut list[..4]).map(<[u32]>::len), Ok(4));
    assert_eq!(list[4..], [7; 2]);
    let mut area = [0xA5; 30];
    assert_eq!(write(&A_SHEET, &mut area[..18]), refusal(25, 19));
    assert_eq!(area, [0xA5; 30]);
    assert_eq!(write(&A_SHEET, &mut area[..19]).map(|w| w.area.to_vec()), Ok(A.to_vec()));
    assert_eq!(area[19..], [0xA5; 11]);
    assert_eq!(read(&[], 1, 0, &mut []), refusal(9, 9));
    assert_eq!(check(&[], 4, 0, &mut []), refusal(10, 2));
    assert_eq!(write(&[], &mut []), refusal(20, 0));
}

#[test]
fn what_an_entry_says() {
    let breach = Breach { place: 6, rule: 4, attribute: 26, sub: 8 };
    let absent = |attribute| Breach { place: 19, rule: 6, attribute, sub: 0 };
    assert_eq!(breaches_of(&A, 4, 0), Ok(vec![breach, absent(40)]));
    assert_eq!(breaches_of(&A, 3, 0), Ok([8, 30, 40, 44].map(absent).to_vec()));
}

#[test]
fn return_trips() {
    let mut longest = Vec::new();
    (0..2038).for_each(|k| longest.extend([(k % 7) as u8, 2]));
    for area in [&A[..], &[], &longest] {
        for kind in 1..=6 {
            for flags in [0, 1, 2, 4, 5, 6] {
                let sheet = sheet_of(area, kind, flags).unwrap();
                let message = message_of(&sheet).unwrap();
                assert_eq!(message, Message { area: area.to_vec(), kind, flags });
                assert_eq!(sheet_of(&message.area, message.kind, message.flags), Ok(sheet));
            }
        }
    }
}
