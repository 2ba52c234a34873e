//! The sheets that every batch with job W begins with: room and sheet. A sheet found by hand
//! joins one of the lists here.

use crate::attributes::{plain, three_gpp, vendor};
use crate::cases::A;
use crate::items::{Item, Sheet};
use crate::reader::items;

/// An item of four octets, an address, which is right.
fn address() -> Item {
    Item::plain(4, 3, &[10, 0, 0, 1])
}

fn sheet(items: Vec<Item>) -> Sheet {
    Sheet::new(4, 0, items)
}

/// The sheet of a readable area.
fn sheet_of(kind: u8, flags: u8, area: &[u8]) -> Vec<u8> {
    Sheet::new(kind, flags, items(area).unwrap_or_default()).octets()
}

/// Room and sheet, in order. A sheet that is written is tried with the room that it needs,
/// one less, one more, none and ample.
pub fn cases() -> Vec<(u32, Vec<u8>)> {
    let mut cases = Vec::new();
    for (kind, flags, area) in written() {
        let sheet = sheet_of(kind, flags, &area);
        let needed = area.len() as u32;
        for room in [needed, needed.saturating_sub(1), needed + 1, 0, u32::MAX] {
            cases.push((room, sheet.clone()));
        }
    }
    let wrong = wrong_items();
    let refused = [heads(), ends(), alone_and_later(&wrong), orders(), great_lengths()].concat();
    cases.extend(refused.into_iter().map(|sheet| (u32::MAX, sheet)));
    cases.push((0, sheet_of(1, 0, &[25, 2].repeat(2_039))));
    cases
}

/// Kind, flags and area: P1, the empty area of each kind, each form, the greatest values.
fn written() -> Vec<(u8, u8, Vec<u8>)> {
    let mut written = vec![(4, 0, A.to_vec())];
    written.extend((1..=6).map(|kind| (kind, 0, vec![])));
    written.extend([1, 2, 4, 5, 6].map(|flags| (1, flags, vec![])));
    let areas = [
        plain(31, b"012345678901234"),
        plain(31, b"01"),
        plain(44, b"0A000001000000FF"),
        three_gpp(5, b"98-0A1B2C"),
        three_gpp(5, b"99-0123456789ABCDEF012345"),
        three_gpp(10, b"F"),
        three_gpp(11, &[255]),
        three_gpp(12, b"9"),
        three_gpp(8, b"001010"),
        three_gpp(0, b""),
        plain(31, b""),
        plain(4, b"abc"),
        plain(2, b"a length rule is not tested"),
        plain(25, &[65; 253]),
        three_gpp(13, &[65; 246]),
        vendor([0, 0, 0x28, 0xAE], &[1]),
        vendor([0, 0, 0x28, 0xAE], &[65; 249]),
        [25, 2].repeat(2_038),
    ];
    written.extend(areas.map(|area| (3, 4, area)));
    written
}

/// Heads: mark, version, kind, flags; 20 comes before 21. Cut heads, and nothing at all.
fn heads() -> Vec<Vec<u8>> {
    let whole = sheet_of(4, 0, &A);
    let mut heads: Vec<Vec<u8>> = (0..=9).map(|length| whole[..length].to_vec()).collect();
    for (place, octet) in [(0, b'g'), (1, 0), (2, b'S'), (3, 1), (4, 0), (4, 2), (5, 0), (5, 7)] {
        let mut sheet = whole.clone();
        sheet[place] = octet;
        heads.push(sheet.clone());
        sheet[6] = 3;
        heads.push(sheet);
    }
    for flags in [3, 7, 8, 255] {
        heads.push(sheet_of(1, flags, &[]));
    }
    heads
}

/// P1's sheet cut at every place after its head, and with octets after its end; more and
/// fewer items announced.
fn ends() -> Vec<Vec<u8>> {
    let whole = sheet_of(4, 0, &A);
    let mut ends: Vec<Vec<u8>> = (10..whole.len()).map(|length| whole[..length].to_vec()).collect();
    ends.push([whole.as_slice(), &[0]].concat());
    ends.push([whole.as_slice(), &[4, 0, 3, 4, 10, 0, 0, 1]].concat());
    for announced in [0, 1, 3, 258, 65_535] {
        let mut sheet = sheet(items(&A).unwrap_or_default());
        sheet.announce(announced);
        ends.push(sheet.octets());
    }
    ends
}

/// Each item alone, and between two that are right.
fn alone_and_later(wrong: &[Item]) -> Vec<Vec<u8>> {
    let alone = wrong.iter().map(|item| sheet(vec![item.clone()]).octets());
    let later = wrong.iter().map(|item| sheet(vec![address(), item.clone(), address()]).octets());
    alone.chain(later).collect()
}

/// Items that no readable attribute gives.
fn wrong_items() -> Vec<Item> {
    [digits(), numbers(), raw(), lengths(), vendors(), unknown_forms()].concat()
}

/// Padding half, halves above 9, counts that form 4 does not have.
fn digits() -> Vec<Item> {
    let imsi = |count: usize, stored: &[u8]| Item::three_gpp(1, 4, stored).digits(count);
    let network = |count: usize, stored: &[u8]| Item::three_gpp(8, 4, stored).digits(count);
    vec![
        imsi(1, &[0x50]),
        imsi(3, &[0x12, 0x3E]),
        imsi(2, &[0x1A]),
        imsi(2, &[0xA1]),
        imsi(2, &[0x1F]),
        imsi(1, &[0xFF]),
        imsi(0, &[]),
        imsi(16, &[0x11; 8]),
        imsi(255, &[0x11; 128]),
        network(4, &[0x00, 0x10]),
        network(6, &[0x00, 0x10, 0x1F]),
        network(5, &[0x00, 0x10, 0x10]),
        network(7, &[0x00, 0x10, 0x10, 0x1F]),
        Item::plain(31, 4, &[0x5E]).digits(1),
        Item::plain(30, 4, &[0x5F]).digits(1),
        Item::three_gpp(2, 4, &[0x00, 0x10, 0x1F]).digits(5),
    ]
}

/// Forms 2, 3, 5, 6 and 7: counts, ranges, and numbers that have another form.
fn numbers() -> Vec<Item> {
    vec![
        Item::plain(4, 3, &[10, 0, 0]),
        Item::plain(4, 3, &[10, 0, 0, 1, 0]),
        Item::plain(4, 2, &[10, 0, 0, 1]),
        Item::plain(6, 3, &[0, 0, 0, 2]),
        Item::plain(5, 2, &[0, 0, 0, 2]),
        Item::three_gpp(3, 2, &[0, 0, 0]),
        Item::three_gpp(3, 3, &[0, 0, 0, 0]),
        Item::plain(44, 5, &[0; 7]),
        Item::plain(44, 5, &[0; 9]),
        Item::plain(30, 5, &[0; 8]),
        Item::three_gpp(5, 6, &[97, 1, 2, 3]),
        Item::three_gpp(5, 6, &[0x98, 1, 2, 3]),
        Item::three_gpp(5, 6, &[99, 1, 2, 3]),
        Item::three_gpp(5, 6, &[98, 1, 2]),
        Item::three_gpp(5, 6, &[98; 12]),
        Item::three_gpp(5, 6, &[]),
        Item::three_gpp(4, 6, &[98, 1, 2, 3]),
        Item::three_gpp(10, 7, &[16]),
        Item::three_gpp(10, 7, b"F"),
        Item::three_gpp(12, 7, &[10]),
        Item::three_gpp(11, 7, &[]),
        Item::three_gpp(11, 7, &[1, 2]),
        Item::three_gpp(13, 7, &[1]),
        Item::plain(11, 7, &[1]),
    ]
}

/// Values that meet their shape but stand raw, and forms of the other family.
fn raw() -> Vec<Item> {
    vec![
        Item::plain(4, 0, &[10, 0, 0, 1]),
        Item::plain(6, 0, &[0, 0, 0, 9]),
        Item::plain(31, 0, b"491701234567"),
        Item::plain(44, 0, b"0A000001000000FF"),
        Item::three_gpp(1, 1, b"001010123456789"),
        Item::three_gpp(3, 1, &[0, 0, 0, 0]),
        Item::three_gpp(5, 1, b"98-0A1B2C"),
        Item::three_gpp(5, 1, b"99-0123456789ABCDEF012345"),
        Item::three_gpp(8, 1, b"00101"),
        Item::three_gpp(10, 1, b"F"),
        Item::three_gpp(11, 1, b"F"),
        Item::three_gpp(12, 1, b"3"),
        Item::plain(4, 1, &[10, 0, 0]),
        Item::three_gpp(4, 0, &[10, 0, 0]),
    ]
}

/// Over-long values, and a sub-attribute number on a plain item.
fn lengths() -> Vec<Item> {
    vec![
        Item::plain(25, 0, &[65; 254]),
        Item::plain(25, 0, &[65; 255]),
        Item::plain(26, 0, &[65; 254]),
        Item::three_gpp(13, 1, &[65; 247]),
        Item::three_gpp(13, 1, &[65; 253]),
        Item::three_gpp(13, 1, &[65; 255]),
        Item { sub: 1, ..address() },
        Item { sub: 255, ..Item::plain(25, 0, b"") },
    ]
}

/// Type 26 in form 0.
fn vendors() -> Vec<Item> {
    let mut vendors: Vec<Item> =
        (0..=4).map(|length| Item::plain(26, 0, &[0, 0, 0x28, 0xAE][..length])).collect();
    vendors.push(Item::plain(26, 0, &[0, 0, 0x28, 0xAF, 1]));
    vendors.push(Item::plain(26, 0, &[0, 0, 0x28, 0xAF, 13, 2]));
    vendors.push(Item { sub: 1, ..Item::plain(26, 0, &[0, 0, 0x28, 0xAE, 1]) });
    vendors
}

fn unknown_forms() -> Vec<Item> {
    [8, 9, 16, 128, 255].map(|form| Item { form, ..address() }).to_vec()
}

/// 22 before 23 on one item, an earlier 23 before a later 22, and both before 24.
fn orders() -> Vec<Vec<u8>> {
    let unknown = Item { form: 8, ..address() };
    let passing = Item { count: 5, ..address() };
    let both = Item { form: 8, count: 5, ..address() };
    let over = Item { count: 255, ..Item::plain(25, 0, &[65; 254]) };
    let mut orders = vec![
        sheet(vec![passing.clone()]).octets(),
        sheet(vec![both]).octets(),
        sheet(vec![over]).octets(),
        sheet(vec![unknown.clone(), passing.clone()]).octets(),
        sheet(vec![address(), unknown.clone(), passing]).octets(),
        sheet(vec![Item { count: 9, ..Item::three_gpp(1, 4, &[0x12; 4]) }]).octets(),
    ];
    let many = vec![Item::plain(25, 0, b""); 2_039];
    let mut with_unknown = many.clone();
    with_unknown.push(unknown.clone());
    orders.push(sheet(with_unknown).octets());
    orders.push([sheet(many).octets(), vec![1]].concat());
    let mut announced = sheet(vec![address(), unknown]);
    announced.announce(1);
    orders.push(announced.octets());
    announced.announce(3);
    orders.push(announced.octets());
    orders
}

/// Areas over 4,076 octets, and two whose lengths look small in 16 bits.
fn great_lengths() -> Vec<Vec<u8>> {
    vec![
        sheet_of(1, 0, &[[25, 2].repeat(2_037).as_slice(), &[25, 3, 65]].concat()),
        sheet_of(1, 0, &plain(25, &[65; 253]).repeat(16)),
        sheet_of(1, 0, &plain(25, &[65; 253]).repeat(257)),
        sheet_of(1, 0, &[25, 2].repeat(32_768)),
    ]
}
