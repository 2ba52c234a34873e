//! Items and sheets as they are laid out, right or wrong: nothing here keeps to the book.

/// Type, sub-attribute number, form, count, stored octets.
#[derive(Clone)]
pub struct Item {
    pub number: u8,
    pub sub: u8,
    pub form: u8,
    pub count: u8,
    pub stored: Vec<u8>,
}

impl Item {
    /// A plain item whose count is that of its stored octets.
    pub fn plain(number: u8, form: u8, stored: &[u8]) -> Item {
        Item { number, sub: 0, form, count: stored.len() as u8, stored: stored.to_vec() }
    }

    /// The same of a 3GPP number.
    pub fn three_gpp(number: u8, form: u8, stored: &[u8]) -> Item {
        Item { sub: number, ..Item::plain(26, form, stored) }
    }

    /// The same item with a count of digits.
    pub fn digits(self, count: usize) -> Item {
        Item { count: count as u8, ..self }
    }

    /// How many octets the count announces.
    pub fn announced(&self) -> usize {
        let count = self.count as usize;
        if self.form == 4 {
            (count + 1) / 2
        } else {
            count
        }
    }
}

/// A head of nine octets, items, and what stands after the last.
#[derive(Clone)]
pub struct Sheet {
    pub head: [u8; 9],
    pub items: Vec<Item>,
    pub after: Vec<u8>,
}

impl Sheet {
    /// The sheet with the head that the book asks for, as far as 16 bits hold the items.
    pub fn new(kind: u8, flags: u8, items: Vec<Item>) -> Sheet {
        let mut sheet =
            Sheet { head: [b'G', b'I', b'R', 0, 1, kind, flags, 0, 0], items, after: vec![] };
        sheet.announce(sheet.items.len());
        sheet
    }

    /// Sets the number of items that the head announces.
    pub fn announce(&mut self, count: usize) {
        self.head[7..].copy_from_slice(&(count as u16).to_be_bytes());
    }

    pub fn octets(&self) -> Vec<u8> {
        let mut octets = self.head.to_vec();
        for item in &self.items {
            octets.extend([item.number, item.sub, item.form, item.count]);
            octets.extend_from_slice(&item.stored);
        }
        octets.extend_from_slice(&self.after);
        octets
    }
}
