//! The list of messages under way.

use crate::bucket::Table;
use crate::datagram::{Header, Version};

/// Most messages under way.
pub const PLACES: usize = 64;

/// Messages lie in fixed slots; `order` holds the slots in list order, the
/// first `len` of them in use, the others free. So a removal moves single
/// bytes and never a message.
#[derive(Clone)]
pub struct Messages {
    len: usize,
    order: [u8; PLACES],
    headers: [Header; PLACES],
    tables: [Table; PLACES],
}

impl Messages {
    pub fn new() -> Self {
        let header = Header {
            kind: 0,
            from: 0,
            to: 0,
            bucket: 0,
            number: 0,
            round: 0,
            version: Version::NONE,
        };
        Messages {
            len: 0,
            order: std::array::from_fn(|slot| slot as u8),
            headers: [header; PLACES],
            tables: [Table::EMPTY; PLACES],
        }
    }

    #[inline]
    pub fn len(&self) -> usize {
        self.len
    }

    #[inline]
    pub fn is_empty(&self) -> bool {
        self.len == 0
    }

    /// Places left.
    #[inline]
    pub fn room(&self) -> usize {
        PLACES - self.len
    }

    /// The slot of the message at this place of the list.
    #[inline]
    pub fn slot(&self, place: usize) -> Option<usize> {
        if place < self.len {
            Some(usize::from(self.order[place]))
        } else {
            None
        }
    }

    #[inline]
    pub fn header(&self, slot: usize) -> &Header {
        &self.headers[slot]
    }

    /// The table of a message whose kind carries one.
    #[inline]
    pub fn table(&self, slot: usize) -> &Table {
        &self.tables[slot]
    }

    /// Takes the message at `place` off the list; later ones move down. Its
    /// slot keeps the message until the next one is added.
    #[inline]
    pub fn remove(&mut self, place: usize) {
        let slot = self.order[place];
        self.order.copy_within(place + 1..self.len, place);
        self.len -= 1;
        self.order[self.len] = slot;
    }

    /// Adds a message without a table at the end of the list.
    #[inline]
    pub fn add(&mut self, header: Header) {
        self.headers[usize::from(self.order[self.len])] = header;
        self.len += 1;
    }

    /// Adds a message with a table at the end of the list.
    #[inline]
    pub fn add_with(&mut self, header: Header, table: &Table) {
        self.tables[usize::from(self.order[self.len])] = *table;
        self.add(header);
    }
}

impl Default for Messages {
    fn default() -> Self {
        Self::new()
    }
}
