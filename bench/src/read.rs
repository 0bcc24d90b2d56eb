//! What a caller has of a listing: each filter as text, and its values.
//!
//! Both sides are read to the end, or a side that gives less would be the faster one.

/// A record of a listing.
pub type Record = (Vec<u8>, Vec<u32>);

/// What was read of listings, as sums.
#[derive(Clone, Copy, Debug, Default, PartialEq, Eq)]
pub struct Read {
    texts: u64,
    values: u64,
    count: u64,
}

impl Read {
    /// The last byte of a filter is read, and its length.
    pub fn filter(&mut self, filter: &[u8]) {
        let last = filter.last().map_or(0, |byte| u64::from(*byte));
        self.texts = self.texts.wrapping_add(filter.len() as u64 + last);
    }

    pub fn value(&mut self, value: u32) {
        self.values = self.values.wrapping_add(u64::from(value));
        self.count += 1;
    }

    /// How many values were read.
    pub fn count(&self) -> u64 {
        self.count
    }

    pub fn add(&mut self, other: Read) {
        self.texts = self.texts.wrapping_add(other.texts);
        self.values = self.values.wrapping_add(other.values);
        self.count += other.count;
    }
}
