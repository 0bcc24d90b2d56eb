//! The calls on a store of subscriptions, in both forms.

use crate::cjumbradi::*;
use crate::cjumbradi_known::*;
use crate::read::{Read, Record};
use crate::store::{asked, text_of, Form, Store};

impl Store {
    fn change(&mut self, call: ChangeCall, filter: &str, value: u32) -> bool {
        let region = &mut self.region;
        // SAFETY: pointers and lengths are those of slices that do not overlap, and the answer
        // outlives the call.
        let answer = asked(|answer| unsafe {
            call(
                region.as_mut_ptr(),
                region.len(),
                filter.as_ptr(),
                filter.len(),
                value,
                answer,
            )
        });
        answer == 1
    }

    pub fn insert(&mut self, form: Form, filter: &str, value: u32) -> bool {
        let call = match form {
            Form::Known => cjumbradi_known_insert,
            Form::Tested => cjumbradi_insert,
        };
        self.change(call, filter, value)
    }

    pub fn remove(&mut self, form: Form, filter: &str, value: u32) -> bool {
        let call = match form {
            Form::Known => cjumbradi_known_remove,
            Form::Tested => cjumbradi_remove,
        };
        self.change(call, filter, value)
    }

    pub fn is_match(&self, form: Form, name: &str) -> bool {
        let call = match form {
            Form::Known => cjumbradi_known_is_match,
            Form::Tested => cjumbradi_is_match,
        };
        let region = &self.region;
        // SAFETY: as in `change`; the region is only read.
        let yes = asked(|yes| unsafe {
            call(
                region.as_ptr(),
                region.len(),
                name.as_ptr(),
                name.len(),
                yes,
            )
        });
        yes == 1
    }

    /// The bytes of a listing.
    fn listing_bytes(&mut self, form: Form, name: &str) -> &[u8] {
        let call = match form {
            Form::Known => cjumbradi_known_listing,
            Form::Tested => cjumbradi_listing,
        };
        // SAFETY: as in `is_match`, and the buffer may be written.
        self.list(|region, out, bytes, records| unsafe {
            call(
                region.as_ptr(),
                region.len(),
                name.as_ptr(),
                name.len(),
                out.as_mut_ptr(),
                out.len(),
                bytes,
                records,
            )
        })
    }

    /// A listing, and each record of it read.
    pub fn listing(&mut self, form: Form, name: &str) -> Read {
        let mut read = Read::default();
        each_record(self.listing_bytes(form, name), |filter, values| {
            read.filter(filter);
            for value in values.chunks_exact(4) {
                read.value(number(value));
            }
        });
        read
    }

    /// A listing as records, to compare.
    pub fn records(&mut self, form: Form, name: &str) -> Vec<Record> {
        let mut records = Vec::new();
        each_record(self.listing_bytes(form, name), |filter, values| {
            let values = values.chunks_exact(4).map(number).collect();
            records.push((filter.to_vec(), values));
        });
        records
    }

    /// How many nodes it has; the region is tested.
    pub fn nodes_size(&self) -> u64 {
        self.size(cjumbradi_nodes_size)
    }

    pub fn values_size(&self) -> u64 {
        self.size(cjumbradi_values_size)
    }
}

/// A value in a record.
fn number(bytes: &[u8]) -> u32 {
    u32::from_be_bytes([bytes[0], bytes[1], bytes[2], bytes[3]])
}

/// The filter and the bytes of the values of each record: 46 4D, a length, the filter, a count, the values.
fn each_record(mut listing: &[u8], mut take: impl FnMut(&[u8], &[u8])) {
    while !listing.is_empty() {
        let (filter, rest) = text_of(listing);
        let count = usize::from(u16::from_be_bytes([rest[0], rest[1]]));
        let (values, rest) = rest[2..].split_at(4 * count);
        take(filter, values);
        listing = rest;
    }
}
