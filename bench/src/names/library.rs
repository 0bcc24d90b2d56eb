//! The calls on a store of retained names, in both forms.

use super::Record;
use crate::cjumbradi::*;
use crate::cjumbradi_known::*;
use crate::read::Read;
use crate::store::{asked, text_of, Form, Store};

impl Store {
    fn put(&mut self, form: Form, name: &str, payload: u64, handle: u32, moment: u64) -> u64 {
        let call = match form {
            Form::Known => cjumbradi_known_set,
            Form::Tested => cjumbradi_set,
        };
        let region = &mut self.region;
        // SAFETY: pointers and lengths are those of slices that do not overlap, and the answer
        // outlives the call.
        asked(|answer| unsafe {
            call(
                region.as_mut_ptr(),
                region.len(),
                name.as_ptr(),
                name.len(),
                payload,
                handle,
                1,
                moment,
                answer,
            )
        })
    }

    /// A record that expires at a moment.
    pub fn set(&mut self, form: Form, name: &str, handle: u32, moment: u64) -> u64 {
        self.put(form, name, 1, handle, moment)
    }

    pub fn erase(&mut self, form: Form, name: &str) -> u64 {
        self.put(form, name, 0, 0, 0)
    }

    pub fn sweep(&mut self, form: Form, clock: u64) -> u64 {
        let call = match form {
            Form::Known => cjumbradi_known_sweep,
            Form::Tested => cjumbradi_sweep,
        };
        let region = &mut self.region;
        // SAFETY: as in `put`.
        asked(|removed| unsafe { call(region.as_mut_ptr(), region.len(), clock, removed) })
    }

    /// How many names it has; the region is tested.
    pub fn count(&self) -> u64 {
        self.size(cjumbradi_count)
    }

    /// The bytes of a lookup.
    fn lookup_bytes(&mut self, form: Form, filter: &str, clock: u64) -> &[u8] {
        let call = match form {
            Form::Known => cjumbradi_known_lookup,
            Form::Tested => cjumbradi_lookup,
        };
        // SAFETY: as in `put`; the region is only read, and the buffer may be written.
        self.list(|region, out, bytes, records| unsafe {
            call(
                region.as_ptr(),
                region.len(),
                filter.as_ptr(),
                filter.len(),
                clock,
                out.as_mut_ptr(),
                out.len(),
                bytes,
                records,
            )
        })
    }

    /// The bytes of a page, and whether more follows.
    fn page_bytes(&mut self, form: Form, clock: u64, offset: u64, limit: u64) -> (&[u8], bool) {
        let call = match form {
            Form::Known => cjumbradi_known_page,
            Form::Tested => cjumbradi_page,
        };
        let mut more = 0;
        // SAFETY: as in `lookup_bytes`.
        let page = self.list(|region, out, bytes, records| unsafe {
            call(
                region.as_ptr(),
                region.len(),
                clock,
                offset,
                limit,
                out.as_mut_ptr(),
                out.len(),
                bytes,
                records,
                &mut more,
            )
        });
        (page, more == 1)
    }

    /// A lookup, and each record of it read.
    pub fn lookup(&mut self, form: Form, filter: &str, clock: u64) -> Read {
        read(self.lookup_bytes(form, filter, clock))
    }

    /// A page, and each record of it read.
    pub fn page(&mut self, form: Form, clock: u64, offset: u64, limit: u64) -> Read {
        read(self.page_bytes(form, clock, offset, limit).0)
    }

    /// A lookup as records, to compare.
    pub fn lookup_records(&mut self, form: Form, filter: &str, clock: u64) -> Vec<Record> {
        records(self.lookup_bytes(form, filter, clock))
    }

    /// A page as records, to compare; and whether more follows.
    pub fn page_records(
        &mut self,
        form: Form,
        clock: u64,
        offset: u64,
        limit: u64,
    ) -> (Vec<Record>, bool) {
        let (bytes, more) = self.page_bytes(form, clock, offset, limit);
        (records(bytes), more)
    }
}

fn read(bytes: &[u8]) -> Read {
    let mut read = Read::default();
    each_record(bytes, |name, handle, _| {
        read.filter(name);
        read.value(handle);
    });
    read
}

fn records(bytes: &[u8]) -> Vec<Record> {
    let mut records = Vec::new();
    each_record(bytes, |name, handle, left| {
        records.push((name.to_vec(), handle, left));
    });
    records
}

/// The name, the handle and the remaining time of each record: 52 56, a length, the name, the
/// handle, the time.
fn each_record(mut bytes: &[u8], mut take: impl FnMut(&[u8], u32, u64)) {
    while !bytes.is_empty() {
        let (name, rest) = text_of(bytes);
        let (handle, rest) = rest.split_first_chunk().expect("a record has a handle");
        let (left, rest) = rest.split_first_chunk().expect("a record has a time");
        take(name, u32::from_be_bytes(*handle), u64::from_be_bytes(*left));
        bytes = rest;
    }
}
