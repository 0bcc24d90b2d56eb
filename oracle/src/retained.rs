//! The library's calls on a store of retained names, through its C interface.

use crate::answers::Answer;
use crate::cjumbradi::*;
use crate::cjumbradi_known::*;
use crate::counts::Called;
use crate::known::Forms;
use crate::lent::Lent;
use crate::library::{asked, UNWRITTEN};
use crate::regions::{with_zero, Guarded, Listed};
use crate::stores::Stored;

/// A page: its bytes and records, and whether more follows.
#[derive(Clone, Copy, Debug, PartialEq, Eq)]
pub struct Paged {
    pub listed: Listed,
    pub more: u64,
}

impl Guarded {
    pub fn set(&mut self, name: &[u8], payload: u64, stored: Stored) -> Answer {
        let name = Lent::new(name);
        let forms: Forms<SetCall> = [
            (Called::Set, cjumbradi_set),
            (Called::KnownSet, cjumbradi_known_set),
        ];
        self.twice(forms, &mut [], |store, _, (called, call)| {
            let lent = store.lent();
            // SAFETY: pointers and lengths are those of slices that do not overlap, and the answer
            // outlives the call.
            asked(called, |answer| unsafe {
                call(
                    lent.as_mut_ptr(),
                    lent.len(),
                    name.as_ptr(),
                    name.len(),
                    payload,
                    stored.handle,
                    u64::from(stored.moment.is_some()),
                    stored.moment.unwrap_or(7),
                    answer,
                )
            })
        })
    }

    pub fn sweep(&mut self, clock: u64) -> Answer {
        let forms: Forms<SweepCall> = [
            (Called::Sweep, cjumbradi_sweep),
            (Called::KnownSweep, cjumbradi_known_sweep),
        ];
        self.twice(forms, &mut [], |store, _, (called, call)| {
            let lent = store.lent();
            // SAFETY: as in `set`.
            asked(called, |removed| unsafe {
                call(lent.as_mut_ptr(), lent.len(), clock, removed)
            })
        })
    }

    pub fn count(&mut self) -> Answer {
        self.size(Called::Count, cjumbradi_count)
    }

    /// The lookup into a buffer.
    pub fn lookup(&mut self, filter: &[u8], clock: u64, out: &mut [u8]) -> Answer<Listed> {
        let filter = Lent::new(filter);
        let forms: Forms<LookupCall> = [
            (Called::Lookup, cjumbradi_lookup),
            (Called::KnownLookup, cjumbradi_known_lookup),
        ];
        self.twice(forms, out, |store, out, (called, call)| {
            // SAFETY: as in `set`, with a buffer that may be written.
            store.list(called, out, |lent, out, bytes, records| unsafe {
                call(
                    lent.as_mut_ptr(),
                    lent.len(),
                    filter.as_ptr(),
                    filter.len(),
                    clock,
                    out.as_mut_ptr(),
                    out.len(),
                    bytes,
                    records,
                )
            })
        })
    }

    /// A page into a buffer. A refusal hands back also that no more follow.
    pub fn page(&mut self, clock: u64, offset: u64, limit: u64, out: &mut [u8]) -> Answer<Paged> {
        let forms: Forms<PageCall> = [
            (Called::Page, cjumbradi_page),
            (Called::KnownPage, cjumbradi_known_page),
        ];
        self.twice(forms, out, |store, out, (called, call)| {
            let mut more = UNWRITTEN;
            // SAFETY: as in `lookup`.
            let listed = store.list(called, out, |lent, out, bytes, records| unsafe {
                call(
                    lent.as_mut_ptr(),
                    lent.len(),
                    clock,
                    offset,
                    limit,
                    out.as_mut_ptr(),
                    out.len(),
                    bytes,
                    records,
                    &mut more,
                )
            });
            with_zero(listed, more).map(|listed| Paged { listed, more })
        })
    }
}
