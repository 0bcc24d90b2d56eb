//! The library's calls on a store of subscriptions, through its C interface.

use crate::answers::Answer;
use crate::cjumbradi::*;
use crate::cjumbradi_known::*;
use crate::counts::Called;
use crate::known::Forms;
use crate::lent::Lent;
use crate::library::asked;
use crate::regions::{Guarded, Listed};

impl Guarded {
    fn change(&mut self, forms: Forms<ChangeCall>, filter: &[u8], value: u32) -> Answer {
        let filter = Lent::new(filter);
        self.twice(forms, &mut [], |store, _, (called, call)| {
            let lent = store.lent();
            // SAFETY: pointers and lengths are those of slices that do not overlap, and the answer
            // outlives the call.
            asked(called, |answer| unsafe {
                call(
                    lent.as_mut_ptr(),
                    lent.len(),
                    filter.as_ptr(),
                    filter.len(),
                    value,
                    answer,
                )
            })
        })
    }

    pub fn insert(&mut self, filter: &[u8], value: u32) -> Answer {
        let forms: Forms<ChangeCall> = [
            (Called::Insert, cjumbradi_insert),
            (Called::KnownInsert, cjumbradi_known_insert),
        ];
        self.change(forms, filter, value)
    }

    pub fn remove(&mut self, filter: &[u8], value: u32) -> Answer {
        let forms: Forms<ChangeCall> = [
            (Called::Remove, cjumbradi_remove),
            (Called::KnownRemove, cjumbradi_known_remove),
        ];
        self.change(forms, filter, value)
    }

    pub fn is_match(&mut self, name: &[u8]) -> Answer {
        let name = Lent::new(name);
        let forms: Forms<AskCall> = [
            (Called::IsMatch, cjumbradi_is_match),
            (Called::KnownIsMatch, cjumbradi_known_is_match),
        ];
        self.twice(forms, &mut [], |store, _, (called, call)| {
            let lent = store.lent();
            // SAFETY: as in `change`.
            asked(called, |yes| unsafe {
                call(
                    lent.as_mut_ptr(),
                    lent.len(),
                    name.as_ptr(),
                    name.len(),
                    yes,
                )
            })
        })
    }

    /// The listing into a buffer.
    pub fn listing(&mut self, name: &[u8], out: &mut [u8]) -> Answer<Listed> {
        let name = Lent::new(name);
        let forms: Forms<ListingCall> = [
            (Called::Listing, cjumbradi_listing),
            (Called::KnownListing, cjumbradi_known_listing),
        ];
        self.twice(forms, out, |store, out, (called, call)| {
            // SAFETY: as in `change`, with a buffer that may be written.
            store.list(called, out, |lent, out, bytes, records| unsafe {
                call(
                    lent.as_mut_ptr(),
                    lent.len(),
                    name.as_ptr(),
                    name.len(),
                    out.as_mut_ptr(),
                    out.len(),
                    bytes,
                    records,
                )
            })
        })
    }

    /// Nodes and values.
    pub fn sizes(&mut self) -> [Answer; 2] {
        [
            self.size(Called::NodesSize, cjumbradi_nodes_size),
            self.size(Called::ValuesSize, cjumbradi_values_size),
        ]
    }
}
