//! The library's calls on regions of either kind, through its C interface.
//!
//! In front of each region stand bytes that must stay as they are, and behind it is a guarded page.

use std::fmt;

use crate::answers::{in_words, Answer, Refusal};
use crate::cjumbradi::*;
use crate::counts::Called;
use crate::lent::Lent;
use crate::library::{asked, UNWRITTEN};
use crate::stores::{Counts, Kind};

/// How many bytes stand in front of a region, and what they are.
const BEFORE: usize = 32;
const GUARD: u8 = 0xA5;

/// A region with its guards, which is asked and changed.
pub struct Guarded(Lent);

/// How many bytes and records a call wrote into a buffer.
#[derive(Clone, Copy, Debug, PartialEq, Eq)]
pub struct Listed {
    pub bytes: u64,
    pub records: u64,
}

impl Guarded {
    pub fn new(region: &[u8]) -> Self {
        Guarded(Lent::new(&[&[GUARD; BEFORE][..], region].concat()))
    }

    /// The same region, lent once more.
    pub fn copy(&self) -> Self {
        Guarded(Lent::new(&self.0))
    }

    /// The region; none where the bytes in front of it are not as they were.
    pub fn region(&self) -> Option<&[u8]> {
        let (before, region) = self.0.split_at(BEFORE);
        before.iter().all(|byte| *byte == GUARD).then_some(region)
    }

    /// The bytes in front of the region.
    pub fn before(&mut self) -> &mut [u8] {
        &mut self.0[..BEFORE]
    }

    /// The region as it is lent. It can be written also where a call only reads, so that a call that
    /// does write is noticed and not undefined.
    pub fn lent(&mut self) -> &mut [u8] {
        &mut self.0[BEFORE..]
    }

    pub fn size(&mut self, called: Called, call: SizeCall) -> Answer {
        let lent = self.lent();
        // SAFETY: the pointer and the length are those of a slice, and the size outlives the call.
        asked(called, |size| unsafe {
            call(lent.as_mut_ptr(), lent.len(), size)
        })
    }

    /// Makes a call that is lent the region and a buffer, and hands back bytes and records. A refusal
    /// hands back 0 records, or this is no answer.
    pub fn list(
        &mut self,
        called: Called,
        out: &mut [u8],
        call: impl FnOnce(&mut [u8], &mut [u8], &mut u64, &mut u64) -> u64,
    ) -> Answer<Listed> {
        let mut lent_out = Lent::new(out);
        let mut records = UNWRITTEN;
        let bytes = asked(called, |bytes| {
            call(self.lent(), &mut lent_out, bytes, &mut records)
        });
        out.copy_from_slice(&lent_out);
        with_zero(bytes, records).map(|bytes| Listed { bytes, records })
    }
}

/// The answer of a call, where a refusal hands back 0 as the number beside its place.
pub fn with_zero<T>(answer: Answer<T>, beside: u64) -> Answer<T> {
    answer.map_err(|refusal| match beside {
        0 => refusal,
        _ => Refusal {
            place: UNWRITTEN,
            ..refusal
        },
    })
}

/// What the three calls that count answer.
#[derive(PartialEq, Eq)]
pub struct Counted {
    pub nodes_size: Answer,
    pub values_size: Answer,
    pub count: Answer,
}

impl fmt::Display for Counted {
    fn fmt(&self, f: &mut fmt::Formatter<'_>) -> fmt::Result {
        let [nodes, values, names] =
            [&self.nodes_size, &self.values_size, &self.count].map(in_words);
        write!(f, "[nodes {nodes}, values {values}, names {names}]")
    }
}

pub fn needed(most: Counts) -> Answer {
    let [nodes, pairs, cells] = most.numbers();
    // SAFETY: the number of bytes outlives the call.
    asked(Called::Needed, |bytes| unsafe {
        cjumbradi_needed(nodes, pairs, cells, bytes)
    })
}

/// What the calls that count answer about a region; none where they wrote to it or beside it.
pub fn counted(region: &[u8]) -> Option<Counted> {
    let mut guarded = Guarded::new(region);
    let [nodes_size, values_size] = guarded.sizes();
    let count = guarded.count();
    let found = Counted {
        nodes_size,
        values_size,
        count,
    };
    (guarded.region() == Some(region)).then_some(found)
}

/// Opens a region. The answer, and the region then; none where bytes beside it were written.
pub fn opened(kind: Kind, region: &[u8], most: Counts) -> Option<(Answer, Vec<u8>)> {
    let call: OpenCall = match kind {
        Kind::Subscriptions => cjumbradi_open_subscriptions,
        Kind::Retained => cjumbradi_open_retained,
    };
    let [nodes, pairs, cells] = most.numbers();
    let mut guarded = Guarded::new(region);
    let lent = guarded.lent();
    // SAFETY: as in `size`.
    let answer = asked(Called::Open, |place| unsafe {
        call(lent.as_mut_ptr(), lent.len(), nodes, pairs, cells, place)
    });
    let after = guarded.region()?.to_vec();
    Some((answer, after))
}
