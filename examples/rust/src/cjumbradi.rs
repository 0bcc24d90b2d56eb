//! The library's C interface behind safe types, which a broker can take as it is, together with
//! include/cjumbradi.rs.
//!
//! It needs `libcjumbradi.a` at link time and nothing else; `#[path]` below says where the other file stands.
//!
//! A store owns its region, a run of bytes. `region` gives the bytes, to keep them in a file or to send
//! them; `from_region` takes them back. Bytes that are no store are refused by each call (11), so nothing
//! has to be trusted.

use std::fmt;
use std::marker::PhantomData;

#[path = "../../../include/cjumbradi.rs"]
mod calls;

use calls::*;

const NAMES: [&str; 17] = [
    "",
    "Empty",
    "TooLong",
    "NotUtf8",
    "HasNul",
    "HasWildcard",
    "BadLevel",
    "HashNotLast",
    "NoInner",
    "BadGroup",
    "BadSize",
    "NotAStore",
    "TooDeep",
    "NodesFull",
    "PairsFull",
    "TextFull",
    "ShortRoom",
];

/// Why a call refused: a number of 1 to 16, and a place.
#[derive(Clone, Copy, Debug, PartialEq, Eq)]
pub struct Refusal {
    pub number: u64,
    pub place: u64,
}

impl fmt::Display for Refusal {
    fn fmt(&self, out: &mut fmt::Formatter<'_>) -> fmt::Result {
        let name = NAMES.get(self.number as usize).copied().unwrap_or("");
        write!(out, "refused {} {name} at {}", self.number, self.place)
    }
}

impl std::error::Error for Refusal {}

pub type Answer<T> = Result<T, Refusal>;

/// Makes a call that hands back one number: what it found, or the place of its refusal.
fn asked(call: impl FnOnce(&mut u64) -> u64) -> Answer<u64> {
    let mut value = 0;
    match call(&mut value) {
        0 => Ok(value),
        number => Err(Refusal {
            number,
            place: value,
        }),
    }
}

/// Makes a call with a buffer that grows: a refusal for room says how many bytes are needed.
fn whole(mut call: impl FnMut(&mut [u8]) -> Answer<u64>) -> Answer<Vec<u8>> {
    let mut out = vec![0; 1024];
    loop {
        match call(&mut out) {
            Ok(bytes) => {
                out.truncate(bytes as usize);
                return Ok(out);
            }
            Err(Refusal {
                number: refusal::SHORT_ROOM,
                place,
            }) => out.resize(place as usize, 0),
            Err(refusal) => return Err(refusal),
        }
    }
}

/// The bytes of some records, of which the next is read from the front.
struct Records<'a>(&'a [u8]);

impl<'a> Records<'a> {
    /// All of them, each read by `one` behind its text.
    fn read<T>(bytes: &'a [u8], one: impl Fn(Vec<u8>, &mut Self) -> T) -> Vec<T> {
        let mut records = Records(bytes);
        let mut all = Vec::new();
        while !records.0.is_empty() {
            let text = records.text();
            all.push(one(text, &mut records));
        }
        all
    }

    fn take(&mut self, length: usize) -> &'a [u8] {
        let (front, rest) = self.0.split_at(length);
        self.0 = rest;
        front
    }

    /// A number, the high byte first.
    fn number(&mut self, length: usize) -> u64 {
        let bytes = self.take(length);
        bytes
            .iter()
            .fold(0, |sum, byte| sum << 8 | u64::from(*byte))
    }

    /// A record's mark is passed; its text is what follows.
    fn text(&mut self) -> Vec<u8> {
        self.take(2);
        let length = self.number(2) as usize;
        self.take(length).to_vec()
    }
}

/// How many nodes, pairs and cells of text a store can have.
#[derive(Clone, Copy, Debug)]
pub struct Capacities {
    pub nodes: u64,
    pub pairs: u64,
    pub cells: u64,
}

/// A store of one of the two kinds, in its region.
pub struct Store<K> {
    region: Vec<u8>,
    kind: PhantomData<K>,
}

/// The kinds of store, each with the call that opens one.
pub trait Kind {
    const OPEN: OpenCall;
}

impl<K: Kind> Store<K> {
    /// An empty store.
    pub fn open(most: Capacities) -> Answer<Self> {
        let Capacities {
            nodes,
            pairs,
            cells,
        } = most;
        // SAFETY: a pointer and its length are those of a slice, slices that are written overlap no
        // other, and the numbers that are handed back outlive the call. So in every call below.
        let bytes = asked(|bytes| unsafe { cjumbradi_needed(nodes, pairs, cells, bytes) })?;
        let mut region = vec![0; bytes as usize];
        asked(|place| unsafe {
            (K::OPEN)(
                region.as_mut_ptr(),
                region.len(),
                nodes,
                pairs,
                cells,
                place,
            )
        })?;
        Ok(Store::from_region(region))
    }

    pub fn from_region(region: Vec<u8>) -> Self {
        Store {
            region,
            kind: PhantomData,
        }
    }

    pub fn region(&self) -> &[u8] {
        &self.region
    }
}

/// Filters with their values.
pub type Subscriptions = Store<OfFilters>;

pub struct OfFilters;

impl Kind for OfFilters {
    const OPEN: OpenCall = cjumbradi_open_subscriptions;
}

/// A filter that matches, with its values, ascending.
pub type Hit = (Vec<u8>, Vec<u32>);

impl Subscriptions {
    fn change(&mut self, call: ChangeCall, filter: &[u8], value: u32) -> Answer<bool> {
        let region = &mut self.region;
        let answer = asked(|answer| unsafe {
            call(
                region.as_mut_ptr(),
                region.len(),
                filter.as_ptr(),
                filter.len(),
                value,
                answer,
            )
        });
        answer.map(|answer| answer == 1)
    }

    /// Whether the pair is new.
    pub fn insert(&mut self, filter: &[u8], value: u32) -> Answer<bool> {
        self.change(cjumbradi_insert, filter, value)
    }

    /// Whether the pair was held.
    pub fn remove(&mut self, filter: &[u8], value: u32) -> Answer<bool> {
        self.change(cjumbradi_remove, filter, value)
    }

    pub fn is_match(&self, name: &[u8]) -> Answer<bool> {
        let region = &self.region;
        let yes = asked(|yes| unsafe {
            cjumbradi_is_match(
                region.as_ptr(),
                region.len(),
                name.as_ptr(),
                name.len(),
                yes,
            )
        });
        yes.map(|yes| yes == 1)
    }

    /// The listing into a buffer of the caller's: how many of its bytes it takes.
    pub fn listing_into(&self, name: &[u8], out: &mut [u8]) -> Answer<u64> {
        let region = &self.region;
        let mut records = 0;
        asked(|bytes| unsafe {
            cjumbradi_listing(
                region.as_ptr(),
                region.len(),
                name.as_ptr(),
                name.len(),
                out.as_mut_ptr(),
                out.len(),
                bytes,
                &mut records,
            )
        })
    }

    /// The filters that match a name, in the order of the listing.
    pub fn listing(&self, name: &[u8]) -> Answer<Vec<Hit>> {
        let out = whole(|out| self.listing_into(name, out))?;
        Ok(Records::read(&out, |filter, record| {
            let count = record.number(2);
            let values = (0..count).map(|_| record.number(4) as u32).collect();
            (filter, values)
        }))
    }
}

/// Retained names: a handle for each, and the moment at which it expires, in milliseconds, or none.
pub type Retained = Store<OfNames>;

pub struct OfNames;

impl Kind for OfNames {
    const OPEN: OpenCall = cjumbradi_open_retained;
}

/// A name that was found, with its handle and the milliseconds that are left; none where it never expires.
pub type Found = (Vec<u8>, u32, Option<u64>);

fn found(out: &[u8]) -> Vec<Found> {
    Records::read(out, |name, record| {
        let handle = record.number(4) as u32;
        let left = record.number(8);
        (name, handle, (left > 0).then_some(left))
    })
}

/// What became of a name.
#[derive(Clone, Copy, Debug, PartialEq, Eq)]
pub enum Set {
    New = set::NEW as isize,
    Replaced = set::REPLACED as isize,
    Erased = set::ERASED as isize,
    NotHeld = set::NOT_HELD as isize,
}

impl Retained {
    /// Sets the record of a name, or with an empty payload erases the name.
    pub fn set(
        &mut self,
        name: &[u8],
        payload: u64,
        handle: u32,
        moment: Option<u64>,
    ) -> Answer<Set> {
        let region = &mut self.region;
        let answer = asked(|answer| unsafe {
            cjumbradi_set(
                region.as_mut_ptr(),
                region.len(),
                name.as_ptr(),
                name.len(),
                payload,
                handle,
                u64::from(moment.is_some()),
                moment.unwrap_or(0),
                answer,
            )
        })?;
        Ok(match answer {
            set::NEW => Set::New,
            set::REPLACED => Set::Replaced,
            set::ERASED => Set::Erased,
            _ => Set::NotHeld,
        })
    }

    /// The names that a filter takes and that have not expired, in the order of the names.
    pub fn lookup(&self, filter: &[u8], clock: u64) -> Answer<Vec<Found>> {
        let region = &self.region;
        let mut records = 0;
        let out = whole(|out| {
            asked(|bytes| unsafe {
                cjumbradi_lookup(
                    region.as_ptr(),
                    region.len(),
                    filter.as_ptr(),
                    filter.len(),
                    clock,
                    out.as_mut_ptr(),
                    out.len(),
                    bytes,
                    &mut records,
                )
            })
        })?;
        Ok(found(&out))
    }

    /// A page of all names that have not expired, and whether more follow.
    pub fn page(&self, clock: u64, offset: u64, limit: u64) -> Answer<(Vec<Found>, bool)> {
        let region = &self.region;
        let (mut records, mut more) = (0, 0);
        let out = whole(|out| {
            asked(|bytes| unsafe {
                cjumbradi_page(
                    region.as_ptr(),
                    region.len(),
                    clock,
                    offset,
                    limit,
                    out.as_mut_ptr(),
                    out.len(),
                    bytes,
                    &mut records,
                    &mut more,
                )
            })
        })?;
        Ok((found(&out), more == 1))
    }

    /// Removes what has expired, and tells how many names that were.
    pub fn sweep(&mut self, clock: u64) -> Answer<u64> {
        let region = &mut self.region;
        asked(|removed| unsafe {
            cjumbradi_sweep(region.as_mut_ptr(), region.len(), clock, removed)
        })
    }

    /// With those that have expired and were not swept.
    pub fn count(&self) -> Answer<u64> {
        let region = &self.region;
        asked(|names| unsafe { cjumbradi_count(region.as_ptr(), region.len(), names) })
    }
}
