//! What a store of retained names holds, by document 01 alone: a record for each name, looked up and
//! paged the plain way.
//!
//! Where a twist is named, that one rule is broken on purpose.

use std::collections::BTreeMap;

use crate::answers::number::*;
use crate::answers::{refused, Answer, TopicCalls};
use crate::buffers;
use crate::cjumbradi::set;
use crate::random::Random;
use crate::reference::HONEST;
use crate::room::Room;
use crate::stores::{Counts, Stored};
use crate::texts::levels;
use crate::twists::Twist;

/// A name with its handle and the time that is left.
pub type Record = (Vec<u8>, u32, u64);

/// By their levels the names stand in document 01's order: levels by their bytes, a shorter beginning
/// first.
#[derive(Clone)]
pub struct Named {
    room: Room,
    names: BTreeMap<Vec<Vec<u8>>, Stored>,
}

fn key(name: &[u8]) -> Vec<Vec<u8>> {
    levels(name).into_iter().map(<[u8]>::to_vec).collect()
}

impl Named {
    pub fn new(most: Counts, twist: Option<Twist>) -> Self {
        Named {
            room: Room::new(most, twist),
            names: BTreeMap::new(),
        }
    }

    /// What holds these names.
    pub fn holding(most: Counts, names: &[(Vec<u8>, Stored)]) -> Self {
        let mut named = Named::new(most, None);
        for (name, stored) in names {
            named.names.insert(key(name), *stored);
            named.room.hold(name);
        }
        named
    }

    pub fn room(&self) -> &Room {
        &self.room
    }

    fn is(&self, twist: Twist) -> bool {
        self.room.is(twist)
    }

    /// One of the names; none where nothing is held.
    pub fn some(&self, random: &mut Random) -> Option<(Vec<u8>, Stored)> {
        self.all().nth(random.below(self.room.pairs().max(1)))
    }

    /// All names, in their order.
    pub fn all(&self) -> impl Iterator<Item = (Vec<u8>, Stored)> + '_ {
        let text = |(levels, stored): (&Vec<Vec<u8>>, &Stored)| (levels.join(&b'/'), *stored);
        self.names.iter().map(text)
    }

    pub fn set(&mut self, name: &[u8], payload: u64, stored: Stored, now: u64) -> Answer {
        HONEST.is_valid_topic_name(name)?;
        let old = self.names.get(&key(name)).copied();
        if payload == 0 {
            return self.erase(name, old);
        }
        if old.is_none() || self.is(Twist::HeldRefusedWhenFull) {
            if let Some(number) = self.room.fault(name) {
                return refused(number);
            }
        }
        if self.is(Twist::SetDoesNothing) {
            return Ok(old.map_or(set::NEW, |_| set::REPLACED));
        }
        self.names.insert(key(name), stored);
        match old {
            None => {
                self.room.hold(name);
                Ok(set::NEW)
            }
            Some(old) if self.is(Twist::ReplacedExpiredIsNew) && self.is_expired(old, now) => {
                Ok(set::NEW)
            }
            Some(_) => Ok(set::REPLACED),
        }
    }

    fn erase(&mut self, name: &[u8], old: Option<Stored>) -> Answer {
        if self.room.refuses_taking(name) {
            return refused(TOO_DEEP);
        }
        if old.is_none() || self.is(Twist::ErasedIsNotHeld) {
            return Ok(set::NOT_HELD);
        }
        self.names.remove(&key(name));
        self.room.release(name);
        Ok(set::ERASED)
    }

    fn is_expired(&self, stored: Stored, now: u64) -> bool {
        let late = self.is(Twist::ExpiresOneLate);
        let passed = |moment: u64| moment < now || (moment == now && !late);
        stored.moment.is_some_and(passed)
    }

    pub fn sweep(&mut self, now: u64) -> Answer {
        let all = self.is(Twist::SweepTakesUnexpired);
        let names: Vec<_> = self
            .all()
            .filter(|(_, stored)| self.is_expired(*stored, now) || (all && stored.moment.is_some()))
            .map(|(name, _)| name)
            .take(if self.is(Twist::SweepStopsEarly) {
                1
            } else {
                usize::MAX
            })
            .collect();
        for name in &names {
            self.names.remove(&key(name));
            self.room.release(name);
        }
        Ok(names.len() as u64)
    }

    pub fn count(&self, now: u64) -> Answer {
        let skips = self.is(Twist::CountSkipsExpired);
        let counted = |stored: &&Stored| !skips || !self.is_expired(**stored, now);
        Ok(self.names.values().filter(counted).count() as u64)
    }

    fn left(&self, stored: Stored, now: u64) -> u64 {
        match stored.moment {
            None => 0,
            Some(moment) if self.is(Twist::MomentForRemaining) => moment,
            Some(moment) => moment.saturating_sub(now),
        }
    }

    fn taken(&self, filter: &[u8], now: u64) -> Vec<Record> {
        let on_page = self.is(Twist::DollarOnPages) && filter == b"#";
        let listed =
            |stored: Stored| self.is(Twist::ExpiredListed) || !self.is_expired(stored, now);
        let mut records: Vec<Record> = self
            .all()
            .filter(|(name, stored)| listed(*stored) && (on_page || self.room.takes(filter, name)))
            .map(|(name, stored)| (name, stored.handle, self.left(stored, now)))
            .collect();
        if self.is(Twist::NamesByWholeBytes) {
            records.sort();
        }
        if self.is(Twist::ParentAfterChildren) {
            let last = |name: &[u8]| [name, b"/\xFF"].concat();
            records.sort_by_cached_key(|(name, ..)| key(&last(name)));
        }
        match self.is(Twist::AlwaysEmpty) {
            true => Vec::new(),
            false => records,
        }
    }

    /// The lookup of a filter, or what the filter is refused for.
    pub fn lookup(&self, filter: &[u8], now: u64) -> Answer<Vec<Record>> {
        HONEST.is_valid_topic_filter(filter)?;
        Ok(self.taken(filter, now))
    }

    /// A page, and whether more follows.
    pub fn page(&self, now: u64, offset: u64, limit: u64) -> (Vec<Record>, bool) {
        let all = self.taken(b"#", now);
        let first = offset.saturating_add(u64::from(self.is(Twist::PageBeginsOneLate)));
        let sum = match self.is(Twist::SumOverflows) {
            true => u128::from(offset.wrapping_add(limit)),
            false => u128::from(offset) + u128::from(limit),
        };
        let more = match self.is(Twist::MoreAtTheTotal) {
            true => sum <= all.len() as u128,
            false => sum < all.len() as u128,
        };
        let count = |number: u64| usize::try_from(number).unwrap_or(usize::MAX);
        let given = all.into_iter().skip(count(first)).take(count(limit));
        (given.collect(), more)
    }
}

impl buffers::Record for Record {
    const MARK: [u8; 2] = [0x52, 0x56];

    fn text(&self) -> &[u8] {
        &self.0
    }

    fn write_rest(&self, out: &mut Vec<u8>) {
        let (_, handle, left) = self;
        out.extend(handle.to_be_bytes());
        out.extend(left.to_be_bytes());
    }
}
