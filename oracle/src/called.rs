//! Calls on a region that may be damaged: each refuses 11 and writes nothing, or does to what the
//! region holds what it should, and leaves a store.

use std::fmt::Debug;

use crate::answers::number::NOT_A_STORE;
use crate::answers::{refused, Answer};
use crate::buffers::{Buffer, Record};
use crate::differ::{debug, differ};
use crate::random::Random;
use crate::regions::{Guarded, Listed};
use crate::store_judge::{Store, StoreJudge};
use crate::stores::Kind;

/// What a store of one kind holds.
pub trait Model: Clone {
    const KIND: Kind;

    /// What this store holds.
    fn of(store: &Store) -> Self;

    /// Whether this is what the store holds.
    fn is_of(&self, store: &Store) -> bool;
}

/// A region, its judge, and what it holds where it is a store.
pub struct Region<'a, M> {
    judge: &'a StoreJudge,
    bytes: &'a [u8],
    pub held: Option<M>,
}

/// Random numbers that a region decides.
pub fn random_of(region: &[u8]) -> Random {
    let sum = region
        .iter()
        .fold(1, |sum: u64, byte| sum.wrapping_mul(31) + u64::from(*byte));
    Random(sum)
}

impl<'a, M: Model> Region<'a, M> {
    /// A region whose store, if it is one, is known.
    pub fn new(judge: &'a StoreJudge, bytes: &'a [u8], store: Option<&Store>) -> Self {
        Region {
            judge,
            bytes,
            held: store.map(M::of),
        }
    }

    /// What a call should answer: as the model does, or that this is no store.
    pub fn expected<T>(&self, of_model: impl FnOnce(&M) -> Answer<T>) -> Answer<T> {
        self.held.as_ref().map_or(refused(NOT_A_STORE), of_model)
    }

    /// A change, on a copy of the region.
    pub fn changed(
        &self,
        of_store: impl FnOnce(&mut Guarded) -> Answer,
        of_model: impl FnOnce(&mut M) -> Answer,
    ) -> Result<(), String> {
        let mut lent = Guarded::new(self.bytes);
        let found = of_store(&mut lent);
        let mut held = self.held.clone();
        let expected = held.as_mut().map_or(refused(NOT_A_STORE), of_model);
        differ("judge", &found, &expected, debug)?;
        let after = lent
            .region()
            .ok_or("bytes beside the region were written")?;
        match held.filter(|_| found.is_ok()) {
            None if after == self.bytes => Ok(()),
            None => Err("a refusal wrote bytes".into()),
            Some(held) => self.left(after, &held),
        }
    }

    /// A change left a store of what should be held, with the same capacities and the same bytes behind.
    fn left(&self, after: &[u8], held: &M) -> Result<(), String> {
        let store = self.judge.store(M::KIND, after).ok_or("it left no store")?;
        let needed = store.most.needed();
        let is_right = held.is_of(&store)
            && after[4..10] == self.bytes[4..10]
            && after[needed..] == self.bytes[needed..];
        is_right.then_some(()).ok_or("it left another store".into())
    }

    /// A question, which writes nothing.
    pub fn asked(
        &self,
        of_store: impl FnOnce(&mut Guarded) -> Answer,
        of_model: impl FnOnce(&M) -> Answer,
    ) -> Result<(), String> {
        let mut lent = Guarded::new(self.bytes);
        let found = of_store(&mut lent);
        differ("judge", &found, &self.expected(of_model), debug)?;
        self.stayed(&lent)
    }

    /// A question for records, with a buffer that is long enough or one byte short. `whole` says all
    /// that should be told, out of the bytes and records.
    pub fn listed<R: Record, T: Debug + PartialEq>(
        &self,
        random: &mut Random,
        of_store: impl FnOnce(&mut Guarded, &mut [u8]) -> Answer<T>,
        records: Answer<Vec<R>>,
        whole: impl FnOnce(Listed) -> T,
    ) -> Result<(), String> {
        let over = |bytes: usize| match bytes > 0 && random.once_in(3) {
            true => -1,
            false => 2,
        };
        let mut buffer = Buffer::new(&records, over, |buffer, bytes| buffer < bytes);
        let mut lent = Guarded::new(self.bytes);
        let found = of_store(&mut lent, &mut buffer.lent);
        buffer.judge("judge", &found, whole)?;
        self.stayed(&lent)
    }

    fn stayed(&self, lent: &Guarded) -> Result<(), String> {
        match lent.region() == Some(self.bytes) {
            true => Ok(()),
            false => Err("a question wrote bytes".into()),
        }
    }
}
