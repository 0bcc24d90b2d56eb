//! A store of the library, the model of what it should hold, and the Rust; and how a change is judged.

use crate::answers::{in_words, Answer};
use crate::differ::{differ, differ_from_rust};
use crate::regions::{self, Guarded};
use crate::stores::{Counts, Kind};

pub struct Sides<M, R> {
    pub store: Guarded,
    pub model: M,
    pub rust: R,
}

impl<M, R: Default> Sides<M, R> {
    /// Nothing is held; the region is longer than it needs to be.
    pub fn opened(kind: Kind, most: Counts, model: M) -> Self {
        let room = vec![0x5A; most.needed() + 7];
        let (_, region) =
            regions::opened(kind, &room, most).expect("opening writes into the region alone");
        Sides {
            store: Guarded::new(&region),
            model,
            rust: R::default(),
        }
    }

    /// Makes a change on each side: the same answer, and after a refusal the same bytes.
    pub fn change(
        &mut self,
        of_store: impl FnOnce(&mut Guarded) -> Answer,
        of_model: impl FnOnce(&mut M) -> Answer,
        of_rust: impl FnOnce(&mut R) -> Option<u64>,
    ) -> Result<(), String> {
        let before = self.store.region().map(<[u8]>::to_vec);
        let found = of_store(&mut self.store);
        differ("model", &found, &of_model(&mut self.model), in_words)?;
        let after = self.store.region();
        match found {
            Err(_) if after != before.as_deref() => Err("a refusal wrote bytes".into()),
            Err(_) => Ok(()),
            Ok(_) if after.is_none() => Err("bytes beside the region were written".into()),
            Ok(_) => differ_from_rust(&found, of_rust(&mut self.rust).map(Ok), in_words),
        }
    }
}
