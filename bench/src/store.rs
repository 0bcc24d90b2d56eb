//! A store of the library, of either kind, as it is measured: a region with all the room that there is,
//! and a buffer for records.

use crate::cjumbradi::*;

/// The two forms of a call.
#[derive(Clone, Copy)]
pub enum Form {
    /// It takes the region for a store.
    Known,
    /// It tests the region.
    Tested,
}

/// The largest capacities: nodes, pairs and cells.
const MOST: [u64; 3] = [4_096, 8_192, 8_192];

/// Makes a call that hands back one number. No call of a benchmark is refused.
pub fn asked(call: impl FnOnce(&mut u64) -> u64) -> u64 {
    let mut value = 0;
    let number = call(&mut value);
    assert_eq!(number, 0, "a call was refused");
    value
}

pub struct Store {
    open: OpenCall,
    pub region: Vec<u8>,
    out: Vec<u8>,
}

impl Store {
    pub fn of_subscriptions() -> Self {
        Store::opened(cjumbradi_open_subscriptions)
    }

    pub fn of_names() -> Self {
        Store::opened(cjumbradi_open_retained)
    }

    fn opened(open: OpenCall) -> Self {
        let [nodes, pairs, cells] = MOST;
        // SAFETY: the number of bytes outlives the call.
        let needed = asked(|bytes| unsafe { cjumbradi_needed(nodes, pairs, cells, bytes) });
        let mut store = Store {
            open,
            region: vec![0; needed as usize],
            out: vec![0; 1 << 20],
        };
        store.empty();
        store
    }

    pub fn empty(&mut self) {
        let [nodes, pairs, cells] = MOST;
        let region = &mut self.region;
        // SAFETY: the pointer and the length are those of a slice, and the place outlives the call.
        asked(|place| unsafe {
            (self.open)(
                region.as_mut_ptr(),
                region.len(),
                nodes,
                pairs,
                cells,
                place,
            )
        });
    }

    /// Makes this store hold what another holds.
    pub fn become_as(&mut self, other: &Store) {
        self.region.copy_from_slice(&other.region);
    }

    pub fn size(&self, call: SizeCall) -> u64 {
        // SAFETY: as in `empty`; the region is only read.
        asked(|size| unsafe { call(self.region.as_ptr(), self.region.len(), size) })
    }

    /// Makes a call that reads the region and writes records into the buffer: their bytes.
    pub fn list(
        &mut self,
        call: impl FnOnce(&[u8], &mut [u8], &mut u64, &mut u64) -> u64,
    ) -> &[u8] {
        let mut records = 0;
        let bytes = asked(|bytes| call(&self.region, &mut self.out, bytes, &mut records));
        &self.out[..bytes as usize]
    }
}

/// The text of the first record, and what follows it: a mark of two bytes, a length, the text.
pub fn text_of(records: &[u8]) -> (&[u8], &[u8]) {
    let text = usize::from(u16::from_be_bytes([records[2], records[3]]));
    records[4..].split_at(text)
}
