//! Buffers for records: longer than the records or shorter, with what a call should leave in them.

use std::fmt::Debug;

use crate::answers::number::SHORT_ROOM;
use crate::answers::{Answer, Refusal};
use crate::differ::{debug, differ};
use crate::regions::Listed;

/// A record as document 01 writes it: a mark, the length of its text, the text, and the rest.
pub trait Record {
    const MARK: [u8; 2];
    fn text(&self) -> &[u8];
    fn write_rest(&self, out: &mut Vec<u8>);
}

fn written<R: Record>(records: &[R]) -> Vec<u8> {
    let mut out = Vec::new();
    for record in records {
        out.extend(R::MARK);
        out.extend((record.text().len() as u16).to_be_bytes());
        out.extend(record.text());
        record.write_rest(&mut out);
    }
    out
}

/// What stands in a buffer before a call.
const FILL: u8 = 0xEE;

/// A buffer that a call is lent, what should be left in it, and what the call should tell.
pub struct Buffer {
    pub lent: Vec<u8>,
    left: Vec<u8>,
    told: Answer<Listed>,
}

impl Buffer {
    /// For the records that are expected, or the refusal: longer than these by `over` of their bytes,
    /// or shorter. `is_short` tells whether a length is too short for so many bytes.
    pub fn new<R: Record>(
        expected: &Answer<Vec<R>>,
        over: impl FnOnce(usize) -> i64,
        is_short: impl FnOnce(usize, usize) -> bool,
    ) -> Self {
        let out = expected
            .as_ref()
            .map_or(Vec::new(), |records| written(records));
        let needed = out.len();
        let room = (needed as i64 + over(needed)).max(0) as usize;
        let mut left = vec![FILL; room];
        let told = match expected {
            Err(refusal) => Err(*refusal),
            Ok(_) if is_short(room, needed) => Err(Refusal {
                number: SHORT_ROOM,
                place: needed as u64,
            }),
            Ok(records) => {
                let end = needed.min(room);
                left[..end].copy_from_slice(&out[..end]);
                Ok(Listed {
                    bytes: needed as u64,
                    records: records.len() as u64,
                })
            }
        };
        Buffer {
            lent: vec![FILL; room],
            left,
            told,
        }
    }

    /// Whether a call told and left what it should; `whole` says all that it should tell, out of the
    /// bytes and records.
    pub fn judge<T: Debug + PartialEq>(
        &self,
        who: &str,
        found: &Answer<T>,
        whole: impl FnOnce(Listed) -> T,
    ) -> Result<(), String> {
        differ(who, found, &self.told.map(whole), debug)?;
        differ(who, &self.lent, &self.left, |bytes| format!("{bytes:02X?}"))
    }
}
