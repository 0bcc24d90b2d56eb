//! A call on a store in both its forms: the one that tests the region and, on a copy, the one that takes the region for a store.
//!
//! Where the region is a store the two must do the same, to the last byte. Where it is none the second may answer
//! anything, but it must end and touch nothing but what it is lent.

use crate::answers::number::NOT_A_STORE;
use crate::answers::{refused, Answer, Refusal};
use crate::counts::Called;
use crate::regions::Guarded;

/// A call that tests the region, and the one that does not.
pub type Forms<F> = [(Called, F); 2];

/// What the two forms do differently.
enum Differs {
    Answer = 1,
    Region = 2,
    Buffer = 3,
    /// The second wrote beside the region.
    Beside = 4,
}

/// No answer: a refusal whose number there is not, at a place that says why.
fn differ<T>(why: Differs) -> Answer<T> {
    Err(Refusal {
        number: u64::MAX,
        place: why as u64,
    })
}

impl Guarded {
    /// Makes a call in both forms, with a buffer for each, and answers as the one that tests.
    pub fn twice<F, T: PartialEq>(
        &mut self,
        [tested, known]: Forms<F>,
        out: &mut [u8],
        make: impl Fn(&mut Guarded, &mut [u8], (Called, F)) -> Answer<T>,
    ) -> Answer<T> {
        let mut other = self.copy();
        let mut other_out = out.to_vec();
        let found = make(self, out, tested);
        let known = make(&mut other, &mut other_out, known);
        if other.region().is_none() {
            return differ(Differs::Beside);
        }
        if matches!(found, Err(refusal) if refusal.number == NOT_A_STORE) {
            return found;
        }
        if found != known {
            return differ(Differs::Answer);
        }
        if other.region() != self.region() {
            return differ(Differs::Region);
        }
        if other_out != out {
            return differ(Differs::Buffer);
        }
        found
    }
}

/// What becomes of calls whose forms do the same or something else: what they do, and whether it comes out as it should.
pub fn noticed() -> [(&'static str, bool); 6] {
    let same = made(|_, _, _| Ok(1));
    let answer = made(|_, _, form| Ok(form.into()));
    let region = made(|store, _, form| {
        store.lent()[0] = form;
        Ok(1)
    });
    let buffer = made(|_, out, form| {
        out[1] = form;
        Ok(1)
    });
    let beside = made(|store, _, form| {
        store.before()[0] ^= form;
        Ok(1)
    });
    let no_store = made(|store, _, form| {
        store.lent()[0] = form;
        refused(NOT_A_STORE + u64::from(form))
    });
    [
        ("the same", same == Ok(1)),
        ("another answer", answer == differ(Differs::Answer)),
        ("another region", region == differ(Differs::Region)),
        ("another buffer", buffer == differ(Differs::Buffer)),
        ("bytes beside the region", beside == differ(Differs::Beside)),
        ("no store", no_store == refused(NOT_A_STORE)),
    ]
}

/// A call made in both forms, 0 and 1, on a small region, with a small buffer.
fn made(make: impl Fn(&mut Guarded, &mut [u8], u8) -> Answer) -> Answer {
    let forms = [(Called::Insert, 0), (Called::KnownInsert, 1)];
    Guarded::new(&[7; 4]).twice(forms, &mut [7; 2], |store, out, (_, form)| {
        make(store, out, form)
    })
}
