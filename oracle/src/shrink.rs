//! Makes a failing input smaller, as long as it still fails.

use std::iter::successors;

use crate::inputs::Input;
use crate::texts::levels;

/// How many bytes all tries together may have. It bounds the time that a long input takes.
const BUDGET: usize = 16 << 20;

/// Above this length not every place of a text is tried.
const LONG: usize = 4096;

/// The smallest failing input that was found.
pub fn shrunk(input: Input, fails: impl Fn(&Input) -> bool) -> Input {
    let mut shrinking = Shrinking {
        input,
        fails,
        budget: BUDGET,
    };
    // A gain makes the input shorter, or leaves its length and gives it more bytes `a`.
    while shrinking.has_gain() {}
    shrinking.input
}

struct Shrinking<F> {
    input: Input,
    fails: F,
    budget: usize,
}

impl<F: Fn(&Input) -> bool> Shrinking<F> {
    /// One pass with large chunks first, then smaller ones.
    fn has_gain(&mut self) -> bool {
        let before = self.input.clone();
        let texts = texts(&before);
        // A filter goes on matching only if both texts lose the same levels.
        sizes(texts[0].len()).for_each(|size| self.cut_levels(size));
        for (which, text) in texts.iter().enumerate() {
            sizes(text.len()).for_each(|size| self.cut_chunks(which, size));
        }
        self.input != before
    }

    /// Takes the smaller input, if it fails too.
    fn takes(&mut self, smaller: Input) -> bool {
        let cost: usize = texts(&smaller).iter().map(|text| 1 + text.len()).sum();
        self.budget = self.budget.saturating_sub(cost);
        let is_taken = self.budget > 0 && (self.fails)(&smaller);
        if is_taken {
            self.input = smaller;
        }
        is_taken
    }

    /// Cuts `size` levels out of both texts of a pair, wherever it can.
    fn cut_levels(&mut self, size: usize) {
        let mut first = 0;
        while let Some(smaller) = without_levels(&self.input, first, size) {
            if self.budget == 0 {
                return;
            }
            if !self.takes(smaller) {
                first += size;
            }
        }
    }

    /// Cuts `size` bytes out of one text wherever it can, or else makes them plain.
    fn cut_chunks(&mut self, which: usize, size: usize) {
        let mut start = 0;
        while self.budget > 0 && start < texts(&self.input)[which].len() {
            let text = texts(&self.input)[which].clone();
            let (before, rest) = text.split_at(start);
            let (chunk, after) = rest.split_at(size.min(rest.len()));
            if self.takes(with_text(&self.input, which, [before, after].concat())) {
                continue;
            }
            let plain = vec![b'a'; chunk.len()];
            if chunk != plain {
                let plain = [before, &plain, after].concat();
                self.takes(with_text(&self.input, which, plain));
            }
            start += step(text.len(), size);
        }
    }
}

/// A length, its half, and so on down to 1.
fn sizes(length: usize) -> impl Iterator<Item = usize> {
    successors(Some(length), |size| Some(size / 2)).take_while(|size| *size > 0)
}

/// How far the next chunk begins behind the last. Chunks as small as a character begin at every
/// byte, so that whole characters are met.
fn step(length: usize, size: usize) -> usize {
    match size {
        _ if length > LONG => size.max(length / 16),
        1..=4 => 1,
        _ => size,
    }
}

fn texts(input: &Input) -> Vec<&Vec<u8>> {
    match input {
        Input::Text(text) => vec![text],
        Input::Pair { filter, name } => vec![filter, name],
    }
}

fn with_text(input: &Input, which: usize, text: Vec<u8>) -> Input {
    let mut input = input.clone();
    match (&mut input, which) {
        (Input::Text(old), _) => *old = text,
        (Input::Pair { filter, .. }, 0) => *filter = text,
        (Input::Pair { name, .. }, _) => *name = text,
    }
    input
}

/// The pair without those levels. None where a text has not so many, or no other.
fn without_levels(input: &Input, first: usize, count: usize) -> Option<Input> {
    let Input::Pair { filter, name } = input else {
        return None;
    };
    let without = |text: &[u8]| {
        let mut levels = levels(text);
        let is_some = count < levels.len() && first + count <= levels.len();
        is_some.then(|| {
            levels.drain(first..first + count);
            levels.join(&b'/')
        })
    };
    Some(Input::Pair {
        filter: without(filter)?,
        name: without(name)?,
    })
}
