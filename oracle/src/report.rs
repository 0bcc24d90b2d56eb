//! How inputs and differences are printed.

use std::str;

use crate::compare::Difference;
use crate::inputs::Input;

/// Of longer bytes only the two ends are printed.
const SHOWN: usize = 48;

impl Input {
    /// The input as text.
    pub fn quoted(&self) -> String {
        self.written(quoted)
    }

    /// The input as text and in hex.
    pub fn in_full(&self) -> String {
        self.written(|bytes| format!("{} [{}]", quoted(bytes), hex(bytes)))
    }

    fn written(&self, text: impl Fn(&[u8]) -> String) -> String {
        match self {
            Input::Text(bytes) => format!("text {}", text(bytes)),
            Input::Pair { filter, name } => {
                format!("filter {}, name {}", text(filter), text(name))
            }
        }
    }
}

/// The bytes as text, with what cannot be printed escaped.
fn quoted(bytes: &[u8]) -> String {
    let text = |bytes: &[u8]| match str::from_utf8(bytes) {
        Ok(text) => format!("{text:?}"),
        Err(_) => format!("\"{}\"", bytes.escape_ascii()),
    };
    match ends(bytes) {
        None => text(bytes),
        Some((start, end)) => {
            format!("{} .. {} ({} bytes)", text(start), text(end), bytes.len())
        }
    }
}

/// The bytes in hex. Where a long text is one byte again and again, that is said.
fn hex(bytes: &[u8]) -> String {
    let hex = |bytes: &[u8]| {
        let bytes: Vec<String> = bytes.iter().map(|byte| format!("{byte:02X}")).collect();
        bytes.join(" ")
    };
    match ends(bytes) {
        None => hex(bytes),
        Some((start, _)) if bytes.iter().all(|byte| *byte == start[0]) => {
            format!("all {:02X}", start[0])
        }
        Some((start, end)) => format!("{} .. {}", hex(start), hex(end)),
    }
}

/// The two ends of bytes that are too many to print.
fn ends(bytes: &[u8]) -> Option<(&[u8], &[u8])> {
    let is_long = bytes.len() > SHOWN;
    is_long.then(|| (&bytes[..SHOWN / 2], &bytes[bytes.len() - SHOWN / 2..]))
}

impl Difference {
    /// The call and both answers.
    pub fn in_words(&self) -> String {
        let level = self
            .level
            .map_or(String::new(), |k| format!(" of level {k}"));
        format!(
            "{}{level}: library {}, {} {}",
            self.call, self.found, self.judge, self.expected
        )
    }
}
