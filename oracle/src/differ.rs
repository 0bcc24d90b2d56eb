//! Whether what the library found is what a judge expects.

use std::fmt::Debug;

/// A complaint where the two are not the same.
pub fn differ<T: PartialEq>(
    who: &str,
    found: &T,
    expected: &T,
    words: impl Fn(&T) -> String,
) -> Result<(), String> {
    match found == expected {
        true => Ok(()),
        false => Err(format!(
            "library {}, {who} {}",
            words(found),
            words(expected)
        )),
    }
}

/// The same beside the Rust, where that has a say.
pub fn differ_from_rust<T: PartialEq>(
    found: &T,
    expected: Option<T>,
    words: impl Fn(&T) -> String,
) -> Result<(), String> {
    expected.map_or(Ok(()), |expected| differ("Rust", found, &expected, words))
}

pub fn debug<T: Debug>(value: &T) -> String {
    format!("{value:?}")
}
