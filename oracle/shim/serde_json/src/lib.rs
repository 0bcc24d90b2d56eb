//! Stands in for serde_json: nothing is written down in a comparison.

pub struct Value;

#[macro_export]
macro_rules! json {
    ($($words:tt)*) => {
        $crate::Value
    };
}
