//! Stands in for anyhow: an error that is made of any other, and the macro that makes it.

use std::error::Error as AnyError;
use std::fmt;

#[derive(Debug)]
pub struct Error(Box<dyn AnyError + Send + Sync>);

impl fmt::Display for Error {
    fn fmt(&self, out: &mut fmt::Formatter<'_>) -> fmt::Result {
        self.0.fmt(out)
    }
}

impl<E: AnyError + Send + Sync + 'static> From<E> for Error {
    fn from(error: E) -> Self {
        Error(Box::new(error))
    }
}

#[macro_export]
macro_rules! anyhow {
    ($error:expr) => {
        $crate::Error::from($error)
    };
}
