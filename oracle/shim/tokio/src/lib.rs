//! Stands in for tokio: the one lock that is taken.
//!
//! One thread takes it, so it never waits.

pub mod sync {
    use std::sync::{RwLockReadGuard, RwLockWriteGuard};

    pub struct RwLock<T>(std::sync::RwLock<T>);

    impl<T> RwLock<T> {
        pub fn new(value: T) -> Self {
            RwLock(std::sync::RwLock::new(value))
        }

        pub async fn read(&self) -> RwLockReadGuard<'_, T> {
            self.0.read().expect("no thread has panicked")
        }

        pub async fn write(&self) -> RwLockWriteGuard<'_, T> {
            self.0.write().expect("no thread has panicked")
        }
    }
}
