//! Files of rmqtt, byte for byte as published, from the folder RMQTT_SRC.
//!
//! What they lean on comes from the small stand-ins in `../shim`, and from here. Nothing of rmqtt
//! itself stands in this repository.
#![allow(dead_code, unused_imports, async_fn_in_trait, clippy::all)]

include!(concat!(env!("OUT_DIR"), "/modules.rs"));

pub mod clock;
pub mod text;

pub type Result<T, E = anyhow::Error> = std::result::Result<T, E>;

pub mod utils {
    pub use crate::counter::{Counter, StatsMergeMode};
}

/// What the files take from the rest of rmqtt, as far as they use it.
pub mod types {
    pub use crate::clock::Instant;
    use std::time::Duration;

    pub type TopicName = crate::text::Text;
    pub type TopicFilter = crate::text::Text;
    pub type HashMap<K, V> = std::collections::HashMap<K, V, ahash::RandomState>;

    /// A retained message, of which the store asks only whether its payload is empty.
    #[derive(Clone, Debug)]
    pub struct Retain {
        pub handle: u32,
        pub publish: Publish,
    }

    #[derive(Clone, Debug)]
    pub struct Publish {
        pub payload: Payload,
    }

    /// A payload by its length.
    #[derive(Clone, Debug)]
    pub struct Payload(pub u64);

    impl Payload {
        pub fn is_empty(&self) -> bool {
            self.0 == 0
        }
    }

    include!(concat!(env!("OUT_DIR"), "/timed_value.rs"));
}

/// Runs a future that never waits.
pub fn now_or_never<F: std::future::Future>(future: F) -> F::Output {
    use std::task::{Context, Poll, Waker};
    let mut context = Context::from_waker(Waker::noop());
    match std::pin::pin!(future).poll(&mut context) {
        Poll::Ready(value) => value,
        Poll::Pending => panic!("a future waits"),
    }
}
