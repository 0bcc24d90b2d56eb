//! The stores of the Rust beside the models; they are not asked about refused calls.

use std::str;
use std::time::Duration;

use rmqtt::clock;
use rmqtt::now_or_never;
use rmqtt::retain::{DefaultRetainStorage, RetainStorage};
use rmqtt::topic::Topic;
use rmqtt::trie::{TopicTree, VecToString};
use rmqtt::types::{Payload, Publish, Retain, TopicName};

use crate::cjumbradi::set;
use crate::stores::Stored;
use crate::{held, named};

fn text(bytes: &[u8]) -> &str {
    str::from_utf8(bytes).expect("an accepted text is UTF-8")
}

fn topic(bytes: &[u8]) -> Topic {
    text(bytes).parse().expect("an accepted text parses")
}

fn milliseconds(left: Option<Duration>) -> u64 {
    left.map_or(0, |left| left.as_millis() as u64)
}

/// Subscriptions.
#[derive(Default)]
pub struct Tree(TopicTree<u32>);

impl Tree {
    pub fn insert(&mut self, filter: &[u8], value: u32) -> Option<u64> {
        Some(u64::from(self.0.insert(&topic(filter), value)))
    }

    pub fn remove(&mut self, filter: &[u8], value: u32) -> Option<u64> {
        Some(u64::from(self.0.remove(&topic(filter), &value)))
    }

    pub fn is_match(&self, name: &[u8]) -> Option<u64> {
        Some(u64::from(self.0.is_match(&topic(name))))
    }

    pub fn listing(&self, name: &[u8]) -> Option<Vec<held::Record>> {
        let name = topic(name);
        let record = |(path, values): (Vec<&_>, Vec<&u32>)| {
            let filter = path.to_string().into_bytes();
            (filter, values.into_iter().copied().collect())
        };
        Some(self.0.matches(&name).iter().map(record).collect())
    }

    pub fn sizes(&self) -> Option<[u64; 2]> {
        Some([self.0.nodes_size() as u64, self.0.values_size() as u64])
    }
}

/// Retained names.
#[derive(Default)]
pub struct Storage(DefaultRetainStorage);

impl Storage {
    pub fn count(&self) -> Option<u64> {
        Some(now_or_never(self.0.count()) as u64)
    }

    pub fn nodes(&self) -> Option<u64> {
        Some(now_or_never(self.0.messages.read()).nodes_size() as u64)
    }

    /// At the time 0, so that the time until a record expires is its moment.
    pub fn set(&mut self, name: &[u8], payload: u64, stored: Stored) -> Option<u64> {
        clock::set(0);
        let before = self.count()?;
        let retain = Retain {
            handle: stored.handle,
            publish: Publish {
                payload: Payload(payload),
            },
        };
        let expiry = stored.moment.map(Duration::from_millis);
        let name = TopicName::from(text(name));
        let done = self.0.set_with_timeout(&name, retain, expiry);
        now_or_never(done).expect("an accepted name is set");
        Some(match (payload, self.count()? != before) {
            (0, false) => set::NOT_HELD,
            (0, true) => set::ERASED,
            (_, false) => set::REPLACED,
            (_, true) => set::NEW,
        })
    }

    pub fn sweep(&mut self, now: u64) -> Option<u64> {
        clock::set(now);
        Some(now_or_never(self.0.remove_expired_messages()) as u64)
    }

    /// In no order.
    pub fn lookup(&self, filter: &[u8], now: u64) -> Option<Vec<named::Record>> {
        clock::set(now);
        let taken = now_or_never(self.0.messages.read()).matches(&topic(filter));
        let listed = taken.into_iter().filter(|(_, record)| !record.is_expired());
        let record = listed.map(|(name, record)| {
            let left = milliseconds(record.remaining());
            (name.to_string().into_bytes(), record.value().handle, left)
        });
        Some(record.collect())
    }

    /// How many records a page has, and whether more follows. None where the Rust's own sum would
    /// overflow.
    pub fn page(&self, now: u64, offset: u64, limit: u64) -> Option<(usize, bool)> {
        offset.checked_add(limit)?;
        clock::set(now);
        let page = self.0.get_all_paginated(offset as usize, limit as usize);
        let (records, more) = now_or_never(page).expect("a page is given");
        Some((records.len(), more))
    }
}
