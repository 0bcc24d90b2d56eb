//! The Rust: its `DefaultRetainStorage`, which holds a `RetainTree`, with a clock that is told the
//! time.

use std::time::Duration;

use rmqtt::clock;
use rmqtt::now_or_never;
use rmqtt::retain::{DefaultRetainStorage, RetainStorage};
use rmqtt::topic::Topic;
use rmqtt::types::{Payload, Publish, Retain, TimedValue, TopicFilter, TopicName};

use super::Record;
use crate::read::Read;
use crate::rust::parsed;

/// A record of a page.
type Given = (TopicName, Retain, Option<Duration>);

#[derive(Default)]
pub struct Rust(DefaultRetainStorage);

/// The texts as the broker has them.
pub fn texts(texts: &[String]) -> Vec<TopicName> {
    let text = |text: &String| TopicName::from(text.as_str());
    texts.iter().map(text).collect()
}

impl Rust {
    fn change(&self, name: &TopicName, payload: u64, handle: u32, expiry: Option<Duration>) {
        let publish = Publish {
            payload: Payload(payload),
        };
        let retain = Retain { handle, publish };
        now_or_never(self.0.set_with_timeout(name, retain, expiry)).expect("the name parses");
    }

    /// At the time 0, so that the time until a record expires is its moment.
    pub fn set(&self, name: &TopicName, handle: u32, moment: u64) {
        clock::set(0);
        self.change(name, 1, handle, Some(Duration::from_millis(moment)));
    }

    pub fn erase(&self, name: &TopicName) {
        self.change(name, 0, 0, None);
    }

    pub fn sweep(&self, now: u64) -> u64 {
        clock::set(now);
        now_or_never(self.0.remove_expired_messages()) as u64
    }

    pub fn count(&self) -> u64 {
        now_or_never(self.0.count()) as u64
    }

    pub fn nodes(&self) -> u64 {
        now_or_never(self.0.messages.read()).nodes_size() as u64
    }

    /// From a filter's text, as the broker has it, and each record read.
    pub fn lookup(&self, filter: &TopicFilter, now: u64) -> Read {
        clock::set(now);
        let taken = now_or_never(self.0.get_message(filter)).expect("the filter parses");
        let mut read = Read::default();
        for (name, retain) in &taken {
            read.filter(name.as_bytes());
            read.value(retain.handle);
        }
        read
    }

    /// A page, and each record read.
    pub fn page(&self, now: u64, offset: u64, limit: u64) -> Read {
        let mut read = Read::default();
        for (name, retain, _) in &self.page_given(now, offset, limit).0 {
            read.filter(name.as_bytes());
            read.value(retain.handle);
        }
        read
    }

    fn page_given(&self, now: u64, offset: u64, limit: u64) -> (Vec<Given>, bool) {
        clock::set(now);
        let page = self.0.get_all_paginated(offset as usize, limit as usize);
        now_or_never(page).expect("a page is given")
    }

    /// How many records a page has, and whether more follows, to compare.
    pub fn page_size(&self, now: u64, offset: u64, limit: u64) -> (usize, bool) {
        let (given, more) = self.page_given(now, offset, limit);
        (given.len(), more)
    }

    /// A lookup as records, to compare; in no order.
    pub fn records(&self, filter: &TopicFilter, now: u64) -> Vec<Record> {
        clock::set(now);
        let filter = parsed(filter);
        let taken = now_or_never(self.0.messages.read()).matches(&filter);
        let listed = taken.into_iter().filter(|(_, record)| !record.is_expired());
        let record = |(name, record): (Topic, TimedValue<Retain>)| {
            let left = record.remaining().expect("every record has a moment");
            let name = name.to_string().into_bytes();
            (name, record.value().handle, left.as_millis() as u64)
        };
        listed.map(record).collect()
    }
}
