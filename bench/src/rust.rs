//! The Rust: its `TopicTree<u32>`, called as its router calls it.

use std::hint::black_box;
use std::str::FromStr;

use rmqtt::topic::Topic;
use rmqtt::trie::{TopicTree, VecToTopic};

use crate::read::{Read, Record};

#[derive(Default)]
pub struct Rust(TopicTree<u32>);

pub fn parsed(text: &str) -> Topic {
    Topic::from_str(text).expect("the texts of a workload parse")
}

impl Rust {
    pub fn insert(&mut self, filter: &str, value: u32) -> bool {
        self.0.insert(&parsed(filter), value)
    }

    pub fn remove(&mut self, filter: &str, value: u32) -> bool {
        self.0.remove(&parsed(filter), &value)
    }

    /// From a name's text, as the router has it.
    pub fn is_match(&self, name: &str) -> bool {
        self.is_match_parsed(&parsed(name))
    }

    pub fn is_match_parsed(&self, name: &Topic) -> bool {
        self.0.is_match(name)
    }

    /// From a name's text, as the router has it.
    pub fn listing(&self, name: &str) -> Read {
        self.listing_parsed(&parsed(name))
    }

    /// The router takes each match of the iterator and makes its filter a text.
    pub fn listing_parsed(&self, name: &Topic) -> Read {
        let mut read = Read::default();
        for (path, values) in self.0.matches(name).iter() {
            let filter = black_box(path.to_topic_filter());
            read.filter(filter.as_bytes());
            for value in values {
                read.value(*value);
            }
        }
        read
    }

    /// A listing as records, to compare.
    pub fn records(&self, name: &str) -> Vec<Record> {
        let name = parsed(name);
        let record = |(path, values): (Vec<&_>, Vec<&u32>)| {
            let filter = path.to_topic_filter().as_bytes().to_vec();
            (filter, values.into_iter().copied().collect())
        };
        self.0.matches(&name).iter().map(record).collect()
    }

    pub fn nodes_size(&self) -> u64 {
        self.0.nodes_size() as u64
    }

    pub fn values_size(&self) -> u64 {
        self.0.values_size() as u64
    }
}
