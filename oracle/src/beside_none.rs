//! What stands beside the models where no Rust is compiled in: it has nothing to say.

use crate::stores::Stored;
use crate::{held, named};

#[derive(Default)]
pub struct Tree;

impl Tree {
    pub fn insert(&mut self, _: &[u8], _: u32) -> Option<u64> {
        None
    }
    pub fn remove(&mut self, _: &[u8], _: u32) -> Option<u64> {
        None
    }
    pub fn is_match(&self, _: &[u8]) -> Option<u64> {
        None
    }
    pub fn listing(&self, _: &[u8]) -> Option<Vec<held::Record>> {
        None
    }
    pub fn sizes(&self) -> Option<[u64; 2]> {
        None
    }
}

#[derive(Default)]
pub struct Storage;

impl Storage {
    pub fn count(&self) -> Option<u64> {
        None
    }
    pub fn nodes(&self) -> Option<u64> {
        None
    }
    pub fn set(&mut self, _: &[u8], _: u64, _: Stored) -> Option<u64> {
        None
    }
    pub fn sweep(&mut self, _: u64) -> Option<u64> {
        None
    }
    pub fn lookup(&self, _: &[u8], _: u64) -> Option<Vec<named::Record>> {
        None
    }
    pub fn page(&self, _: u64, _: u64, _: u64) -> Option<(usize, bool)> {
        None
    }
}
