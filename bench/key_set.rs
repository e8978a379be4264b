//! A set of keys, for dictionaries with many.

use std::collections::HashSet;
use std::hash::{BuildHasher, Hasher, RandomState};

use crate::key::Key;

pub struct KeySet<'a> {
    /// The heads of the short keys, which tell them apart.
    short: HashSet<u64, HeadHash>,
    long: HashSet<&'a [u8]>,
    room: usize,
}

impl<'a> KeySet<'a> {
    /// An empty set, which will have room for so many keys.
    pub fn new(room: usize) -> Self {
        KeySet {
            short: HashSet::with_hasher(HeadHash::new()),
            long: HashSet::new(),
            room,
        }
    }

    /// Was the key not in the set?
    pub fn insert(&mut self, key: Key<'a>) -> bool {
        // Most dictionaries have keys of one kind alone, so room is made for the first of each.
        if key.is_long() {
            if self.long.is_empty() {
                self.long.reserve(self.room / 2);
            }
            self.long.insert(key.text)
        } else {
            if self.short.is_empty() {
                self.short.reserve(self.room);
            }
            self.short.insert(key.head)
        }
    }
}

/// Hashes a head by one multiplication with a random number, which a sender cannot know, so that he cannot choose keys with
/// the same hash.
#[derive(Clone, Copy)]
struct HeadHash {
    factor: u64,
    hash: u64,
}

impl HeadHash {
    fn new() -> Self {
        HeadHash {
            factor: RandomState::new().hash_one(0) | 1,
            hash: 0,
        }
    }
}

impl BuildHasher for HeadHash {
    type Hasher = Self;

    fn build_hasher(&self) -> Self {
        *self
    }
}

impl Hasher for HeadHash {
    fn write(&mut self, bytes: &[u8]) {
        bytes
            .iter()
            .for_each(|&byte| self.write_u64(u64::from(byte)));
    }

    fn write_u64(&mut self, head: u64) {
        let product = u128::from(head ^ self.hash) * u128::from(self.factor);
        self.hash = (product >> 64) as u64 ^ product as u64;
    }

    fn finish(&self) -> u64 {
        self.hash
    }
}
