//! The keys of one dictionary, to which one is added after the other.

use crate::key::Key;
use crate::key_set::KeySet;
use crate::scalars;

/// So many keys of open dictionaries are kept; others are looked for in the payload when they are needed.
const KEPT: usize = 32;
pub type Kept<'a> = [Key<'a>; KEPT];

pub enum Added {
    Rising,
    Unsorted,
    Repeated,
}

pub struct Keys<'a> {
    /// The payload from the dictionary's first key on.
    first: &'a [u8],
    /// The place of the first key among the kept ones.
    base: usize,
    count: usize,
    greatest: Key<'a>,
    least: Key<'a>,
    /// A bit for each key; keys with the same head have the same bit, and so may others.
    bits: u64,
    /// Once it is in use, no key is above the greatest or below the least, and all bits are set.
    set: Option<KeySet<'a>>,
}

impl<'a> Keys<'a> {
    #[inline(always)]
    pub fn new(first: &'a [u8], base: usize) -> Self {
        Keys {
            first,
            base,
            count: 0,
            greatest: Key::MIN,
            least: Key::MAX,
            bits: 0,
            set: None,
        }
    }

    /// Where the keys of an inner dictionary may be kept: after these, or in their stead once not all of them are kept.
    #[inline(always)]
    pub fn inner(&self) -> usize {
        match self.base + self.count {
            end if end <= KEPT => end,
            _ => self.base,
        }
    }

    /// Adds a key, whose string is there in the payload.
    #[inline(always)]
    pub fn add(&mut self, key: Key<'a>, at: &'a [u8], kept: &mut Kept<'a>) -> Added {
        let bit = 1 << (key.head.wrapping_mul(0x9e37_79b9_7f4a_7c15) >> 58);
        let met = self.bits & bit != 0;
        self.bits |= bit;
        let added = if key.head > self.greatest.head {
            self.greatest = key;
            if key.head < self.least.head {
                self.least = key;
            }
            Added::Rising
        } else if key.head < self.least.head {
            self.least = key;
            Added::Unsorted
        } else if !met {
            Added::Unsorted
        } else {
            self.search(key, at, kept)
        };
        if let Some(place) = kept.get_mut(self.base + self.count) {
            *place = key;
        }
        self.count += 1;
        added
    }

    /// A key with a bit that an earlier one has.
    #[inline(never)]
    fn search(&mut self, key: Key<'a>, at: &'a [u8], kept: &Kept<'a>) -> Added {
        if key > self.greatest {
            self.greatest = key;
            return Added::Rising;
        }
        if key < self.least {
            self.least = key;
            return Added::Unsorted;
        }
        let few = kept.get(self.base..self.base + self.count);
        let fresh = match (&mut self.set, few) {
            (Some(set), _) => set.insert(key),
            (None, Some(few)) => !few.contains(&key),
            (None, None) => self.collect(at).insert(key),
        };
        if fresh {
            Added::Unsorted
        } else {
            Added::Repeated
        }
    }

    /// Puts the keys before that place into a set.
    #[cold]
    fn collect(&mut self, at: &[u8]) -> &mut KeySet<'a> {
        let mut set = KeySet::new(self.count + (at.len() / 8).min(128 * self.count));
        let mut rest = self.first;
        while rest.len() > at.len() {
            let Some((length, text)) = scalars::length(rest) else {
                break;
            };
            set.insert(Key::new(text, length));
            rest = scalars::skip(&text[length..]);
        }
        self.greatest = Key::MAX;
        self.least = Key::MIN;
        self.bits = u64::MAX;
        self.set.insert(set)
    }
}
