//! A dictionary's key, with a number by which most keys are compared.

use std::cmp::Ordering;

/// The last byte of a long key's head.
const LONG: u64 = 9;

/// Eight bytes of 1.
const ONES: u64 = u64::MAX / 0xff;

/// Are eight bytes ASCII, and none of them zero?
#[inline(always)]
fn is_plain(bytes: u64) -> bool {
    (bytes.wrapping_sub(ONES) | bytes) & (ONES << 7) == 0
}

#[derive(Clone, Copy, Default)]
pub struct Key<'a> {
    /// The first seven bytes as a number, then the length, or 8 for more than seven, plus 1, so that no head is 0. Keys are
    /// in the order of their heads, and those with the same head are equal, unless both are longer than seven bytes.
    pub head: u64,
    pub text: &'a [u8],
}

impl<'a> Key<'a> {
    /// Below and above every key.
    pub const MIN: Self = Key { head: 0, text: &[] };
    pub const MAX: Self = Key {
        head: u64::MAX,
        text: &[],
    };

    /// The key of so many bytes at the front.
    #[inline(always)]
    pub fn new(bytes: &'a [u8], length: usize) -> Self {
        let first = bytes.first_chunk().copied().unwrap_or_else(|| {
            let mut first = [0; 8];
            first[..bytes.len()].copy_from_slice(bytes);
            first
        });
        let past = u64::MAX >> (8 * length.min(7));
        Key {
            head: (u64::from_be_bytes(first) & !past) + length.min(8) as u64 + 1,
            text: &bytes[..length],
        }
    }

    /// The head of a key of two bytes.
    pub const fn head_of(key: &[u8; 2]) -> u64 {
        u64::from_be_bytes([key[0], key[1], 0, 0, 0, 0, 0, 3])
    }

    pub fn is_long(&self) -> bool {
        self.head & 0xff == LONG
    }

    /// Is it well-formed UTF-8, with no zero byte? Nearly all keys are ASCII.
    #[inline(always)]
    pub fn is_text(&self) -> bool {
        // Any ASCII will do in the head past a short key.
        let past = ONES >> (8 * self.text.len().min(7));
        let plain = is_plain(self.head | past) && (!self.is_long() || self.is_plain_past_head());
        plain || self.is_unusual_text()
    }

    /// Of a long key; the last eight bytes overlap the head or others.
    #[inline(always)]
    fn is_plain_past_head(&self) -> bool {
        let last = self.text.last_chunk();
        last.is_some_and(|&last| is_plain(u64::from_ne_bytes(last)))
            && (self.text.len() < 16 || self.is_plain_between())
    }

    /// Of a key that is longer than its head and the last eight bytes.
    #[inline(never)]
    fn is_plain_between(&self) -> bool {
        let (words, _) = self.text[7..].as_chunks();
        words
            .iter()
            .all(|&bytes| is_plain(u64::from_ne_bytes(bytes)))
    }

    #[cold]
    #[inline(never)]
    fn is_unusual_text(&self) -> bool {
        std::str::from_utf8(self.text).is_ok() && !self.text.contains(&0)
    }
}

impl Ord for Key<'_> {
    fn cmp(&self, other: &Self) -> Ordering {
        match self.head.cmp(&other.head) {
            Ordering::Equal if self.is_long() => self.text.cmp(other.text),
            order => order,
        }
    }
}

impl PartialOrd for Key<'_> {
    fn partial_cmp(&self, other: &Self) -> Option<Ordering> {
        Some(self.cmp(other))
    }
}

impl PartialEq for Key<'_> {
    fn eq(&self, other: &Self) -> bool {
        self.head == other.head && (!self.is_long() || self.text == other.text)
    }
}

impl Eq for Key<'_> {}
