//! A sorter of payloads in ordinary Rust, written from the rules over the walker in walker.rs.
//! It is what the proved sorter is compared with, in its answers and in its time.

use crate::bogsilver::{SortAnswer, LARGEST_PAYLOAD};
use crate::classes::{first_class, Class};
use crate::{scalars, walker};

const OVER_LIMIT: u8 = 4;
const NO_ROOM: u8 = 44;

fn refused(code: u8, offset: usize) -> SortAnswer {
    SortAnswer {
        code,
        offset,
        count: 0,
    }
}

/// Writes a payload with its dictionaries sorted at every level; a refusal leaves the buffer as it was.
#[inline(never)]
pub fn sort(payload: &[u8], out: &mut [u8]) -> SortAnswer {
    if payload.len() > LARGEST_PAYLOAD {
        return refused(OVER_LIMIT, 0);
    }
    let (code, offset) = walker::walk(payload, false);
    if code != 0 {
        return refused(code, offset);
    }
    let Some(room) = out.get_mut(..payload.len()) else {
        return refused(NO_ROOM, 0);
    };
    let mut sorter = Sorter {
        payload,
        out: room,
        entries: Vec::new(),
        copy: Vec::new(),
    };
    sorter.value(payload);
    SortAnswer {
        code: 0,
        offset: 0,
        count: payload.len(),
    }
}

/// An entry of a dictionary that is being written: its key, and where it stands in the output.
#[derive(Clone, Copy)]
struct Entry<'a> {
    key: &'a [u8],
    start: usize,
    end: usize,
}

/// Writes each value at its own place, so that a dictionary has the same place in payload and output, and then puts the
/// dictionary's entries in order. Its methods take the sound payload from a place on, and give what is after the value.
struct Sorter<'a, 'b> {
    payload: &'a [u8],
    out: &'b mut [u8],
    /// The entries of the open dictionaries, outermost first.
    entries: Vec<Entry<'a>>,
    /// The entries of a dictionary before they are put in order.
    copy: Vec<u8>,
}

impl<'a> Sorter<'a, '_> {
    fn offset(&self, rest: &[u8]) -> usize {
        self.payload.len() - rest.len()
    }

    /// Writes what stands between two places as it is.
    fn put(&mut self, from: &[u8], to: &[u8]) {
        let (start, end) = (self.offset(from), self.offset(to));
        self.out[start..end].copy_from_slice(&self.payload[start..end]);
    }

    fn value(&mut self, rest: &'a [u8]) -> &'a [u8] {
        match first_class(rest) {
            Class::List => self.list(rest),
            Class::Dictionary => self.dictionary(rest),
            _ => {
                let after = scalars::skip(rest);
                self.put(rest, after);
                after
            }
        }
    }

    fn list(&mut self, list: &'a [u8]) -> &'a [u8] {
        let mut rest = &list[1..];
        self.put(list, rest);
        while first_class(rest) != Class::End {
            rest = self.value(rest);
        }
        self.put(rest, &rest[1..]);
        &rest[1..]
    }

    fn dictionary(&mut self, dictionary: &'a [u8]) -> &'a [u8] {
        let base = self.entries.len();
        let mut rising = true;
        let mut rest = &dictionary[1..];
        self.put(dictionary, rest);
        while let Some((key, value)) = scalars::string(rest) {
            let start = self.offset(rest);
            self.put(rest, value);
            rest = self.value(value);
            let end = self.offset(rest);
            rising = rising
                && self.entries[base..]
                    .last()
                    .is_none_or(|last| last.key < key);
            self.entries.push(Entry { key, start, end });
        }
        if !rising {
            self.put_in_order(base);
        }
        self.entries.truncate(base);
        self.put(rest, &rest[1..]);
        &rest[1..]
    }

    /// The entries from that one on, which stand one after the other.
    fn put_in_order(&mut self, base: usize) {
        let entries = &mut self.entries[base..];
        let (Some(first), Some(last)) = (entries.first(), entries.last()) else {
            return;
        };
        let start = first.start;
        self.copy.clear();
        self.copy.extend_from_slice(&self.out[start..last.end]);
        entries.sort_by(|one, other| one.key.cmp(other.key));
        let mut at = start;
        for entry in entries {
            let part = &self.copy[entry.start - start..entry.end - start];
            self.out[at..at + part.len()].copy_from_slice(part);
            at += part.len();
        }
    }
}
