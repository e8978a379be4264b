//! A bencode payload walker in ordinary Rust, written from the rules of the format.
//! It is what the proved walker is compared with, in its answers and in its time.

use crate::classes::{class, first_class, Class};
use crate::dictionary_keys::{Added, Kept, Keys};
use crate::key::Key;
use crate::scalars;

/// How many lists and dictionaries may stand in each other.
pub const MAX_DEPTH: usize = 16;

/// Codes of the faults.
const SYNTAX: u8 = 5;
const RANGE: u8 = 6;
const DEPTH: u8 = 7;
const REPEATED_KEY: u8 = 8;
const TRAILING: u8 = 9;
const ILL_FORMED_KEY: u8 = 10;
const UNSORTED_KEY: u8 = 11;

/// Walks a payload: code 0 and its length if it is accepted, else the first fault's code and offset.
#[inline(never)]
pub fn walk(payload: &[u8], strict: bool) -> (u8, usize) {
    let mut walker = Walker::new(payload, strict);
    match walker.value(payload, MAX_DEPTH, 0) {
        None => walker.fault,
        Some([]) => (0, payload.len()),
        Some(rest) => (TRAILING, walker.offset(rest)),
    }
}

/// Its methods take the payload from a place on, and give what is after the thing that they are named for; none is a fault.
pub struct Walker<'a> {
    payload: &'a [u8],
    strict: bool,
    /// Code and offset.
    fault: (u8, usize),
    /// The keys of the open dictionaries, outermost first.
    kept: Kept<'a>,
}

impl<'a> Walker<'a> {
    #[inline(always)]
    pub fn new(payload: &'a [u8], strict: bool) -> Self {
        Walker {
            payload,
            strict,
            fault: (0, 0),
            kept: Kept::default(),
        }
    }

    fn offset(&self, rest: &[u8]) -> usize {
        self.payload.len() - rest.len()
    }

    #[cold]
    #[inline(never)]
    fn refuse(&mut self, code: u8, at: &[u8]) -> Option<&'a [u8]> {
        self.fault = (code, self.offset(at));
        None
    }

    /// `levels` is how many more lists and dictionaries may be opened, and `used` how many keys are kept.
    #[inline(always)]
    pub fn value(&mut self, rest: &'a [u8], levels: usize, used: usize) -> Option<&'a [u8]> {
        match first_class(rest) {
            Class::Digit => match scalars::string(rest) {
                Some((_, after)) => Some(after),
                None => self.string_fault(rest),
            },
            Class::Integer => match scalars::integer(rest) {
                Some(after) => Some(after),
                None => self.odd_integer(rest),
            },
            Class::List | Class::Dictionary => self.nested(rest, levels, used),
            _ => self.refuse(SYNTAX, rest),
        }
    }

    #[inline(never)]
    fn nested(&mut self, rest: &'a [u8], levels: usize, used: usize) -> Option<&'a [u8]> {
        if levels == 0 {
            return self.refuse(DEPTH, rest);
        }
        match first_class(rest) {
            Class::List => self.list(&rest[1..], levels - 1, used),
            _ => self.dictionary::<false>(&rest[1..], levels - 1, used),
        }
    }

    #[inline(always)]
    fn list(&mut self, mut rest: &'a [u8], levels: usize, used: usize) -> Option<&'a [u8]> {
        while first_class(rest) != Class::End {
            rest = self.value(rest, levels, used)?;
        }
        Some(&rest[1..])
    }

    /// A torrent of a message's torrent list; none also where its `id` is missing or no torrent ID.
    #[inline(always)]
    pub fn torrent(&mut self, rest: &'a [u8]) -> Option<&'a [u8]> {
        let first = scalars::after(Class::Dictionary, rest)?;
        self.dictionary::<true>(first, MAX_DEPTH - 3, 0)
    }

    #[inline(always)]
    fn dictionary<const TORRENT: bool>(
        &mut self,
        first: &'a [u8],
        levels: usize,
        used: usize,
    ) -> Option<&'a [u8]> {
        let mut keys = Keys::new(first, used);
        let mut identified = false;
        let mut rest = first;
        while first_class(rest) != Class::End {
            let Some((length, text)) = scalars::length(rest) else {
                return self.string_fault(rest);
            };
            let key = Key::new(text, length);
            let value = &text[length..];
            if !key.is_text() {
                return self.refuse(ILL_FORMED_KEY, rest);
            }
            match keys.add(key, rest, &mut self.kept) {
                Added::Rising => {}
                Added::Unsorted if !self.strict => {}
                Added::Unsorted => return self.refuse(UNSORTED_KEY, rest),
                Added::Repeated => return self.refuse(REPEATED_KEY, rest),
            }
            if TORRENT && key.head == Key::head_of(b"id") {
                rest = scalars::id(value)?;
                identified = true;
            } else {
                rest = self.value(value, levels, keys.inner())?;
            }
        }
        (!TORRENT || identified).then_some(&rest[1..])
    }

    /// An integer by the rules, one by one.
    #[cold]
    #[inline(never)]
    fn odd_integer(&mut self, start: &'a [u8]) -> Option<&'a [u8]> {
        let mut rest = &start[1..];
        let mut largest = i64::MAX as u64;
        if first_class(rest) == Class::Minus {
            rest = &rest[1..];
            if rest.first() == Some(&b'0') {
                return self.refuse(SYNTAX, rest);
            }
            largest = i64::MIN.unsigned_abs();
        }
        let (magnitude, rest) = self.number(rest)?;
        match scalars::after(Class::End, rest) {
            None => self.refuse(SYNTAX, rest),
            Some(_) if magnitude > largest => self.refuse(RANGE, start),
            after => after,
        }
    }

    /// Of a string whose length has no good form, or is beyond the payload.
    #[cold]
    #[inline(never)]
    fn string_fault(&mut self, rest: &'a [u8]) -> Option<&'a [u8]> {
        let (_, rest) = self.number(rest)?;
        match first_class(rest) {
            Class::Colon => self.refuse(SYNTAX, &[]),
            _ => self.refuse(SYNTAX, rest),
        }
    }

    /// Decimal digits with no leading zero, and what is after them; a number past 64 bits is given as the largest of 64 bits.
    fn number(&mut self, rest: &'a [u8]) -> Option<(u64, &'a [u8])> {
        if rest.first() == Some(&b'0') {
            return Some((0, &rest[1..]));
        }
        let mut number: u64 = 0;
        let mut count = 0;
        while let Some(&digit) = rest.get(count).filter(|byte| class(**byte) == Class::Digit) {
            number = number
                .saturating_mul(10)
                .saturating_add(u64::from(digit - b'0'));
            count += 1;
        }
        if count == 0 {
            self.refuse(SYNTAX, rest);
            return None;
        }
        Some((number, &rest[count..]))
    }
}
