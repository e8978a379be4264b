//! A frame reader in ordinary Rust, written from the rules over the walker in walker.rs.
//! It is what the proved reader is compared with, in its answers and in its time.

use crate::bogsilver::{self, Answer, Content, HEADER_LENGTH};
use crate::classes::{first_class, Class};
use crate::frame_judge::{self, content, number_of};
use crate::frame_keys::{number, Format, KEYS};
use crate::scalars::{self, after};
use crate::walker::{self, Walker, MAX_DEPTH};

pub const LARGEST_PAYLOAD: usize = 32768;
const LARGEST_PROTOCOL_PAYLOAD: u32 = 2_147_483_640;

fn refused(code: u8, offset: usize) -> Answer {
    Answer {
        code,
        offset,
        ..Answer::default()
    }
}

#[inline(never)]
pub fn read(bytes: &[u8]) -> Answer {
    read_in(bytes, false)
}

/// In the strict profile: the keys of each dictionary rise.
#[inline(never)]
pub fn read_strict(bytes: &[u8]) -> Answer {
    read_in(bytes, true)
}

#[inline(always)]
fn read_in(bytes: &[u8], strict: bool) -> Answer {
    let header = &bytes[..bytes.len().min(HEADER_LENGTH)];
    let mut length: u32 = 0;
    for (offset, &byte) in header.iter().enumerate() {
        let Some(digit) = char::from(byte).to_digit(16) else {
            return refused(2, offset);
        };
        length = length << 4 | digit;
    }
    if header.len() < HEADER_LENGTH {
        return refused(1, 0);
    }
    if length > LARGEST_PROTOCOL_PAYLOAD {
        return refused(3, 0);
    }
    if length as usize > LARGEST_PAYLOAD {
        return refused(4, 0);
    }
    let Some(payload) = bytes.get(HEADER_LENGTH..HEADER_LENGTH + length as usize) else {
        return refused(1, 0);
    };
    message(payload, strict).unwrap_or_else(|| judge(payload, strict))
}

/// What is no plain message: the faults of the payload first, and then what it is.
#[cold]
#[inline(never)]
fn judge(payload: &[u8], strict: bool) -> Answer {
    match walker::walk(payload, strict) {
        (0, _) => frame_judge::judge(payload),
        (code, offset) => refused(code, offset),
    }
}

/// A message that is accepted, in one walk; none where something is off, or only unusual.
#[inline(always)]
fn message(payload: &[u8], strict: bool) -> Option<Answer> {
    let (key, from) = scalars::string(after(Class::List, payload)?)?;
    let key = number(key);
    let format = KEYS[key].1;
    let behind = value(payload, from, format, strict)?;
    let (tag, rest) = match first_class(behind) {
        Class::Integer => tag(behind)?,
        _ => (0, behind),
    };
    let [] = after(Class::End, rest)? else {
        return None;
    };
    let start = HEADER_LENGTH + payload.len() - from.len();
    let value = &from[..from.len() - behind.len()];
    Some(Answer {
        kind: bogsilver::MESSAGE,
        key: key as u8,
        tag,
        consumed: HEADER_LENGTH + payload.len(),
        value: match format {
            Format::IdList | Format::TextList | Format::TorrentList => Content {
                kind: bogsilver::PART,
                start,
                length: value.len(),
                ..Content::default()
            },
            _ => content(format, value, start)?,
        },
        ..Answer::default()
    })
}

/// The tag, and the bytes after it.
fn tag(bytes: &[u8]) -> Option<(u32, &[u8])> {
    let rest = scalars::id(bytes)?;
    let tag = number_of(bytes)?;
    Some((tag as u32, rest))
}

/// What is after a value; a list is of its format.
#[inline(always)]
fn value<'a>(payload: &'a [u8], from: &'a [u8], format: Format, strict: bool) -> Option<&'a [u8]> {
    let mut walker = Walker::new(payload, strict);
    match format {
        Format::IdList => items(from, scalars::id),
        Format::TextList => items(from, |item| scalars::string(item).map(|(_, rest)| rest)),
        Format::TorrentList => items(from, |item| walker.torrent(item)),
        _ => walker.value(from, MAX_DEPTH - 1, 0),
    }
}

/// What is after a list of such items.
#[inline(always)]
fn items<'a>(
    list: &'a [u8],
    mut item: impl FnMut(&'a [u8]) -> Option<&'a [u8]>,
) -> Option<&'a [u8]> {
    let mut rest = after(Class::List, list)?;
    while first_class(rest) != Class::End {
        rest = item(rest)?;
    }
    Some(&rest[1..])
}
