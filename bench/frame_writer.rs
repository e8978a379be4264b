//! A frame writer in ordinary Rust, written from the rules.
//! It is what the proved writer is compared with, in its answers and in its time.

use std::io::{self, Write};

use crate::bogsilver::{Given, WriteAnswer, HEADER_LENGTH};
use crate::frame_keys::{integer_fits, Format, KEYS, LARGEST_NUMBER};
use crate::frame_reader::LARGEST_PAYLOAD;

/// Keys that are read only.
const NOT_WRITTEN: [usize; 4] = [0, 8, 10, 17];

fn refused(code: u8) -> WriteAnswer {
    WriteAnswer { code, count: 0 }
}

#[inline(never)]
pub fn write(key: u32, given: Given, tag: u32, out: &mut [u8]) -> WriteAnswer {
    let number = key as usize;
    if number >= KEYS.len() || NOT_WRITTEN.contains(&number) {
        return refused(40);
    }
    let (name, format) = KEYS[number];
    if !fits(format, given) {
        return refused(41);
    }
    if i64::from(tag) > LARGEST_NUMBER {
        return refused(42);
    }
    let tag_length = if tag == 0 {
        0
    } else {
        2 + digits(u64::from(tag))
    };
    let size = 2 + string_length(name.len()) + value_length(format, given) + tag_length;
    match room(size, out) {
        Ok(mut rest) => put(&mut rest, size, name, format, given, tag).expect("the frame has room"),
        Err(code) => return refused(code),
    }
    WriteAnswer {
        code: 0,
        count: HEADER_LENGTH + size,
    }
}

fn put(
    out: &mut &mut [u8],
    size: usize,
    name: &str,
    format: Format,
    given: Given,
    tag: u32,
) -> io::Result<()> {
    write!(out, "{size:08X}l{}:{name}", name.len())?;
    match given {
        Given::Nothing => out.write_all(b"0:")?,
        Given::Integer(value) => write!(out, "i{value}e")?,
        Given::Bytes(bytes) => {
            if format == Format::Text {
                write!(out, "{}:", bytes.len())?;
            }
            out.write_all(bytes)?;
        }
    }
    if tag != 0 {
        write!(out, "i{tag}e")?;
    }
    out.write_all(b"e")
}

/// The bytes for a frame, or the refusal's code.
fn room(size: usize, out: &mut [u8]) -> Result<&mut [u8], u8> {
    if size > LARGEST_PAYLOAD {
        return Err(43);
    }
    out.get_mut(..HEADER_LENGTH + size).ok_or(44)
}

fn digits(number: u64) -> usize {
    number.checked_ilog10().map_or(1, |log| log as usize + 1)
}

fn string_length(length: usize) -> usize {
    digits(length as u64) + 1 + length
}

fn value_length(format: Format, given: Given) -> usize {
    match given {
        Given::Nothing => 2,
        Given::Integer(value) => 2 + usize::from(value < 0) + digits(value.unsigned_abs()),
        Given::Bytes(bytes) if format == Format::Text => string_length(bytes.len()),
        Given::Bytes(bytes) => bytes.len(),
    }
}

pub fn write_handshake(min: u32, max: u32, out: &mut [u8]) -> WriteAnswer {
    if !is_range(min, max) {
        return refused(41);
    }
    let payload = format!("d7:versiond3:mini{min}e3:maxi{max}eee");
    match room(payload.len(), out) {
        Ok(mut rest) => write!(rest, "{:08X}{payload}", payload.len()).expect("the frame has room"),
        Err(code) => return refused(code),
    }
    WriteAnswer {
        code: 0,
        count: HEADER_LENGTH + payload.len(),
    }
}

fn is_range(min: u32, max: u32) -> bool {
    1 <= min && min <= max && i64::from(max) <= LARGEST_NUMBER
}

pub fn agreed_version(min: u32, max: u32, min2: u32, max2: u32) -> u32 {
    let largest = max.min(max2);
    if is_range(min, max) && is_range(min2, max2) && min.max(min2) <= largest {
        return largest;
    }
    0
}

fn fits(format: Format, given: Given) -> bool {
    match given {
        Given::Nothing => format == Format::Ignored,
        Given::Integer(value) => integer_fits(format, value),
        Given::Bytes(_) if format == Format::Text => true,
        Given::Bytes(bytes) => format == Format::IdList && is_id_list(bytes),
    }
}

/// Exactly one list of torrent IDs.
fn is_id_list(bytes: &[u8]) -> bool {
    let Some((b'l', mut rest)) = bytes.split_first() else {
        return false;
    };
    loop {
        match rest {
            [b'e'] => return true,
            [b'i', b'1'..=b'9', ..] => {}
            _ => return false,
        }
        rest = &rest[1..];
        let mut id: i64 = 0;
        while let Some((digit @ b'0'..=b'9', after)) = rest.split_first() {
            id = (id * 10 + i64::from(digit - b'0')).min(LARGEST_NUMBER + 1);
            rest = after;
        }
        match rest.split_first() {
            Some((b'e', after)) if id <= LARGEST_NUMBER => rest = after,
            _ => return false,
        }
    }
}
