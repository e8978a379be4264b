//! Integers and strings in the forms that nearly all have, at the front of bytes. Where one has another form, or a fault, the
//! answer is none, and the rules of the format are to be gone through one by one.

use crate::classes::{class, first_class, Class};

/// Any number of so many digits fits in 64 bits, with a sign too.
const SURE_DIGITS: usize = 18;

/// Most integers with their `e` are at most so long.
const USUAL: usize = 12;

/// The largest torrent ID, which is the largest tag and the largest version too.
const LARGEST_ID: &[u8] = b"2147483647";

const ZERO: usize = b'0' as usize;

/// How many digits there are at the front.
#[inline(always)]
fn digits(bytes: &[u8]) -> usize {
    let other = |&byte: &u8| class(byte) != Class::Digit;
    let usual = match bytes.first_chunk::<USUAL>() {
        Some(usual) => match usual.iter().position(other) {
            Some(count) => return count,
            None => USUAL,
        },
        None => 0,
    };
    let rest = &bytes[usual..];
    usual + rest.iter().position(other).unwrap_or(rest.len())
}

/// The bytes after one of a class.
#[inline(always)]
pub fn after(class: Class, bytes: &[u8]) -> Option<&[u8]> {
    match bytes {
        [_, rest @ ..] if first_class(bytes) == class => Some(rest),
        _ => None,
    }
}

/// The bytes after an integer.
#[inline(always)]
pub fn integer(bytes: &[u8]) -> Option<&[u8]> {
    let signed = after(Class::Integer, bytes)?;
    let magnitude = after(Class::Minus, signed).unwrap_or(signed);
    let count = digits(magnitude);
    if count == 0 || count > SURE_DIGITS {
        return None;
    }
    let negative = magnitude.len() < signed.len();
    if magnitude[0] == b'0' && (count > 1 || negative) {
        return None;
    }
    after(Class::End, &magnitude[count..])
}

/// The bytes after an integer that is a torrent ID, or a tag.
#[inline(always)]
pub fn id(bytes: &[u8]) -> Option<&[u8]> {
    let number = after(Class::Integer, bytes)?;
    let count = digits(number);
    if count == 0 || count > LARGEST_ID.len() || number[0] == b'0' {
        return None;
    }
    if count == LARGEST_ID.len() && &number[..count] > LARGEST_ID {
        return None;
    }
    after(Class::End, &number[count..])
}

/// A string's length, and the bytes after its colon, which are at least so many.
#[inline(always)]
pub fn length(bytes: &[u8]) -> Option<(usize, &[u8])> {
    let (length, text) = match *bytes {
        [a, b, ref text @ ..] if class(a) == Class::Digit && class(b) == Class::Colon => {
            (usize::from(a) - ZERO, text)
        }
        [a, b, c, ref text @ ..]
            if class(a) == Class::Digit
                && a != b'0'
                && class(b) == Class::Digit
                && class(c) == Class::Colon =>
        {
            (10 * usize::from(a) + usize::from(b) - 11 * ZERO, text)
        }
        _ => long_length(bytes)?,
    };
    (length <= text.len()).then_some((length, text))
}

/// A length of any number of digits.
#[inline(never)]
fn long_length(bytes: &[u8]) -> Option<(usize, &[u8])> {
    let count = digits(bytes);
    if count == 0 || count > SURE_DIGITS || (count > 1 && bytes[0] == b'0') {
        return None;
    }
    let (digits, rest) = bytes.split_at(count);
    let length = digits
        .iter()
        .fold(0, |length, digit| 10 * length + usize::from(digit - b'0'));
    Some((length, after(Class::Colon, rest)?))
}

/// A string's text, and the bytes after it.
#[inline(always)]
pub fn string(bytes: &[u8]) -> Option<(&[u8], &[u8])> {
    let (length, text) = length(bytes)?;
    text.split_at_checked(length)
}

/// What is after the value at the front of sound bytes.
pub fn skip(mut rest: &[u8]) -> &[u8] {
    let mut open = 0;
    loop {
        match first_class(rest) {
            Class::List | Class::Dictionary => {
                open += 1;
                rest = &rest[1..];
            }
            Class::Integer => {
                let end = rest.iter().position(|&byte| class(byte) == Class::End);
                rest = end.map_or(&[], |end| &rest[end + 1..]);
            }
            Class::Digit => rest = string(rest).map_or(&[], |(_, rest)| rest),
            _ => {
                open -= 1;
                rest = rest.get(1..).unwrap_or(&[]);
            }
        }
        if open == 0 {
            return rest;
        }
    }
}
