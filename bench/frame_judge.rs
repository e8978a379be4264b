//! What a sound payload is: a message, a handshake or neither. It goes through the payload more than once, and is for what the
//! reader's single walk leaves: handshakes, and messages with something off.

use crate::bogsilver::{self, Answer, Content, HEADER_LENGTH};
use crate::classes::{class, first_class, Class};
use crate::frame_keys::{integer_fits, is_number, number, Format, KEYS};
use crate::scalars::{after, skip, string};

fn refused(code: u8) -> Answer {
    Answer {
        code,
        ..Answer::default()
    }
}

#[inline(never)]
pub fn judge(payload: &[u8]) -> Answer {
    match first_class(payload) {
        Class::Dictionary => handshake(payload).unwrap_or(refused(bogsilver::NO_HANDSHAKE)),
        Class::List => message(payload).unwrap_or(refused(bogsilver::NO_MESSAGE)),
        _ => refused(bogsilver::NO_MESSAGE),
    }
}

/// The integer at the front of sound bytes.
pub fn number_of(bytes: &[u8]) -> Option<i64> {
    let signed = after(Class::Integer, bytes)?;
    let digits = after(Class::Minus, signed).unwrap_or(signed);
    let magnitude = digits
        .iter()
        .take_while(|byte| class(**byte) == Class::Digit)
        .fold(0, |number: u64, digit| {
            number * 10 + u64::from(digit - b'0')
        });
    Some(if digits.len() < signed.len() {
        magnitude.wrapping_neg() as i64
    } else {
        magnitude as i64
    })
}

/// The value of a key in the dictionary at the front of sound bytes.
fn find<'a>(dictionary: &'a [u8], key: &[u8]) -> Option<&'a [u8]> {
    let mut rest = after(Class::Dictionary, dictionary)?;
    while first_class(rest) != Class::End {
        let (text, value) = string(rest)?;
        if text == key {
            return Some(value);
        }
        rest = skip(value);
    }
    None
}

fn handshake(payload: &[u8]) -> Option<Answer> {
    let version = find(payload, b"version")?;
    let (min, max) = if first_class(version) == Class::Dictionary {
        let (min, max) = (find(version, b"min")?, find(version, b"max")?);
        (number_of(min)?, number_of(max)?)
    } else {
        let only = number_of(version)?;
        (only, only)
    };
    if !is_number(min) || !is_number(max) || max < min {
        return None;
    }
    Some(Answer {
        kind: bogsilver::HANDSHAKE,
        consumed: HEADER_LENGTH + payload.len(),
        value: Content {
            kind: bogsilver::VERSIONS,
            min: min as u32,
            max: max as u32,
            ..Content::default()
        },
        ..Answer::default()
    })
}

fn message(payload: &[u8]) -> Option<Answer> {
    let (key, value) = string(&payload[1..])?;
    if first_class(value) == Class::End {
        return None;
    }
    let behind = skip(value);
    let mut tag = 0;
    if first_class(behind) != Class::End {
        let number = number_of(behind)?;
        if !is_number(number) || first_class(skip(behind)) != Class::End {
            return None;
        }
        tag = number as u32;
    }
    let key = number(key);
    let named = Answer {
        key: key as u8,
        tag,
        ..Answer::default()
    };
    let start = HEADER_LENGTH + payload.len() - value.len();
    let value = &value[..value.len() - behind.len()];
    Some(match content(KEYS[key].1, value, start) {
        Some(value) => Answer {
            kind: bogsilver::MESSAGE,
            consumed: HEADER_LENGTH + payload.len(),
            value,
            ..named
        },
        None => Answer {
            code: bogsilver::OFF_FORMAT,
            ..named
        },
    })
}

/// What an answer names of a value, which starts there in the frame; none where it is off the format.
pub fn content(format: Format, value: &[u8], start: usize) -> Option<Content> {
    let placed = |kind, start, length| Content {
        kind,
        start,
        length,
        ..Content::default()
    };
    match format {
        Format::Ignored => Some(Content::default()),
        Format::Boolean | Format::Port | Format::Integer => {
            let integer = number_of(value)?;
            integer_fits(format, integer).then_some(Content {
                kind: bogsilver::INTEGER,
                integer,
                ..Content::default()
            })
        }
        Format::Text => {
            let (text, _) = string(value)?;
            let start = start + value.len() - text.len();
            Some(placed(bogsilver::TEXT, start, text.len()))
        }
        Format::Any => Some(placed(bogsilver::PART, start, value.len())),
        Format::TextList => list(value, |item| string(item).is_some()).then_some(placed(
            bogsilver::PART,
            start,
            value.len(),
        )),
        Format::IdList => list(value, |item| number_of(item).is_some_and(is_number))
            .then_some(placed(bogsilver::PART, start, value.len())),
        Format::TorrentList => {
            list(value, is_torrent).then_some(placed(bogsilver::PART, start, value.len()))
        }
    }
}

fn is_torrent(item: &[u8]) -> bool {
    let id = find(item, b"id").and_then(number_of);
    id.is_some_and(is_number)
}

/// Is sound bytes' value a list with items of a kind.
fn list(value: &[u8], fits: impl Fn(&[u8]) -> bool) -> bool {
    let Some(mut rest) = after(Class::List, value) else {
        return false;
    };
    while first_class(rest) != Class::End {
        if !fits(rest) {
            return false;
        }
        rest = skip(rest);
    }
    true
}
