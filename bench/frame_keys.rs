//! The keys of a message, and the formats of their values.

/// Of a tag, a torrent ID and a version.
pub const LARGEST_NUMBER: i64 = 2_147_483_647;

#[derive(Clone, Copy, PartialEq, Eq)]
pub enum Format {
    Any,
    Boolean,
    Ignored,
    Text,
    Integer,
    Port,
    TextList,
    TorrentList,
    IdList,
}

/// The keys by number.
pub const KEYS: [(&str, Format); 21] = [
    ("", Format::Any),
    ("automap", Format::Boolean),
    ("autostart", Format::Boolean),
    ("bad-format", Format::Ignored),
    ("directory", Format::Text),
    ("downlimit", Format::Integer),
    ("failed", Format::Text),
    ("get-downlimit", Format::Ignored),
    ("get-status-all", Format::TextList),
    ("get-uplimit", Format::Ignored),
    ("info", Format::TorrentList),
    ("noop", Format::Ignored),
    ("not-supported", Format::Ignored),
    ("pex", Format::Boolean),
    ("port", Format::Port),
    ("remove", Format::IdList),
    ("start", Format::IdList),
    ("status", Format::TorrentList),
    ("stop", Format::IdList),
    ("succeeded", Format::Ignored),
    ("uplimit", Format::Integer),
];

/// A key's number; 0 if it is not listed.
#[inline(always)]
pub fn number(key: &[u8]) -> usize {
    let listed = KEYS[1..].iter().position(|row| row.0.as_bytes() == key);
    listed.map_or(0, |place| place + 1)
}

pub fn integer_fits(format: Format, value: i64) -> bool {
    match format {
        Format::Boolean => (0..=1).contains(&value),
        Format::Port => (0..=65535).contains(&value),
        _ => format == Format::Integer,
    }
}

pub fn is_number(value: i64) -> bool {
    (1..=LARGEST_NUMBER).contains(&value)
}
