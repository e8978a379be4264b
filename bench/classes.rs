//! The classes of bytes, by which the walker looks at a payload.

#[derive(Clone, Copy, PartialEq, Eq)]
pub enum Class {
    Other,
    Digit,
    Colon,
    Minus,
    Dictionary,
    End,
    Integer,
    List,
}

static CLASSES: [Class; 256] = classes();

const fn classes() -> [Class; 256] {
    let mut classes = [Class::Other; 256];
    let mut byte = 0;
    while byte < 256 {
        classes[byte] = class_of(byte as u8);
        byte += 1;
    }
    classes
}

const fn class_of(byte: u8) -> Class {
    match byte {
        b'0'..=b'9' => Class::Digit,
        b':' => Class::Colon,
        b'-' => Class::Minus,
        b'd' => Class::Dictionary,
        b'e' => Class::End,
        b'i' => Class::Integer,
        b'l' => Class::List,
        _ => Class::Other,
    }
}

#[inline(always)]
pub fn class(byte: u8) -> Class {
    CLASSES[usize::from(byte)]
}

/// The class of the first byte. Where there is none it is that of a byte which can stand nowhere.
#[inline(always)]
pub fn first_class(bytes: &[u8]) -> Class {
    bytes.first().map_or(Class::Other, |&byte| class(byte))
}
