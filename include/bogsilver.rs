//! Bogsilver for Rust: what bogsilver.h declares, behind safe functions. Link with libbogsilver.a.

// Each program uses a part of it.
#![allow(dead_code)]

/// Limits, as in bogsilver.h.
pub const HEADER_LENGTH: usize = 8;
pub const LARGEST_PAYLOAD: usize = 32768;
pub const LARGEST_FRAME: usize = HEADER_LENGTH + LARGEST_PAYLOAD;
pub const LARGEST_PROTOCOL_PAYLOAD: u32 = 2147483640;
pub const LARGEST_DEPTH: u8 = 16;
pub const LARGEST_TAG: u32 = 2147483647;
pub const LARGEST_TORRENT_ID: u32 = 2147483647;
pub const LARGEST_VERSION: u32 = 2147483647;
pub const LARGEST_PORT: u16 = 65535;

/// Codes of the reader; the walker has 5 to 11 of them, the sorter 4 to 10.
pub const ACCEPTED: u8 = 0;
pub const INCOMPLETE: u8 = 1;
pub const NO_DIGIT: u8 = 2;
pub const OVER_PROTOCOL: u8 = 3;
pub const OVER_LIMIT: u8 = 4;
pub const SYNTAX: u8 = 5;
pub const RANGE: u8 = 6;
pub const DEPTH: u8 = 7;
pub const REPEATED_KEY: u8 = 8;
pub const TRAILING: u8 = 9;
/// A key of a dictionary is not well-formed UTF-8, or has a zero byte.
pub const ILL_FORMED_KEY: u8 = 10;
/// In the strict profile alone: a key is not above all earlier ones of its dictionary.
pub const UNSORTED_KEY: u8 = 11;
pub const NO_MESSAGE: u8 = 20;
pub const NO_HANDSHAKE: u8 = 21;
pub const OFF_FORMAT: u8 = 22;

/// Codes of the writers; 0 is accepted. The sorter has 44 too.
pub const KEY_NOT_WRITTEN: u8 = 40;
pub const VALUE_REFUSED: u8 = 41;
pub const TAG_REFUSED: u8 = 42;
pub const PAYLOAD_TOO_LONG: u8 = 43;
pub const NO_ROOM: u8 = 44;

/// What is read; a refusal is of no kind.
pub const NO_KIND: u8 = 0;
pub const MESSAGE: u8 = 1;
pub const HANDSHAKE: u8 = 2;

/// Kinds of value in an answer.
pub const NOTHING: u8 = 0;
pub const INTEGER: u8 = 1;
pub const TEXT: u8 = 2;
pub const PART: u8 = 3;
pub const VERSIONS: u8 = 4;

/// Kinds of value for `write_numbers`; any other number is refused by 41.
pub const GIVEN_NOTHING: u32 = 0;
pub const GIVEN_INTEGER: u32 = 1;
pub const GIVEN_BYTES: u32 = 2;

// Numbers of the keys, and the format of each one's value. Where it is ignored, an answer names nothing and nothing is
// handed in.
/// Any value, as it is encoded; the key itself is the string at offset 9 of the frame.
pub const UNLISTED: u8 = 0;
/// Integer 0 or 1.
pub const AUTOMAP: u8 = 1;
/// Integer 0 or 1.
pub const AUTOSTART: u8 = 2;
/// Ignored.
pub const BAD_FORMAT: u8 = 3;
/// Text.
pub const DIRECTORY: u8 = 4;
/// Integer.
pub const DOWNLIMIT: u8 = 5;
/// Text.
pub const FAILED: u8 = 6;
/// Ignored.
pub const GET_DOWNLIMIT: u8 = 7;
/// List of strings; read, not written.
pub const GET_STATUS_ALL: u8 = 8;
/// Ignored.
pub const GET_UPLIMIT: u8 = 9;
/// List of torrents; read, not written.
pub const INFO: u8 = 10;
/// Ignored.
pub const NOOP: u8 = 11;
/// Ignored.
pub const NOT_SUPPORTED: u8 = 12;
/// Integer 0 or 1.
pub const PEX: u8 = 13;
/// Integer 0 to 65535.
pub const PORT: u8 = 14;
/// List of torrent IDs, as it is encoded: `li3ei8ee`.
pub const REMOVE: u8 = 15;
/// List of torrent IDs.
pub const START: u8 = 16;
/// List of torrents; read, not written.
pub const STATUS: u8 = 17;
/// List of torrent IDs.
pub const STOP: u8 = 18;
/// Ignored.
pub const SUCCEEDED: u8 = 19;
/// Integer.
pub const UPLIMIT: u8 = 20;

/// The value of an answer. What the kind does not name is 0.
#[repr(C)]
#[derive(Clone, Copy, Debug, Default, PartialEq, Eq)]
pub struct Content {
    pub kind: u8,
    /// Versions: the range.
    pub min: u32,
    pub max: u32,
    /// Text and part: the bytes of the frame, counted from its first byte.
    pub start: usize,
    pub length: usize,
    pub integer: i64,
}

/// The reader's answer. What it does not name is 0.
#[repr(C)]
#[derive(Clone, Copy, Debug, Default, PartialEq, Eq)]
pub struct Answer {
    pub code: u8,
    /// 0 for every refusal, code 22 too.
    pub kind: u8,
    /// Also for code 22.
    pub key: u8,
    /// 0 is none; also for code 22.
    pub tag: u32,
    /// Of the fault: for code 2 in the header, for 5 to 11 from the payload's start.
    pub offset: usize,
    /// The frame's bytes where it is accepted.
    pub consumed: usize,
    pub value: Content,
}

/// Where a payload's fault is: its code, 5 to 11, and its offset; or 0 and the payload's length.
#[repr(C)]
#[derive(Clone, Copy, Debug, PartialEq, Eq)]
pub struct WalkAnswer {
    pub code: u8,
    pub offset: usize,
}

/// A writer's answer: code 0 and the frame's byte count, or the refusal's code and 0.
#[repr(C)]
#[derive(Clone, Copy, Debug, PartialEq, Eq)]
pub struct WriteAnswer {
    pub code: u8,
    pub count: usize,
}

/// The sorter's answer: code 0 and the bytes written, or the refusal's code, 4 to 10 or 44, its offset, and count 0.
#[repr(C)]
#[derive(Clone, Copy, Debug, PartialEq, Eq)]
pub struct SortAnswer {
    pub code: u8,
    /// Of the fault: for 5 to 10, from the payload's start.
    pub offset: usize,
    pub count: usize,
}

/// A value handed to the writer.
#[derive(Clone, Copy, Debug)]
pub enum Given<'a> {
    Nothing,
    Integer(i64),
    Bytes(&'a [u8]),
}

// A slice passes as a pointer and then a length.
extern "C" {
    fn bogsilver_read(bytes: *const u8, length: usize) -> Answer;
    fn bogsilver_read_strict(bytes: *const u8, length: usize) -> Answer;
    fn bogsilver_walk(bytes: *const u8, length: usize, strict: bool) -> WalkAnswer;
    fn bogsilver_walk_flat(bytes: *const u8, length: usize, strict: bool) -> WalkAnswer;
    fn bogsilver_write(
        key: u32,
        kind: u32,
        integer: i64,
        bytes: *const u8,
        length: usize,
        tag: u32,
        out: *mut u8,
        room: usize,
    ) -> WriteAnswer;
    fn bogsilver_write_handshake(min: u32, max: u32, out: *mut u8, room: usize) -> WriteAnswer;
    fn bogsilver_sort(bytes: *const u8, length: usize, out: *mut u8, room: usize) -> SortAnswer;
    fn bogsilver_agreed_version(min: u32, max: u32, min2: u32, max2: u32) -> u32;
}

pub fn read(bytes: &[u8]) -> Answer {
    // SAFETY: the pointer and the length are those of one slice.
    unsafe { bogsilver_read(bytes.as_ptr(), bytes.len()) }
}

/// Reads in the strict profile: the keys of each dictionary rise.
pub fn read_strict(bytes: &[u8]) -> Answer {
    // SAFETY: the pointer and the length are those of one slice.
    unsafe { bogsilver_read_strict(bytes.as_ptr(), bytes.len()) }
}

/// The walk of a payload, in the loose or in the strict profile.
pub fn walk(payload: &[u8], strict: bool) -> WalkAnswer {
    // SAFETY: the pointer and the length are those of one slice.
    unsafe { bogsilver_walk(payload.as_ptr(), payload.len(), strict) }
}

/// The same walk by one loop: the answer of `walk` on every payload, no function that calls itself, and as built here
/// for x86-64-v2 at most 1,224 bytes of stack.
pub fn walk_flat(payload: &[u8], strict: bool) -> WalkAnswer {
    // SAFETY: the pointer and the length are those of one slice.
    unsafe { bogsilver_walk_flat(payload.as_ptr(), payload.len(), strict) }
}

/// The key is one of the numbers above, or any u32; a bare number needs its type, as `14u32`.
pub fn write(key: impl Into<u32>, given: Given, tag: u32, out: &mut [u8]) -> WriteAnswer {
    let key = key.into();
    match given {
        Given::Nothing => write_numbers(key, GIVEN_NOTHING, 0, &[], tag, out),
        Given::Integer(integer) => write_numbers(key, GIVEN_INTEGER, integer, &[], tag, out),
        Given::Bytes(bytes) => write_numbers(key, GIVEN_BYTES, 0, bytes, tag, out),
    }
}

/// The writer with the kind of value as a number, which may be none.
pub fn write_numbers(
    key: impl Into<u32>,
    kind: u32,
    integer: i64,
    bytes: &[u8],
    tag: u32,
    out: &mut [u8],
) -> WriteAnswer {
    // SAFETY: each pointer and the length after it are those of one slice, and the two slices are apart.
    unsafe {
        bogsilver_write(
            key.into(),
            kind,
            integer,
            bytes.as_ptr(),
            bytes.len(),
            tag,
            out.as_mut_ptr(),
            out.len(),
        )
    }
}

pub fn write_handshake(min: u32, max: u32, out: &mut [u8]) -> WriteAnswer {
    // SAFETY: the pointer and the length are those of one slice.
    unsafe { bogsilver_write_handshake(min, max, out.as_mut_ptr(), out.len()) }
}

/// Writes a payload with its dictionaries sorted at every level; it has as many bytes then as before.
pub fn sort(payload: &[u8], out: &mut [u8]) -> SortAnswer {
    // SAFETY: each pointer and the length after it are those of one slice, and the two slices are apart.
    unsafe { bogsilver_sort(payload.as_ptr(), payload.len(), out.as_mut_ptr(), out.len()) }
}

pub fn agreed_version(min: u32, max: u32, min2: u32, max2: u32) -> u32 {
    // SAFETY: numbers alone are handed over.
    unsafe { bogsilver_agreed_version(min, max, min2, max2) }
}
