//! The frames that are timed: their payloads have at most so many bytes.

use crate::random::Random;
use crate::shapes;

/// A message's frame.
pub fn frame(key: &str, value: &[u8]) -> Vec<u8> {
    let open = format!("l{}:{key}", key.len());
    let payload = [open.as_bytes(), value, b"e"].concat();
    [format!("{:08X}", payload.len()).as_bytes(), &payload].concat()
}

/// The bytes of a payload beside its value: at most `l14:get-status-all` and `e`.
const AROUND: usize = 19;

pub fn info(size: usize) -> Vec<u8> {
    frame("info", &shapes::info(size - AROUND))
}

pub fn info_unsorted(size: usize) -> Vec<u8> {
    frame("info", &shapes::info_unsorted(size - AROUND))
}

/// A `status` list, with the keys as a daemon sends them: `id` first.
pub fn status(size: usize) -> Vec<u8> {
    let mut random = Random(6);
    let list = shapes::fill(size - AROUND, "l", "e", |i| {
        format!(
            "d2:idi{}e5:state11:downloading9:completedi{}e14:download-speedi{}e12:upload-speedi{}e5:error0:e",
            i + 1,
            random.below(1 << 40),
            random.below(1 << 20),
            random.below(1 << 16)
        )
    });
    frame("status", &list)
}

pub fn start(size: usize) -> Vec<u8> {
    frame("start", &ids(size))
}

pub fn texts(size: usize) -> Vec<u8> {
    frame("get-status-all", &shapes::strings(size - AROUND))
}

/// A list of torrent IDs, as it is handed to the writer.
pub fn ids(size: usize) -> Vec<u8> {
    let mut random = Random(7);
    shapes::fill(size - AROUND, "l", "e", |_| {
        format!("i{}e", 1 + random.below(5000))
    })
}

/// A text, as it is handed to the writer.
pub fn text(size: usize) -> Vec<u8> {
    (0..size - AROUND).map(|i| b'a' + (i % 26) as u8).collect()
}
