//! Random frames, the same in each run: of messages, handshakes and other payloads, most of them sound.

use crate::frame_keys::{Format, KEYS};
use crate::random::{self, put_string, Random};
use crate::random_keys;

/// Numbers at the edges of the limits.
const EDGES: [i64; 12] = [
    0,
    1,
    2,
    -1,
    65_535,
    65_536,
    2_147_483_647,
    2_147_483_648,
    4_294_967_295,
    i64::MAX,
    i64::MIN,
    -2_147_483_649,
];

/// A frame, often of a message or a handshake, with a header that is mostly right.
pub fn frame(random: &mut Random, out: &mut Vec<u8>) {
    let mut payload = Vec::new();
    match random.below(8) {
        0 => random::payload(random, &mut payload),
        1 => handshake(random, &mut payload),
        _ => message(random, &mut payload),
    }
    let length = match random.below(24) {
        0 => payload.len() + 1,
        1 => random.below(1 << 32),
        2 => payload.len().saturating_sub(1),
        _ => payload.len(),
    };
    out.clear();
    let header = match random.below(2) {
        0 => format!("{length:08x}"),
        _ => format!("{length:08X}"),
    };
    out.extend_from_slice(header.as_bytes());
    if random.below(24) == 0 {
        out[random.below(8)] = random.byte(b"gG/:@`\x00\xff");
    }
    out.extend_from_slice(&payload);
    match random.below(16) {
        0 => out.truncate(random.below(out.len() + 1)),
        1 => out.extend_from_slice(b"0000"),
        _ => {}
    }
}

fn message(random: &mut Random, out: &mut Vec<u8>) {
    let (key, format) = match random.below(16) {
        0 => ("unlisted", Format::Any),
        _ => KEYS[random.below(KEYS.len())],
    };
    out.extend_from_slice(format!("l{}:{key}", key.len()).as_bytes());
    match (random.below(4), format) {
        (0, _) => {
            let levels = random.below(4);
            random::value(random, levels, out);
        }
        (_, Format::IdList) => list(random, 0, out),
        (_, Format::TextList) => list(random, 1, out),
        (_, Format::TorrentList) => list(random, 2, out),
        (1, _) => out.extend_from_slice(format!("i{}e", edge(random)).as_bytes()),
        (2, _) => any_list(random, out),
        _ => out.extend_from_slice(b"4:text"),
    }
    match random.below(4) {
        0 => out.extend_from_slice(format!("i{}e", edge(random)).as_bytes()),
        1 => out.extend_from_slice(b"i15e"),
        _ => {}
    }
    out.push(b'e');
}

pub fn any_list(random: &mut Random, out: &mut Vec<u8>) {
    let kind = random.below(3);
    list(random, kind, out);
}

/// A list of IDs (0), strings (1) or torrents (2), some with an item of another kind.
fn list(random: &mut Random, kind: usize, out: &mut Vec<u8>) {
    out.push(b'l');
    for _ in 0..random.below(5) {
        let other = random.below(24) == 0;
        match if other { random.below(3) } else { kind } {
            0 => out.extend_from_slice(id(random).as_bytes()),
            1 => {
                let length = [0, 2, 9, 10, 14, 99, 100, 130][random.below(8)];
                out.extend_from_slice(format!("{length}:{}", "i".repeat(length)).as_bytes());
            }
            _ => torrent(random, out),
        }
    }
    out.push(b'e');
}

/// An integer that is nearly always a torrent ID.
fn id(random: &mut Random) -> String {
    match random.below(24) {
        0 => format!("i{}e", edge(random)),
        1 => random
            .pick(&["i01e", "i-7e", "i2147483700e", "i00000000001e"])
            .to_string(),
        2 => format!("i{}e", random.next()),
        3..=7 => format!("i{}e", 2_147_483_547 + random.below(101)),
        8..=11 => format!("i{}e", 10_usize.pow(random.below(10) as u32)),
        _ => format!("i{}e", 1 + random.below((1 << 31) - 1)),
    }
}

/// A dictionary that mostly has an `id`, at any place; rarely it has two, or one that is no torrent ID, or a key that is no
/// text.
fn torrent(random: &mut Random, out: &mut Vec<u8>) {
    let keys = [
        "name",
        "size",
        "i",
        "idx",
        "ID",
        "id\u{1}",
        "\u{feff}id",
        "gr\u{f6}\u{df}e",
        "download-speed",
        "download-total",
    ];
    let mut keys: Vec<&str> = keys.into_iter().filter(|_| random.below(4) == 0).collect();
    let ids = [1, 1, 1, 1, 1, 1, 1, 1, 1, 1, 0, 2][random.below(12)];
    keys.extend(std::iter::repeat_n("id", ids));
    random.shuffle(&mut keys);
    out.push(b'd');
    for key in keys {
        let mut text = key.as_bytes().to_vec();
        if random.below(96) == 0 {
            random_keys::spoil(random, &mut text);
        }
        put_string(&text, out);
        match random.below(12) {
            _ if key == "id" => identity(random, out),
            0 => random::value(random, 2, out),
            1 => out.extend_from_slice(b"ld2:idi0eed2:id0:ee"),
            2 => torrent(random, out),
            3 => {
                let levels = 8 + random.below(8);
                out.extend_from_slice("l".repeat(levels).as_bytes());
                out.resize(out.len() + levels, b'e');
            }
            4..=7 => out.extend_from_slice(format!("i{}e", edge(random)).as_bytes()),
            _ => out.extend_from_slice(b"4:text"),
        }
    }
    out.push(b'e');
}

/// The value of an `id`.
fn identity(random: &mut Random, out: &mut Vec<u8>) {
    match random.below(24) {
        0 => random::value(random, 1, out),
        _ => out.extend_from_slice(id(random).as_bytes()),
    }
}

fn handshake(random: &mut Random, out: &mut Vec<u8>) {
    let (min, max) = (edge(random), edge(random));
    let text = match random.below(9) {
        0 | 1 => format!("d7:versioni{min}ee"),
        2 | 3 => format!("d5:label1:x7:versiond3:maxi{max}e3:mini{min}eee"),
        4 | 5 => format!("d7:versiond3:mini{min}e3:min0:ee"),
        6 | 7 => format!("d2:\u{e9}0:7:versiond3:mini{min}e3:maxi{max}e1:xleee"),
        _ => format!("d7:versiond3:mini{min}e3:maxi{max}e4:min\0leee"),
    };
    out.extend_from_slice(text.as_bytes());
}

pub fn edge(random: &mut Random) -> i64 {
    match random.below(2) {
        0 => EDGES[random.below(EDGES.len())],
        _ => 1 + random.below(9) as i64,
    }
}
