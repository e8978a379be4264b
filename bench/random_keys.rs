//! Random keys, and random dictionaries that have many keys, or keys that are hard to tell apart.

use crate::random::{self, put_string, Random};

/// Characters about the ends of each length, and about the surrogates.
const CHARACTERS: &[&str] = &[
    "\u{1}",
    "\u{7f}",
    "\u{80}",
    "\u{7ff}",
    "\u{800}",
    "\u{d7ff}",
    "\u{e000}",
    "\u{feff}",
    "\u{ffff}",
    "\u{10000}",
    "\u{10ffff}",
];

/// What no key has: a zero byte, overlong and cut characters, a surrogate, what is past the last character, other bytes.
const NO_CHARACTERS: &[&[u8]] = &[
    b"\x00",
    b"\x80",
    b"\xff",
    b"\xc0\x80",
    b"\xe0\x9f\xbf",
    b"\xf0\x8f\xbf\xbf",
    b"\xc3",
    b"\xe2\x82",
    b"\xf0\x9f\x98",
    b"\xed\xa0\x80",
    b"\xf4\x90\x80\x80",
];

/// A key as a string, nearly always a good one.
pub fn key(random: &mut Random, out: &mut Vec<u8>) {
    if random.below(48) == 0 {
        return random::bad_string(random, out);
    }
    let mut key = Vec::new();
    for _ in 0..random::string_length(random) {
        match random.below(8) {
            0 => key.extend_from_slice(random.pick(CHARACTERS).as_bytes()),
            _ => key.push(random.byte(b"ab1e:")),
        }
    }
    if random.below(32) == 0 {
        spoil(random, &mut key);
    }
    put_string(&key, out);
}

/// Takes a byte out of a key, or puts something in that no key has.
pub fn spoil(random: &mut Random, key: &mut Vec<u8>) {
    let at = random.below(key.len() + 1);
    if at < key.len() && random.below(2) == 0 {
        key.remove(at);
    } else {
        key.splice(at..at, random.pick(NO_CHARACTERS).iter().copied());
    }
}

/// A dictionary with many keys: rising, falling or in no order, some of them repeated.
pub fn many(random: &mut Random, out: &mut Vec<u8>) {
    let prefix = random.pick(&[
        "",
        "a",
        "key-with-a-long-prefix-",
        "\u{e9}",
        "\u{e9}-with-a-long-prefix-",
    ]);
    let most = if random.below(16) == 0 { 400 } else { 60 };
    let mut keys: Vec<String> = (0..random.below(most))
        .map(|i| format!("{prefix}{i}"))
        .collect();
    keys.sort();
    match random.below(4) {
        0 => {}
        1 => keys.reverse(),
        2 => random.shuffle(&mut keys),
        _ => {
            let half = keys.len() / 2;
            random.shuffle(&mut keys[half..]);
        }
    }
    if random.below(2) == 0 && !keys.is_empty() {
        let again = keys[random.below(keys.len())].clone();
        keys.insert(random.below(keys.len() + 1), again);
    }
    // Long dictionaries of any values seldom get to their end without a fault.
    let plain = random.below(2) == 0;
    out.push(b'd');
    for key in keys {
        put_string(key.as_bytes(), out);
        if plain {
            out.extend_from_slice(
                random
                    .pick(&["0:", "i-7e", "le", "d1:b0:1:a0:e"])
                    .as_bytes(),
            );
        } else {
            let levels = random.below(3);
            random::value(random, levels, out);
        }
    }
    out.push(b'e');
}

/// A dictionary with keys that differ late, in a low byte or in their length alone, some of them repeated. In one of eight the
/// low byte is zero, which no key has.
pub fn alike(random: &mut Random, out: &mut Vec<u8>) {
    let prefix = random.pick(&[
        "",
        "a",
        "abcde",
        "abcdef",
        "abcdefg",
        "abcdefgh",
        "abcdefghijklmno",
    ]);
    let low = if random.below(8) == 0 { "\0" } else { "\u{1}" };
    out.push(b'd');
    let most = if random.below(8) == 0 { 50 } else { 8 };
    for _ in 0..random.below(most) {
        let mut key = prefix.as_bytes().to_vec();
        for _ in 0..random.below(5) {
            let piece = random.pick(&[low, low, "a", "b", "\u{ff}"]);
            key.extend_from_slice(piece.as_bytes());
        }
        if random.below(64) == 0 {
            spoil(random, &mut key);
        }
        put_string(&key, out);
        let levels = random.below(2);
        random::value(random, levels, out);
    }
    out.push(b'e');
}
