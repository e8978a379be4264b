//! Random payloads, the same in each run.

use crate::random_keys;

/// A xorshift generator.
pub struct Random(pub u64);

impl Random {
    pub fn next(&mut self) -> u64 {
        self.0 ^= self.0 << 13;
        self.0 ^= self.0 >> 7;
        self.0 ^= self.0 << 17;
        self.0
    }

    pub fn below(&mut self, bound: usize) -> usize {
        ((self.next() >> 16) % bound as u64) as usize
    }

    pub fn pick<'a, T: ?Sized>(&mut self, items: &[&'a T]) -> &'a T {
        items[self.below(items.len())]
    }

    pub fn byte(&mut self, items: &[u8]) -> u8 {
        items[self.below(items.len())]
    }

    pub fn shuffle<T>(&mut self, items: &mut [T]) {
        for i in (1..items.len()).rev() {
            items.swap(i, self.below(i + 1));
        }
    }
}

/// Bytes that mean something to a walker, and some that do not.
const BYTES: &[u8] = b"0123456789ilde:-+ ax\x00\xff";

/// Numerals at the edges of the range, in good and in bad form.
const NUMERALS: &[&str] = &[
    "0",
    "-0",
    "00",
    "01",
    "-1",
    "--1",
    "+1",
    "",
    "-",
    "9223372036854775807",
    "9223372036854775808",
    "-9223372036854775808",
    "-9223372036854775809",
    "18446744073709551615",
    "18446744073709551616",
    "-18446744073709551617",
    "340282366920938463463374607431768211457",
    "99999999999999999999999999999999999999999999",
];

/// String lengths that no payload can satisfy, or that are in bad form.
const LENGTHS: &[&str] = &[
    "00:",
    "01:a",
    "0",
    "4",
    "4:abc",
    "9:",
    "4294967296:",
    "4294967297:a",
    "18446744073709551615:",
    "18446744073709551617:a",
    "340282366920938463463374607431768211457:a",
    "99999999999999999999999999999999x",
    "-1:",
    "1",
    "1x",
    "2:a",
];

pub fn payload(random: &mut Random, out: &mut Vec<u8>) {
    out.clear();
    match random.below(16) {
        0 => soup(random, out),
        1 => deep(random, out),
        2 => random_keys::many(random, out),
        3 => random_keys::alike(random, out),
        _ => {
            let levels = random.below(6);
            value(random, levels, out);
        }
    }
    match random.below(3) {
        0 => {}
        1 => {
            let length = random.below(out.len() + 1);
            out.truncate(length);
        }
        _ => (0..1 + random.below(3)).for_each(|_| damage(random, out)),
    }
}

/// Bytes in no order.
fn soup(random: &mut Random, out: &mut Vec<u8>) {
    for _ in 0..random.below(24) {
        out.push(random.byte(BYTES));
    }
}

/// One byte taken out, put in or changed.
fn damage(random: &mut Random, out: &mut Vec<u8>) {
    let at = random.below(out.len() + 1);
    let byte = if random.below(8) == 0 {
        random.below(256) as u8
    } else {
        random.byte(BYTES)
    };
    match random.below(3) {
        0 if at < out.len() => drop(out.remove(at)),
        1 if at < out.len() => out[at] = byte,
        _ => out.insert(at, byte),
    }
}

/// Lists and dictionaries in each other, about as many as are allowed.
fn deep(random: &mut Random, out: &mut Vec<u8>) {
    let levels = random.below(20);
    for _ in 0..levels {
        if random.below(2) == 0 {
            out.push(b'l');
            (0..random.below(2)).for_each(|_| value(random, 0, out));
        } else {
            out.extend_from_slice(random.pick(&["d", "d1:ai1e", "d1:yle1:x0:"]).as_bytes());
            out.extend_from_slice(random.pick(&["1:b", "1:z", "0:"]).as_bytes());
        }
    }
    value(random, 1, out);
    out.resize(out.len() + levels, b'e');
}

/// A value with at most so many levels: nearly always a good one.
pub fn value(random: &mut Random, levels: usize, out: &mut Vec<u8>) {
    match random.below(if levels == 0 { 2 } else { 5 }) {
        0 => integer(random, out),
        1 => string(random, out),
        2 | 3 => {
            out.push(b'l');
            (0..random.below(4)).for_each(|_| value(random, levels - 1, out));
            out.push(b'e');
        }
        _ => {
            out.push(b'd');
            for _ in 0..random.below(5) {
                random_keys::key(random, out);
                value(random, levels - 1, out);
            }
            out.push(b'e');
        }
    }
}

fn integer(random: &mut Random, out: &mut Vec<u8>) {
    let text = match random.below(24) {
        0 => random.pick(NUMERALS).to_string(),
        1..=3 => (random.next() as i64).to_string(),
        4 => numeral(random),
        _ => (random.below(2000) as i64 - 1000).to_string(),
    };
    out.extend_from_slice(format!("i{text}e").as_bytes());
}

/// 1 to 22 digits, some with a minus; few with a leading zero.
fn numeral(random: &mut Random) -> String {
    let mut text = random.pick(&["", "", "-"]).to_string();
    for _ in 0..1 + random.below(22) {
        text.push(char::from(random.byte(b"1234567899990")));
    }
    text
}

fn string(random: &mut Random, out: &mut Vec<u8>) {
    if random.below(48) == 0 {
        return bad_string(random, out);
    }
    let text: Vec<u8> = (0..string_length(random))
        .map(|_| random.byte(b"ab1e:\x00\xff"))
        .collect();
    put_string(&text, out);
}

/// A short length, with few exceptions.
pub fn string_length(random: &mut Random) -> usize {
    match random.below(16) {
        0 => random.below(40),
        _ => random.below(4),
    }
}

/// A string with a length in bad form, or with one that it does not have.
pub fn bad_string(random: &mut Random, out: &mut Vec<u8>) {
    out.extend_from_slice(random.pick(LENGTHS).as_bytes());
}

pub fn put_string(text: &[u8], out: &mut Vec<u8>) {
    out.extend_from_slice(format!("{}:", text.len()).as_bytes());
    out.extend_from_slice(text);
}
