//! Compares the proved walkers, nested and with one loop, with the one in ordinary Rust and with each other: the same code and
//! offset for each payload.

use crate::random::{self, Random};
use crate::{flat, proved, walker};

const RANDOM_PAYLOADS: usize = 3_000_000;

/// The alphabet of the short payloads, all of which are tried, and their greatest length.
const ALPHABET: &[u8] = b"012-:ildea\xff";
const SHORT: usize = 6;

/// Bytes about the ends of the ranges that UTF-8 has, of which all short keys are tried, and their greatest length.
const TEXT_BYTES: &[u8] = b"\x00\x01a\x7f\x80\x8f\x90\x9f\xa0\xbf\xc0\xc1\xc2\xdf\
    \xe0\xe1\xec\xed\xee\xef\xf0\xf1\xf3\xf4\xf5\xff";
const SHORT_KEY: usize = 4;

/// The codes that a walker can give.
const CODES: [usize; 8] = [0, 5, 6, 7, 8, 9, 10, 11];

/// Payloads with the answer that the rules give in the loose profile.
const SAMPLES: &[(&str, u8, usize)] = &[
    ("", 5, 0),
    ("i7e", 0, 3),
    ("i-0e", 5, 2),
    ("i03e", 5, 2),
    ("i-e", 5, 2),
    ("ie", 5, 1),
    ("i9223372036854775807e", 0, 21),
    ("i9223372036854775808e", 6, 0),
    ("i-9223372036854775808e", 0, 22),
    ("li-9223372036854775809ee", 6, 1),
    ("i9223372036854775808", 5, 20),
    ("00:", 5, 1),
    ("4:abc", 5, 5),
    ("18446744073709551616:", 5, 21),
    ("18446744073709551616x", 5, 20),
    ("d1:ai1e1:ai2ee", 8, 7),
    ("d1:b0:1:a0:1:b", 8, 11),
    ("di1ei1ee", 5, 1),
    ("d1:ae", 5, 4),
    ("d1:\0", 10, 1),
    ("d2:\0", 5, 4),
    ("d1:a0:1:\01:a", 10, 6),
    ("l1:\0e", 0, 5),
    ("d7:versiond3:mini1e3:maxi2eee", 0, 29),
    ("l5:startli8eei15", 5, 16),
    ("l5:startli8eei15ee", 0, 18),
    ("i7ee", 9, 3),
    ("lllllllllllllllleeeeeeeeeeeeeeee", 0, 32),
    ("lllllllllllllllll", 7, 16),
];

/// The same for the strict profile.
const STRICT_SAMPLES: &[(&str, u8, usize)] = &[
    ("d1:a0:1:b0:2:ba0:e", 0, 18),
    ("d1:b0:1:a0:e", 11, 6),
    ("d1:b0:0:0:e", 11, 6),
    ("d1:ade1:ade1:ade", 8, 6),
    ("d1:a0:1:b0:1:a0:e", 8, 11),
    ("ld1:b0:1:a", 11, 7),
    ("ld1:b0:1:", 5, 9),
    ("d1:b0:2:a\00:e", 10, 6),
    ("d1:b0:1:a0:1:\00:e", 11, 6),
];

/// Keys, the only ones of a dictionary: text or not.
const KEYS: &[(&[u8], bool)] = &[
    (b"", true),
    (b"\x7f", true),
    (b"\x00", false),
    (b"version\x00", false),
    (b"na\xc3\xafve", true),
    (b"na\xefve", false),
    (b"download-speed\xff", false),
    (b"a-key-of-more-than-two-words\xc3\xa4", true),
    (b"a-key-of-more-than-two-words\xc3", false),
    (b"\xc0\x80", false),
    (b"\xed\x9f\xbf", true),
    (b"\xed\xa0\x80", false),
    (b"\xef\xbb\xbf", true),
    (b"\xf4\x8f\xbf\xbf", true),
    (b"\xf4\x90\x80\x80", false),
];

struct Tally {
    payloads: u64,
    answers: [u64; 12],
}

impl Tally {
    /// Both profiles of one payload; the first difference ends the program.
    fn check(&mut self, payload: &[u8]) {
        self.payloads += 1;
        for strict in [false, true] {
            let (found, wanted) = (proved(payload, strict), walker::walk(payload, strict));
            let looped = flat(payload, strict);
            if found != wanted || looped != wanted {
                println!(
                    "difference, strict {strict}: proved {found:?}, with one loop {looped:?}, Rust {wanted:?}, payload {}",
                    hex(payload)
                );
                std::process::exit(1);
            }
            self.answers[usize::from(found.0)] += 1;
        }
    }
}

pub fn run() {
    let mut tally = Tally {
        payloads: 0,
        answers: [0; 12],
    };
    samples(&mut tally);
    short(&mut tally, &mut Vec::new());
    short_keys(&mut tally, &mut Vec::new());
    levels(&mut tally);
    let mut random = Random(88_172_645_463_325_252);
    let mut payload = Vec::new();
    for _ in 0..RANDOM_PAYLOADS {
        random::payload(&mut random, &mut payload);
        tally.check(&payload);
    }
    println!(
        "{} payloads in two profiles by three walkers: no difference",
        tally.payloads
    );
    for code in CODES {
        println!("code {code:2}: {} answers", tally.answers[code]);
        assert!(tally.answers[code] > 1000, "code {code} is hardly tried");
    }
}

/// The samples have the answers of the rules, from all walkers.
fn samples(tally: &mut Tally) {
    for (table, strict) in [(SAMPLES, false), (STRICT_SAMPLES, true)] {
        for (text, code, offset) in table {
            let found = walker::walk(text.as_bytes(), strict);
            assert_eq!(found, (*code, *offset), "sample {text}, strict {strict}");
            tally.check(text.as_bytes());
        }
    }
    for (key, text) in KEYS {
        let payload = with_key(key);
        let wanted = if *text { (0, payload.len()) } else { (10, 1) };
        assert_eq!(walker::walk(&payload, false), wanted, "key {key:02x?}");
        tally.check(&payload);
    }
}

/// A dictionary with one key.
fn with_key(key: &[u8]) -> Vec<u8> {
    let mut payload = b"d".to_vec();
    random::put_string(key, &mut payload);
    payload.extend_from_slice(b"0:e");
    payload
}

/// Each key of the bytes up to the greatest length.
fn short_keys(tally: &mut Tally, key: &mut Vec<u8>) {
    tally.check(&with_key(key));
    if key.len() == SHORT_KEY {
        return;
    }
    for &byte in TEXT_BYTES {
        key.push(byte);
        short_keys(tally, key);
        key.pop();
    }
}

/// Each payload of the alphabet up to the greatest length.
fn short(tally: &mut Tally, payload: &mut Vec<u8>) {
    tally.check(payload);
    if payload.len() == SHORT {
        return;
    }
    for &byte in ALPHABET {
        payload.push(byte);
        short(tally, payload);
        payload.pop();
    }
}

/// Up to 40 levels, each cut at every length.
fn levels(tally: &mut Tally) {
    for depth in 0..40 {
        for open in ["l", "d0:", "ld1:a", "d1:bi0e1:a", "d1:aleli0e1:b"] {
            let payload = [open.repeat(depth), "le".to_string(), "e".repeat(2 * depth)]
                .concat()
                .into_bytes();
            (0..=payload.len()).for_each(|length| tally.check(&payload[..length]));
        }
    }
}

fn hex(payload: &[u8]) -> String {
    payload.iter().map(|byte| format!("{byte:02x}")).collect()
}
