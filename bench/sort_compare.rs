//! Compares the proved sorter with the one in ordinary Rust: the same answers, and the same buffers.

use crate::bogsilver::{self, SortAnswer, LARGEST_PAYLOAD};
use crate::random::{self, Random};
use crate::{shapes, sorter};

const RANDOM_PAYLOADS: usize = 2_000_000;

/// The codes that a sorter can give.
const CODES: [usize; 9] = [0, 4, 5, 6, 7, 8, 9, 10, 44];

/// What the buffer is filled with before a call, two ways, so that a byte which is written is seen.
const FILLS: [u8; 2] = [0xAA, 0x55];

/// Payloads with what is written.
const SAMPLES: &[(&str, &str)] = &[
    ("i7e", "i7e"),
    ("d1:b0:1:a0:e", "d1:a0:1:b0:e"),
    ("d1:b0:2:aa0:e", "d2:aa0:1:b0:e"),
    ("d2:aa0:1:a0:0:0:e", "d0:0:1:a0:2:aa0:e"),
    ("d2:\u{e4}0:1:\u{7f}0:1:z0:e", "d1:z0:1:\u{7f}0:2:\u{e4}0:e"),
    ("d4:\u{10000}0:3:\u{ffff}0:e", "d3:\u{ffff}0:4:\u{10000}0:e"),
    ("li2ei1ed1:b1:y1:a1:xee", "li2ei1ed1:a1:x1:b1:yee"),
    ("d1:blld1:y0:1:x0:eee1:adee", "d1:ade1:blld1:x0:1:y0:eeee"),
];

/// Payloads that are refused, with their room.
const REFUSED: &[(&str, usize, u8, usize)] = &[
    ("", 0, 5, 0),
    ("d1:b0:1:a0:e", 11, 44, 0),
    ("d1:b0:1:a0:1:b0:e", 0, 8, 11),
    ("d1:b0:1:\0", 99, 10, 6),
    ("i7ee", 0, 9, 3),
];

struct Tally {
    payloads: u64,
    /// Those that came out otherwise than they went in.
    changed: u64,
    answers: [u64; 256],
    /// Filled alike before each call, and as much of them lent as there is room.
    out: Vec<u8>,
    other: Vec<u8>,
}

impl Tally {
    /// One payload with so much room; the first difference ends the program.
    fn check(&mut self, payload: &[u8], room: usize) -> SortAnswer {
        let fill = FILLS[self.payloads as usize % FILLS.len()];
        let (out, other) = (&mut self.out[..room], &mut self.other[..room]);
        out.fill(fill);
        other.fill(fill);
        let found = bogsilver::sort(payload, out);
        let wanted = sorter::sort(payload, other);
        assert_eq!(found, wanted, "room {room}, payload {payload:02x?}");
        assert!(out == other, "room {room}, payload {payload:02x?}");
        if found.code != 0 {
            let untouched = out.iter().all(|&byte| byte == fill);
            assert!(
                untouched,
                "a refusal writes: room {room}, payload {payload:02x?}"
            );
        } else if &out[..found.count] != payload {
            self.changed += 1;
        }
        self.payloads += 1;
        self.answers[usize::from(found.code)] += 1;
        found
    }

    /// An accepted payload comes out sorted, and then as it is.
    fn check_again(&mut self, payload: &[u8]) {
        let sorted = self.out[..payload.len()].to_vec();
        let walk = bogsilver::walk(&sorted, true);
        assert_eq!((walk.code, walk.offset), (0, payload.len()));
        self.check(&sorted, sorted.len());
        assert!(self.out[..sorted.len()] == sorted, "{payload:02x?}");
    }
}

pub fn run() {
    let mut tally = Tally {
        payloads: 0,
        changed: 0,
        answers: [0; 256],
        out: vec![0; 2 * LARGEST_PAYLOAD],
        other: vec![0; 2 * LARGEST_PAYLOAD],
    };
    samples(&mut tally);
    for (_, payload) in shapes::worst(LARGEST_PAYLOAD) {
        for room in [payload.len() - 1, payload.len(), payload.len() + 1] {
            tally.check(&payload, room);
        }
        tally.check(&payload, payload.len());
        tally.check_again(&payload);
    }
    let mut random = Random(521_288_629_546_311_807);
    let mut payload = Vec::new();
    for number in 0..RANDOM_PAYLOADS {
        random::payload(&mut random, &mut payload);
        if random.below(512) == 0 {
            lengthen(&mut random, &mut payload);
        }
        let room = room(&mut random, payload.len());
        let answer = tally.check(&payload, room);
        if answer.code == 0 && number % 8 == 0 {
            tally.check_again(&payload);
        }
    }
    println!(
        "{} payloads sorted: no difference; {} came out in another order",
        tally.payloads, tally.changed
    );
    for code in CODES {
        println!("code {code:2}: {} answers", tally.answers[code]);
        assert!(tally.answers[code] > 1000, "code {code} is hardly tried");
    }
}

/// The samples have the answers of the rules, from both sorters.
fn samples(tally: &mut Tally) {
    for (payload, wanted) in SAMPLES {
        let size = payload.len();
        assert_eq!(tally.check(payload.as_bytes(), size + 3).code, 0);
        assert_eq!(&tally.other[..size], wanted.as_bytes(), "{payload}");
    }
    for (payload, room, code, offset) in REFUSED {
        let answer = tally.check(payload.as_bytes(), *room);
        assert_eq!((answer.code, answer.offset), (*code, *offset), "{payload}");
    }
}

/// The payload in a list, with a string that brings it to about the largest size.
fn lengthen(random: &mut Random, payload: &mut Vec<u8>) {
    let size = LARGEST_PAYLOAD - 4 + random.below(9);
    let around = "l32000:e".len();
    let Some(left) = size.checked_sub(payload.len() + around) else {
        return;
    };
    let text = vec![b'x'; left];
    payload.insert(0, b'l');
    random::put_string(&text, payload);
    payload.push(b'e');
}

/// Mostly as much as is needed, or one more or less.
fn room(random: &mut Random, size: usize) -> usize {
    match random.below(16) {
        0 => 0,
        1 => size.saturating_sub(1),
        2 => random.below(size + 1),
        3 => size + random.below(40),
        4 => size + 1,
        _ => size,
    }
}
