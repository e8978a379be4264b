//! Times both sorters on the same payloads, beside the proved walk of each.

use std::hint::black_box;

use crate::bogsilver::{self, LARGEST_PAYLOAD};
use crate::time::{measure, payload};
use crate::{frame_shapes, shapes, sorter};

type Shape = fn(usize) -> Vec<u8>;

/// Payloads whose keys rise, which come out as they are.
const SORTED: [(&str, Shape); 6] = [
    ("list of integers", shapes::integers),
    ("list of strings", shapes::strings),
    ("info list, keys sorted", shapes::info),
    ("dictionary, keys rising", shapes::rising),
    ("16 dictionaries nested, rising", shapes::nested_rising),
    ("rising in the 16th dictionary", shapes::inside_rising),
];

/// Lists of small dictionaries whose keys do not rise.
const UNSORTED: [(&str, Shape); 2] = [
    ("info list, keys unsorted", shapes::info_unsorted),
    ("status list", |size| payload(frame_shapes::status(size))),
];

pub fn run() {
    println!(
        "{:36} {:>6} {:>11} {:>11} {:>11} {:>9} {:>9} {:>9}",
        "payload sorted", "bytes", "proved us", "walk us", "Rust us", "ns/byte", "/walk", "/Rust"
    );
    for (name, shape) in SORTED.into_iter().chain(UNSORTED) {
        for kib in [1, 4, 16, 32] {
            line(name, &shape(kib * 1024));
        }
    }
    for (name, payload) in shapes::worst(32 * 1024) {
        line(name, &payload);
    }
    line(
        "falling in the 16th dictionary",
        &shapes::inside_falling(32 * 1024),
    );
}

fn line(name: &str, payload: &[u8]) {
    let mut out = vec![0; LARGEST_PAYLOAD];
    let mut other = out.clone();
    let answer = bogsilver::sort(payload, &mut out);
    assert_eq!((answer.code, answer.count), (0, payload.len()), "{name}");
    assert_eq!(answer, sorter::sort(payload, &mut other), "{name}");
    assert!(out == other, "{name}");
    let times = measure(&mut [
        &mut || {
            black_box(bogsilver::sort(black_box(payload), black_box(&mut out)));
        },
        &mut || {
            black_box(bogsilver::walk(black_box(payload), black_box(false)));
        },
        &mut || {
            black_box(sorter::sort(black_box(payload), black_box(&mut other)));
        },
    ]);
    let (proved, walk, rust) = (times[0], times[1], times[2]);
    let bytes = payload.len();
    println!(
        "{name:36} {bytes:6} {proved:11.2} {walk:11.2} {rust:11.2} {:9.2} {:9.2} {:9.2}",
        proved * 1000.0 / bytes as f64,
        proved / walk,
        proved / rust
    );
}
