//! Times the proved walkers, nested and with one loop, and the one in ordinary Rust on the same payloads, in the loose profile.

use std::hint::black_box;
use std::time::{Duration, Instant};

use crate::bogsilver::{self, HEADER_LENGTH};
use crate::{flat, frame_shapes, proved, shapes, walker};

/// A sample is at least so long, by repeating the call, so that neither the clock's step counts nor what the other sides left
/// in the caches.
const SAMPLE: Duration = Duration::from_micros(300);

/// How long one payload is measured, and how many samples are taken at least and at most.
const BUDGET: Duration = Duration::from_millis(600);
const SAMPLES: std::ops::RangeInclusive<usize> = 21..=1001;

type Shape = fn(usize) -> Vec<u8>;

const SHAPES: [(&str, Shape); 10] = [
    ("list of integers", shapes::integers),
    ("list of strings", shapes::strings),
    ("info list, keys sorted", shapes::info),
    ("info list, keys unsorted", shapes::info_unsorted),
    ("status list", |size| payload(frame_shapes::status(size))),
    ("ID list", |size| payload(frame_shapes::start(size))),
    ("dictionary, keys rising", shapes::rising),
    ("lists of 16 levels", shapes::deep_lists),
    ("dictionaries of 16 levels", shapes::deep_dictionaries),
    ("16 dictionaries nested, rising", shapes::nested_rising),
];

/// A frame's payload.
pub fn payload(frame: Vec<u8>) -> Vec<u8> {
    frame[HEADER_LENGTH..].to_vec()
}

pub fn run() {
    println!(
        "{:36} {:>6} {:>11} {:>11} {:>11} {:>9} {:>9} {:>9}",
        "payload", "bytes", "nested us", "flat us", "Rust us", "n/Rust", "f/nested", "f/Rust"
    );
    for (name, shape) in SHAPES {
        for kib in [1, 4, 16, 32] {
            line(name, &shape(kib * 1024));
        }
    }
    for (name, payload) in shapes::worst(32 * 1024) {
        line(name, &payload);
    }
    for (name, payload) in shapes::short() {
        line(name, &payload);
    }
}

fn line(name: &str, payload: &[u8]) {
    for walk in [proved, flat, walker::walk] {
        assert_eq!(
            walk(payload, false),
            (0, payload.len()),
            "{name} is not accepted"
        );
    }
    let times = measure(&mut [
        &mut || {
            black_box(bogsilver::walk(black_box(payload), black_box(false)));
        },
        &mut || {
            black_box(bogsilver::walk_flat(black_box(payload), black_box(false)));
        },
        &mut || {
            black_box(walker::walk(black_box(payload), black_box(false)));
        },
    ]);
    let (nested, flat, rust) = (times[0], times[1], times[2]);
    println!(
        "{name:36} {:6} {nested:11.3} {flat:11.3} {rust:11.3} {:9.2} {:9.2} {:9.2}",
        payload.len(),
        nested / rust,
        flat / nested,
        flat / rust
    );
}

pub fn print_title(what: &str) {
    println!(
        "{what:36} {:>6} {:>11} {:>11} {:>9}",
        "bytes", "proved us", "Rust us", "ratio"
    );
}

/// Measures both and prints their times in microseconds, with the ratio.
pub fn print_ratio(name: &str, bytes: usize, mut proved: impl FnMut(), mut rust: impl FnMut()) {
    let times = measure(&mut [&mut proved, &mut rust]);
    let (proved, rust) = (times[0], times[1]);
    let ratio = proved / rust;
    println!("{name:36} {bytes:6} {proved:11.2} {rust:11.2} {ratio:9.2}");
}

/// The median of each side in microseconds; the samples of the sides alternate.
pub fn measure(sides: &mut [&mut dyn FnMut()]) -> Vec<f64> {
    let calls: Vec<u32> = sides.iter_mut().map(|side| calls(side)).collect();
    let mut times = vec![Vec::new(); sides.len()];
    let start = Instant::now();
    while times[0].len() < *SAMPLES.start()
        || (start.elapsed() < BUDGET && times[0].len() < *SAMPLES.end())
    {
        for (side, call) in sides.iter_mut().enumerate() {
            times[side].push(sample(calls[side], call));
        }
    }
    times.into_iter().map(median).collect()
}

/// How many calls make a sample long enough.
fn calls(call: &mut dyn FnMut()) -> u32 {
    let mut calls = 1;
    while sample(calls, call) * f64::from(calls) < SAMPLE.as_secs_f64() * 1e6 {
        calls *= 2;
    }
    calls
}

/// Microseconds for one call.
fn sample(calls: u32, call: &mut dyn FnMut()) -> f64 {
    let start = Instant::now();
    (0..calls).for_each(|_| call());
    start.elapsed().as_secs_f64() * 1e6 / f64::from(calls)
}

fn median(mut times: Vec<f64>) -> f64 {
    times.sort_by(f64::total_cmp);
    times[times.len() / 2]
}
