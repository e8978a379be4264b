//! Times the frame readers and the frame writers on the same frames.

use std::hint::black_box;

use crate::bogsilver::{self, Answer, Given, LARGEST_FRAME};
use crate::time::{print_ratio, print_title};
use crate::{frame_reader, frame_shapes, frame_writer};

type Shape = fn(usize) -> Vec<u8>;
type Reader = fn(&[u8]) -> Answer;

const READ: [(&str, Shape); 5] = [
    ("info list, keys sorted", frame_shapes::info),
    ("info list, keys unsorted", frame_shapes::info_unsorted),
    ("status list", frame_shapes::status),
    ("ID list", frame_shapes::start),
    ("string list", frame_shapes::texts),
];

/// In the strict profile, which takes sorted keys alone.
const READ_STRICT: [(&str, Shape); 3] = [
    ("info list, keys sorted", frame_shapes::info),
    ("ID list", frame_shapes::start),
    ("string list", frame_shapes::texts),
];

/// With the number of a key.
const WRITTEN: [(&str, u32, Shape); 2] = [
    ("ID list", 16, frame_shapes::ids),
    ("text", 6, frame_shapes::text),
];

pub fn run() {
    print_title("frame read");
    for (name, shape) in READ {
        for kib in [1, 4, 16, 32] {
            read(
                name,
                &shape(kib * 1024),
                bogsilver::read,
                frame_reader::read,
            );
        }
    }
    print_title("frame read, strict");
    for (name, shape) in READ_STRICT {
        for kib in [1, 4, 16, 32] {
            read(
                name,
                &shape(kib * 1024),
                bogsilver::read_strict,
                frame_reader::read_strict,
            );
        }
    }
    print_title("value written");
    for (name, key, shape) in WRITTEN {
        for kib in [1, 4, 16, 32] {
            write(name, key, &shape(kib * 1024));
        }
    }
}

fn read(name: &str, frame: &[u8], proved: Reader, rust: Reader) {
    let answer = proved(frame);
    assert_eq!((answer.code, answer.consumed), (0, frame.len()), "{name}");
    assert_eq!(answer, rust(frame), "{name}");
    print_ratio(
        name,
        frame.len(),
        || {
            black_box(proved(black_box(frame)));
        },
        || {
            black_box(rust(black_box(frame)));
        },
    );
}

fn write(name: &str, key: u32, value: &[u8]) {
    let (mut out, mut other) = (vec![0; LARGEST_FRAME], vec![0; LARGEST_FRAME]);
    let given = Given::Bytes(value);
    let answer = bogsilver::write(key, given, 7, &mut out);
    assert_eq!(answer.code, 0, "{name}");
    assert_eq!(answer, frame_writer::write(key, given, 7, &mut other));
    assert_eq!(out, other, "{name}");
    print_ratio(
        name,
        value.len(),
        || {
            black_box(bogsilver::write(
                key,
                black_box(given),
                7,
                black_box(&mut out),
            ));
        },
        || {
            black_box(frame_writer::write(
                key,
                black_box(given),
                7,
                black_box(&mut other),
            ));
        },
    );
}
