//! Compares the proved reader and writers with those in ordinary Rust: the same answers, and the same buffers.

use crate::bogsilver::{self, Answer, Given, WriteAnswer};
use crate::random::Random;
use crate::random_frames::{self, edge};
use crate::{frame_reader, frame_writer};

const RANDOM_FRAMES: usize = 2_000_000;
const RANDOM_WRITES: usize = 1_000_000;

/// The codes that the readers, loose and strict, and the writers can give.
const READER_CODES: [usize; 15] = [0, 1, 2, 3, 4, 5, 6, 7, 8, 9, 10, 11, 20, 21, 22];
const WRITER_CODES: [usize; 6] = [0, 40, 41, 42, 43, 44];

/// Frames with the code, offset and bytes used that the rules give.
const SAMPLES: &[(&str, u8, usize, usize)] = &[
    ("", 1, 0, 0),
    ("00000000", 5, 0, 0),
    ("7FFFFFF8", 4, 0, 0),
    ("7FFFFFF9", 3, 0, 0),
    ("00008000", 1, 0, 0),
    ("00008001", 4, 0, 0),
    ("0000001dd7:versiond3:mini1e3:maxi2eee", 0, 0, 37),
    ("00000010l5:startli8eei15ee", 5, 16, 0),
    ("00000012l5:startli8eei15ee", 0, 0, 26),
    ("00000003i7e", 20, 0, 0),
    ("00000015i9223372036854775808e", 6, 0, 0),
    ("0000000Ed1:ai1e1:ai2ee", 8, 7, 0),
    ("00000010d7:versioni1e1:\0", 10, 13, 0),
    ("00000018l4:infold2:idi1e1:\00:eee", 10, 16, 0),
    ("0000000Fl4:portd1:\00:ee", 10, 8, 0),
    ("00000008l1:\01:\0e", 0, 0, 16),
    ("0000000Fl4:porti65536ee", 22, 0, 0),
    ("0000000Fl4:porti65535ee", 0, 0, 23),
];

/// The same for the strict reader.
const STRICT_SAMPLES: &[(&str, u8, usize, usize)] = &[
    ("0000001dd7:versiond3:mini1e3:maxi2eee", 11, 19, 0),
    ("0000001dd7:versiond3:maxi2e3:mini1eee", 0, 0, 37),
    ("00000014d1:ai1e1:bi2e1:ai3ee", 8, 13, 0),
    ("0000001Cl4:infold4:name1:x2:idi5eeee", 11, 18, 0),
    ("00000014l4:noopd1:b0:1:a0:ee", 11, 13, 0),
];

pub fn run() {
    let mut answers = [0_u64; 256];
    let mut random = Random(362_436_069_362_436_069);
    for (text, code, offset, consumed) in SAMPLES {
        let answer = frame_reader::read(text.as_bytes());
        let found = (answer.code, answer.offset, answer.consumed);
        assert_eq!(found, (*code, *offset, *consumed), "sample {text}");
        read(text.as_bytes(), &mut answers);
    }
    for (text, code, offset, consumed) in STRICT_SAMPLES {
        let answer = frame_reader::read_strict(text.as_bytes());
        let found = (answer.code, answer.offset, answer.consumed);
        assert_eq!(found, (*code, *offset, *consumed), "sample {text}");
        read(text.as_bytes(), &mut answers);
    }
    let mut frame = Vec::new();
    for _ in 0..RANDOM_FRAMES {
        random_frames::frame(&mut random, &mut frame);
        read(&frame, &mut answers);
    }
    println!("{RANDOM_FRAMES} frames read in two profiles: no difference");
    report(&READER_CODES, &answers);
    answers = [0; 256];
    for _ in 0..RANDOM_WRITES {
        write(&mut random, &mut answers);
        greet(&mut random, &mut answers);
    }
    println!("{RANDOM_WRITES} messages and handshakes written: no difference");
    report(&WRITER_CODES, &answers);
}

fn report(codes: &[usize], answers: &[u64; 256]) {
    for &code in codes {
        println!("code {code:2}: {} answers", answers[code]);
        assert!(answers[code] > 1000, "code {code} is hardly tried");
    }
}

/// Both profiles of one frame.
fn read(frame: &[u8], answers: &mut [u64; 256]) {
    let profiles: [(Answer, Answer); 2] = [
        (bogsilver::read(frame), frame_reader::read(frame)),
        (
            bogsilver::read_strict(frame),
            frame_reader::read_strict(frame),
        ),
    ];
    for (found, wanted) in profiles {
        assert_eq!(found, wanted, "frame {frame:02x?}");
        answers[usize::from(found.code)] += 1;
    }
}

/// One message through both writers: the answer and the whole buffer.
fn write(random: &mut Random, answers: &mut [u64; 256]) {
    let mut list = Vec::new();
    random_frames::any_list(random, &mut list);
    if random.below(8) == 0 {
        list[0] = random.byte(b"lide0");
    }
    if random.below(8) == 0 {
        list.resize(32_740 + random.below(40), b'x');
    }
    let kind = random.below(4) as u32;
    let key = match random.below(16) {
        0 => random.next() as u32,
        _ => random.below(23) as u32,
    };
    let (integer, tag) = (edge(random), edge(random) as u32);
    let room = match random.below(4) {
        0 => random.below(40),
        _ => 32_790,
    };
    let mut out = vec![0xAA; room];
    let mut other = out.clone();
    let found = bogsilver::write_numbers(key, kind, integer, &list, tag, &mut out);
    let wanted = match kind {
        0 => frame_writer::write(key, Given::Nothing, tag, &mut other),
        1 => frame_writer::write(key, Given::Integer(integer), tag, &mut other),
        2 => frame_writer::write(key, Given::Bytes(&list), tag, &mut other),
        _ => unknown(key),
    };
    assert_eq!(found, wanted, "key {key}, kind {kind}, {integer}, {tag}");
    assert_eq!(out, other, "key {key}, kind {kind}, {integer}, {tag}");
    answers[usize::from(found.code)] += 1;
}

/// A value of no kind is off every format, but a key that is not written comes first.
fn unknown(key: u32) -> WriteAnswer {
    let written = (1..=20).contains(&key) && ![8, 10, 17].contains(&key);
    WriteAnswer {
        code: if written { 41 } else { 40 },
        count: 0,
    }
}

/// One handshake through both writers, and the version that two agree on.
fn greet(random: &mut Random, answers: &mut [u64; 256]) {
    let [min, max, min2, max2] = [(); 4].map(|()| edge(random) as u32);
    let mut out = vec![0xAA; random.below(60)];
    let mut other = out.clone();
    let found = bogsilver::write_handshake(min, max, &mut out);
    let wanted = frame_writer::write_handshake(min, max, &mut other);
    assert_eq!((found, out), (wanted, other), "versions {min} to {max}");
    answers[usize::from(found.code)] += 1;
    assert_eq!(
        bogsilver::agreed_version(min, max, min2, max2),
        frame_writer::agreed_version(min, max, min2, max2),
        "versions {min} to {max}, {min2} to {max2}"
    );
}
