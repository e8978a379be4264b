//! Times in one run, on the same frames: the proved reader, the one in ordinary Rust and, where they are linked in,
//! libtorrent's bdecode and an earlier build of the proved library. libtorrent is handed the payload alone.

use std::hint::black_box;

use crate::beside_shapes::{self, Row};
use crate::time::measure;
use crate::{bogsilver, frame_reader};

/// Reads a frame: whether it is accepted.
type Reader = fn(&[u8]) -> bool;

/// The ratios of the table; one that lacks a side is left out.
const RATIOS: [[&str; 2]; 4] = [
    ["ours", "libtorrent"],
    ["ours", "Rust"],
    ["before", "libtorrent"],
    ["before", "ours"],
];

fn sides() -> Vec<(&'static str, Reader)> {
    vec![
        ("ours", |frame| bogsilver::read(frame).code == 0),
        ("Rust", |frame| frame_reader::read(frame).code == 0),
        #[cfg(libtorrent)]
        ("libtorrent", libtorrent::read),
        #[cfg(before)]
        ("before", before::read),
    ]
}

#[cfg(libtorrent)]
mod libtorrent {
    use crate::bogsilver::HEADER_LENGTH;

    extern "C" {
        fn libtorrent_bdecode(payload: *const u8, length: usize) -> bool;
    }

    pub fn read(frame: &[u8]) -> bool {
        let payload = &frame[HEADER_LENGTH..];
        // SAFETY: the pointer and the length are those of one slice.
        unsafe { libtorrent_bdecode(payload.as_ptr(), payload.len()) }
    }
}

/// An earlier build whose `bogsilver_read` has another name; its answer must have the layout of today's.
#[cfg(before)]
mod before {
    use crate::bogsilver::Answer;

    extern "C" {
        fn before_read(bytes: *const u8, length: usize) -> Answer;
    }

    pub fn read(frame: &[u8]) -> bool {
        // SAFETY: the pointer and the length are those of one slice.
        unsafe { before_read(frame.as_ptr(), frame.len()).code == 0 }
    }
}

pub fn run() {
    let sides = sides();
    print!("{:18} {:>6}", "frame", "bytes");
    for (of, over) in ratios(&sides) {
        print!(" {:>18}", format!("{}/{}", sides[of].0, sides[over].0));
    }
    for (name, _) in &sides {
        print!(" {:>14}", format!("{name} us"));
    }
    println!();
    for row in beside_shapes::rows() {
        line(&row, &sides);
    }
}

/// The places of the two sides of each ratio.
fn ratios(sides: &[(&str, Reader)]) -> Vec<(usize, usize)> {
    let place = |name| sides.iter().position(|side| side.0 == name);
    RATIOS
        .iter()
        .filter_map(|[of, over]| Some((place(*of)?, place(*over)?)))
        .collect()
}

fn line(row: &Row, sides: &[(&str, Reader)]) {
    let frame = row.frame.as_slice();
    for (name, read) in sides {
        assert!(read(frame), "{name} refuses {}", row.name);
    }
    let mut calls: Vec<_> = sides
        .iter()
        .map(|(_, read)| {
            move || {
                black_box(read(black_box(frame)));
            }
        })
        .collect();
    let mut calls: Vec<&mut dyn FnMut()> = calls.iter_mut().map(|call| call as _).collect();
    let times = measure(&mut calls);
    print!("{:18} {:6}", row.name, frame.len());
    for (of, over) in ratios(sides) {
        print!(" {:18.2}", times[of] / times[over]);
    }
    for time in &times {
        print!(" {time:14.2}");
    }
    println!();
}
