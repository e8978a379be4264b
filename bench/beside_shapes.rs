//! The frames of the table beside libtorrent: lists as a daemon sends them, and dictionaries with many keys.

use crate::random::Random;
use crate::shapes::{dictionary, fill, text};

pub struct Row {
    pub name: String,
    pub frame: Vec<u8>,
}

fn row(name: String, payload: Vec<u8>) -> Row {
    let header = format!("{:08X}", payload.len());
    Row {
        name,
        frame: [header.into_bytes(), payload].concat(),
    }
}

pub fn rows() -> Vec<Row> {
    let mut random = Random(42);
    let mut rows = Vec::new();
    for kib in [1, 4, 16, 32] {
        lists(kib, &mut random, &mut rows);
    }
    for (name, order) in [
        ("rising", Order::Rising),
        ("falling", Order::Falling),
        ("shuffled", Order::Shuffled),
    ] {
        rows.push(row(
            format!("32K keys {name}"),
            keys(32 * 1024, order, &mut random),
        ));
    }
    rows
}

/// One row of each kind of list.
fn lists(kib: usize, random: &mut Random, rows: &mut Vec<Row>) {
    let mut add = |name: &str, key: &str, item: &mut dyn FnMut(usize) -> String| {
        let open = format!("l{}l", text(key));
        rows.push(row(
            format!("{kib}K {name}"),
            fill(kib * 1024, &open, "ee", item),
        ));
    };
    add("info sorted", "info", &mut |i| {
        let mut entries = info(i + 1, random);
        entries.sort();
        dictionary(&entries)
    });
    add("info unsorted", "info", &mut |i| {
        dictionary(&info(i + 1, random))
    });
    add("status", "status", &mut |i| {
        dictionary(&status(i + 1, random))
    });
    add("ids", "start", &mut |_| {
        integer(1 + random.below(2_147_483_647))
    });
    add("strings", "get-status-all", &mut |_| text("download-total"));
}

fn integer(number: usize) -> String {
    format!("i{number}e")
}

/// A torrent of an `info` list, its keys in no order.
fn info(id: usize, random: &mut Random) -> Vec<(&'static str, String)> {
    let name = format!(
        "pass-recording-2026-11-{}-antenna-{}",
        random.below(30),
        random.below(9)
    );
    let path = format!("/archive/recordings/day{}", random.below(365));
    vec![
        ("id", integer(id)),
        ("name", text(&name)),
        ("path", text(&path)),
        ("size", integer(random.below(100_000_000_000))),
        ("hash", text("0123456789abcdef0123456789abcdef01234567")),
        ("saved", integer(random.below(2))),
        ("private", integer(1)),
        ("comment", text("closed swarm")),
        ("date", integer(1_700_000_000 + random.below(10_000_000))),
    ]
}

/// A torrent of a `status` list.
fn status(id: usize, random: &mut Random) -> Vec<(&'static str, String)> {
    vec![
        ("download-speed", integer(random.below(100_000))),
        ("download-total", integer(random.below(100_000_000_000))),
        ("error", text("")),
        ("id", integer(id)),
        ("running", integer(1)),
        ("state", text("downloading")),
        ("swarm-size", integer(random.below(50))),
        ("upload-speed", integer(random.below(100_000))),
    ]
}

enum Order {
    Rising,
    Falling,
    Shuffled,
}

/// A dictionary of four-digit keys with empty strings, as the value of an unlisted key.
fn keys(size: usize, order: Order, random: &mut Random) -> Vec<u8> {
    let mut entries: Vec<String> = (0..(size - 20) / 8)
        .map(|key| format!("4:{key:04}0:"))
        .collect();
    match order {
        Order::Rising => {}
        Order::Falling => entries.reverse(),
        Order::Shuffled => random.shuffle(&mut entries),
    }
    format!("l1:xd{}ee", entries.concat()).into_bytes()
}
