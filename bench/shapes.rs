//! The payloads that are timed.

use crate::random::Random;

/// `open`, as many items as fit, and `close`: at most `size` bytes.
pub fn fill(
    size: usize,
    open: &str,
    close: &str,
    mut item: impl FnMut(usize) -> String,
) -> Vec<u8> {
    let mut out = open.as_bytes().to_vec();
    for i in 0.. {
        let next = item(i);
        if out.len() + next.len() + close.len() > size {
            break;
        }
        out.extend_from_slice(next.as_bytes());
    }
    out.extend_from_slice(close.as_bytes());
    out
}

pub fn text(text: &str) -> String {
    format!("{}:{text}", text.len())
}

/// A list of integers of 1 to 19 digits.
pub fn integers(size: usize) -> Vec<u8> {
    let mut random = Random(1);
    fill(size, "l", "e", |_| {
        let bits = random.below(63);
        format!("i{}e", (random.next() as i64) >> bits)
    })
}

/// A list of strings of up to 40 bytes.
pub fn strings(size: usize) -> Vec<u8> {
    let mut random = Random(2);
    fill(size, "l", "e", |_| text(&"x".repeat(random.below(41))))
}

/// What an `info` message has for one torrent, as key and value.
fn torrent(random: &mut Random, i: usize) -> Vec<(&'static str, String)> {
    let tracker = |host: usize| {
        let address = text(&format!("tracker{host}.example.org"));
        format!(
            "d7:address{address}8:announce9:/announce4:porti{}e6:scrape7:/scrapee",
            6000 + host
        )
    };
    let trackers: String = (0..1 + random.below(3))
        .map(|host| format!("l{}e", tracker(host)))
        .collect();
    vec![
        ("hash", text("0123456789abcdef0123456789abcdef01234567")),
        ("id", format!("i{}e", i + 1)),
        ("name", text(&format!("torrent number {i}"))),
        ("path", text(&format!("downloads/{i}.torrent"))),
        ("saved", format!("i{}e", i % 2)),
        ("size", format!("i{}e", random.below(1 << 40))),
        ("trackers", format!("l{trackers}e")),
    ]
}

pub fn dictionary(entries: &[(&str, String)]) -> String {
    let body: String = entries
        .iter()
        .map(|(key, value)| text(key) + value)
        .collect();
    format!("d{body}e")
}

/// An `info` list whose dictionaries have sorted keys.
pub fn info(size: usize) -> Vec<u8> {
    let mut random = Random(3);
    fill(size, "l", "e", |i| dictionary(&torrent(&mut random, i)))
}

/// The same with the keys as a client may send them: `id`, `name`, `hash`, `size`, `trackers`, `path`, `saved`.
pub fn info_unsorted(size: usize) -> Vec<u8> {
    let mut random = Random(3);
    fill(size, "l", "e", |i| {
        let sorted = torrent(&mut random, i);
        dictionary(&[1, 2, 0, 5, 6, 3, 4].map(|at: usize| sorted[at].clone()))
    })
}

/// The count of two-byte keys from the printable bytes `!` to `~`.
const KEYS: usize = 94 * 94;

/// The two bytes of a key; keys rise with the number.
fn pair(number: usize) -> String {
    [number / 94, number % 94]
        .map(|digit| char::from(b'!' + digit as u8))
        .iter()
        .collect()
}

fn entry(number: usize, value: &str) -> String {
    text(&pair(number)) + value
}

/// One dictionary with rising keys.
pub fn rising(size: usize) -> Vec<u8> {
    fill(size, "d", "e", |i| entry(i, "i1e"))
}

/// A dictionary inside fifteen others, which have no other entry.
fn inside(dictionary: Vec<u8>) -> Vec<u8> {
    [b"d1:k".repeat(15), dictionary, b"e".repeat(15)].concat()
}

/// The bytes about the innermost one.
const ABOUT: usize = 15 * 5;

/// Sixteen dictionaries in each other, the innermost with all the keys, which rise.
pub fn inside_rising(size: usize) -> Vec<u8> {
    inside(rising(size - ABOUT))
}

/// The same with falling keys.
pub fn inside_falling(size: usize) -> Vec<u8> {
    inside(falling(size - ABOUT, "0:"))
}

/// A dictionary with falling keys, and `value` for each.
fn falling(size: usize, value: &str) -> Vec<u8> {
    fill(size, "d", "e", |i| entry(KEYS - 1 - i, value))
}

fn shuffled(size: usize) -> Vec<u8> {
    let mut entries: Vec<String> = (0..=size / 6).map(|i| entry(i, "0:")).collect();
    Random(4).shuffle(&mut entries);
    fill(size, "d", "e", |i| entries[i].clone())
}

/// The greatest key first, and then rising ones.
fn greatest_first(size: usize) -> Vec<u8> {
    fill(size, &format!("d{}", entry(KEYS - 1, "0:")), "e", |i| {
        entry(i, "0:")
    })
}

/// A dictionary with a first value, and then falling keys.
fn falling_after(size: usize, first: Vec<u8>) -> Vec<u8> {
    let first = String::from_utf8(first).expect("ASCII");
    fill(size, &format!("d{}", entry(KEYS - 1, &first)), "e", |i| {
        entry(KEYS - 2 - i, "0:")
    })
}

/// A list of the shortest values in no order.
fn mixed(size: usize) -> Vec<u8> {
    let mut random = Random(5);
    fill(size, "l", "e", |_| {
        random.pick(&["0:", "le", "de", "i0e", "1:a"]).to_string()
    })
}

/// Sixteen dictionaries in each other, with rising keys after the inner one.
pub fn nested_rising(size: usize) -> Vec<u8> {
    (1..=16).fold(b"0:".to_vec(), |inner, level| {
        let inner = String::from_utf8(inner).expect("ASCII");
        fill(
            size * level / 16,
            &format!("d{}", entry(0, &inner)),
            "e",
            |i| entry(i + 1, "0:"),
        )
    })
}

/// A list of values that each open fifteen more levels.
pub fn deep_lists(size: usize) -> Vec<u8> {
    fill(size, "l", "e", |_| "l".repeat(15) + &"e".repeat(15))
}

/// The same with dictionaries of one entry, but for the innermost.
pub fn deep_dictionaries(size: usize) -> Vec<u8> {
    fill(size, "l", "e", |_| {
        "d1:k".repeat(14) + "d" + &"e".repeat(15)
    })
}

/// The shortest payloads: one integer, and sixteen levels with nothing else.
pub fn short() -> Vec<(&'static str, Vec<u8>)> {
    vec![
        ("one integer", b"i7e".to_vec()),
        ("16 lists", [b"l".repeat(16), b"e".repeat(16)].concat()),
        ("16 dictionaries", inside(b"de".to_vec())),
    ]
}

/// Dictionaries in each other, `depth` of them, with falling keys after the inner one.
fn nested_falling(size: usize, depth: usize) -> Vec<u8> {
    (1..=depth).fold(b"0:".to_vec(), |inner, level| {
        falling_after(size * level / depth, inner)
    })
}

/// Falling keys that differ only in the last two bytes.
fn long_prefix(size: usize, length: usize) -> Vec<u8> {
    let prefix = "p".repeat(length);
    fill(size, "d", "e", |i| {
        text(&(prefix.clone() + &pair(KEYS - 1 - i))) + "0:"
    })
}

/// The payloads with the most work for the keys that could be thought of.
pub fn worst(size: usize) -> Vec<(&'static str, Vec<u8>)> {
    let lists = fill(size / 2, "l", "e", |_| "le".to_string());
    vec![
        ("keys falling, empty strings", falling(size, "0:")),
        ("keys falling, integers", falling(size, "i1e")),
        (
            "keys falling, long integers",
            falling(size, "i-9223372036854775808e"),
        ),
        ("keys falling, empty lists", falling(size, "le")),
        (
            "keys falling, nested lists",
            falling(size, "llllllllleeeeeeeee"),
        ),
        (
            "keys falling, falling dictionaries",
            falling(size, "d1:b0:1:a0:e"),
        ),
        ("keys shuffled", shuffled(size)),
        ("greatest key first, then rising", greatest_first(size)),
        ("falling after a list of lists", falling_after(size, lists)),
        (
            "falling after a list of integers",
            falling_after(size, integers(size / 2)),
        ),
        (
            "falling after a mixed list",
            falling_after(size, mixed(size / 2)),
        ),
        ("2 dictionaries nested, falling", nested_falling(size, 2)),
        ("16 dictionaries nested, falling", nested_falling(size, 16)),
        ("common prefix of 16 bytes, falling", long_prefix(size, 16)),
        (
            "common prefix of 100 bytes, falling",
            long_prefix(size, 100),
        ),
    ]
}
