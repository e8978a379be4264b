//! Prints what a daemon said: reads a capture of frames, joined end to end, from standard input and writes a line for
//! each. The same as console.c, from Rust; linked with libbogsilver.a.

#[path = "../include/bogsilver.rs"]
mod bogsilver;

use std::io::{self, BufWriter, Read, Write};

use bogsilver::{Answer, HEADER_LENGTH, LARGEST_FRAME};

/// Indexed by number; the name of an unlisted key stands in its frame.
const KEYS: [&str; 21] = [
    "",
    "automap",
    "autostart",
    "bad-format",
    "directory",
    "downlimit",
    "failed",
    "get-downlimit",
    "get-status-all",
    "get-uplimit",
    "info",
    "noop",
    "not-supported",
    "pex",
    "port",
    "remove",
    "start",
    "status",
    "stop",
    "succeeded",
    "uplimit",
];

/// The part of the capture that is held: at most two frames of the largest size.
struct Input<R> {
    source: R,
    held: Vec<u8>,
    start: usize,
    /// The offset in the capture of the first byte that is not used yet.
    offset: u64,
}

impl<R: Read> Input<R> {
    fn rest(&self) -> &[u8] {
        &self.held[self.start..]
    }

    /// Makes sure that a whole frame is held, unless the input ends.
    fn fill(&mut self) -> io::Result<()> {
        if self.rest().len() >= LARGEST_FRAME {
            return Ok(());
        }
        self.held.drain(..self.start);
        self.start = 0;
        let room = 2 * LARGEST_FRAME - self.held.len();
        self.source
            .by_ref()
            .take(room as u64)
            .read_to_end(&mut self.held)?;
        Ok(())
    }

    /// Uses up bytes of the input: false if it ends before.
    fn skip(&mut self, mut count: u64) -> io::Result<bool> {
        while count > 0 {
            self.fill()?;
            let step = count.min(self.rest().len() as u64);
            if step == 0 {
                return Ok(false);
            }
            self.start += step as usize;
            self.offset += step;
            count -= step;
        }
        Ok(true)
    }
}

fn text(bytes: &[u8]) -> String {
    let mut out = String::from("\"");
    for &byte in bytes {
        match byte {
            b'"' | b'\\' => out.push_str(&format!("\\x{byte:02x}")),
            b' '..=b'~' => out.push(char::from(byte)),
            _ => out.push_str(&format!("\\x{byte:02x}")),
        }
    }
    out + "\""
}

/// The value at the front of sound bytes, and the bytes after it: lists as [a, b], dictionaries as {"key": value}.
fn value(bytes: &[u8]) -> (String, &[u8]) {
    match bytes[0] {
        b'i' => {
            let end = place(bytes, b'e');
            let digits = String::from_utf8_lossy(&bytes[1..end]).into_owned();
            (digits, &bytes[end + 1..])
        }
        open @ (b'l' | b'd') => {
            let (mut items, mut rest) = (Vec::new(), &bytes[1..]);
            while rest[0] != b'e' {
                let item;
                (item, rest) = value(rest);
                items.push(item);
            }
            (joined(open, &items), &rest[1..])
        }
        _ => {
            let colon = place(bytes, b':');
            let length: usize = String::from_utf8_lossy(&bytes[..colon]).parse().unwrap();
            let rest = &bytes[colon + 1..];
            (text(&rest[..length]), &rest[length..])
        }
    }
}

fn joined(open: u8, items: &[String]) -> String {
    if open == b'l' {
        return format!("[{}]", items.join(", "));
    }
    let entries: Vec<String> = items.chunks(2).map(|entry| entry.join(": ")).collect();
    format!("{{{}}}", entries.join(", "))
}

fn place(bytes: &[u8], byte: u8) -> usize {
    bytes.iter().position(|&b| b == byte).unwrap()
}

fn tag(answer: &Answer) -> String {
    match answer.tag {
        0 => String::new(),
        number => format!(" tag {number}"),
    }
}

fn message(frame: &[u8], answer: &Answer) -> String {
    let key = match answer.key {
        0 => value(&frame[HEADER_LENGTH + 1..]).0,
        number => KEYS[usize::from(number)].to_string(),
    };
    let content = &answer.value;
    let part = &frame[content.start..content.start + content.length];
    let said = match content.kind {
        bogsilver::INTEGER => format!(" {}", content.integer),
        bogsilver::TEXT => format!(" {}", text(part)),
        bogsilver::PART => format!(" {}", value(part).0),
        _ => String::new(),
    };
    key + &said + &tag(answer)
}

fn line(frame: &[u8], answer: &Answer) -> String {
    match (answer.kind, answer.code) {
        (bogsilver::HANDSHAKE, _) => {
            format!("handshake {} to {}", answer.value.min, answer.value.max)
        }
        (bogsilver::MESSAGE, _) => message(frame, answer),
        (_, bogsilver::OFF_FORMAT) => {
            let key = KEYS[usize::from(answer.key)];
            format!("refused 22 at {}, {key}{}", answer.offset, tag(answer))
        }
        (_, code) => format!("refused {code} at {}", answer.offset),
    }
}

/// The length of a frame: of an accepted one as it was read, else as its sound header says.
fn frame_length(frame: &[u8], answer: &Answer) -> u64 {
    if answer.code == bogsilver::ACCEPTED {
        return answer.consumed as u64;
    }
    let digits = String::from_utf8_lossy(&frame[..HEADER_LENGTH]);
    HEADER_LENGTH as u64 + u64::from_str_radix(&digits, 16).unwrap()
}

/// Writes a line for the next frame: false where no further one can be read.
fn next(input: &mut Input<impl Read>, out: &mut impl Write) -> io::Result<bool> {
    let (offset, frame) = (input.offset, input.rest());
    let answer = bogsilver::read(frame);
    if answer.code == bogsilver::INCOMPLETE {
        writeln!(out, "{offset}: cut after {} bytes", frame.len())?;
        return Ok(false);
    }
    writeln!(out, "{offset}: {}", line(frame, &answer))?;
    if answer.code == bogsilver::NO_DIGIT || answer.code == bogsilver::OVER_PROTOCOL {
        writeln!(out, "{offset}: stopped, no next frame is known")?;
        return Ok(false);
    }
    let length = frame_length(frame, &answer);
    if input.skip(length)? {
        return Ok(true);
    }
    writeln!(out, "{offset}: cut after {} bytes", input.offset - offset)?;
    Ok(false)
}

fn main() -> io::Result<()> {
    let mut input = Input {
        source: io::stdin().lock(),
        held: Vec::new(),
        start: 0,
        offset: 0,
    };
    let mut out = BufWriter::new(io::stdout().lock());
    input.fill()?;
    while !input.rest().is_empty() && next(&mut input, &mut out)? {
        input.fill()?;
    }
    out.flush()
}
