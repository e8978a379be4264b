//! Compares the proved payload walkers, frame reader, frame writer and sorter with ones in ordinary Rust, in their answers and
//! in their time.

mod beside;
mod beside_shapes;
#[path = "../include/bogsilver.rs"]
mod bogsilver;
mod classes;
mod compare;
mod dictionary_keys;
mod frame_compare;
mod frame_judge;
mod frame_keys;
mod frame_reader;
mod frame_shapes;
mod frame_time;
mod frame_writer;
mod key;
mod key_set;
mod random;
mod random_frames;
mod random_keys;
mod scalars;
mod shapes;
mod sort_compare;
mod sort_time;
mod sorter;
mod time;
mod walker;

/// The proved walker's code and offset.
fn proved(payload: &[u8], strict: bool) -> (u8, usize) {
    let answer = bogsilver::walk(payload, strict);
    (answer.code, answer.offset)
}

/// Those of the proved walker with one loop.
fn flat(payload: &[u8], strict: bool) -> (u8, usize) {
    let answer = bogsilver::walk_flat(payload, strict);
    (answer.code, answer.offset)
}

fn main() {
    let mut modes: Vec<String> = std::env::args().skip(1).collect();
    if modes.is_empty() {
        modes = vec!["compare".into(), "time".into()];
    }
    for mode in modes {
        match mode.as_str() {
            "compare" => {
                compare::run();
                frame_compare::run();
                sort_compare::run();
            }
            "time" => {
                time::run();
                frame_time::run();
                sort_time::run();
            }
            "walk" => time::run(),
            "sort" => sort_time::run(),
            "beside" => beside::run(),
            _ => {
                eprintln!("usage: bench/run.sh [compare] [time] [walk] [sort] [beside]");
                std::process::exit(2);
            }
        }
    }
}
