//! How fast the proved library runs a script of 1,000,000 accepted lines for
//! five servers, beside the independent bench. Not part of the gate. From the
//! top of the repository, after tests/run, which builds the library:
//!
//! ```text
//! cargo run --offline --release --manifest-path tests/Cargo.toml --bin library_speed
//! ```
//!
//! Both take the script in blocks of 65,536 bytes from memory, start with no
//! cluster, print to memory, and take turns.

use library::session::Session;
use reference::script::Script;
use reference::scripts::{generate, Kind};
use std::time::Instant;

const LINES: usize = 1_000_000;
const REPETITIONS: usize = 41;
const BLOCK: usize = 65_536;

fn library(text: &[u8]) -> Vec<u8> {
    let mut session = Session::new();
    let (mut out, mut printed) = (vec![0; BLOCK], Vec::new());
    for block in text.chunks(BLOCK) {
        let mut rest = block;
        while !rest.is_empty() {
            let taken = session.feed(rest, &mut out);
            printed.extend_from_slice(&out[..session.written()]);
            rest = &rest[taken..];
        }
    }
    let written = session.finish(&mut out);
    printed.extend_from_slice(&out[..written]);
    printed
}

fn independent(text: &[u8]) -> Vec<u8> {
    let mut script = Script::new();
    let mut printed = Vec::new();
    for block in text.chunks(BLOCK) {
        script.feed(block, &mut printed);
    }
    script.finish(&mut printed);
    printed
}

fn timed(run: fn(&[u8]) -> Vec<u8>, text: &[u8], expected: &[u8]) -> f64 {
    let start = Instant::now();
    let printed = run(text);
    let time = start.elapsed().as_secs_f64();
    assert!(printed == expected);
    time
}

fn median(mut numbers: Vec<f64>) -> f64 {
    numbers.sort_by(f64::total_cmp);
    numbers[numbers.len() / 2]
}

fn main() {
    let text = generate(Kind::Speed, 1, LINES);
    let expected = independent(&text);
    let times: Vec<[f64; 2]> = (0..REPETITIONS)
        .map(|_| [library, independent].map(|run| timed(run, &text, &expected)))
        .collect();
    println!("{LINES} accepted lines, {REPETITIONS} repetitions; medians");
    for (name, at) in [("the proved library", 0), ("the independent bench", 1)] {
        let rate = LINES as f64 / median(times.iter().map(|pair| pair[at]).collect());
        println!("{name}: {rate:.0} lines per second");
    }
    let ratio = median(times.iter().map(|pair| pair[0] / pair[1]).collect());
    println!(
        "the library takes {ratio:.2} times as long (median of the ratios of neighbouring runs)"
    );
}
