//! Prints one random script: `gen_script KIND SEED LINES`.

use reference::scripts::{generate, Kind};
use std::io::{self, Write};
use std::process::ExitCode;

fn usage() -> ExitCode {
    let kinds: Vec<&str> = Kind::ALL.iter().map(|(name, _)| *name).collect();
    eprintln!("usage: gen_script KIND SEED LINES");
    eprintln!("kinds: {}", kinds.join(", "));
    ExitCode::FAILURE
}

fn main() -> ExitCode {
    let words: Vec<String> = std::env::args().skip(1).collect();
    let [kind, seed, lines] = words.as_slice() else {
        return usage();
    };
    let (Some(kind), Ok(seed), Ok(lines)) = (Kind::named(kind), seed.parse(), lines.parse()) else {
        return usage();
    };
    let text = generate(kind, seed, lines);
    match io::stdout().lock().write_all(&text) {
        Ok(()) => ExitCode::SUCCESS,
        Err(_) => ExitCode::FAILURE,
    }
}
