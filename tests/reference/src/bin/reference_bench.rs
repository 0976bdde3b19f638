//! Runs the script on standard input and prints its output.

use reference::script::Script;
use std::io::{self, ErrorKind, Read, Write};

const CHUNK: usize = 1 << 16;

fn main() -> io::Result<()> {
    match run() {
        // Nobody reads the output any more.
        Err(error) if error.kind() == ErrorKind::BrokenPipe => Ok(()),
        ran => ran,
    }
}

fn run() -> io::Result<()> {
    let mut input = io::stdin().lock();
    let mut output = io::stdout().lock();
    let mut script = Script::new();
    let mut chunk = vec![0; CHUNK];
    let mut printed = Vec::with_capacity(CHUNK);
    while !script.is_over() {
        let taken = match input.read(&mut chunk) {
            Ok(0) => break,
            Ok(taken) => taken,
            Err(error) if error.kind() == ErrorKind::Interrupted => continue,
            Err(error) => return Err(error),
        };
        script.feed(&chunk[..taken], &mut printed);
        output.write_all(&printed)?;
        printed.clear();
    }
    script.finish(&mut printed);
    output.write_all(&printed)?;
    output.flush()
}
