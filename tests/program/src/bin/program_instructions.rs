//! How many instructions the proved program and the independent bench take for
//! each line of a script of 100,000 accepted lines, counted by valgrind's
//! callgrind. The count is the same in every run on one machine, so that a
//! function which is no longer inlined shows. Not part of the gate. From the top
//! of the repository:
//!
//! ```text
//! (cd crates/bench && rt run < stdin)
//! cargo build --offline --release --manifest-path tests/Cargo.toml -p reference -p program
//! tests/target/release/program_instructions
//! ```

use program::process::{bench, independent};
use reference::scripts::{generate, Kind};
use std::fs::{self, File};
use std::path::Path;
use std::process::{Command, Stdio};

const LINES: usize = 100_000;

/// The line of callgrind's report that has the count.
const COUNT: &str = "Collected :";

fn instructions(program: &Path, script: &Path) -> u64 {
    let counted = Command::new("valgrind")
        .args(["--tool=callgrind", "--callgrind-out-file=/dev/null"])
        .arg(program)
        .stdin(File::open(script).expect("it was written"))
        .stdout(Stdio::null())
        .output()
        .expect("valgrind is there");
    let report = String::from_utf8_lossy(&counted.stderr);
    assert!(counted.status.success(), "{program:?}: {report}");
    let count = report.lines().find_map(|line| line.split(COUNT).nth(1));
    let count = count.unwrap_or_else(|| panic!("no count: {report}"));
    count.trim().parse().expect("a number")
}

fn main() {
    let script = std::env::temp_dir().join(format!("program_instructions.{}", std::process::id()));
    let text = generate(Kind::Speed, 1, LINES);
    fs::write(&script, text).expect("the folder can be written");
    let programs = [("bench", bench()), ("the independent bench", independent())];
    let counts = programs.map(|(name, program)| {
        let count = instructions(&program, &script);
        let each = count as f64 / LINES as f64;
        println!("{name}: {count} instructions, {each:.0} a line");
        count as f64
    });
    fs::remove_file(&script).expect("it was written");
    println!("bench takes {:.2} times as many", counts[0] / counts[1]);
}
