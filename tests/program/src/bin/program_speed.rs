//! How fast the proved program runs a script of 1,000,000 accepted lines for
//! five servers, beside the independent bench, each as a process. Not part of
//! the gate. From the top of the repository:
//!
//! ```text
//! (cd crates/bench && rt run < stdin)
//! cargo build --offline --release --manifest-path tests/Cargo.toml -p reference -p program
//! tests/target/release/program_speed
//! ```
//!
//! Both read the script from the same file and write to a file, and they take
//! turns. A process starts with cleared state. Peak memory is looked at in a
//! run of its own, which waits for more input when all lines have been run.

use program::compare::expected;
use program::process::{bench, independent, run_fed};
use reference::scripts::{generate, Kind};
use std::fs::{self, File};
use std::path::{Path, PathBuf};
use std::process::Command;
use std::time::{Duration, Instant};

const LINES: usize = 1_000_000;
const REPETITIONS: usize = 41;

/// The time from the start of the process to its end.
fn time(program: &Path, input: &Path, output: &Path) -> Duration {
    let mut command = Command::new(program);
    command.stdin(File::open(input).expect("it was written"));
    command.stdout(File::create(output).expect("the folder can be written"));
    let start = Instant::now();
    let status = command.status().expect("it runs");
    let time = start.elapsed();
    assert!(status.success(), "{program:?}: {status}");
    time
}

fn peak_memory(program: &Path, text: &[u8]) -> u64 {
    let feed = |feeder: &mut program::process::Feeder| {
        assert!(feeder.write(text), "the program ended early");
        feeder.peak_memory()
    };
    run_fed(program, feed).1
}

fn median(mut numbers: Vec<f64>) -> f64 {
    numbers.sort_by(f64::total_cmp);
    numbers[numbers.len() / 2]
}

fn main() {
    let text = generate(Kind::Speed, 1, LINES);
    let out = expected(&text);
    let folder = std::env::temp_dir().join(format!("program_speed.{}", std::process::id()));
    fs::create_dir(&folder).expect("the folder can be made");
    let (input, output) = (folder.join("script"), folder.join("output"));
    fs::write(&input, &text).expect("the folder can be written");
    let programs = [bench(), independent()];
    let mut times = [Vec::new(), Vec::new()];
    for _ in 0..REPETITIONS {
        for (program, times) in programs.iter().zip(&mut times) {
            times.push(time(program, &input, &output).as_secs_f64());
            let printed = fs::read(&output).expect("it was written");
            assert!(printed == out, "{program:?} printed something else");
        }
    }
    fs::remove_dir_all(&folder).expect("the folder can be removed");
    report(&text, &programs, times);
}

fn report(text: &[u8], programs: &[PathBuf; 2], times: [Vec<f64>; 2]) {
    println!("{LINES} accepted lines, 5 servers, {REPETITIONS} repetitions; medians");
    let pairs = times[0].iter().zip(&times[1]);
    let ratio = median(
        pairs
            .map(|(proved, independent)| proved / independent)
            .collect(),
    );
    let names = ["bench", "the independent bench"];
    for ((name, program), times) in names.iter().zip(programs).zip(times) {
        let time = median(times);
        let rate = LINES as f64 / time;
        let memory = peak_memory(program, text);
        println!("{name}: {time:.3} s, {rate:.0} lines per second, peak memory {memory} kB");
    }
    println!("bench takes {ratio:.2} times as long (median of the ratios of neighbouring runs)");
}
