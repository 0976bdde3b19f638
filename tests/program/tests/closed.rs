//! Output that nobody takes: the program ends by itself, however much input
//! there is, and says nothing.

use program::process::{bench, shell, Feeder, Ran, Running};
use std::fs::File;
use std::io::Read;
use std::os::unix::process::ExitStatusExt;
use std::process::{Command, Stdio};

const SIGPIPE: i32 = 13;

/// Lines that each print something, far more than any pipe holds.
fn feed_without_end(feeder: &mut Feeder) {
    let mut block = b"cluster 1 1\nelect 0\n".to_vec();
    while feeder.write(&block) {
        block = b"get 0 61\nnonsense\n".repeat(1000);
    }
}

/// It ended by the signal of a closed pipe, or by an exit.
fn check_end(what: &str, ran: &Ran) {
    let err = ran.err.escape_ascii();
    assert!(ran.err.is_empty(), "{what}: standard error: {err}");
    let clean = ran.status.code().is_some() || ran.status.signal() == Some(SIGPIPE);
    assert!(clean, "{what}: {}", ran.status);
}

/// Reads so many bytes of the output and closes it.
fn close_after(what: &str, command: &mut Command, bytes: usize) {
    let (running, mut feeder, stdout) = Running::start(command.stdout(Stdio::piped()));
    let mut stdout = stdout.expect("piped");
    let reading = std::thread::spawn(move || {
        let mut taken = vec![0; bytes];
        stdout.read_exact(&mut taken).expect("there is more output");
    });
    feed_without_end(&mut feeder);
    reading.join().expect("it does not panic");
    check_end(what, &running.end(Vec::new()));
}

#[test]
fn closed_early() {
    for bytes in [0, 1, 100, 65_536, 1_000_000] {
        let what = format!("closed after {bytes} bytes");
        close_after(&what, &mut Command::new(bench()), bytes);
    }
}

/// A shell may have the signal ignored; then writing fails instead.
#[test]
fn closed_early_with_the_signal_ignored() {
    for bytes in [0, 65_536] {
        let what = format!("signal ignored, closed after {bytes} bytes");
        let mut command = shell("trap '' PIPE; exec \"$0\"", &bench());
        close_after(&what, &mut command, bytes);
    }
}

/// With no output at all there is nothing to notice, but it still ends.
#[test]
fn never_open() {
    let mut command = shell("exec \"$0\" >&-", &bench());
    let (running, mut feeder, _) = Running::start(&mut command);
    feeder.write(&b"cluster 1 1\nelect 0\nget 0 61\n".repeat(100_000));
    drop(feeder);
    check_end("output never open", &running.end(Vec::new()));
}

/// Here it may say why.
#[test]
fn a_full_device() {
    let full = File::options().write(true).open("/dev/full");
    let mut command = Command::new(bench());
    command.stdout(full.expect("the system has one"));
    let (running, mut feeder, _) = Running::start(&mut command);
    feed_without_end(&mut feeder);
    let ran = running.end(Vec::new());
    assert!(ran.status.code().is_some(), "{}", ran.status);
    assert!(!String::from_utf8_lossy(&ran.err).contains("panicked"));
}
