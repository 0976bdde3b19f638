//! A program run as a child process. It is fed and read at the same time, and
//! killed if it runs for too long.

use std::ffi::OsString;
use std::fs;
use std::io::{Read, Write};
use std::path::{Path, PathBuf};
use std::process::{Child, ChildStderr, ChildStdin, ChildStdout, Command, ExitStatus, Stdio};
use std::sync::mpsc::{self, RecvTimeoutError, Sender};
use std::sync::{Arc, Mutex};
use std::thread::{self, JoinHandle};
use std::time::{Duration, Instant};

/// No run takes nearly as long, also with other work on the computer.
const LIMIT: Duration = Duration::from_secs(120);
/// How long a piece of input may wait to be read before the next one follows.
const PATIENCE: Duration = Duration::from_millis(20);

/// The program to test: the path in the variable BENCH, otherwise what
/// `rt run` built in crates/bench.
pub fn bench() -> PathBuf {
    let linked = Path::new(env!("CARGO_MANIFEST_DIR")).join("../../crates/bench/out/bench");
    let path = std::env::var_os("BENCH").map_or(linked, PathBuf::from);
    let there = path.is_file();
    assert!(there, "no program {path:?}: run `rt run` in crates/bench first");
    path
}

/// The independent bench, built beside the program that asks.
pub fn independent() -> PathBuf {
    let own = std::env::current_exe().expect("it has a path");
    let path = own.with_file_name("reference_bench");
    let there = path.is_file();
    assert!(
        there,
        "no {path:?}: `cargo build --release -p reference` first"
    );
    path
}

/// What a program left behind.
pub struct Ran {
    pub out: Vec<u8>,
    pub err: Vec<u8>,
    pub status: ExitStatus,
}

/// A child process with a watch over its time.
pub struct Running {
    child: Arc<Mutex<Child>>,
    stderr: ChildStderr,
    ended: Sender<()>,
    watch: JoinHandle<bool>,
}

impl Running {
    /// Starts a command with its input and its messages of error piped.
    pub fn start(command: &mut Command) -> (Running, Feeder, Option<ChildStdout>) {
        command.stdin(Stdio::piped()).stderr(Stdio::piped());
        let mut child = command
            .spawn()
            .unwrap_or_else(|error| panic!("{command:?}: {error}"));
        let feeder = Feeder::new(child.stdin.take().expect("piped"), child.id());
        let stdout = child.stdout.take();
        let stderr = child.stderr.take().expect("piped");
        let child = Arc::new(Mutex::new(child));
        let (ended, end) = mpsc::channel();
        let watched = Arc::clone(&child);
        let watch = thread::spawn(move || {
            let late = end.recv_timeout(LIMIT) == Err(RecvTimeoutError::Timeout);
            if late {
                let _ = watched.lock().expect("not poisoned").kill();
            }
            late
        });
        let running = Running {
            child,
            stderr,
            ended,
            watch,
        };
        (running, feeder, stdout)
    }

    /// Waits until the process has ended by itself.
    pub fn end(mut self, out: Vec<u8>) -> Ran {
        let mut err = Vec::new();
        self.stderr.read_to_end(&mut err).expect("it is a pipe");
        let status = loop {
            let ended = self.child.lock().expect("not poisoned").try_wait();
            match ended.expect("it is a child") {
                Some(status) => break status,
                None => thread::sleep(Duration::from_micros(100)),
            }
        };
        drop(self.ended);
        let late = self.watch.join().expect("it does not panic");
        assert!(!late, "still running after {LIMIT:?}");
        Ran { out, err, status }
    }
}

/// The input of a running program; dropping it ends the input.
pub struct Feeder {
    stdin: ChildStdin,
    id: u32,
    /// Bytes that the process had read before its input, and is to have read.
    read: Option<u64>,
}

impl Feeder {
    fn new(stdin: ChildStdin, id: u32) -> Self {
        Feeder {
            stdin,
            id,
            read: None,
        }
    }

    /// Writes; false where nobody reads any more.
    pub fn write(&mut self, bytes: &[u8]) -> bool {
        self.stdin.write_all(bytes).is_ok()
    }

    /// Writes a piece and waits until it was read, so that the next one comes
    /// with another read.
    pub fn write_alone(&mut self, piece: &[u8]) -> bool {
        if self.read.is_none() {
            // Reads of the dynamic loader are over by then.
            thread::sleep(PATIENCE);
            self.read = self.bytes_read();
        }
        if !self.write(piece) {
            return false;
        }
        let target = self.read.map(|before| before + piece.len() as u64);
        self.read = target;
        let start = Instant::now();
        while self.bytes_read() < target && start.elapsed() < PATIENCE {
            thread::yield_now();
        }
        true
    }

    fn bytes_read(&self) -> Option<u64> {
        let text = fs::read_to_string(format!("/proc/{}/io", self.id)).ok()?;
        field(&text, "rchar:")
    }

    /// The most memory that the process has held so far, in kilobytes. It
    /// waits for input meanwhile.
    pub fn peak_memory(&self) -> u64 {
        let path = format!("/proc/{}/status", self.id);
        let text = fs::read_to_string(&path).expect("the process runs");
        field(&text, "VmHWM:").expect("a process has memory")
    }
}

/// The number after a word of a file in /proc.
fn field(text: &str, word: &str) -> Option<u64> {
    let line = text.lines().find_map(|line| line.strip_prefix(word))?;
    line.split_whitespace().next()?.parse().ok()
}

/// Runs a program, `feed` giving its input, and gives also what `feed` gave.
pub fn run_fed<T: Send>(program: &Path, feed: impl FnOnce(&mut Feeder) -> T + Send) -> (Ran, T) {
    let (running, mut feeder, stdout) =
        Running::start(Command::new(program).stdout(Stdio::piped()));
    let mut out = Vec::new();
    let fed = thread::scope(|scope| {
        let feeding = scope.spawn(move || feed(&mut feeder));
        let read = stdout.expect("piped").read_to_end(&mut out);
        read.expect("it is a pipe");
        feeding.join().expect("it does not panic")
    });
    (running.end(out), fed)
}

/// Runs a program on an input that is written as a whole.
pub fn run(program: &Path, input: &[u8]) -> Ran {
    run_fed(program, |feeder| feeder.write(input)).0
}

/// A shell that runs `script` with the program as `$0`.
pub fn shell(script: &str, program: &Path) -> Command {
    let mut command = Command::new("sh");
    command.args([OsString::from("-c"), script.into(), program.into()]);
    command
}
