//! The same input in pieces of any size, and inputs that are odd as a whole:
//! the output is that of the input fed whole, and memory stays small.

use program::compare::{check, expected};
use program::process::{bench, run, run_fed};
use reference::scripts::{generate, Kind, Random};
use std::fs::File;
use std::process::{Command, Stdio};

const KINDS: [Kind; 4] = [Kind::Ordinary, Kind::Rivals, Kind::Hostile, Kind::Damaged];
/// Most memory of the program, in kilobytes.
const MEMORY: u64 = 4096;

/// Feeds pieces of the lengths that `length` draws, each for a read of its own.
fn compare_pieces(what: &str, text: &[u8], mut length: impl FnMut() -> usize + Send) {
    let (ran, _) = run_fed(&bench(), |feeder| {
        let mut rest = text;
        while !rest.is_empty() {
            let (piece, after) = rest.split_at(length().min(rest.len()));
            if !feeder.write_alone(piece) {
                return;
            }
            rest = after;
        }
    });
    check(what, &ran, &expected(text));
}

/// The start of a script: damaged ones may be very long.
fn start_of(kind: Kind, seed: u64, lines: usize, bytes: usize) -> Vec<u8> {
    let mut text = generate(kind, seed, lines);
    text.truncate(bytes);
    text
}

#[test]
fn one_byte_at_a_time() {
    for kind in KINDS {
        for seed in 1..=3 {
            let text = start_of(kind, seed, 100, 4000);
            compare_pieces(&format!("{kind:?}, seed {seed}"), &text, || 1);
        }
    }
}

#[test]
fn random_pieces() {
    for kind in KINDS {
        for seed in 1..=10 {
            let mut random = Random::new(seed);
            // Around the longest line, and around the usual block.
            let most = *random.pick(&[3, 20, 125, 500, 5_000, 70_000]);
            let text = start_of(kind, seed, 20 * most, 100 * most);
            let what = format!("{kind:?}, seed {seed}, pieces up to {most} bytes");
            compare_pieces(&what, &text, move || random.within(1, most));
        }
    }
}

#[test]
fn blocks() {
    for kind in KINDS {
        let text = generate(kind, 77, 50_000);
        for size in [65_535, 65_536, 65_537] {
            compare_pieces(&format!("{kind:?}, blocks of {size}"), &text, || size);
        }
    }
}

/// Inputs with little in them, and lines around the longest length.
#[test]
fn odd_inputs() {
    let all_bytes: Vec<u8> = (0..=255).collect();
    let mut inputs = vec![
        b"".to_vec(),
        b"\n".to_vec(),
        b"\n\n".to_vec(),
        b"x".to_vec(),
        b"\0".to_vec(),
        b"cluster 1 1".to_vec(),
        b"cluster 1 1\r\nelect 0\r\n".to_vec(),
        b"\xef\xbb\xbfcluster 1 1\n".to_vec(),
        b"cluster 1 1\nelect 0\n\nget 0 61".to_vec(),
        all_bytes.repeat(2),
    ];
    for length in [119, 120, 121, 122, 4096, 65_535, 65_536, 65_537, 200_000] {
        let line = format!("get 0 {}", "6".repeat(length - 6));
        for end in ["", "\n", "\nget 0 61", "\nget 0 61\n"] {
            let text = format!("cluster 1 1\nelect 0\n{line}{end}");
            inputs.push(text.into_bytes());
        }
    }
    for input in inputs {
        let start = input[..input.len().min(60)].escape_ascii();
        let what = format!("{} bytes: {start}", input.len());
        check(&what, &run(&bench(), &input), &expected(&input));
    }
}

#[test]
fn no_input_and_input_from_a_file() {
    for (path, text) in [
        ("/dev/null", "messages 0 0 0 0 0\n"),
        (
            concat!(env!("CARGO_MANIFEST_DIR"), "/../../examples/one-server.txt"),
            include_str!("../../../examples/one-server.out"),
        ),
    ] {
        let input = Stdio::from(File::open(path).expect(path));
        let output = Command::new(bench())
            .stdin(input)
            .output()
            .expect("it runs");
        assert_eq!(String::from_utf8_lossy(&output.stdout), text, "{path}");
        assert!(output.status.success() && output.stderr.is_empty());
    }
}

/// A line of a gigabyte is one refused line and costs no memory.
#[test]
fn a_line_of_a_gigabyte() {
    let block = [b'6'; 1 << 16];
    let (ran, memory) = run_fed(&bench(), |feeder| {
        feeder.write(b"cluster 1 1\nelect 0\nget 0 ");
        let fed = (0..1 << 14).all(|_| feeder.write(&block));
        assert!(fed, "the program ended early");
        let memory = feeder.peak_memory();
        feeder.write(b"\nget 0 61\n");
        memory
    });
    let out = b"line 3 refused 1\n1 value 3 -\nmessages 0 0 0 0 0\n";
    check("a line of a gigabyte", &ran, out);
    assert!(memory < MEMORY, "{memory} kB");
}

/// A million empty lines, each refused.
#[test]
fn a_million_refusals() {
    let text = vec![b'\n'; 1_000_000];
    let (ran, memory) = run_fed(&bench(), |feeder| {
        feeder.write(&text);
        feeder.peak_memory()
    });
    check("a million empty lines", &ran, &expected(&text));
    assert!(memory < MEMORY, "{memory} kB");
}
