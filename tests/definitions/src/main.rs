//! Prints an antt module of equations `run SCRIPT ≡ OUTPUT`: random scripts,
//! with what the reference bench prints for them, and scripts with stored
//! output. The checker evaluates the definitions of crates/model on each script,
//! so the two are compared byte for byte.

use reference::script::Script;
use reference::scripts::{generate, Kind};

/// Kind of script, its length in lines, and how many of it.
const SCRIPTS: [(Kind, usize, u64); 6] = [
    (Kind::Ordinary, 80, 14),
    (Kind::Crowded, 120, 8),
    (Kind::Hostile, 60, 14),
    (Kind::Rivals, 120, 14),
    (Kind::Long, 250, 4),
    (Kind::Settled, 100, 8),
];

/// A stored script by name, with its output.
macro_rules! stored {
    ($name:literal) => {
        (
            include_bytes!(concat!("../../scripts/", $name, ".txt")),
            include_bytes!(concat!("../../scripts/", $name, ".out")),
        )
    };
}

/// Stored scripts of three servers: empty values, a write stored by half, a
/// leader with open calls that comes back, a new leader under the same number.
const STORED: [(&[u8], &[u8]); 4] = [
    stored!("empty-values-of-three"),
    stored!("cut-after-1"),
    stored!("cut-leader-ends-no-call"),
    stored!("new-leader-same-number"),
];

const HEADER: &str = "\
use Rattle.std.specs.Prelude.{◌≡◌, refl, List, [], ◌∷◌}
use Rattle.model.specs.Compute.{computing}
use Rattle.model.specs.Run.{run}
";

/// Bytes as a list of numbers, which any byte can be written in.
fn list(bytes: &[u8]) -> String {
    let mut text = String::from("(");
    for byte in bytes {
        text.push_str(&format!("{byte} ∷ "));
    }
    text.push_str("[])");
    text
}

fn output(script: &[u8]) -> Vec<u8> {
    let mut bench = Script::new();
    let mut out = Vec::new();
    bench.feed(script, &mut out);
    bench.finish(&mut out);
    out
}

/// Random scripts with their output.
fn random() -> impl Iterator<Item = (Vec<u8>, Vec<u8>)> {
    let scripts = SCRIPTS
        .iter()
        .flat_map(|&(kind, lines, count)| (1..=count).map(move |seed| generate(kind, seed, lines)));
    scripts.map(|script| {
        let out = output(&script);
        (script, out)
    })
}

fn main() {
    println!("{HEADER}");
    let stored = STORED.map(|(script, out)| (script.to_vec(), out.to_vec()));
    for (number, (script, out)) in random().chain(stored).enumerate() {
        println!("t{number} : run {} ≡ {}", list(&script), list(&out));
        println!("unfolding computing\nt{number} = refl\n");
    }
}
