//! The scripts in the documents print what stands beside them.

use program::compare::check;
use program::process::{bench, run};
use std::fs;
use std::path::Path;

/// The blocks between fences with these words, and the line that each begins in.
fn blocks(text: &str) -> Vec<(&str, usize, String)> {
    let mut found: Vec<(&str, usize, String)> = Vec::new();
    let mut inside = false;
    for (at, line) in text.lines().enumerate() {
        match line.strip_prefix("```") {
            Some(word) => {
                inside = !inside;
                if inside {
                    found.push((word, at + 2, String::new()));
                }
            }
            None if inside => {
                let (_, _, block) = found.last_mut().expect("one is open");
                *block += line;
                block.push('\n');
            }
            None => {}
        }
    }
    found
}

/// Runs the scripts of a document, and says how many outputs it shows.
fn check_document(name: &str) -> usize {
    let path = Path::new(env!("CARGO_MANIFEST_DIR"))
        .join("../..")
        .join(name);
    let text = fs::read_to_string(&path).expect("it is there");
    let (mut script, mut outputs) = (String::new(), 0);
    for (word, line, block) in blocks(&text) {
        match word {
            // One that does not begin with `cluster` goes on with the last one.
            "script" if block.starts_with("cluster ") => script = block,
            "script" => script += &block,
            "output" => {
                let what = format!("{name}, line {line}");
                check(&what, &run(&bench(), script.as_bytes()), block.as_bytes());
                outputs += 1;
            }
            _ => {}
        }
    }
    outputs
}

#[test]
fn the_readme() {
    assert_eq!(check_document("README.md"), 1);
}

#[test]
fn the_tour() {
    assert_eq!(check_document("docs/TOUR.md"), 11);
}

#[test]
fn the_script_language() {
    assert_eq!(check_document("docs/SCRIPT.md"), 5);
}

#[test]
fn the_figures() {
    assert_eq!(check_document("docs/FIGURES.md"), 1);
}
