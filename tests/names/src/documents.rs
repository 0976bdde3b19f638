//! What a document says in backquotes: anywhere, with a file behind it, and in
//! tables whose last column is the file that a row's names stand in.

use crate::repository::Repository;
use std::path::PathBuf;

/// The words between backquotes.
fn spans(text: &str) -> Vec<&str> {
    text.split('`').skip(1).step_by(2).collect()
}

fn cells(line: &str) -> Vec<&str> {
    line.trim_matches('|').split('|').map(str::trim).collect()
}

/// The folder that a column's head names: `file in consistency/specs`.
fn folder_of(head: &str) -> &str {
    spans(head).first().copied().unwrap_or("")
}

/// The last column of a table, while its rows are read.
struct Column {
    /// Whether it names the files that the names of a row stand in.
    files: bool,
    folder: String,
    /// The files of the last row, for a row that says `same`.
    last: Vec<PathBuf>,
}

impl Column {
    fn new(line: &str) -> Self {
        let head = cells(line).last().copied().unwrap_or("");
        Column {
            files: head.starts_with("file"),
            folder: match head.starts_with("must-fail") {
                true => format!("{}/must-fail", folder_of(head)),
                false => folder_of(head).to_string(),
            },
            last: Vec::new(),
        }
    }

    /// The names of a row that do not stand in the files that it gives.
    fn misplaced(&mut self, repository: &Repository, line: &str) -> Vec<String> {
        let cells = cells(line);
        let [_, names, place] = cells[..] else {
            return Vec::new();
        };
        let found = spans(place)
            .into_iter()
            .filter_map(|name| repository.find(name, &self.folder));
        let files: Vec<PathBuf> = found.flatten().collect();
        if place != "same" {
            self.last = files;
        }
        if self.last.is_empty() {
            return vec![format!("no file: {place}")];
        }
        let names = spans(names)
            .into_iter()
            .filter(|name| !repository.defines(&self.last, name) && !repository.is_part(name));
        names
            .map(|name| format!("{name} is not in {place}"))
            .collect()
    }
}

/// Names with a file behind them, as in `name` in `crate/specs/File.antt`, also
/// several joined by commas: those that the file does not define.
fn elsewhere(repository: &Repository, line: &str) -> Vec<String> {
    let pieces: Vec<&str> = line.split('`').collect();
    let mut wrong = Vec::new();
    for at in (3..pieces.len()).step_by(2) {
        let place = pieces[at];
        if pieces[at - 1] != " in " || !place.contains(['/', '.']) {
            continue;
        }
        let places = repository.find(place, "").unwrap_or_default();
        let mut name = at - 2;
        loop {
            let is_defined = repository.defines(&places, pieces[name]);
            if !is_defined && !repository.is_part(pieces[name]) {
                wrong.push(format!("{} is not in {place}", pieces[name]));
            }
            if name < 3 || !matches!(pieces[name - 1], ", " | " and ") {
                break;
            }
            name -= 2;
        }
    }
    wrong
}

/// How many names a document gives, and those that are not found.
pub fn check(repository: &Repository, text: &str) -> (usize, Vec<String>) {
    let (mut count, mut wrong) = (0, Vec::new());
    let mut fenced = false;
    let mut column: Option<Column> = None;
    for (at, line) in text.lines().enumerate() {
        fenced ^= line.starts_with("```");
        if fenced {
            continue;
        }
        let folder = column
            .as_ref()
            .map_or(String::new(), |column| column.folder.clone());
        let spans = spans(line);
        count += spans.len();
        let lost = spans
            .into_iter()
            .filter(|span| !repository.has(span, &folder));
        wrong.extend(lost.map(|span| format!("line {}: {span}", at + 1)));
        let elsewhere = elsewhere(repository, line);
        wrong.extend(
            elsewhere
                .into_iter()
                .map(|what| format!("line {}: {what}", at + 1)),
        );
        match (&mut column, line.starts_with('|')) {
            (_, false) => column = None,
            (None, true) => column = Some(Column::new(line)),
            (Some(_), true) if line.starts_with("|-") => {}
            (Some(column), true) if column.files => {
                let misplaced = column.misplaced(repository, line);
                wrong.extend(
                    misplaced
                        .into_iter()
                        .map(|what| format!("line {}: {what}", at + 1)),
                );
            }
            (Some(_), true) => {}
        }
    }
    (count, wrong)
}
