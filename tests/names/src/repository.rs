//! The repository's files, and the names that they define.

use crate::definitions::{of_code, of_logic};
use std::collections::{HashMap, HashSet};
use std::fs;
use std::path::{Path, PathBuf};

/// Written in backquotes, and defined by nobody here.
const WORDS_OF_THE_LANGUAGE: [&str; 15] = [
    "requires",
    "&mut",
    "&&",
    "rt",
    "pub",
    "match",
    "let",
    "elim",
    "refl",
    "omega",
    "unfoldable",
    "old:",
    "new:",
    "trusted",
    "Option",
];

pub struct Repository {
    top: PathBuf,
    /// For each file of the crates what it defines.
    defined: HashMap<PathBuf, HashSet<String>>,
    /// Crates, the kit's libraries, packages and programs of the tests.
    parts: HashSet<String>,
}

/// All files below a folder; those that `rt` makes, in the folders `out` of the crates, are left out.
fn files(folder: &Path) -> Vec<PathBuf> {
    let mut found = Vec::new();
    let Ok(entries) = fs::read_dir(folder) else {
        return found;
    };
    for entry in entries {
        let path = entry.expect("it can be read").path();
        if path.ends_with("out") {
            continue;
        }
        if path.is_dir() {
            found.extend(files(&path));
        } else {
            found.push(path);
        }
    }
    found
}

fn extension(path: &Path) -> &str {
    path.extension().and_then(|end| end.to_str()).unwrap_or("")
}

fn stem(path: &Path) -> &str {
    path.file_stem()
        .and_then(|stem| stem.to_str())
        .unwrap_or("")
}

impl Repository {
    pub fn open(top: &Path) -> Self {
        let mut defined = HashMap::new();
        for path in files(&top.join("crates")) {
            let text = fs::read_to_string(&path).expect("text");
            let names = match extension(&path) {
                "antt" => of_logic(&text),
                "rt" => of_code(&text),
                _ => continue,
            };
            let names = names.into_iter().map(str::to_string).collect();
            defined.insert(path, names);
        }
        let mut parts = HashSet::new();
        let list = fs::read_to_string(top.join("crates.txt")).expect("the list of crates");
        for line in list.lines().filter(|line| !line.starts_with('#')) {
            parts.extend(line.split([' ', ':']).map(str::to_string));
        }
        let tests = files(&top.join("tests"));
        let programs = tests.iter().filter(|path| {
            path.parent()
                .is_some_and(|folder| folder.ends_with("src/bin"))
        });
        parts.extend(programs.map(|path| stem(path).to_string()));
        Repository {
            top: top.to_path_buf(),
            defined,
            parts,
        }
    }

    /// Whether it is the name of a crate or a path: no name that a file defines.
    pub fn is_part(&self, name: &str) -> bool {
        name.contains('/') || self.parts.contains(name)
    }

    /// The files in which rules are cited, each with its text.
    pub fn texts(&self) -> Vec<(PathBuf, String)> {
        let folders =
            ["crates", "docs", "examples", "tests"].map(|name| files(&self.top.join(name)));
        let kinds = ["antt", "rt", "rs", "md"];
        folders
            .into_iter()
            .flatten()
            .chain(["README.md", "CONTRIBUTING.md"].map(|name| self.top.join(name)))
            .filter(|path| kinds.contains(&extension(path)))
            .filter(|path| !path.starts_with(self.top.join("tests/names")))
            .filter(|path| !path.starts_with(self.top.join("tests/target")))
            .map(|path| {
                let text = fs::read_to_string(&path).expect("text");
                (path, text)
            })
            .collect()
    }

    pub fn read(&self, name: &str) -> String {
        fs::read_to_string(self.top.join(name)).expect("it is there")
    }

    /// The file or folder that a document means: from the top, from `crates/`,
    /// from `docs/`, from a folder named before, or by its name alone.
    pub fn find(&self, name: &str, folder: &str) -> Option<Vec<PathBuf>> {
        let crates = self.top.join("crates");
        let places = [
            self.top.clone(),
            crates.clone(),
            self.top.join("docs"),
            crates.join(folder),
        ];
        let ends = ["", ".edit", ".antt"];
        for place in &places {
            for end in ends {
                let path = place.join(format!("{}{end}", name.trim_end_matches('/')));
                if path.exists() {
                    return Some(vec![path]);
                }
            }
        }
        let file = name.strip_suffix(".antt").unwrap_or(name);
        let named: Vec<PathBuf> = self
            .defined
            .keys()
            .filter(|path| stem(path) == file && extension(path) == "antt")
            .cloned()
            .collect();
        (!named.is_empty()).then_some(named)
    }

    /// Whether one of these files, or one below these folders, defines a name.
    pub fn defines(&self, places: &[PathBuf], name: &str) -> bool {
        self.defined.iter().any(|(path, names)| {
            places.iter().any(|place| path.starts_with(place)) && names.contains(name)
        })
    }

    /// `crate::module::function`, or less of it.
    fn has_in_code(&self, name: &str) -> bool {
        let parts: Vec<&str> = name.split("::").collect();
        let folder = self.top.join("crates").join(parts[0]).join("src");
        match parts[1..] {
            [one] => {
                folder.join(format!("{one}.rt")).exists()
                    || self.defines(&[folder.join("lib.rt")], one)
            }
            [module, function] => self.defines(&[folder.join(format!("{module}.rt"))], function),
            _ => false,
        }
    }

    /// Whether some name ends in this, written `.._in`, or begins with it, written
    /// `max_..`.
    fn has_part(&self, word: &str) -> Option<bool> {
        let mut names = self.defined.values().flatten();
        if let Some(end) = word.strip_prefix("..") {
            return Some(names.any(|name| name != end && name.ends_with(end)));
        }
        let start = word.strip_suffix("..")?;
        Some(names.any(|name| name != start && name.starts_with(start)))
    }

    /// Whether what stands in backquotes is found.
    pub fn has(&self, span: &str, folder: &str) -> bool {
        let word = span.split(' ').next().unwrap_or("");
        if !word.contains(|letter: char| letter.is_ascii_alphabetic())
            || WORDS_OF_THE_LANGUAGE.contains(&word)
        {
            return true;
        }
        if let Some(found) = self.has_part(word) {
            return found;
        }
        if word.contains("::") {
            return self.has_in_code(word);
        }
        if self.parts.contains(word) || self.find(word, folder).is_some() {
            return true;
        }
        // A name in a file of that name: `Leader.begin_call`.
        if let Some((file, name)) = word.split_once('.') {
            return self
                .find(file, folder)
                .is_some_and(|places| self.defines(&places, name));
        }
        self.defines(&[self.top.join("crates")], word)
    }
}
